"""The origins and the clients of tests/cluster.sh, each in a network namespace of its own.

    cluster.py origin                   answers until it is ended, at 10.77.1.1, ports 8000 (HTTP, in four processes) and 443 (echo)
    cluster.py clients                  runs the clients, and writes a line for each thing that was tried
    cluster.py rate PORT SECONDS        requests of that port a second, of all clients, each with a connection for each request
    cluster.py tunnels COUNT SECONDS    how many of COUNT clients have a tunnel at the same time, within so many seconds
"""

import http.client
import os
import socket
import sys
import threading
import time
from concurrent.futures import ThreadPoolExecutor

SITE = "10.77.1.1"
CLIENTS = [f"10.77.0.{host}" for host in range(1, 201)]
SITE_OF_6 = "fd77::1:1"
CLIENTS_OF_6 = [f"fd77::{host:x}" for host in range(1, 41)]


def serve(port: int, attend) -> None:
    listener = socket.create_server((SITE, port), backlog=512)
    while True:
        link, _ = listener.accept()
        threading.Thread(target=attend, args=(link,), daemon=True).start()


def attend_http(link: socket.socket) -> None:
    """One request: the body of the reply is the client's address as the proxy has passed it on."""
    with link:
        head = b""
        while b"\r\n\r\n" not in head:
            piece = link.recv(65536)
            if not piece:
                return
            head += piece
        address = b"none"
        for line in head.split(b"\r\n"):
            if line.lower().startswith(b"x-forwarded-for:"):
                address = line.split(b":", 1)[1].strip()
        link.sendall(b"HTTP/1.1 200 OK\r\nContent-Length: %d\r\n\r\n%s" % (len(address), address))


def attend_echo(link: socket.socket) -> None:
    with link:
        while piece := link.recv(65536):
            link.sendall(piece)


def origin() -> None:
    listener = socket.create_server((SITE, 8000), backlog=512)
    listener.settimeout(1)
    parents = os.getppid(), os.getpid()
    if all(os.fork() for _ in range(3)):
        threading.Thread(target=serve, args=(443, attend_echo), daemon=True).start()
    # Each ends with the process that began it.
    while os.getppid() in parents:
        try:
            attend_http(listener.accept()[0])
        except OSError:
            pass


def connection(client: str, port: int = 3128) -> http.client.HTTPConnection:
    site = SITE_OF_6 if ":" in client else SITE
    return http.client.HTTPConnection(site, port, timeout=30, source_address=(client, 0))


def asked(link: http.client.HTTPConnection) -> str:
    link.request("GET", f"http://{SITE}:8000/")
    reply = link.getresponse()
    return f"{reply.status} {reply.read().decode().strip()}"


def one_request(client: str) -> str:
    link = connection(client)
    try:
        return asked(link)
    except OSError as fault:
        return f"{type(fault).__name__}"
    finally:
        link.close()


def tunnel(client: str, seconds: float) -> socket.socket | None:
    """A tunnel in which one text came back, or none in this time."""
    try:
        link = socket.create_connection((SITE, 3128), seconds, (client, 0))
    except OSError:
        return None
    try:
        link.sendall(f"CONNECT {SITE}:443 HTTP/1.1\r\nHost: {SITE}:443\r\n\r\n".encode())
        head = b""
        while b"\r\n\r\n" not in head:
            piece = link.recv(65536)
            if not piece:
                raise OSError("it closed")
            head += piece
        if not head.startswith(b"HTTP/1.1 200 "):
            raise OSError("it was denied")
        link.sendall(client.encode())
        if link.recv(64) != client.encode():
            raise OSError("it came back otherwise")
        return link
    except OSError:
        link.close()
        return None


def right(asking: list[str], answers: list[str]) -> int:
    """How many of those who asked got their own address."""
    return sum(answer == f"200 {client}" for client, answer in zip(asking, answers))


def clients() -> None:
    with ThreadPoolExecutor(len(CLIENTS)) as crowd:
        for turn in (1, 2):
            answers = list(crowd.map(one_request, CLIENTS))
            print(f"requests {turn}: {right(CLIENTS, answers)} of {len(CLIENTS)} with their own address", flush=True)
            answers = list(crowd.map(one_request, CLIENTS_OF_6))
            print(f"requests {turn}, of IPv6: {right(CLIENTS_OF_6, answers)} of {len(CLIENTS_OF_6)} with their own address", flush=True)

        # The sixteenth connection of a client is the last that it may have.
        links = [connection(CLIENTS[0]) for _ in range(17)]
        answers = [asked(link) for link in links]
        allowed = answers.count(f"200 {CLIENTS[0]}")
        print(f"connections of one client: {allowed} allowed, then {answers[-1]}", flush=True)
        for link in links:
            link.close()

        links = list(crowd.map(lambda client: tunnel(client, 30), CLIENTS))
        print(f"tunnels at the same time: {sum(link is not None for link in links)} of {len(CLIENTS)}", flush=True)
        for link in links:
            if link is not None:
                link.close()

    link = connection(CLIENTS[0], 4002)
    try:
        print(f"a process's own port: {asked(link)}", flush=True)
    except ConnectionRefusedError:
        print("a process's own port: refused", flush=True)


def rate(port: int, seconds: float) -> None:
    """In eight processes, each of which has its clients ask one after the other."""
    request = f"GET http://{SITE}:{port}/ HTTP/1.1\r\nHost: {SITE}:{port}\r\nConnection: close\r\n\r\n".encode()
    ends = []
    began = time.monotonic()
    for part in range(8):
        reader, writer = os.pipe()
        if os.fork() == 0:
            done = 0
            while time.monotonic() < began + seconds:
                for client in CLIENTS[part::8]:
                    with socket.create_connection((SITE, 3128), 30, (client, 0)) as link:
                        link.sendall(request)
                        done += link.recv(12) in (b"HTTP/1.1 200", b"HTTP/1.1 403")
            os.write(writer, b"%d" % done)
            os._exit(0)
        os.close(writer)
        ends.append(reader)
    done = sum(int(os.read(reader, 64) or b"0") for reader in ends)
    print(f"{done / (time.monotonic() - began):.0f}")


def tunnels(count: int, seconds: float) -> None:
    with ThreadPoolExecutor(count) as crowd:
        links = list(crowd.map(lambda client: tunnel(client, seconds), CLIENTS[:count]))
    print(sum(link is not None for link in links))


def main() -> None:
    match sys.argv[1:]:
        case ["origin"]:
            origin()
        case ["clients"]:
            clients()
        case ["rate", port, seconds]:
            rate(int(port), float(seconds))
        case ["tunnels", count, seconds]:
            tunnels(int(count), float(seconds))
        case _:
            sys.exit(__doc__)


main()
