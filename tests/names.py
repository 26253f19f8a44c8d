#!/usr/bin/env python3
"""Names and dials of `aclproxy serve`: tests/names.py [--program PROGRAM] [--plain] [NAME ..]

Each function below says first what must hold by docs/OPERATING.md and docs/CONFIGURATION.md, and checks that. Those that need a name
server of their own run in namespaces of their own, where this machine lets them (`unshare`); else they are left out, which is said. With
--plain they are left out anyway. The status is 0 where all holds. Python 3.11 and its standard library are what it needs.
"""

import argparse
import fcntl
import os
import shutil
import socket
import struct
import subprocess
import sys
import tempfile
import threading
import time
from pathlib import Path
from typing import Callable

sys.dont_write_bytecode = True

from chaos_parts.server import Server, free_port, until  # noqa: E402

HERE = Path(__file__).resolve().parent
PATIENCE = 20.0  # the seconds after which a wait has failed
LOOKS = "dst_lookup on children-max=64 queue-size=4096\n"
OPEN = "acl SSL_ports port 1-65535\nacl CONNECT method CONNECT\nhttp_access allow all\n"


class Origin:
    """Answers each request by 200 and its own address."""

    def __init__(self, address: str, port: int = 0) -> None:
        family = socket.AF_INET6 if ":" in address else socket.AF_INET
        self.listener = socket.create_server((address, port), family=family, backlog=512)
        self.port = self.listener.getsockname()[1]
        self.address = address
        threading.Thread(target=self.accept, daemon=True).start()

    def accept(self) -> None:
        while True:
            try:
                link, _ = self.listener.accept()
            except OSError:
                return
            threading.Thread(target=self.answer, args=(link,), daemon=True).start()

    def answer(self, link: socket.socket) -> None:
        with link:
            try:
                while link.recv(65536):
                    body = self.address.encode()
                    link.sendall(b"HTTP/1.1 200 OK\r\nContent-Length: %d\r\n\r\n%s" % (len(body), body))
            except OSError:
                pass


class Dead:
    """An address that answers no attempt to connect: the places of its listener are taken."""

    def __init__(self, address: str, port: int = 0) -> None:
        family = socket.AF_INET6 if ":" in address else socket.AF_INET
        self.listener = socket.socket(family)
        self.listener.setsockopt(socket.SOL_SOCKET, socket.SO_REUSEADDR, 1)
        self.listener.bind((address, port))
        self.listener.listen(0)
        self.port = self.listener.getsockname()[1]
        self.links = []
        for _ in range(4):
            link = socket.socket(family)
            link.setblocking(False)
            link.connect_ex((address, self.port))
            self.links.append(link)
        time.sleep(0.1)

    def close(self) -> None:
        for link in self.links:
            link.close()
        self.listener.close()


class Names:
    """A name server at 127.0.0.1: what each name has is a list of addresses, or a function that gives one; None is no answer."""

    def __init__(self) -> None:
        self.socket = socket.socket(socket.AF_INET, socket.SOCK_DGRAM)
        self.socket.bind(("127.0.0.1", 53))
        self.known: dict[str, object] = {}
        self.asked: list[str] = []
        threading.Thread(target=self.serve, daemon=True).start()

    def serve(self) -> None:
        while True:
            text, peer = self.socket.recvfrom(512)
            labels, at = [], 12
            while text[at]:
                labels.append(text[at + 1 : at + 1 + text[at]].decode().lower())
                at += 1 + text[at]
            question = text[12 : at + 5]
            kind = struct.unpack(">H", text[at + 1 : at + 3])[0]
            threading.Thread(target=self.answer, args=(text[:2], ".".join(labels), kind, question, peer), daemon=True).start()

    def answer(self, number: bytes, name: str, kind: int, question: bytes, peer: object) -> None:
        has = self.known.get(name, [])
        if kind == 1:
            self.asked.append(name)
        if callable(has):
            has = has() if kind == 1 else []
        if has is None:
            return
        family, wanted = (socket.AF_INET6, ":") if kind == 28 else (socket.AF_INET, ".")
        found = [socket.inet_pton(family, address) for address in has if wanted in address] if kind in (1, 28) else []
        flags = 0x8180 if name in self.known else 0x8183
        reply = number + struct.pack(">HHHHH", flags, 1, len(found), 0, 0) + question
        for address in found:
            reply += b"\xc0\x0c" + struct.pack(">HHIH", kind, 1, 0, len(address)) + address
        self.socket.sendto(reply, peer)


class Bench:
    """What the checks share: the program, a folder, the name server where there is one, and what was found."""

    def __init__(self, program: str, names: Names | None) -> None:
        self.program = program
        self.names = names
        self.folder = Path(tempfile.mkdtemp())
        self.wrong: list[str] = []

    def serve(self, conf: str, workers: int = 8) -> tuple[Server, int]:
        port = free_port()
        (self.folder / "conf").write_text(conf)
        words = [str(self.folder / "conf"), "--port", str(port), "--workers", str(workers)]
        server = Server(self.program, words, str(self.folder / "journal"))
        if not until(PATIENCE, lambda: connects(port)):
            self.wrong.append("the server does not begin")
        return server, port

    def holds(self, what: str, is_so: object) -> None:
        if not is_so:
            self.wrong.append(what)


def connects(port: int) -> bool:
    try:
        socket.create_connection(("127.0.0.1", port), 1).close()
        return True
    except OSError:
        return False


def ask(port: int, target: str, seconds: float = PATIENCE) -> tuple[int, str, float]:
    """The status, the body and the seconds of a GET; 0 where nothing came."""
    begun = time.monotonic()
    try:
        with socket.create_connection(("127.0.0.1", port), 5) as link:
            link.settimeout(seconds)
            host = target.split("/")[2]
            link.sendall(f"GET {target} HTTP/1.1\r\nHost: {host}\r\nConnection: close\r\n\r\n".encode())
            text = b""
            while more := link.recv(65536):
                text += more
    except OSError:
        return 0, "", time.monotonic() - begun
    status = int(text.split(b" ")[1]) if text.startswith(b"HTTP/1.1 ") else 0
    return status, text.split(b"\r\n\r\n", 1)[-1].decode("latin-1"), time.monotonic() - begun


def extra(port: int, target: str, plain: str) -> float:
    """How many seconds the one takes longer than the other: the middle one of five, each."""
    return sorted(ask(port, target)[2] for _ in range(5))[2] - sorted(ask(port, plain)[2] for _ in range(5))[2]


def with_server(bench: Bench, conf: str, workers: int, call: Callable[[Server, int], None]) -> None:
    server, port = bench.serve(conf, workers)
    try:
        call(server, port)
    finally:
        server.kill()


# What needs no namespaces.


def localhost_is_found_and_denied(bench: Bench) -> None:
    """`localhost` is found; with `dst_lookup on` a rule over its addresses holds, and for a literal, too."""
    origin = Origin("127.0.0.1")

    def call(server: Server, port: int) -> None:
        bench.holds("localhost is reached", ask(port, f"http://localhost:{origin.port}/")[0] == 200)
        bench.holds("with a dot it is not", ask(port, f"http://localhost.:{origin.port}/")[0] == 502)

    with_server(bench, OPEN, 4, call)

    def deny(server: Server, port: int) -> None:
        for host in ("localhost", "127.0.0.1"):
            bench.holds(f"{host} is denied", ask(port, f"http://{host}:{origin.port}/")[0] == 403)

    with_server(bench, LOOKS + "http_access deny to_localhost\n" + OPEN, 4, deny)


def a_dead_address_costs_a_quarter_of_a_second_once(bench: Bench) -> None:
    """`localhost`, whose IPv6 address does not answer: reached within half a second, and at once afterwards."""
    try:
        dead = Dead("::1")
    except OSError:
        print("    left out: there is no IPv6")
        return
    origin = Origin("127.0.0.1", dead.port)

    def call(server: Server, port: int) -> None:
        if ask(port, f"http://localhost:{origin.port}/")[0] != 200:
            bench.holds("localhost is reached", False)
        more = extra(port, f"http://localhost:{origin.port}/", f"http://127.0.0.1:{origin.port}/")
        bench.holds(f"later dials take no time: {more:.3f}", more < 0.05)

    def first(server: Server, port: int) -> None:
        took = ask(port, f"http://localhost:{origin.port}/")[2]
        bench.holds(f"the first dial takes half a second at most: {took:.2f}", took < 0.6)

    with_server(bench, OPEN, 4, first)
    with_server(bench, OPEN, 4, call)
    dead.close()


def a_dial_ends_with_its_client(bench: Bench) -> None:
    """A client that resets its link while its origin does not answer: the only worker is free within a second."""
    dead, origin = Dead("127.0.0.2"), Origin("127.0.0.1")

    def call(server: Server, port: int) -> None:
        link = socket.create_connection(("127.0.0.1", port))
        link.sendall(f"GET http://127.0.0.2:{dead.port}/ HTTP/1.1\r\nHost: a\r\n\r\n".encode())
        time.sleep(0.5)
        link.setsockopt(socket.SOL_SOCKET, socket.SO_LINGER, struct.pack("ii", 1, 0))
        link.close()
        status, _, took = ask(port, f"http://127.0.0.1:{origin.port}/")
        bench.holds(f"the next client is served within a second: {status} in {took:.2f}", status == 200 and took < 1.3)

    with_server(bench, OPEN, 1, call)
    dead.close()


def a_dial_to_a_dead_address_gives_way(bench: Bench) -> None:
    """A dial to an address that failed within the last minute, while another client waits for the only worker: 2 seconds."""
    dead, origin = Dead("127.0.0.3"), Origin("127.0.0.1")

    def call(server: Server, port: int) -> None:
        status, _, took = ask(port, f"http://127.0.0.3:{dead.port}/")
        bench.holds(f"an address has 10 seconds: {status} in {took:.2f}", status == 502 and 9.5 < took < 11.5)
        thread = threading.Thread(target=ask, args=(port, f"http://127.0.0.3:{dead.port}/"), daemon=True)
        thread.start()
        time.sleep(0.3)
        status, _, took = ask(port, f"http://127.0.0.1:{origin.port}/")
        bench.holds(f"the next client is served behind 2 seconds: {status} in {took:.2f}", status == 200 and took < 3.5)
        thread.join(PATIENCE)

    with_server(bench, OPEN, 1, call)
    dead.close()


def no_socket_is_left_over(bench: Bench) -> None:
    """Behind dials to two addresses the server has no more files than before."""
    try:
        dead = Dead("::1")
    except OSError:
        return
    origin = Origin("127.0.0.1", dead.port)

    def call(server: Server, port: int) -> None:
        ask(port, f"http://localhost:{origin.port}/")
        before = server.files()
        for _ in range(20):
            ask(port, f"http://localhost:{origin.port}/")
        bench.holds("no file is left", until(5, lambda: server.files() <= before))

    with_server(bench, OPEN, 4, call)
    dead.close()


PLAIN = (
    localhost_is_found_and_denied,
    a_dead_address_costs_a_quarter_of_a_second_once,
    a_dial_ends_with_its_client,
    no_socket_is_left_over,
)


# What needs a name server of its own.


def a_name_is_the_name_that_was_written(bench: Bench) -> None:
    """With `search corp.test` in resolv.conf a short name is no other one, for a dial and for a rule."""
    origin = Origin("127.0.0.1")
    bench.names.known |= {"secret.corp.test": ["127.0.0.1"], "secret.x.corp.test": ["127.0.0.1"], "open.test": ["127.0.0.1"]}

    def call(server: Server, port: int) -> None:
        bench.holds("a denied name is denied", ask(port, f"http://secret.corp.test:{origin.port}/")[0] == 403)
        for name in ("secret", "secret.x"):
            bench.holds(f"{name} gets a 502", ask(port, f"http://{name}:{origin.port}/")[0] == 502)
        bench.holds("another name is reached", ask(port, f"http://open.test:{origin.port}/")[0] == 200)
        bench.holds("one of the hosts file, too", ask(port, f"http://listed:{origin.port}/")[0] == 200)
        bench.holds("and localhost", ask(port, f"http://localhost:{origin.port}/")[0] == 200)

    with_server(bench, "acl inner dstdomain .corp.test\nhttp_access deny inner\n" + OPEN, 4, call)

    def rules(server: Server, port: int) -> None:
        for name in ("secret", "secret.x"):
            bench.holds(f"a rule finds nothing for {name}", ask(port, f"http://{name}:{origin.port}/")[0] == 403)
        bench.holds("a rule finds one of the hosts file", ask(port, f"http://listed:{origin.port}/")[0] == 200)

    with_server(bench, LOOKS + "acl other dst 10.0.0.0/8\nhttp_access deny other\n" + OPEN, 4, rules)
    bench.holds("no searched name was asked for", not [name for name in bench.names.asked if name in ("secret.x.corp.test",)])


def the_dial_takes_what_the_rule_saw(bench: Bench) -> None:
    """A name server that answers one address for the rule and another for the dial: the second is never reached."""
    origin = Origin("127.0.0.1")
    answers = {"count": 0}

    def turn() -> list[str]:
        answers["count"] += 1
        return ["127.1.0.9"] if answers["count"] == 1 else ["127.0.0.1"]

    names = [f"rebind{number}.test" for number in range(3)]

    def call(server: Server, port: int) -> None:
        for name in names:
            answers["count"] = 0
            bench.names.known[name] = turn
            for _ in range(2):
                status, body, _ = ask(port, f"http://{name}:{origin.port}/")
                bench.holds(f"{name}: {status} {body}", status == 502)
            bench.holds("the name server was asked once", answers["count"] == 1)

    with_server(bench, LOOKS + "acl inner dst 127.0.0.0/16\nhttp_access deny inner\n" + OPEN, 4, call)


def sixty_new_names_are_served(bench: Bench) -> None:
    """60 new names at once, at a resolver of 20 ms, with the options: none is denied."""
    origin = Origin("127.0.0.1")

    def slow() -> list[str]:
        time.sleep(0.02)
        return ["127.0.0.1"]

    for number in range(60):
        bench.names.known[f"new{number}.test"] = slow
    found: list[int] = []

    def call(server: Server, port: int) -> None:
        threads = [
            threading.Thread(target=lambda n=n: found.append(ask(port, f"http://new{n}.test:{origin.port}/")[0])) for n in range(60)
        ]
        for thread in threads:
            thread.start()
        for thread in threads:
            thread.join()
        bench.holds(f"all are served: {sorted(found)}", found.count(200) == 60)

    with_server(bench, LOOKS + "acl other dst 10.0.0.0/8\nhttp_access deny other\n" + OPEN, 64, call)


def forty_images_cost_one_look_up(bench: Bench) -> None:
    """Forty requests for one host at once, without a rule over addresses: the name server is asked once."""
    origin = Origin("127.0.0.1")
    bench.names.known["page.test"] = ["127.0.0.1"]
    found: list[int] = []

    def call(server: Server, port: int) -> None:
        threads = [
            threading.Thread(target=lambda: found.append(ask(port, f"http://page.test:{origin.port}/")[0])) for _ in range(40)
        ]
        for thread in threads:
            thread.start()
        for thread in threads:
            thread.join()
        bench.holds(f"all are served: {found}", found.count(200) == 40)
        bench.holds("one look-up", bench.names.asked.count("page.test") == 1)

    with_server(bench, OPEN, 40, call)


def a_dead_first_address(bench: Bench) -> None:
    """A name whose first address does not answer: half a second the first time, no time afterwards."""
    dead = Dead("::1")
    origin = Origin("127.0.0.1", dead.port)
    bench.names.known["two.test"] = ["127.0.0.1", "::1"]

    def call(server: Server, port: int) -> None:
        status, _, took = ask(port, f"http://two.test:{origin.port}/")
        bench.holds(f"the first: {status} in {took:.2f}", status == 200 and took < 0.6)
        more = extra(port, f"http://two.test:{origin.port}/", f"http://127.0.0.1:{origin.port}/")
        bench.holds(f"later: {more:.3f} more", more < 0.05)

    with_server(bench, OPEN, 4, call)
    dead.close()


def dead_names_end(bench: Bench) -> None:
    """A name whose server says nothing: 5 seconds, then at once; others are found meanwhile, and `shutdown` waits for none."""
    origin = Origin("127.0.0.1")
    for number in range(24):
        bench.names.known[f"dead{number}.test"] = None
    bench.names.known["alive.test"] = ["127.0.0.1"]

    def call(server: Server, port: int) -> None:
        status, _, took = ask(port, f"http://dead0.test:{origin.port}/")
        bench.holds(f"5 seconds: {status} in {took:.2f}", status == 403 and 4.5 < took < 6.5)
        status, _, took = ask(port, f"http://dead0.test:{origin.port}/")
        bench.holds(f"then at once: {status} in {took:.2f}", status == 403 and took < 1)
        for number in range(24):
            threading.Thread(target=ask, args=(port, f"http://dead{number}.test:{origin.port}/"), daemon=True).start()
        time.sleep(0.5)
        status, _, took = ask(port, f"http://alive.test:{origin.port}/")
        bench.holds(f"another name meanwhile: {status} in {took:.2f}", status == 200 and took < 3)
        begun = time.monotonic()
        server.order("shutdown\n")
        ended = server.ends(10)
        bench.holds(f"shutdown: {ended} behind {time.monotonic() - begun:.1f}", ended == 0 and time.monotonic() - begun < 4)

    with_server(bench, LOOKS + "acl other dst 10.0.0.0/8\nhttp_access deny other\n" + OPEN, 40, call)

    def dials(server: Server, port: int) -> None:
        status, _, took = ask(port, f"http://dead1.test:{origin.port}/")
        bench.holds(f"a dial's look-up: {status} in {took:.2f}", status == 502 and 4.5 < took < 6.5)

    with_server(bench, OPEN, 4, dials)


OWN = (
    a_name_is_the_name_that_was_written,
    the_dial_takes_what_the_rule_saw,
    sixty_new_names_are_served,
    forty_images_cost_one_look_up,
    a_dead_first_address,
    a_dial_to_a_dead_address_gives_way,
    dead_names_end,
)


def raise_loopback() -> None:
    """Has the loopback of a new namespace carry traffic."""
    with socket.socket(socket.AF_INET, socket.SOCK_DGRAM) as handle:
        request = struct.pack("16sh14s", b"lo", 0x1 | 0x40, b"")
        fcntl.ioctl(handle.fileno(), 0x8914, request)


def run(checks: tuple[Callable[[Bench], None], ...], bench: Bench, wanted: list[str]) -> int:
    failed = 0
    for check in checks:
        if wanted and check.__name__ not in wanted:
            continue
        begun = time.monotonic()
        bench.wrong = []
        check(bench)
        print(f"{'wrong' if bench.wrong else 'ok'}: {check.__name__} ({time.monotonic() - begun:.1f} s)")
        for line in bench.wrong:
            print(f"    {line}")
        failed += bool(bench.wrong)
    shutil.rmtree(bench.folder, ignore_errors=True)
    return failed


def inside(program: str, wanted: list[str]) -> int:
    """The checks with a name server, in the namespaces that are there now."""
    raise_loopback()
    folder = Path(tempfile.mkdtemp())
    for name, text in (
        ("resolv.conf", "search corp.test\nnameserver 127.0.0.1\n"),
        ("hosts", "127.0.0.1 localhost\n127.0.0.1\tListed listed.corp.test # a comment\n"),
    ):
        (folder / name).write_text(text)
        subprocess.run(["mount", "--bind", str(folder / name), f"/etc/{name}"], check=True)
    failed = run(OWN, Bench(program, Names()), wanted)
    return 1 if failed else 0


def main() -> int:
    parser = argparse.ArgumentParser(description=__doc__.split("\n")[0])
    parser.add_argument("--program", default=str(HERE.parent / "aclproxy"))
    parser.add_argument("--plain", action="store_true")
    parser.add_argument("--inside", action="store_true", help=argparse.SUPPRESS)
    parser.add_argument("names", nargs="*", metavar="NAME")
    said = parser.parse_args()
    if said.inside:
        return inside(said.program, said.names)
    failed = run(PLAIN, Bench(said.program, None), said.names)
    if not said.plain:
        spaces = ["unshare", "--user", "--map-root-user", "--net", "--mount"] if os.getuid() else ["unshare", "--net", "--mount"]
        try:
            can = subprocess.run([*spaces, "mount", "--bind", "/etc/hosts", "/etc/hosts"], capture_output=True).returncode == 0
        except OSError:
            can = False
        if can:
            words = [sys.executable, __file__, "--inside", "--program", said.program, *said.names]
            failed += subprocess.run([*spaces, *words]).returncode != 0
        else:
            print("left out: what needs a name server, since this machine gives no namespaces")
    return 1 if failed else 0


if __name__ == "__main__":
    sys.exit(main())
