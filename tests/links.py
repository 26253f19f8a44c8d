#!/usr/bin/env python3
"""Links of `aclproxy serve` on the loopback that end in time: tests/links.py [--program PROGRAM] [--long] [NAME ..]

Each function below says first what must hold by docs/OPERATING.md, and checks that, a second time where it did not hold. With --long
those are tried, too, that take minutes. The status is 0 where all holds. Python 3.11 and its standard library are what it needs.
"""

import argparse
import os
import re
import resource
import shutil
import signal
import socket
import struct
import subprocess
import sys
import tempfile
import threading
import time
from pathlib import Path
from typing import Callable

sys.dont_write_bytecode = True

from chaos_parts.server import Server, free_port, reply_of, stat_of  # noqa: E402
from checks import tried  # noqa: E402

HERE = Path(__file__).resolve().parent
PATIENCE = 30.0  # the seconds after which a wait has failed
SECONDS = 400  # after which a check has failed
PLAIN = "acl SSL_ports port 1-65535\nacl CONNECT method CONNECT\nhttp_access allow all\n"
# Each class has a path of its own, which its helper is asked about: one that is silent, one that reads nothing, one that reads late
# what it answers, one that answers.
HELPED = (
    "external_acl_type silent concurrency=4 children-max=1 queue-size=10 %>rp /bin/sh ./helper silent\n"
    "external_acl_type deaf concurrency=100 children-max=1 %>rp /bin/sh ./helper deaf\n"
    "external_acl_type late concurrency=100 children-max=1 %>rp /bin/sh ./helper late\n"
    "external_acl_type good ttl=0 children-max=1 queue-size=100 %>rp /bin/sh ./helper good\n"
    "acl is_silent external silent\nacl is_deaf external deaf\nacl is_late external late\nacl is_good external good\n"
    "acl to_silent url_regex /silent-helper\nacl to_deaf url_regex /deaf-helper\nacl to_late url_regex /late-helper\n"
    "http_access deny to_silent !is_silent\nhttp_access deny to_deaf !is_deaf\nhttp_access deny to_late !is_late\n"
    "http_access deny !is_good\nhttp_access allow all\n"
)
HELPER = """echo $$ >>pids
case $1 in
silent) cat >/dev/null ;;
deaf) exec sleep 600 ;;
late) sleep 2; while read -r channel key rest; do echo "$channel OK"; done ;;
esac
while read -r key rest; do echo OK; done
"""
LONG = False


class Origin:
    """Answers by a request's path: /hello, /slow after 1.5 seconds, /silent never, /drip a piece each 0.4 seconds for 8 seconds. A
    line behind a tunnel's beginning comes back."""

    def __init__(self) -> None:
        self.listener = socket.create_server(("127.0.0.1", 0), backlog=512)
        self.port = self.listener.getsockname()[1]
        self.ended: list[float] = []
        self.reached = 0
        threading.Thread(target=self.accept, daemon=True).start()

    def accept(self) -> None:
        while True:
            link, _ = self.listener.accept()
            self.reached += 1
            threading.Thread(target=self.answer, args=(link,), daemon=True).start()

    def answer(self, link: socket.socket) -> None:
        with link:
            try:
                text = b""
                while b"\n" not in text:
                    more = link.recv(65536)
                    if not more:
                        return
                    text += more
                if not text.startswith(b"GET"):
                    self.echo(link, text)
                    return
                path = text.split(b" ")[1]
                if path == b"/silent":
                    self.wait_for_end(link)
                    return
                if path == b"/slow":
                    time.sleep(1.5)
                pieces = 20 if path == b"/drip" else 1
                link.sendall(b"HTTP/1.1 200 OK\r\nContent-Length: %d\r\n\r\n" % (5 * pieces))
                for piece in range(pieces):
                    if piece:
                        time.sleep(0.4)
                    link.sendall(b"hello")
                while link.recv(65536):
                    pass
            except OSError:
                pass

    def echo(self, link: socket.socket, text: bytes) -> None:
        while text:
            link.sendall(text)
            text = link.recv(65536)

    def wait_for_end(self, link: socket.socket) -> None:
        """Reads on to the end of the proxy's own link, and keeps when that was: it sends nothing more, or has no other side."""
        link.settimeout(0.05)
        while True:
            try:
                if not link.recv(65536):
                    break
            except TimeoutError:
                continue
            except OSError:
                break
        self.ended.append(time.monotonic())


class Bench:
    """What the checks share: the program, an origin, and what was found."""

    def __init__(self, program: str) -> None:
        self.program = program
        self.origin = Origin()
        self.failed = 0
        self.wrong = 0
        self.what = ""
        self.servers: list[Server] = []

    def check(self, what: str, holds: bool, got: object = "") -> None:
        print(f"links, {self.what}, {what}: {'as expected' if holds else f'it was {got!r}'}")
        self.wrong += not holds

    def start(self, workers: int, port: int = 0, text: str = PLAIN) -> Server:
        Path("squid.conf").write_text(text)
        self.port = port or free_port()
        server = Server(self.program, ["squid.conf", "--port", str(self.port), "--workers", str(workers)], "journal")
        self.servers.append(server)
        said = server.hear(PATIENCE)
        if said != f"listening {self.port}":
            raise AssertionError(f"it says {said}")
        return server

    def ends(self, server: Server, seconds: float = PATIENCE) -> str:
        server.order("shutdown\n")
        return f"{server.hear(seconds)}, status {server.ends(5)}"

    def verify(self) -> str:
        text = Path("journal").read_bytes()
        ran = subprocess.run([self.program, "verify", "squid.conf", "journal"], capture_output=True, timeout=300)
        said = ran.stdout.decode(errors="replace").strip()
        return "verified" if said == f"verified {text.count(b'%c' % 10) - 1}" else said

    def connect(self) -> socket.socket:
        link = socket.create_connection(("127.0.0.1", self.port), timeout=PATIENCE)
        link.settimeout(PATIENCE)
        return link

    def ask(self, link: socket.socket, path: str) -> None:
        link.sendall(f"GET http://127.0.0.1:{self.origin.port}{path} HTTP/1.1\r\nHost: a\r\n\r\n".encode())

    def get(self, path: str = "/hello") -> tuple[socket.socket, float]:
        """A reply over a connection of its own, which stays open, and how long that took."""
        begun = time.monotonic()
        link = self.connect()
        self.ask(link, path)
        reply = reply_of(link)
        if not reply.startswith(b"HTTP/1.1 200 ") or not reply.endswith(b"hello"):
            raise AssertionError(f"{path} is {reply!r}")
        return link, time.monotonic() - begun

    def tunnel(self) -> socket.socket:
        link = self.connect()
        link.sendall(f"CONNECT 127.0.0.1:{self.origin.port} HTTP/1.1\r\nHost: a\r\n\r\n".encode())
        reply = b""
        while b"\r\n\r\n" not in reply:
            more = link.recv(65536)
            if not more:
                raise AssertionError(f"a tunnel is {reply!r}")
            reply += more
        return link


def echoes(link: socket.socket, text: bytes) -> bool:
    try:
        link.sendall(text)
        return link.recv(65536) == text
    except OSError:
        return False


def time_of_end(link: socket.socket, begun: float, most: float) -> float:
    """How long after `begun` a connection ended, or its limit."""
    link.settimeout(most)
    try:
        while link.recv(65536):
            pass
    except TimeoutError:
        return most
    except OSError:
        pass
    return time.monotonic() - begun


def reset(link: socket.socket) -> None:
    link.setsockopt(socket.SOL_SOCKET, socket.SO_LINGER, struct.pack("ii", 1, 0))
    link.close()


def each(count: int, what: Callable[[], object]) -> list[threading.Thread]:
    threads = [threading.Thread(target=what, daemon=True) for _ in range(count)]
    for one in threads:
        one.start()
    return threads


# The checks.


def silent_clients(bench: Bench) -> None:
    """64 clients say nothing, and there are 8 workers: one more is answered within 3 seconds, and so is the next."""
    server = bench.start(8)
    silent = [bench.connect() for _ in range(64)]
    for number in range(3):
        link, took = bench.get()
        bench.check(f"client {number}", took < 3, took)
        link.close()
    # One that says something later is served, too.
    bench.ask(silent[-1], "/hello")
    reply = reply_of(silent[-1])
    bench.check("a silent one that speaks", reply.endswith(b"hello"), reply)
    for link in silent:
        link.close()
    bench.check("its end", (said := bench.ends(server)) == "stopped, status 0", said)
    bench.check("its journal", (said := bench.verify()) == "verified", said)


def idle_links(bench: Bench) -> None:
    """60 connections and 20 tunnels that have been idle for 10 seconds at 64 workers, and 20 clients that work: none of these waits 3
    seconds, and no download and no tunnel that is used is cut."""
    server = bench.start(64)
    idle = [bench.get()[0] for _ in range(50)]
    tunnels = [bench.tunnel() for _ in range(10)]
    time.sleep(10.2)
    idle += [bench.get()[0] for _ in range(10)]
    tunnels += [bench.tunnel() for _ in range(10)]
    longest = 0.0
    cut: list[str] = []
    until = time.monotonic() + 6

    def work() -> None:
        nonlocal longest
        while time.monotonic() < until:
            try:
                link, took = bench.get()
                longest = max(longest, took)
                link.close()
            except Exception as what:
                cut.append(f"{what}")

    def download() -> None:
        try:
            bench.get("/drip")[0].close()
        except Exception as what:
            cut.append(f"{what}")

    def talk() -> None:
        link = bench.tunnel()
        while time.monotonic() < until:
            if not echoes(link, b"line\n"):
                cut.append("a tunnel")
                return
            time.sleep(0.4)
        link.close()

    threads = each(1, download) + each(1, talk) + each(20, work)
    for one in threads:
        one.join(PATIENCE)
    bench.check("the longest wait", longest < 3, longest)
    bench.check("what was cut", not cut, cut[:3])
    for link in idle + tunnels:
        link.close()
    bench.check("its end", (said := bench.ends(server)) == "stopped, status 0", said)
    bench.check("its journal", (said := bench.verify()) == "verified", said)


def free_workers(bench: Bench) -> None:
    """Where a worker is free, nobody gives way: idle connections at all but one of 8 workers are there after 4 seconds."""
    server = bench.start(8)
    idle = [bench.get()[0] for _ in range(6)] + [bench.tunnel()]
    time.sleep(4)
    for link in idle[:6]:
        bench.ask(link, "/hello")
        reply = reply_of(link)
        bench.check("a connection", reply.endswith(b"hello"), reply)
    bench.check("a tunnel", echoes(idle[6], b"line\n"))
    for link in idle:
        link.close()
    bench.check("its end", (said := bench.ends(server)) == "stopped, status 0", said)


def clients_that_leave(bench: Bench) -> None:
    """A client that resets its link while its origin is silent ends the origin's within a second; one that only says that it
    sends nothing more gets its reply."""
    server = bench.start(4)
    for tunnelled in (False, True):
        bench.origin.ended.clear()
        link = bench.tunnel() if tunnelled else bench.connect()
        if tunnelled:
            link.sendall(b"GET /silent \n")
        else:
            bench.ask(link, "/silent")
        time.sleep(0.3)
        gone = time.monotonic()
        reset(link)
        while not bench.origin.ended and time.monotonic() < gone + 5:
            time.sleep(0.02)
        took = bench.origin.ended[0] - gone if bench.origin.ended else 5
        bench.check("a tunnel" if tunnelled else "a request", took < 1, took)
    link = bench.connect()
    bench.ask(link, "/slow")
    link.shutdown(socket.SHUT_WR)
    reply = reply_of(link)
    bench.check("a half that is shut", reply.endswith(b"hello"), reply)
    # Eight more than there are workers leave, and a client is served at once.
    for _ in range(12):
        link = bench.connect()
        bench.ask(link, "/silent")
        time.sleep(0.02)
        reset(link)
    link, took = bench.get()
    bench.check("the next client", took < 3, took)
    link.close()
    bench.check("its end", (said := bench.ends(server)) == "stopped, status 0", said)
    bench.check("its journal", (said := bench.verify()) == "verified", said)


def shutdown(bench: Bench) -> None:
    """Idle links end within a second of the order, one on which bytes pass goes on; nobody is let in, and the port is free."""
    server = bench.start(16)
    groups = {
        "an idle connection": [bench.get()[0] for _ in range(4)],
        "one that says nothing": [bench.connect()],
        "an idle tunnel": [bench.tunnel() for _ in range(4)],
    }
    used = bench.tunnel()
    begun = time.monotonic()
    until = begun + 4
    lasted = [0.0]
    took: dict[str, float] = {}

    def use() -> None:
        while time.monotonic() < until and echoes(used, b"line\n"):
            lasted[0] = time.monotonic() - begun
            time.sleep(0.1)

    def watch(name: str, links: list[socket.socket]) -> None:
        took[name] = max(time_of_end(link, begun, 10) for link in links)

    watching = [threading.Thread(target=watch, args=it, daemon=True) for it in groups.items()]
    watching += [threading.Thread(target=use, daemon=True)]
    for one in watching:
        one.start()
    time.sleep(0.2)
    begun = time.monotonic()
    server.order("shutdown\n")
    time.sleep(0.1)
    try:
        bench.connect().close()
        bench.check("the next client is refused", False, "connected")
    except ConnectionRefusedError:
        bench.check("the next client is refused", True)
    next_one = bench.start(2, bench.port)
    link, time_of_next = bench.get()
    bench.check("the next server", time_of_next < 1, time_of_next)
    link.close()
    bench.check("its end", (said := bench.ends(next_one)) == "stopped, status 0", said)
    for one in watching:
        one.join(60)
    for name in groups:
        bench.check(name, took[name] < 1.5, took[name])
    bench.check("a tunnel that is used", lasted[0] > 3.5, lasted)
    used.close()
    said = f"{server.hear(PATIENCE)}, status {server.ends(5)}"
    bench.check("the end of the first", said == "stopped, status 0", said)


def requests_as_shutdown_begins(bench: Bench) -> None:
    """Who asks in that moment gets a whole reply or nothing, over a connection of its own or one that is open, which goes on while it is
    used; a reply is that of the rules, and what reached the origin stands in the journal as allowed."""
    text = "acl no url_regex /denied\nhttp_access deny no\nhttp_access allow all\n"
    denied = b"HTTP/1.1 403 Forbidden\r\nContent-Type: text/plain\r\nContent-Length: 14\r\n\r\ndenied rule 1\n"
    hello = b"HTTP/1.1 200 OK\r\nContent-Length: 5\r\nVia: 1.1 aclproxy\r\n\r\nhello"
    odd: list[bytes] = []
    replies = {hello: 0, denied: 0}
    nothing = 0
    lock = threading.Lock()
    over = threading.Event()

    def come(kept: bool) -> None:
        """Asks until no reply comes any more, or the turn is over."""
        nonlocal nothing
        link = None
        path, wanted = "/hello", hello
        while not over.is_set():
            reply = b""
            try:
                link = link or bench.connect()
                bench.ask(link, path)
                reply = reply_of(link)
            except OSError:
                pass
            # An end of the connection stands behind what came before it, which has to be nothing.
            reply = re.sub(rb"<\w+>$", b"", reply)
            with lock:
                if reply == wanted:
                    replies[wanted] += 1
                elif reply:
                    odd.append(reply)
                else:
                    nothing += 1
            if reply != wanted:
                break
            path, wanted = ("/denied", denied) if wanted == hello else ("/hello", hello)
            if link and not kept:
                link.close()
                link = None
        if link:
            link.close()

    for turn in range(12):
        before = dict(replies)
        over.clear()
        server = bench.start(16, text=text)
        reached = bench.origin.reached
        coming = each(6, lambda: come(True)) + each(6, lambda: come(False))
        time.sleep(0.02 + 0.01 * turn)
        server.order("shutdown\n")
        time.sleep(0.2)
        over.set()
        for one in coming:
            one.join(PATIENCE)
        said = f"{server.hear(PATIENCE)}, status {server.ends(5)}, {bench.verify()}"
        if said != "stopped, status 0, verified":
            bench.check(f"end {turn + 1}", False, said)
        noted = Path("journal").read_text()
        allowed, denials = noted.count(" allowed rule 2"), noted.count(" denied rule 1")
        got = {reply: replies[reply] - before[reply] for reply in replies}
        came = bench.origin.reached - reached
        if not (got[hello] <= came <= allowed and got[denied] <= denials):
            bench.check(f"the journal of end {turn + 1}", False, (allowed, denials, got, came))
    bench.check("other replies", not odd, odd[:3])
    bench.check("both replies, and requests that got none", all(replies.values()) and nothing > 0, (replies, nothing))


def count_open(links: list[socket.socket]) -> int:
    """How many tunnels still carry a line."""
    return sum(echoes(link, b"line\n") for link in links)


def crowded_tunnels(bench: Bench) -> None:
    """12 silent tunnels at 8 workers: the last 4 of them wait until 4 of the first have been silent for 10 seconds, and these give way and
    nobody else. A message says that clients wait."""
    messages = Path("messages").resolve()
    os.environ["ACLPROXY_MESSAGES"] = str(messages)
    server = bench.start(8)
    del os.environ["ACLPROXY_MESSAGES"]
    first = [bench.tunnel() for _ in range(8)]
    begun = time.monotonic()
    later: list[socket.socket] = []
    took: list[float] = []

    def come() -> None:
        later.append(bench.tunnel())
        took.append(time.monotonic() - begun)

    for one in each(4, come):
        one.join(PATIENCE)
    bench.check("four that wait", len(took) == 4 and all(9 < one < 12 for one in took), took)
    bench.check("as many give way as wait", (count := count_open(first)) == 4, count)
    bench.check("those that waited are there", (count := count_open(later)) == 4, count)
    said = messages.read_text() if messages.exists() else ""
    bench.check("a message", re.fullmatch(r"all 8 workers are in use, and [1-4] clients wait\n", said) is not None, said)
    for one in first + later:
        one.close()
    bench.check("its end", (said := bench.ends(server)) == "stopped, status 0", said)


def drip(link: socket.socket, most: float) -> float:
    """How long a head whose bytes come one a second goes on, or its limit."""
    begun = time.monotonic()
    link.settimeout(1)
    try:
        link.sendall(b"GET ")
        while time.monotonic() < begun + most:
            try:
                if not link.recv(1):
                    break
            except TimeoutError:
                link.sendall(b"a")
    except OSError:
        pass
    return time.monotonic() - begun


def slow_head(bench: Bench) -> None:
    """A head whose bytes come one a second ends after a minute."""
    server = bench.start(2)
    took = drip(bench.connect(), 70)
    bench.check("a slow head", 58 < took < 64, took)
    bench.check("its end", (said := bench.ends(server)) == "stopped, status 0", said)


def crowded_heads(bench: Bench) -> None:
    """Where a client waits for a worker, one head of two whose bytes come one a second ends after 10 seconds, and the other goes on."""
    server = bench.start(2)
    took: list[float] = []
    slow = each(2, lambda: took.append(drip(bench.connect(), 16)))
    time.sleep(0.5)
    link, waited = bench.get()
    bench.check("a client at slow heads", 8.5 < waited < 12.5, waited)
    link.close()
    for one in slow:
        one.join(PATIENCE)
    took.sort()
    bench.check("one of them ends", len(took) == 2 and 9 < took[0] < 13 and took[1] > 15, took)
    bench.check("its end", (said := bench.ends(server)) == "stopped, status 0", said)


def many_tunnels(bench: Bench) -> None:
    """300 silent tunnels at 350 workers beside 20 pages a second for 12 seconds: no page fails or waits a second, and no tunnel is cut."""
    server = bench.start(350)
    tunnels = [bench.tunnel() for _ in range(300)]
    failed: list[str] = []
    longest = [0.0]

    def page() -> None:
        try:
            link, took = bench.get()
            longest.append(took)
            link.close()
        except Exception as what:
            failed.append(f"{what}")

    until = time.monotonic() + 12
    pages: list[threading.Thread] = []
    while time.monotonic() < until:
        pages += each(1, page)
        time.sleep(0.05)
    for one in pages:
        one.join(PATIENCE)
    bench.check("pages", len(longest) > 100 and not failed, (len(longest), failed[:3]))
    bench.check("the longest wait", max(longest) < 1, max(longest))
    bench.check("tunnels that are there", (count := count_open(tunnels)) == 300, count)
    for link in tunnels:
        link.close()
    bench.check("its end", (said := bench.ends(server)) == "stopped, status 0", said)
    bench.check("its journal", (said := bench.verify()) == "verified", said)


def last_links(bench: Bench) -> None:
    """A tunnel on which bytes pass goes on for half a minute behind the order to end, and then the server ends."""
    server = bench.start(2)
    used = bench.tunnel()
    server.order("shutdown\n")
    begun = time.monotonic()
    while time.monotonic() < begun + 40 and echoes(used, b"line\n"):
        time.sleep(0.1)
    took = time.monotonic() - begun
    bench.check("a tunnel that is used", 29 < took < 32, took)
    used.close()
    said = f"{server.hear(PATIENCE)}, status {server.ends(5)}"
    bench.check("its end", said == "stopped, status 0", said)


def silence(bench: Bench) -> None:
    """A tunnel that is silent is cut after 2 minutes, and not before, where it is wanted by nobody."""
    server = bench.start(2)
    one = bench.tunnel()
    begun = time.monotonic()
    took = time_of_end(one, begun, 150)
    bench.check("a tunnel alone", 119 < took < 130, took)
    bench.check("its end", (said := bench.ends(server)) == "stopped, status 0", said)


def helpers(bench: Bench) -> None:
    """A helper that is silent, and one that does not read its questions, let those wait that ask them, and nobody else, not their
    clients' leaving either; behind the order to end both are stopped after 5 seconds. No helper is left then. One that reads its
    questions late, of which more came than a pipe has room for, has them all."""
    Path("helper").write_text(HELPER)
    server = bench.start(32, text=HELPED)
    late = [bench.connect() for _ in range(20)]
    for number, link in enumerate(late):
        bench.ask(link, f"/late-helper/{number}/{'a' * 7000}")
    replies = [reply_of(link) for link in late]
    bench.check("all that is read late is answered", all(one.endswith(b"hello") for one in replies), replies[:3])
    for link in late:
        link.close()
    waiting = []
    for number in range(20):
        # More than a pipe has room for.
        for path in (f"/silent-helper/{number}", f"/deaf-helper/{number}/{'a' * 7000}"):
            if number < 8 or path.startswith("/deaf"):
                link = bench.connect()
                bench.ask(link, path)
                waiting.append(link)
    for number in range(3):
        time.sleep(0.2)
        link, took = bench.get()
        bench.check(f"client {number}", took < 2, took)
        link.close()
    for link in waiting[::3]:
        reset(link)
    link, took = bench.get()
    bench.check("a client behind those that left", took < 2, took)
    link.close()
    pids = [int(word) for word in Path("pids").read_text().split()]
    bench.check("one process of each", len(pids) == 4, pids)
    if LONG:
        begun = time.monotonic()
        left = [one for number, one in enumerate(waiting) if number % 3]
        for one in left:
            one.settimeout(150)
        replies = [reply_of(one) for one in left]
        took = time.monotonic() - begun
        wrong = [one for one in replies if not re.search(rb"denied fault [12] is_(silent|deaf) Died$", one)]
        bench.check("all are denied by the fault", not wrong, wrong[:3])
        bench.check("after a minute, and one for each turn of four", 115 < took < 130, took)
        bench.get()[0].close()
        link = bench.connect()
        bench.ask(link, "/silent-helper/last")
        time.sleep(0.5)
    begun = time.monotonic()
    server.order("shutdown\n")
    said = f"{server.hear(PATIENCE)}, status {server.ends(5)}"
    took = time.monotonic() - begun
    bench.check("its end", said == "stopped, status 0", said)
    bench.check("its end comes in time", 4 < took < 8, took)
    pids = [int(word) for word in Path("pids").read_text().split()]
    bench.check("no process is left", not [one for one in pids if stat_of(one)[0]], pids)
    bench.check("its journal", (said := bench.verify()) == "verified", said)


def unreachable(bench: Bench) -> None:
    """Who asks an origin that cannot be reached waits for ten seconds, and nobody else does."""
    server = bench.start(4)
    with socket.socket() as listener:
        # The system drops who comes to a full queue.
        listener.bind(("127.0.0.1", 0))
        listener.listen(0)
        full = []
        for _ in range(4):
            full.append(socket.socket())
            full[-1].setblocking(False)
            full[-1].connect_ex(listener.getsockname())
        waiting = [bench.connect() for _ in range(3)]
        begun = time.monotonic()
        for link in waiting:
            link.sendall(b"GET http://127.0.0.1:%d/ HTTP/1.1\r\nHost: a\r\n\r\n" % listener.getsockname()[1])
        time.sleep(0.3)
        for number in range(3):
            link, took = bench.get()
            bench.check(f"client {number}", took < 2, took)
            link.close()
        if LONG:
            replies = [reply_of(link) for link in waiting]
            took = time.monotonic() - begun
            bench.check("the others", all(one.startswith(b"HTTP/1.1 502 ") for one in replies), replies)
            bench.check("after ten seconds", 9 < took < 13, took)
            bench.check("its end", (said := bench.ends(server)) == "stopped, status 0", said)
            bench.check("its journal", (said := bench.verify()) == "verified", said)
        for link in full + waiting:
            link.close()


def addresses(bench: Bench) -> None:
    """A client is known by its address and port, over IPv6 too where the machine has it."""
    server = bench.start(1)
    opened = []
    for host in ("127.0.0.1", "::1"):
        try:
            link = socket.create_connection((host, bench.port), timeout=PATIENCE)
        except OSError as what:
            bench.check(f"{host} is not there", host == "::1", what)
            continue
        bench.ask(link, "/hello")
        reply = reply_of(link)
        bench.check(f"a client at {host}", reply.endswith(b"hello"), reply)
        opened.append(f" open 1 {host} {link.getsockname()[1]} => ok\n")
        link.close()
        time.sleep(0.3)
    bench.check("its end", (said := bench.ends(server)) == "stopped, status 0", said)
    journal = Path("journal").read_text()
    bench.check("the clients in its journal", all(one in journal for one in opened), opened)
    bench.check("its journal", (said := bench.verify()) == "verified", said)


def shortages(bench: Bench) -> None:
    """Where its port is taken it ends by 9, where it gets not all of its threads by 10, each before it listens. Where files are wanting
    clients wait, and once they are there it is as if nothing had been."""
    server = bench.start(4)
    taken = Server(bench.program, ["squid.conf", "--port", str(bench.port)], "other")
    said = f"{taken.hear(PATIENCE)}, {taken.hear(PATIENCE)}, status {taken.ends(5)}"
    bench.check("a taken port", said == "error net, its end, status 9", said)
    named = Path("other").read_text()
    bench.check("its name", named == f"aclproxy: port {bench.port}: Address already in use (os error 98)\n", named)
    # Stacks of 8 MiB.
    for workers, most in ((16, 100 << 20), (64, 400 << 20)):
        words = ["squid.conf", "--port", str(free_port()), "--workers", str(workers)]
        short = Server(bench.program, words, "other", lambda: resource.setrlimit(resource.RLIMIT_AS, (most, most)))
        said = f"{short.hear(PATIENCE)}, status {short.ends(5)}"
        bench.check(f"{workers} workers without memory", said == "its end, status 10", said)
    old = resource.prlimit(server.pid, resource.RLIMIT_NOFILE)
    resource.prlimit(server.pid, resource.RLIMIT_NOFILE, (4, old[1]))
    # A worker that waits has the file for its next link.
    first, link = bench.connect(), bench.connect()
    for one in (first, link):
        bench.ask(one, "/hello")
        time.sleep(0.3)
    reply = reply_of(first)
    bench.check("a client without a file for its origin", reply.startswith(b"HTTP/1.1 502 "), reply)
    resource.prlimit(server.pid, resource.RLIMIT_NOFILE, old)
    reply = reply_of(link)
    bench.check("a client that waited for a file", reply.endswith(b"hello"), reply)
    links = [bench.get()[0] for _ in range(3)]
    server.order("reconfigure\n")
    bench.check("an order, later", (said := server.hear(PATIENCE)) == "reconfigured 2", said)
    for one in (first, link, *links):
        one.close()
    bench.check("its end", (said := bench.ends(server)) == "stopped, status 0", said)
    bench.check("its journal", (said := bench.verify()) == "verified", said)


CHECKS = [silent_clients, idle_links, free_workers, clients_that_leave, shutdown, requests_as_shutdown_begins]
CHECKS += [helpers, unreachable, addresses, shortages]
# Those that wait most of their time, in groups that are made beside the others and beside one another.
SLOW_CHECKS = [[slow_head], [crowded_tunnels, last_links], [crowded_heads, many_tunnels]]
LONG_CHECKS = [silence]


def main() -> int:
    global LONG
    parser = argparse.ArgumentParser(description=__doc__, formatter_class=argparse.RawDescriptionHelpFormatter)
    known = {one.__name__: one for one in CHECKS + sum(SLOW_CHECKS, []) + LONG_CHECKS}
    parser.add_argument("names", nargs="*", metavar="NAME", help=f"some of: {', '.join(known)}")
    parser.add_argument("--program", default=str(HERE.parent / "crates/sq_main/out/sq_main"))
    parser.add_argument("--long", action="store_true", help="try those, too, that take minutes")
    options = parser.parse_args()
    LONG = options.long
    if unknown := [name for name in options.names if name not in known]:
        parser.error(f"there is no {unknown[0]}")
    program = os.path.abspath(options.program)
    if not os.access(program, os.X_OK):
        parser.error(f"{program} is no program: build it first, or name it by --program")
    beside = []
    for group in [] if options.names else SLOW_CHECKS:
        words = [sys.executable, __file__, "--program", program, *[one.__name__ for one in group]]
        beside.append(subprocess.Popen(words, stdout=subprocess.PIPE, text=True))
    bench = Bench(program)
    top = tempfile.mkdtemp(prefix="links.")

    def give_up(*_: object) -> None:
        print(f"links, {bench.what}: it has not come to its end in time", flush=True)
        for one in bench.servers:
            one.kill()
        for one in beside:
            one.kill()
        os._exit(1)

    signal.signal(signal.SIGALRM, give_up)
    for check in [known[name] for name in options.names] or CHECKS + (LONG_CHECKS if LONG else []):
        # A check whose times do not hold is made once more: what else the machine does may have taken a second away.
        if not tried("links", bench, check, os.path.join(top, check.__name__), SECONDS):
            print(f"links, {bench.what}: once more")
            bench.failed += not tried("links", bench, check, os.path.join(top, f"{check.__name__}-again"), SECONDS)
    os.chdir("/")
    for one in beside:
        said, _ = one.communicate()
        print(said, end="")
        bench.failed += one.returncode != 0
    if bench.failed:
        print(f"links: what they left stands in {top}")
    else:
        shutil.rmtree(top)
    print(f"links: {bench.failed} failed")
    return 1 if bench.failed else 0


if __name__ == "__main__":
    sys.exit(main())
