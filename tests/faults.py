#!/usr/bin/env python3
"""Faults of the machine that `aclproxy serve` runs on: tests/faults.py [--program PROGRAM] [NAME ..]

Each function below is a fault. Its first words say what must hold by docs/OPERATING.md and docs/FORMATS.md, and it checks that. A
check that is known to fail stands in KNOWN, with the reason; it is told, and no error. What cannot be tried here (no root, no
libfaketime, a build for a sanitizer) is told too. The status is 0 where all else holds. Python 3.11 and its standard library are
what it needs; it ends within some minutes.
"""

import argparse
import os
import re
import resource
import shutil
import signal
import socket
import subprocess
import sys
import tempfile
import threading
import time
from pathlib import Path
from typing import Callable, Iterator

sys.dont_write_bytecode = True

from chaos_parts.server import Server, free_port, reply_of, stat_of, until  # noqa: E402

HERE = Path(__file__).resolve().parent
PATIENCE = 30.0  # the seconds after which a wait has failed
JOURNAL_BEGIN = re.compile(r"journal 2\n1 1 \d+ begin 0 => epoch 1\n")

# Of a check by its name, why the program does not do what docs say.
KNOWN: dict[str, str] = {}


class Bench:
    """What the faults share: the program, an origin, and what was found by the test that is named."""

    def __init__(self, program: str, test: str) -> None:
        self.program = program
        self.test = test
        self.sanitized = b"Sanitizer" in Path(program).read_bytes()
        self.failed = 0
        self.known = 0
        self.passed = 0
        self.left_out = 0
        self.fault = ""
        self.servers: list[Server] = []
        listener = socket.create_server(("127.0.0.1", 0), backlog=512)
        self.origin = listener.getsockname()[1]
        threading.Thread(target=self.accept, args=(listener,), daemon=True).start()

    def accept(self, listener: socket.socket) -> None:
        while True:
            link, _ = listener.accept()
            threading.Thread(target=self.answer, args=(link,), daemon=True).start()

    def answer(self, link: socket.socket) -> None:
        """`hello` to any request; /big has 5 MiB of it, and /slow comes after 2 seconds."""
        with link:
            try:
                link.settimeout(60)
                text = b""
                while b"\r\n\r\n" not in text:
                    more = link.recv(65536)
                    if not more:
                        return
                    text += more
                path = text.split(b" ")[1]
                if path == b"/slow":
                    time.sleep(2)
                body = b"hello" * (1 << 20) if path == b"/big" else b"hello"
                link.sendall(b"HTTP/1.1 200 OK\r\nContent-Length: %d\r\n\r\n" % len(body) + body)
                while link.recv(65536):
                    pass
            except OSError:
                pass

    # What is told.

    def same(self, what: str, got: object, wanted: object) -> bool:
        """Whether they are the same; `wanted` may be a set of what docs allow, or a pattern."""
        if isinstance(wanted, (set, frozenset)):
            holds = got in wanted
        elif isinstance(wanted, re.Pattern):
            holds = isinstance(got, str) and wanted.fullmatch(got) is not None
        else:
            holds = got == wanted
        name = f"{self.fault}, {what}"
        if holds:
            self.passed += 1
            print(f"{self.test}, {name}: as expected" + (", this time: it is known to fail" if name in KNOWN else ""))
        elif name in KNOWN:
            self.known += 1
            print(f"{self.test}, {name}: KNOWN FINDING: it was {got!r}, and not {wanted!r}: {KNOWN[name]}")
        else:
            self.failed += 1
            print(f"{self.test}, {name}: it was {got!r}, and not {wanted!r}")
        return holds

    def left(self, why: str) -> None:
        self.left_out += 1
        print(f"{self.test}, {self.fault}: left out, since {why}")

    # Servers and clients.

    def start(self, text: str, *words: str, journal: str = "journal", before: Callable[[], None] | None = None, more: dict[str, str] | None = None) -> Server:
        Path("squid.conf").write_text(text)
        Path("first.conf").write_text(text)
        self.port = free_port()
        server = Server(self.program, ["squid.conf", "--port", str(self.port), *words], journal, before, more)
        self.servers.append(server)
        said = server.hear(PATIENCE)
        if said != f"listening {self.port}":
            raise AssertionError(f"it says {said}")
        return server

    def ends(self, server: Server, order: str = "shutdown\n", seconds: float = PATIENCE) -> str:
        """Its end, behind an order: all lines that it wrote since, and its status."""
        server.order(order)
        lines = []
        while (said := server.hear(seconds)) != "its end" and not said.startswith("nothing in"):
            lines.append(said)
        return " ".join([*lines, f"status {server.ends(0.2 if said != 'its end' else seconds)}"])

    def connect(self, seconds: float = PATIENCE) -> socket.socket:
        link = socket.create_connection(("127.0.0.1", self.port), timeout=PATIENCE)
        link.settimeout(seconds)
        return link

    def request(self, path: str, *fields: str, method: str = "GET") -> bytes:
        lines = [f"{method} http://127.0.0.1:{self.origin}{path} HTTP/1.1", "Host: a", *fields, "", ""]
        return "\r\n".join(lines).encode("latin-1")

    def get(self, path: str, *fields: str, seconds: float = PATIENCE) -> bytes:
        """A reply over a connection of its own."""
        with self.connect(seconds) as link:
            link.sendall(self.request(path, "Connection: close", *fields))
            return all_of(link)

    def tunnel(self, path: str) -> bytes:
        """What comes back of a tunnel to the origin, and of a request in it."""
        with self.connect() as link:
            link.sendall(f"CONNECT 127.0.0.1:{self.origin} HTTP/1.1\r\nHost: a\r\n\r\n".encode())
            got = link.recv(65536)
            if got == TUNNEL:
                link.sendall(self.request(path))
                link.shutdown(socket.SHUT_WR)
            return got + all_of(link)

    def verify(self, journal: str = "journal") -> str:
        """What `verify` says of the whole lines of a journal."""
        text = Path(journal).read_bytes()
        whole = text[: text.rfind(b"\n") + 1]
        Path("whole").write_bytes(whole)
        ran = subprocess.run([self.program, "verify", "first.conf", "whole"], capture_output=True, timeout=300)
        said = ran.stdout.decode(errors="replace").strip()
        wanted = f"verified {whole.count(b'%c' % 10) - 1}"
        return "verified" if said == wanted and ran.returncode == 0 else f"{said}, status {ran.returncode}, and not {wanted}"


def all_of(link: socket.socket) -> bytes:
    """What comes up to the end; a reset and a wait that is too long are told behind it."""
    out = b""
    try:
        while more := link.recv(65536):
            out += more
    except TimeoutError:
        return out + b"<too slow>"
    except OSError:
        return out + b"<reset>"
    return out


def own(status: str, body: str, closes: bool = True) -> bytes:
    """A reply of the proxy's own."""
    lines = [f"HTTP/1.1 {status}", "Content-Type: text/plain", f"Content-Length: {len(body) + 1}"]
    lines += ["Connection: close"] if closes else []
    return "\r\n".join([*lines, "", body + "\n"]).encode()


def hello(closes: bool = True) -> bytes:
    return b"HTTP/1.1 200 OK\r\nContent-Length: 5\r\nVia: 1.1 aclproxy\r\n" + (b"Connection: close\r\n" if closes else b"") + b"\r\nhello"


HELPER = """#!/bin/sh
echo $$ >>pids
while read -r key rest; do
    case $key in
    */slow*) sleep 1; echo OK ;;
    */wait*) while [ ! -e go ] && [ -e helper ]; do sleep 0.1; done; echo OK ;;
    */no*) echo ERR ;;
    *) echo OK ;;
    esac
done
"""
ASKING = (
    "external_acl_type names ttl=1 %>rp /bin/sh ./helper\nacl asked url_regex /ask\nacl known external names\n"
    "http_access deny asked !known\nhttp_access allow localhost\n"
)
PLAIN = "http_access allow localhost\n"
TUNNEL = b"HTTP/1.1 200 Connection established\r\n\r\n"
THROUGH = b"HTTP/1.1 200 OK\r\nContent-Length: 5\r\n\r\nhello"
GATEWAY = own("502 Bad Gateway", "bad gateway")
STOPPED = own("500 Internal Server Error", "journal stopped")
BIG = hello().replace(b"Length: 5", b"Length: %d" % (5 << 20)).replace(b"hello", b"hello" * (1 << 20))
NO_MEMORY = own("500 Internal Server Error", "out of memory")


def helpers_left() -> list[int]:
    """Helpers that live on."""
    pids = Path("pids")
    return [int(word) for word in pids.read_text().split() if stat_of(int(word))[0] not in ("", "Z")] if pids.exists() else []


class Load:
    """Some clients that ask one thing after the other, and keep what is none of these replies."""

    def __init__(self, bench: Bench, paths: list[str], wanted: set[bytes], count: int = 4) -> None:
        self.bench = bench
        self.paths = paths
        self.wanted = wanted
        self.ended = False
        self.replies = 0
        self.odd: list[bytes] = []
        self.threads = [threading.Thread(target=self.live, args=(number,), daemon=True) for number in range(count)]
        for one in self.threads:
            one.start()

    def live(self, number: int) -> None:
        at = number
        while not self.ended:
            at += 1
            try:
                got = self.bench.get(self.paths[at % len(self.paths)])
            except OSError:
                if not self.ended:
                    time.sleep(0.01)
                continue
            self.replies += 1
            if got not in self.wanted and not self.ended:
                self.odd.append(got[:300])

    def end(self) -> None:
        self.ended = True
        for one in self.threads:
            one.join(PATIENCE)


# The faults.


def few_files_at_the_start(bench: Bench) -> None:
    """With so few files that its own do not fit, it says that it cannot read, or has no net, or runs: 4, 9 or 0; nothing else."""
    Path("c.conf").write_text(PLAIN)
    ran_before = False
    endless = []
    for most in range(4, 16):
        got = run_serve(bench, lambda: resource.setrlimit(resource.RLIMIT_NOFILE, (most, most)), seconds=5)
        if got.endswith("it has not ended"):
            endless.append(most)
            continue
        runs = {f"listening {bench.port}\nstopped, status 0"}
        bench.same(f"{most} files", got, runs if ran_before else runs | {"error read, status 4", "error net, status 9"})
        ran_before = ran_before or got in runs
    bench.same("it runs with 15 files", ran_before, True)
    bench.same("counts of files with which it does not end", endless, [])


def run_serve(bench: Bench, before: Callable[[], None] | None = None, words: tuple[str, ...] = (), seconds: float = 60) -> str:
    """A server whose orders are at their end: what it writes, and its status."""
    bench.port = free_port()
    with open("j", "wb") as journal:
        try:
            ran = subprocess.run(
                [bench.program, "serve", "c.conf", "--port", str(bench.port), *words],
                stdin=subprocess.DEVNULL,
                stdout=subprocess.PIPE,
                stderr=journal,
                preexec_fn=before,
                timeout=seconds,
            )
        except subprocess.TimeoutExpired as fault:
            return f"{(fault.stdout or b'').decode().strip()}, it has not ended"
    return f"{ran.stdout.decode().strip()}, status {ran.returncode}"


def no_files_while_it_runs(bench: Bench) -> None:
    """Connections wait, origins are answered by 502, helpers by NoHelper, and a file that cannot be opened keeps the old configuration."""
    server = bench.start(ASKING, "--workers", "4")
    one, two = bench.connect(), bench.connect()
    for link in (one, two):
        link.sendall(bench.request("/"))
        bench.same("before", reply_of(link), hello(closes=False))
    used = {int(name) for name in os.listdir(f"/proc/{server.pid}/fd")}
    limit = next(n for n in range(1024) if n not in used)
    old = resource.prlimit(server.pid, resource.RLIMIT_NOFILE)
    resource.prlimit(server.pid, resource.RLIMIT_NOFILE, (limit, old[1]))
    server.order("reconfigure\n")
    bench.same("a configuration that cannot be opened", server.hear(PATIENCE), "kept old read")
    one.sendall(bench.request("/ask"))
    bench.same("a helper", reply_of(one), own("403 Forbidden", "denied fault 1 known NoHelper", closes=False))
    one.sendall(bench.request("/"))
    bench.same("an origin", all_of(one), GATEWAY)
    # The file that this connection took is free now. Another connection may take it, and has none for its origin.
    waiting = [bench.connect() for _ in range(3)]
    for link in waiting:
        link.sendall(bench.request("/", "Connection: close"))
    time.sleep(0.5)
    resource.prlimit(server.pid, resource.RLIMIT_NOFILE, old)
    bench.same("those that waited", {all_of(link) for link in waiting} <= {hello(), GATEWAY}, True)
    two.sendall(bench.request("/ask"))
    bench.same("a helper, later", reply_of(two), hello(closes=False))
    two.close()
    bench.same("another client, later", bench.get("/"), hello())
    server.order("reconfigure\n")
    bench.same("a configuration, later", server.hear(PATIENCE), "reconfigured 2")
    # Want of files is waited out: no call of the listener has failed.
    bench.same("its end", bench.ends(server), "stopped status 0")
    bench.same("its journal", bench.verify(), "verified")


def an_order_without_files(bench: Bench) -> None:
    """An order keeps the old configuration, and the server goes on: want of files is waited out."""
    server = bench.start(ASKING, "--workers", "4")
    one = bench.connect()
    one.sendall(bench.request("/"))
    bench.same("before", reply_of(one), hello(closes=False))
    old = resource.prlimit(server.pid, resource.RLIMIT_NOFILE)
    resource.prlimit(server.pid, resource.RLIMIT_NOFILE, (4, old[1]))
    waiting = [bench.connect() for _ in range(4)]
    for link in waiting:
        link.sendall(bench.request("/", "Connection: close"))
    time.sleep(0.3)
    server.order("reconfigure\n")
    time.sleep(1)
    resource.prlimit(server.pid, resource.RLIMIT_NOFILE, old)
    one.sendall(bench.request("/", "Connection: close"))
    bench.same("the connection that is open", all_of(one), hello())
    replies = {all_of(link) for link in waiting}
    bench.same("an order", server.hear(PATIENCE), "kept old read")
    bench.same("another client, later", bench.get("/"), hello())
    bench.same("those that waited", replies <= {hello(), GATEWAY}, True)
    bench.same("its end", bench.ends(server), "stopped status 0")
    bench.same("its journal", bench.verify(), "verified")


def an_end_without_files(bench: Bench) -> None:
    """Where no client holds on, it ends within some milliseconds after an order, files or not."""
    server = bench.start(PLAIN, "--workers", "4")
    bench.same("before", bench.get("/"), hello())
    time.sleep(0.3)
    old = resource.prlimit(server.pid, resource.RLIMIT_NOFILE)
    resource.prlimit(server.pid, resource.RLIMIT_NOFILE, (4, old[1]))
    server.order("shutdown\n")
    bench.same("its end", server.ends(4), 0)
    bench.same("its last line", server.hear(PATIENCE), "stopped")
    bench.same("its journal", bench.verify(), "verified")


def little_memory_at_the_start(bench: Bench) -> None:
    """With too little memory to start it ends with 10; else it runs, and then it serves."""
    if bench.sanitized:
        return bench.left("a build for a sanitizer takes address space without end")
    Path("c.conf").write_text(PLAIN)
    for kib in (*range(2000, 8000, 500), 10_000, 14_000, 20_000, 30_000, 50_000, 100_000):
        got = run_serve(bench, lambda: limit_memory(kib), ("--workers", "4"))
        if got in (", status 127", ", status -6", ", status -11", ", status -9", ", status 1"):
            continue  # the system's loader had no memory
        bench.same(f"{kib} KiB", got, {", status 10", f"listening {bench.port}\nstopped, status 0"})


def limit_memory(kib: int) -> None:
    resource.setrlimit(resource.RLIMIT_AS, (kib * 1024, kib * 1024))


def little_memory_and_it_serves(bench: Bench) -> None:
    """With too little memory for its threads it ends with 10. Once it has written `listening` it answers clients, with whatever memory it
    began: as with more, or by what names the want."""
    if bench.sanitized:
        return bench.left("a build for a sanitizer takes address space without end")
    refused: list[int] = []
    silent: list[int] = []
    unasked: list[int] = []
    endless: list[int] = []
    Path("c.conf").write_text(ASKING)
    denied = {own("403 Forbidden", f"denied fault 1 known {cause}") for cause in ("NoHelper", "Died")}
    fields = ["Connection: close", *(f"X-{number}: {'v' * 480}" for number in range(120))]
    for kib in (6000, 14_000, 24_000, 36_000, 60_000, 120_000):
        if run_serve(bench, lambda: limit_memory(kib), ("--workers", "4")) == ", status 10":
            refused.append(kib)
            continue
        server = bench.start(ASKING, "--workers", "4", before=lambda: limit_memory(kib))
        for what, path, more, wanted in (
            ("an answer", "/", ["Connection: close"], {hello()}),
            ("a large head", "/", fields, {hello()}),
            ("a large reply", "/big", ["Connection: close"], {BIG}),
            ("a helper", "/ask", ["Connection: close"], {hello()} | denied),
            ("another answer", "/", ["Connection: close"], {hello()}),
        ):
            with bench.connect(90 if what == "a helper" else PATIENCE) as link:
                link.sendall(bench.request(path, *more))
                got = all_of(link)
            if got == b"<too slow>":
                (unasked if what == "a helper" else silent).append(kib)
            elif not (what == "a large reply" and BIG.startswith(got)):
                bench.same(f"{kib} KiB, {what}", got, wanted | {NO_MEMORY, GATEWAY, b""})
        ended = bench.ends(server)
        if ended == "status None":
            endless.append(kib)
            server.kill()
        else:
            bench.same(f"{kib} KiB, its end", ended, {"stopped status 0", "error net status 9"})
        bench.same(f"{kib} KiB, its journal", bench.verify(), "verified")
    bench.same("sizes without room for its threads", refused, [6000, 14_000, 24_000, 36_000])
    bench.same("sizes without an answer", sorted(set(silent)), [])
    bench.same("sizes with which a helper's check waits for good", unasked, [])
    bench.same("sizes with which it does not end", endless, [])


def no_memory_while_it_runs(bench: Bench) -> None:
    """What is refused for want of memory is told so (500, `kept old memory`), or cut off, and the server goes on."""
    if bench.sanitized:
        return bench.left("a build for a sanitizer takes address space without end")
    server = bench.start(ASKING, "--workers", "8")
    bench.same("before", bench.get("/"), hello())
    resource.prlimit(server.pid, resource.RLIMIT_AS, (server.value("VmSize") * 1024, resource.RLIM_INFINITY))
    links = [bench.connect() for _ in range(8)]
    for at, link in enumerate(links):
        fields = [f"X-{number}: {'v' * 480}" for number in range(120)]
        link.sendall(bench.request("/big" if at % 2 else "/", "Connection: close", *fields))
    odd = []
    for link in links:
        got = all_of(link).removesuffix(b"<reset>")
        if got not in (hello(), BIG, NO_MEMORY, GATEWAY) and not BIG.startswith(got):
            odd.append(got[:200])
        link.close()
    bench.same("replies", odd, [])
    denials = {own("403 Forbidden", f"denied fault 1 known {cause}") for cause in ("NoHelper", "Died")}
    asking = bench.connect()
    asking.sendall(bench.request("/ask", "Connection: close"))
    acls = "".join(f"acl a{n} url_regex (x|y{n}){{20}}z\n" for n in range(2000))
    Path("squid.conf").write_text(acls + PLAIN)
    server.order("reconfigure\n")
    bench.same("a large configuration", server.hear(PATIENCE), {"kept old memory", "reconfigured 2"})
    resource.prlimit(server.pid, resource.RLIMIT_AS, (resource.RLIM_INFINITY, resource.RLIM_INFINITY))
    # Where the thread that hears a helper is not to be had it is tried again, for a minute.
    bench.same("a helper", all_of(asking).removesuffix(b"<reset>"), denials | {hello(), NO_MEMORY, b""})
    bench.same("later", bench.get("/"), hello())
    bench.same("a helper, later", bench.get("/ask/later"), hello())
    # A connection that could not be accepted is a fault of the listener, which may be told at the end.
    bench.same("its end", bench.ends(server), {"stopped status 0", "error net status 9"})
    bench.same("its journal", bench.verify(), "verified")


def commands_without_memory(bench: Bench) -> None:
    """`parse` and `verify` end with 10 and write a front of what they would, or do what they do with more."""
    if bench.sanitized:
        return bench.left("a build for a sanitizer takes address space without end")
    text = "".join(f"acl a src 10.0.{n // 250}.{n % 250}\n" for n in range(3000)) + "".join(f"acl p{n} url_regex (x|y{n})z\n" for n in range(1000))
    Path("c.conf").write_text(text + PLAIN)
    Path("j").write_text("0 begin 0 => epoch 1\n")
    for words, whole in ((["parse", "c.conf"], "ok acls 1007 rules 1 classes 0 pools 0"), (["verify", "c.conf", "j"], "verified 1")):
        ended = set()
        for kib in (5000, 6000, 7000, 8000, 9000, 10_000, 12_000, 15_000, 20_000, 50_000, 200_000, 1_000_000):
            ran = subprocess.run([bench.program, *words], capture_output=True, preexec_fn=lambda: limit_memory(kib), timeout=120)
            if ran.returncode in (127, 1, -11, -6) and not ran.stdout and b"shared" in ran.stderr + b"shared" * (ran.returncode < 0):
                continue
            ended.add((ran.returncode, ran.stdout.decode().strip()))
        bench.same(" ".join(words), ended <= {(0, whole), (10, "")}, True)
        bench.same(f"{' '.join(words)}, with enough", (0, whole) in ended, True)


def full_disk(bench: Bench) -> None:
    """The journal fails: clients get `journal stopped`, the next line of orders ends it with 6, and the whole lines are verified."""
    os.mkdir("disk")
    if subprocess.run(["mount", "-t", "tmpfs", "-o", "size=128k", "tmpfs", "disk"], capture_output=True).returncode:
        return bench.left("a small disk cannot be mounted")
    try:
        server = bench.start(ASKING, "--workers", "4", journal="disk/journal")
        link = bench.connect()
        link.sendall(bench.request("/"))
        bench.same("before", reply_of(link), hello(closes=False))
        last = [bench.get(f"/ask/{number}", f"X: {'v' * 300}") for number in range(600)]
        first = next((at for at, got in enumerate(last) if got != hello()), -1)
        bench.same("the disk becomes full", first > 0, True)
        bench.same("from then on", list(set(last[first:])), [STOPPED])
        link.sendall(bench.request("/"))
        bench.same("a connection that was open", all_of(link), STOPPED)
        # Room that comes later is of no use: it is not tried again.
        subprocess.run(["mount", "-o", "remount,size=512k", "disk"], capture_output=True)
        bench.same("with room again", bench.get("/"), STOPPED)
        bench.same("an order", bench.ends(server, "\n"), "error journal status 6")
        bench.same("its journal", bench.verify("disk/journal"), "verified")
        until(5, lambda: not helpers_left())
        bench.same("helpers are left", helpers_left(), [])
    finally:
        for one in bench.servers:
            one.kill()
        subprocess.run(["umount", "-l", "disk"], capture_output=True)


def file_that_may_not_grow(bench: Bench) -> None:
    """The same where the system lets the journal's file have no more bytes (the signal for that ignored)."""

    def limit() -> None:
        signal.signal(signal.SIGXFSZ, signal.SIG_IGN)
        resource.setrlimit(resource.RLIMIT_FSIZE, (20_000, 20_000))

    server = bench.start(PLAIN, before=limit)
    got = [bench.get("/") for _ in range(200)]
    first = next((at for at, one in enumerate(got) if one != hello()), -1)
    bench.same("the file comes to its limit", first > 0, True)
    bench.same("from then on", list(set(got[first:])), [STOPPED])
    bench.same("at the end of its orders", bench.ends(server, "shutdown\n"), "error journal status 6")
    bench.same("the file's size", os.path.getsize("journal"), 20_000)
    bench.same("its journal", bench.verify(), "verified")


def full_disk_under_load(bench: Bench) -> None:
    """The same while clients ask side by side: nobody gets anything but a whole right reply or `journal stopped`."""

    def limit() -> None:
        signal.signal(signal.SIGXFSZ, signal.SIG_IGN)
        resource.setrlimit(resource.RLIMIT_FSIZE, (60_000, 60_000))

    server = bench.start(ASKING, "--workers", "8", before=limit)
    denied = own("403 Forbidden", "denied rule 1")
    load = Load(bench, ["/", "/ask/a", "/ask/no", "/ask/slow"], {hello(), denied, STOPPED}, 8)
    until(PATIENCE, lambda: os.path.getsize("journal") >= 60_000)
    time.sleep(0.5)
    load.end()
    bench.same("replies", load.odd, [])
    bench.same("an order", bench.ends(server, "what\n"), "error journal status 6")
    bench.same("its journal", bench.verify(), "verified")


def journal_into_a_pipe(bench: Bench) -> None:
    """A reader that is slow makes the server wait, and one that has gone is a journal that fails."""
    os.mkfifo("pipe")
    noted = bytearray()
    pause, gone = threading.Event(), threading.Event()

    def read() -> None:
        with open("pipe", "rb", buffering=0) as pipe:
            while not gone.is_set():
                if pause.is_set():
                    time.sleep(0.05)
                    continue
                noted.extend(pipe.read(4096))

    reader = threading.Thread(target=read, daemon=True)
    reader.start()
    server = bench.start(PLAIN, "--workers", "4", journal="pipe")
    bench.same("before", bench.get("/"), hello())
    pause.set()
    with bench.connect() as link:
        # The pipe has 64 KiB: a head of 60,000 bytes comes to the machine's journal, and the second one waits.
        for _ in range(2):
            link.sendall(bench.request("/", f"X: {'v' * 60_000}"))
        first = reply_of(link)
        link.settimeout(1.5)
        rest = all_of(link)
        pause.clear()
        link.settimeout(PATIENCE)
        bench.same("a reader that is slow: no answer before its entry", (first, rest), (hello(closes=False), b"<too slow>"))
        bench.same("it reads on", reply_of(link), hello(closes=False))
    gone.set()
    bench.get("/")
    reader.join(PATIENCE)
    bench.same("a reader that has gone", bench.get("/"), STOPPED)
    bench.same("an order", bench.ends(server, "\n"), "error journal status 6")
    Path("journal").write_bytes(noted)
    bench.same("what it read", bench.verify(), "verified")


def closed_streams(bench: Bench) -> None:
    """Input that is closed is at its end; output that is closed is 5, and error that is closed is 6, which comes first in a run."""
    Path("c.conf").write_text(PLAIN)
    for closed in range(8):
        which = [number for number in range(3) if closed >> number & 1]
        bench.port = free_port()

        def close() -> None:
            for number in which:
                os.close(number)

        ran = subprocess.Popen(
            [bench.program, "serve", "c.conf", "--port", str(bench.port)],
            stdin=subprocess.PIPE,
            stdout=subprocess.PIPE,
            stderr=subprocess.PIPE,
            preexec_fn=close,
        )
        assert ran.stdin and ran.stdout
        if not which:
            # Nothing is closed: it waits for orders, and its numbers 0, 1 and 2 are none of a link's.
            ran.stdout.readline()
            bench.same("none closed, it serves", bench.get("/"), hello())
        try:
            said, noted = ran.communicate(b"shutdown\n" if not which else b"", timeout=PATIENCE)
        except subprocess.TimeoutExpired:
            ran.kill()
            said, noted = ran.communicate()
        wanted = "stopped, status 0" if not which else f"listening {bench.port}\nstopped, status 0"
        if 2 in which:
            wanted = "error journal, status 6"
        elif 1 in which:
            wanted = ", status 5"
        if 1 in which:
            wanted = wanted[wanted.index(",") :]
        name = f"closed: {' '.join(['input', 'output', 'error'][n] for n in which) or 'none'}"
        bench.same(name, f"{said.decode().strip()}, status {ran.returncode}", wanted)
        if 2 not in which and which:
            bench.same(f"{name}, the journal", noted.decode(), JOURNAL_BEGIN)
    ran_parse = subprocess.run([bench.program, "parse", "c.conf"], preexec_fn=lambda: os.close(1), stdin=subprocess.DEVNULL)
    bench.same("parse without output", ran_parse.returncode, 5)


def output_that_fails(bench: Bench) -> None:
    """Output that is full or whose reader has gone is 5, with no last line. Orders that cannot be read are 4."""
    Path("c.conf").write_text(PLAIN)
    port = str(free_port())
    with open("/dev/full", "wb") as full, open("j", "wb") as journal:
        ran = subprocess.run([bench.program, "serve", "c.conf", "--port", port], stdin=subprocess.DEVNULL, stdout=full, stderr=journal, timeout=60)
    bench.same("full from the start", ran.returncode, 5)
    server = bench.start(PLAIN)
    bench.same("before", bench.get("/"), hello())
    # The reader goes: the thread that reads lines is woken by one, and the pipe closed behind it.
    assert server.process.stdout
    server.order("reconfigure\n")
    bench.same("an order", server.hear(PATIENCE), "reconfigured 2")
    fd = server.process.stdout.fileno()
    null = os.open(os.devnull, os.O_RDONLY)
    os.dup2(null, fd)
    os.close(null)
    server.order("reconfigure\n")
    time.sleep(0.3)
    server.order("reconfigure\n")
    bench.same("its reader has gone", server.ends(PATIENCE), 5)
    bench.same("its journal", bench.verify(), "verified")
    folder = os.open(".", os.O_RDONLY)
    with open("j", "wb") as journal:
        fed = subprocess.run([bench.program, "serve", "c.conf", "--port", str(free_port())], stdin=folder, stdout=subprocess.PIPE, stderr=journal, timeout=60)
    os.close(folder)
    bench.same("orders from a folder", f"{fed.stdout.decode().splitlines()[-1]}, status {fed.returncode}", "error read, status 4")


def helpers_that_cannot_start(bench: Bench) -> None:
    """Each is NoHelper where it could not be started and Died where it ended at once; other checks go on."""
    programs = {"missing": None, "folder": "", "plain": "echo\n", "interpreter": "#!/no/such/program\n", "empty": "", "ends": "#!/bin/sh\nexit 3\n", "noise": "\x7fELFnone"}
    for name, text in programs.items():
        if name == "folder":
            os.mkdir(name)
        elif text is not None:
            Path(name).write_text(text)
            os.chmod(name, 0o644 if name == "plain" else 0o755)
    names = [*programs, "deep/program"]
    lines = [f"external_acl_type c{at} ttl=1 children-startup={at % 2} %>rp ./{name}\nacl l{at} url_regex /{name}$\nacl k{at} external c{at}\n" for at, name in enumerate(names)]
    rules = [f"http_access deny l{at} !k{at}\n" for at in range(len(names))]
    server = bench.start("".join(lines + rules) + PLAIN, "--workers", "4")
    for at, name in enumerate(names):
        causes = {"ends": {"Died"}, "empty": {"NoHelper", "Died"}}.get(name, {"NoHelper"})
        for turn in range(3):
            got = bench.get(f"/{name}")
            bench.same(f"{name}, {turn + 1}", got, {own("403 Forbidden", f"denied fault {at + 1} k{at} {cause}") for cause in causes})
    bench.same("another request", bench.get("/"), hello())
    until(5, lambda: not server.unreaped())
    bench.same("processes that were not reaped", server.unreaped(), 0)
    bench.same("its end", bench.ends(server), "stopped status 0")
    bench.same("its journal", bench.verify(), "verified")


def no_processes(bench: Bench) -> None:
    """Where the system gives no further process, helpers are NoHelper, and tunnels, which need one thread more, are 502; where it gives
    one, and no thread to hear it within a minute, Died. Other checks go on."""
    if os.getuid() != 0:
        return bench.left("only root can be another user")
    program, user = program_of_another_user(bench.program)

    def other() -> None:
        os.setgroups([])
        os.setgid(user)
        os.setuid(user)

    ours, bench.program = bench.program, program
    try:
        for turn, cause in enumerate(("", "NoHelper", "Died")):
            try:
                server = bench.start(ASKING, "--workers", "4", before=other)
            except (OSError, subprocess.SubprocessError) as fault:
                return bench.left(f"it does not start as another user: {fault}")
            bench.same(f"{turn}, a request", bench.get("/"), hello())
            # It has the first, the doorkeeper's, four workers' and the pump's thread, and from here on no process more; and then one more.
            until(5, lambda: server.value("Threads") == 7)
            if turn:
                as_user(user, lambda: resource.prlimit(server.pid, resource.RLIMIT_NPROC, (6 + turn, 6 + turn)))
            bench.same(f"{turn}, a tunnel", bench.tunnel("/"), GATEWAY if turn == 1 else TUNNEL + THROUGH)
            denied = own("403 Forbidden", f"denied fault 1 known {cause}")
            # The tunnel's thread has ended.
            until(5, lambda: server.value("Threads") == 7)
            bench.same(f"{turn}, a helper", bench.get("/ask/a", seconds=90), denied if turn else hello())
            bench.same(f"{turn}, another request", bench.get("/"), hello())
            bench.same(f"{turn}, its end", bench.ends(server), "stopped status 0")
            bench.same(f"{turn}, its journal", bench.verify(), "verified")
    finally:
        bench.program = ours


def as_user(user: int, what: Callable[[], object]) -> None:
    """Does something in a process of this user."""
    pid = os.fork()
    if pid == 0:
        try:
            os.setgid(user)
            os.setuid(user)
            what()
            os._exit(0)
        finally:
            os._exit(1)
    if os.waitstatus_to_exitcode(os.waitpid(pid, 0)[1]) != 0:
        raise AssertionError(f"the user {user} may not do it")


def program_of_another_user(program: str) -> tuple[str, int]:
    """A copy of the program that a user can run who has no process, and that user, who may write to this folder."""
    os.chmod(".", 0o777)
    shutil.copy(program, "program")
    os.chmod("program", 0o755)
    user = next(number for number in range(61_000, 65_000) if not any(stat.st_uid == number for stat in processes()))
    return os.path.abspath("program"), user


def processes() -> Iterator[os.stat_result]:
    for path in Path("/proc").glob("[0-9]*"):
        try:
            yield path.stat()
        except OSError:
            continue


def port_that_is_taken(bench: Bench) -> None:
    """`error net`, status 9, and in place of a journal the port and why it is not opened: that comes before the first entry."""
    Path("c.conf").write_text(PLAIN)
    hosts = [("127.0.0.1", socket.AF_INET), ("0.0.0.0", socket.AF_INET), ("::", socket.AF_INET6)]
    for host, family in hosts:
        try:
            taken = socket.create_server((host, 0), family=family)
        except OSError:
            bench.left(f"there is no {host}")
            continue
        port = taken.getsockname()[1]
        with taken, open("j", "wb") as journal:
            words = [bench.program, "serve", "c.conf", "--port", str(port)]
            ran = subprocess.run(words, stdin=subprocess.DEVNULL, stdout=subprocess.PIPE, stderr=journal, timeout=60)
        bench.same(f"taken at {host}", f"{ran.stdout.decode().strip()}, status {ran.returncode}", "error net, status 9")
        bench.same(f"taken at {host}, the port", Path("j").read_text(), f"aclproxy: port {port}: Address already in use (os error 98)\n")
    server = bench.start(PLAIN)
    port = bench.port
    words = [bench.program, "serve", "c.conf", "--port", str(port)]
    other = subprocess.run(words, stdin=subprocess.DEVNULL, stdout=subprocess.PIPE, stderr=subprocess.PIPE, timeout=60)
    bench.same("taken by another server", f"{other.stdout.decode().strip()}, status {other.returncode}", "error net, status 9")
    bench.same("the port", other.stderr.decode(), f"aclproxy: port {port}: Address already in use (os error 98)\n")
    bench.port = port
    bench.same("that one", bench.get("/"), hello())
    bench.same("its end", bench.ends(server), "stopped status 0")


def killed_under_load(bench: Bench) -> None:
    """A server that is killed leaves whole lines and at most one that is cut off, which are verified; its helpers end by themselves."""
    denied = own("403 Forbidden", "denied rule 1")
    for turn, name in enumerate(["KILL", "KILL", "KILL", "TERM", "INT", "HUP", "KILL"]):
        server = bench.start(ASKING, "--workers", "8")
        load = Load(bench, ["/", "/ask/a", "/ask/no", "/ask/slow", "/big"], {hello(), denied, BIG}, 8)
        until(PATIENCE, lambda: load.replies > 20 + 10 * turn)
        load.ended = True
        what = getattr(signal, "SIG" + name)
        os.kill(server.pid, what)
        bench.same(f"{turn + 1}, {name}, its end", f"{server.hear(PATIENCE)} status {server.ends(PATIENCE)}", f"its end status {-what}")
        load.end()
        bench.same(f"{turn + 1}, {name}, replies before", load.odd, [])
        bench.same(f"{turn + 1}, {name}, its journal", bench.verify(), "verified")
        until(10, lambda: not helpers_left())
        bench.same(f"{turn + 1}, {name}, helpers are left", helpers_left(), [])


def stopped_and_continued(bench: Bench) -> None:
    """Nothing is lost while it stands still: what was asked is answered once it goes on, orders too."""
    server = bench.start(ASKING, "--workers", "8")
    denied = own("403 Forbidden", "denied rule 1")
    load = Load(bench, ["/", "/ask/a", "/ask/no", "/ask/slow"], {hello(), denied}, 8)
    for turn in range(4):
        until(PATIENCE, lambda: load.replies > 10 * (turn + 1))
        os.kill(server.pid, signal.SIGSTOP)
        server.order("reconfigure\n")
        time.sleep(1.2)
        waiting = [bench.connect() for _ in range(3)]
        for link in waiting:
            link.sendall(bench.request("/ask/a", "Connection: close"))
        bench.same(f"{turn + 1}, it stands still", stat_of(server.pid)[0], "T")
        os.kill(server.pid, signal.SIGCONT)
        bench.same(f"{turn + 1}, an order", server.hear(PATIENCE), f"reconfigured {turn + 2}")
        bench.same(f"{turn + 1}, those that waited", [all_of(link) for link in waiting], [hello()] * 3)
    load.end()
    bench.same("replies", load.odd, [])
    bench.same("its end", bench.ends(server), "stopped status 0")
    bench.same("its journal", bench.verify(), "verified")


def helper_that_is_stopped(bench: Bench) -> None:
    """A helper that is silent lets its checks wait; once it goes on they are answered."""
    server = bench.start(ASKING, "--workers", "4")
    bench.same("before", bench.get("/ask/a"), hello())
    pid = int(Path("pids").read_text().split()[0])
    os.kill(pid, signal.SIGSTOP)
    with bench.connect() as link:
        link.sendall(bench.request("/ask/b", "Connection: close"))
        link.settimeout(1)
        bench.same("while it stands still", all_of(link), b"<too slow>")
        bench.same("another request", bench.get("/"), hello())
        os.kill(pid, signal.SIGCONT)
        link.settimeout(PATIENCE)
        bench.same("then", all_of(link), hello())
    bench.same("its end", bench.ends(server), "stopped status 0")
    bench.same("its journal", bench.verify(), "verified")


def helpers_that_are_silent_for_long(bench: Bench) -> None:
    """Checks of sixteen configurations may be open; then the configuration stays, and others are answered. Each is answered by its own."""
    server = bench.start(ASKING, "--workers", "20")
    links = []
    for turn in range(16):
        link = bench.connect()
        link.sendall(bench.request(f"/ask/wait/{turn}", "Connection: close"))
        links.append(link)
        until(PATIENCE, lambda: f"/ask/wait/{turn}%20-" in Path("journal").read_text())
        # What comes later denies what those before allow.
        Path("squid.conf").write_text(f"# {turn}\n" + ASKING.replace("allow localhost", "deny localhost"))
        server.order("reconfigure\n")
        bench.same(f"an order with checks of {turn + 1} open", server.hear(PATIENCE), f"reconfigured {turn + 2}" if turn < 15 else "kept old epochs")
    bench.same("another request", bench.get("/"), own("403 Forbidden", "denied rule 2"))
    Path("go").write_text("")
    wanted = [hello()] + [own("403 Forbidden", "denied rule 2")] * 15
    bench.same("those that waited", [all_of(link) for link in links], wanted)
    server.order("reconfigure\n")
    bench.same("an order, later", server.hear(PATIENCE), "reconfigured 17")
    bench.same("its end", bench.ends(server), "stopped status 0")
    bench.same("its journal", bench.verify(), "verified")


def library_of_clocks() -> Iterator[str]:
    for path in Path("/usr/lib").glob("*/faketime/libfaketimeMT.so.1"):
        yield str(path)


def clock_that_jumps(bench: Bench) -> None:
    """Moments never fall: a clock that falls stands still for the machine. Hours of `time` and the ttl of answers go by these moments."""
    library = next(library_of_clocks(), None)
    if library is None:
        return bench.left("there is no libfaketime")

    def jump(seconds: int) -> None:
        Path("clock.new").write_text(f"{seconds:+d}")
        os.rename("clock.new", "clock")

    now = int(time.time())
    # By UTC: a day that is here in 12 hours and not now.
    jump(0)
    later = now + 12 * 3600
    first, last = (time.strftime("%H:%M", time.gmtime(later + shift)) for shift in (-5400, 5400))
    hours = f"acl hours time {first}-{last}\n"
    if first > last:
        hours = f"acl hours time {first}-24:00\nacl hours time 00:00-{last}\n"
    text = hours + "acl timed url_regex /timed\n" + ASKING.replace("http_access deny asked", "http_access deny timed !hours\nhttp_access deny asked")
    more = {"LD_PRELOAD": library, "FAKETIME_TIMESTAMP_FILE": os.path.abspath("clock"), "FAKETIME_NO_CACHE": "1"}
    server = bench.start(text, "--workers", "4", more=more)
    denied = own("403 Forbidden", "denied rule 1")

    def moments() -> list[int]:
        return [int(line.split()[2]) for line in Path("journal").read_text().splitlines()[1:] if line.count(" ") > 2]

    bench.same("by day", bench.get("/timed"), denied)
    if not abs(moments()[-1] - time.time() * 1000) < 60_000:
        return bench.left("libfaketime gives another clock")
    bench.same("a helper is asked", bench.get("/ask/a"), hello())
    jump(12 * 3600)
    bench.same("12 hours later", bench.get("/timed"), hello())
    asked = Path("journal").read_text().count("=> send ")
    bench.same("its answer is no longer fresh", bench.get("/ask/a"), hello())
    bench.same("the helper is asked again", Path("journal").read_text().count("=> send "), asked + 1)
    if not moments()[-1] - now * 1000 > 11 * 3600 * 1000:
        return bench.left("the program's clock does not go by libfaketime")
    jump(-3600)
    bench.same("the clock falls by 13 hours: it stands still", bench.get("/timed"), hello())
    at = moments()[-1]
    time.sleep(1.2)
    asked = Path("journal").read_text().count("=> send ")
    bench.same("an answer stays fresh, since no time goes by", bench.get("/ask/a"), hello())
    bench.same("nobody is asked", Path("journal").read_text().count("=> send "), asked)
    bench.same("the moment", moments()[-1], at)
    server.order("reconfigure\n")
    bench.same("an order", server.hear(PATIENCE), "reconfigured 2")
    load = Load(bench, ["/", "/ask/b", "/ask/no"], {hello(), own("403 Forbidden", "denied rule 2")}, 4)
    for turn in range(12):
        jump([0, 86_400, -86_400, 3, 43_200, -1][turn % 6])
        time.sleep(0.15)
    load.end()
    bench.same("replies while it jumps", load.odd, [])
    all_ = moments()
    bench.same("moments never fall", all_ == sorted(all_), True)
    bench.same("its end", bench.ends(server), "stopped status 0")
    bench.same("its journal", bench.verify(), "verified")


def clock_that_falls_under_a_pool(bench: Bench) -> None:
    """A bucket gains by the machine's moments: a clock that falls brings nothing, and one that jumps ahead fills it once, to its maximum."""
    library = next(library_of_clocks(), None)
    if library is None:
        return bench.left("there is no libfaketime")
    Path("clock").write_text("+0")
    pools = "delay_pools 1\ndelay_class 1 1\ndelay_parameters 1 1000/20000\ndelay_access 1 allow localhost\ndelay_initial_bucket_level 100\n"
    more = {"LD_PRELOAD": library, "FAKETIME_TIMESTAMP_FILE": os.path.abspath("clock"), "FAKETIME_NO_CACHE": "1"}
    server = bench.start(PLAIN + pools, "--workers", "4", more=more)
    with bench.connect() as link:
        link.sendall(bench.request("/big", "Connection: close"))
        got = take_for(link, 2.0)
        bench.same("a full bucket, and what two or three seconds bring", 20_000 <= got <= 23_000, True)
        Path("clock").write_text("-7200")
        time.sleep(0.2)
        take_for(link, 0.3)
        bench.same("the clock falls: nothing comes", take_for(link, 2.5), 0)
        Path("clock").write_text("+86400")
        bench.same("it jumps ahead: one full bucket, and what two seconds bring", 20_000 <= take_for(link, 1.5) <= 22_000, True)
    bench.same("its end", bench.ends(server), "stopped status 0")
    bench.same("its journal", bench.verify(), "verified")


def take_for(link: socket.socket, seconds: float) -> int:
    """How many bytes come in this time."""
    end = time.monotonic() + seconds
    got = 0
    while (left := end - time.monotonic()) > 0:
        link.settimeout(left)
        try:
            more = link.recv(65536)
        except TimeoutError:
            break
        if not more:
            break
        got += len(more)
    link.settimeout(PATIENCE)
    return got


FAULTS: list[Callable[[Bench], None]] = [
    few_files_at_the_start,
    no_files_while_it_runs,
    an_order_without_files,
    an_end_without_files,
    little_memory_at_the_start,
    little_memory_and_it_serves,
    no_memory_while_it_runs,
    commands_without_memory,
    full_disk,
    file_that_may_not_grow,
    full_disk_under_load,
    journal_into_a_pipe,
    closed_streams,
    output_that_fails,
    helpers_that_cannot_start,
    no_processes,
    port_that_is_taken,
    killed_under_load,
    stopped_and_continued,
    helper_that_is_stopped,
    helpers_that_are_silent_for_long,
    clock_that_jumps,
    clock_that_falls_under_a_pool,
]


def tried(test: str, text: str, faults: list[Callable[[Bench], None]]) -> int:
    """Tries the faults of a test that the command line names, or all of them; its status. `text` says what the test is."""
    parser = argparse.ArgumentParser(description=text, formatter_class=argparse.RawDescriptionHelpFormatter)
    parser.add_argument("names", nargs="*", metavar="NAME", help=f"some of: {', '.join(fault.__name__ for fault in faults)}")
    parser.add_argument("--program", default=str(HERE.parent / "crates/sq_main/out/sq_main"))
    options = parser.parse_args()
    program = os.path.abspath(options.program)
    if not os.access(program, os.X_OK):
        parser.error(f"{program} is no program: build it first, or name it by --program")
    bench = Bench(program, test)
    top = tempfile.mkdtemp(prefix=f"{test}.")
    os.chmod(top, 0o755)

    def give_up(*_: object) -> None:
        print(f"{test}, {bench.fault}: it has not come to its end in time", flush=True)
        for one in bench.servers:
            one.kill()
        os._exit(1)

    signal.signal(signal.SIGALRM, give_up)
    for fault in faults:
        if options.names and fault.__name__ not in options.names:
            continue
        bench.fault = fault.__name__.replace("_", " ")
        folder = os.path.join(top, fault.__name__)
        os.mkdir(folder)
        os.chdir(folder)
        Path("helper").write_text(HELPER)
        signal.alarm(600)
        try:
            fault(bench)
        except Exception as what:  # a fault that cannot be tried to its end is one that failed
            bench.failed += 1
            print(f"{test}, {bench.fault}: {type(what).__name__}: {what}")
        finally:
            for one in bench.servers:
                one.kill()
            bench.servers.clear()
        sys.stdout.flush()
    os.chdir("/")
    if bench.failed:
        print(f"{test}: what they left stands in {top}")
    else:
        shutil.rmtree(top)
    print(f"{test}: {bench.passed} checks as expected, {bench.known} known findings, {bench.left_out} left out, {bench.failed} failed")
    return 1 if bench.failed else 0


if __name__ == "__main__":
    sys.exit(tried("faults", __doc__ or "", FAULTS))
