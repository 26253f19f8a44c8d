#!/usr/bin/env python3
"""The access log of `aclproxy serve` on the loopback: tests/access.py [--program PROGRAM] [--namespaces] [NAME ..]

Each function below says first what must hold by docs/OPERATING.md. The lines are compared whole, but for their times. With
--namespaces those are tried, too, that need a name server of their own, which root can have in a namespace. The status is 0 where
all holds. Python 3.11 and its standard library are what it needs.
"""

import argparse
import fcntl
import os
import re
import resource
import shutil
import signal
import socket
import struct
import subprocess
import sys
import tempfile
import threading
import time
from pathlib import Path
from typing import Callable

sys.dont_write_bytecode = True

from chaos_parts.server import Server, free_port, reply_of, until  # noqa: E402
from checks import tried  # noqa: E402
from memory import LIBRARY, Control  # noqa: E402

HERE = Path(__file__).resolve().parent
PATIENCE = 30.0  # the seconds after which a wait has failed
SECONDS = 120  # after which a check has failed
MORE_THAN_HEAD = 70_000  # bytes of a head that is too long
CONF = "acl CONNECT method CONNECT\nacl SSL_ports port 1-65535\nacl denied url_regex /denied\nhttp_access deny denied\nhttp_access allow all\n"
LINE = re.compile(
    r"(?P<moment>[0-9]+\.[0-9]{3}) (?P<elapsed> *[0-9]+) (?P<client>\S+) (?P<code>[A-Z_]+/[0-9]{3}) (?P<bytes>[0-9]+) (?P<request>\S+ \S+) - "
    r"(?P<way>\S+) (?P<type>\S+) conn=(?P<conn>[0-9]+)(?: check=(?P<check>[0-9]+))?(?: rule=(?P<rule>[0-9]+))?(?: tag=(?P<tag>[!-~]+))?(?: cause=(?P<cause>[a-z_]+))?"
    r" in=(?P<in>[0-9]+)(?: up=(?P<up>[0-9]+) down=(?P<down>[0-9]+))?"
)
# A helper that names a tag by the path, and rules that ask it for two words of which the second one has another tag.
TAGGING = """#!/bin/sh
while read -r path word rest; do
    case $path$word in
    /plainfirst) echo OK ;;
    *second) echo 'OK tag=second' ;;
    /denied*) echo 'ERR tag=denied' ;;
    /odd*) printf '%s\\n' 'OK user=a tag="a \\"b%20" tag=later' ;;
    /empty*) echo 'OK tag=' ;;
    /broken*) echo 'BH tag=broken' ;;
    *) echo 'OK tag=first' ;;
    esac
done
"""
TAGS = """external_acl_type who ttl=0 negative_ttl=0 %>rp ./helper.sh
acl first external who first
acl second external who second
http_access deny !first
http_access allow second
"""
DROPPED = re.compile(r"access log: ([0-9]+) lines were dropped")


class Origin:
    """Answers by a request's path, which it reads with its body, and keeps what it read and wrote for each path."""

    def __init__(self) -> None:
        self.listener = socket.create_server(("127.0.0.1", 0), backlog=512)
        self.port = self.listener.getsockname()[1]
        self.read: dict[str, int] = {}
        self.written: dict[str, int] = {}
        threading.Thread(target=self.accept, daemon=True).start()

    def accept(self) -> None:
        while True:
            link, _ = self.listener.accept()
            threading.Thread(target=self.answer, args=(link,), daemon=True).start()

    def answer(self, link: socket.socket) -> None:
        with link:
            try:
                text = b""
                while b"\r\n\r\n" not in text:
                    more = link.recv(65536)
                    if not more:
                        return
                    text += more
                    if text.startswith(b"echo"):
                        link.sendall(text)
                        self.echo(link)
                        return
                head, body = text.split(b"\r\n\r\n", 1)
                found = re.search(rb"(?i)\r\ncontent-length: (\d+)", head)
                while found and len(body) < int(found[1]):
                    body += link.recv(65536)
                path = head.split(b" ")[1].decode("latin-1")
                self.read[path] = len(head) + 4 + len(body)
                self.reply(link, path, head)
            except OSError:
                pass

    def reply(self, link: socket.socket, path: str, head: bytes) -> None:
        if path == "/silent":
            time.sleep(PATIENCE)
            return
        if path == "/drip":
            link.sendall(b"HTTP/1.1 200 OK\r\nContent-Length: 1000000\r\n\r\n")
            while True:
                link.sendall(b"x" * 1000)
                time.sleep(0.02)
        text = {
            "/nothing": b"",
            "/ssh": b"SSH-2.0-OpenSSH_9.2\r\n\r\n",
            "/part-of-head": b"HTTP/1.1 200 OK\r\nContent-Le",
            "/part-of-body": b"HTTP/1.1 200 OK\r\nContent-Length: 100\r\n\r\n" + b"x" * 10,
            "/missing": b"HTTP/1.1 404 Not Found\r\nContent-Length: 0\r\n\r\n",
        }.get(path, b"HTTP/1.1 200 OK\r\nContent-Length: 5\r\n\r\n" + (b"" if head.startswith(b"HEAD") else b"hello"))
        self.written[path] = len(text)
        link.sendall(text)
        if path == "/ssh":
            time.sleep(2)

    def echo(self, link: socket.socket) -> None:
        while text := link.recv(65536):
            link.sendall(text)


class Bench:
    """What the checks share: the program, an origin, and what was found."""

    def __init__(self, program: str) -> None:
        self.program = program
        self.origin = Origin()
        self.failed = 0
        self.wrong = 0
        self.what = ""
        self.servers: list[Server] = []
        self.log = Path("access.log")
        self.port = 0
        self.seen = 0

    def check(self, what: str, holds: bool, got: object = "") -> None:
        print(f"access, {self.what}, {what}: {'as expected' if holds else f'it was {got!r}'}")
        self.wrong += not holds

    def same(self, what: str, got: object, expected: object) -> None:
        self.check(what, got == expected, f"{got!r} and not {expected!r}")

    def start(
        self, workers: int = 4, conf: str = CONF, log: str | None = "access.log", before: Callable[[], None] | None = None,
        variables: dict[str, str] | None = None,
    ) -> Server:
        Path("squid.conf").write_text(conf)
        self.port = free_port()
        self.seen = 0
        more = {"ACLPROXY_MESSAGES": "messages"} | ({"ACLPROXY_ACCESS_LOG": log} if log is not None else {}) | (variables or {})
        server = Server(self.program, ["squid.conf", "--port", str(self.port), "--workers", str(workers)], "journal", before, more)
        self.servers.append(server)
        said = server.hear(PATIENCE)
        if said != f"listening {self.port}":
            raise AssertionError(f"it says {said}")
        return server

    def stop(self, server: Server) -> None:
        server.order("shutdown\n")
        self.same("its end", f"{server.hear(PATIENCE)}, status {server.ends(5)}", "stopped, status 0")

    def verify(self) -> None:
        text = Path("journal").read_bytes()
        ran = subprocess.run([self.program, "verify", "squid.conf", "journal"], capture_output=True, timeout=300)
        self.same("its journal", ran.stdout.decode().strip(), f"verified {text.count(b'%c' % 10) - 1}")

    def connect(self) -> socket.socket:
        link = socket.create_connection(("127.0.0.1", self.port), timeout=PATIENCE)
        link.settimeout(PATIENCE)
        return link

    def head(self, path: str, method: str = "GET", host: str = "", more: str = "") -> bytes:
        return f"{method} http://{host or self.at()}{path} HTTP/1.1\r\nHost: a\r\n{more}\r\n".encode("latin-1")

    def at(self) -> str:
        return f"127.0.0.1:{self.origin.port}"

    def send(self, text: bytes) -> bytes:
        """What comes for a request over a connection of its own, which then ends."""
        with self.connect() as link:
            link.sendall(text)
            link.shutdown(socket.SHUT_WR)
            return all_of(link)

    def ask(self, text: bytes) -> bytes:
        """The reply to a request over a connection of its own, whose client stays until it is there."""
        with self.connect() as link:
            link.sendall(text)
            return reply_of(link)

    def lines(self) -> list[str]:
        text = self.log.read_text("latin-1") if self.log.exists() else ""
        return text[: text.rfind("\n") + 1].splitlines()

    def next_line(self) -> dict[str, str]:
        """The parts of the next line of the log, each of which has the form of all lines."""
        if not until(PATIENCE, lambda: len(self.lines()) > self.seen):
            raise AssertionError("no line came")
        line = self.lines()[self.seen]
        self.seen += 1
        match = LINE.fullmatch(line)
        if match is None:
            raise AssertionError(f"it is no line: {line!r}")
        if len(match["elapsed"]) < 6 or not match["client"] == "127.0.0.1" or abs(float(match["moment"]) - time.time()) > PATIENCE:
            raise AssertionError(f"its beginning is wrong: {line!r}")
        return {name: value for name, value in match.groupdict().items() if value is not None}

    def expect(self, what: str, expected: str, sent: int | None = None, **counts: int) -> dict[str, str]:
        """The next line, whose words from the code to the cause are these, but for the count of bytes, and which has these counts."""
        line = self.next_line()
        cause = f" {line['cause']}" if "cause" in line else ""
        self.same(what, f"{line['code']} {line['request']} {line['way']} {line['type']}{cause}", expected)
        counts |= {} if sent is None else {"bytes": sent}
        self.same(f"{what}, counts", {name: int(line.get(name, -1)) for name in counts}, counts)
        return line


def all_of(link: socket.socket) -> bytes:
    """All that comes until the end."""
    out = b""
    try:
        while more := link.recv(65536):
            out += more
    except OSError:
        pass
    return out


def reset(link: socket.socket) -> None:
    link.setsockopt(socket.SOL_SOCKET, socket.SO_LINGER, struct.pack("ii", 1, 0))
    link.close()


def tunnel(bench: Bench) -> tuple[socket.socket, int]:
    """A tunnel in which a line came back, and how many bytes its request has."""
    link = bench.connect()
    text = f"CONNECT {bench.at()} HTTP/1.1\r\nHost: a\r\n\r\n".encode()
    link.sendall(text)
    if not reply_of(link).startswith(b"HTTP/1.1 200 "):
        raise AssertionError("there is no tunnel")
    link.sendall(b"echo\n")
    if link.recv(100) != b"echo\n":
        raise AssertionError("nothing came back")
    return link, len(text)


# The checks.


def outcomes(bench: Bench) -> None:
    """A line for each request, whatever became of it, with the numbers of its connection, its check and its rule."""
    server = bench.start()
    at, origin = bench.at(), bench.origin
    for method, path, status in (("GET", "/hello", 200), ("HEAD", "/head", 200), ("GET", "/missing", 404)):
        text = bench.head(path, method)
        reply = bench.send(text)
        line = bench.expect(
            f"{method} {path}", f"TCP_MISS/{status} {method} http://{at}{path} HIER_DIRECT/127.0.0.1 -", len(reply),
            **{"in": len(text), "up": origin.read[path], "down": origin.written[path], "rule": 2},
        )
    body = b"y" * 100_000
    text = bench.head("/post", "POST", more=f"Content-Length: {len(body)}\r\n") + body
    reply = bench.send(text)
    line = bench.expect(
        "POST", f"TCP_MISS/200 POST http://{at}/post HIER_DIRECT/127.0.0.1 -", len(reply), **{"in": len(text), "up": origin.read["/post"], "down": origin.written["/post"]}
    )
    # Two requests of one connection, with a denied one between them.
    check = int(line["check"])
    conns = set()
    with bench.connect() as link:
        for number, (path, expected) in enumerate((
            ("/one", f"TCP_MISS/200 GET http://{at}/one HIER_DIRECT/127.0.0.1 -"),
            ("/denied", f"TCP_DENIED/403 GET http://{at}/denied HIER_NONE/- text/plain"),
            ("/two", f"TCP_MISS/200 GET http://{at}/two HIER_DIRECT/127.0.0.1 -"),
        )):
            text = bench.head(path)
            link.sendall(text)
            reply = reply_of(link)
            line = bench.expect(path, expected, len(reply), **{"in": len(text), "check": check + 1 + number, "rule": 1 if path == "/denied" else 2})
            conns.add(line["conn"])
            bench.check(f"{path}, an origin's bytes", ("up" in line) == (path != "/denied"), line)
    bench.same("one connection", len(conns), 1)
    # The end of a connection on which requests came is no line of its own.
    time.sleep(0.3)
    link, size = tunnel(bench)
    link.sendall(b"z" * 1000)
    got = 0
    while got < 1000:
        got += len(link.recv(65536))
    link.close()
    line = bench.expect("a tunnel", f"TCP_TUNNEL/200 CONNECT {at} HIER_DIRECT/127.0.0.1 -", **{"in": size + 1005, "up": 1005, "down": 1005})
    bench.check("a tunnel, bytes to the client", int(line["bytes"]) > 1005, line)
    bench.stop(server)
    bench.verify()
    journal = Path("journal").read_text()
    asked = {check: conn for conn, check in re.findall(r" ask ([0-9]+) .* => check ([0-9]+)\n", journal)}
    taken = re.findall(r" take ([0-9]+) => \S+ \S+ (denied|allowed) rule ([0-9]+)", journal)
    logged = re.findall(r"^\S+ +\S+ \S+ TCP_(DENIED|MISS|TUNNEL)\S* .* conn=([0-9]+) check=([0-9]+) rule=([0-9]+)", bench.log.read_text(), re.M)
    bench.same(
        "the checks of the journal", sorted((int(check), conn, rule, code == "DENIED") for code, conn, check, rule in logged),
        sorted((int(check), asked[check], rule, verdict == "denied") for check, verdict, rule in taken),
    )


def own_replies(bench: Bench) -> None:
    """The proxy's own replies, and links without a request."""
    server = bench.start()
    for what, text, expected in (
        ("no request", b"what is this\r\n\r\n", "NONE/400 NONE error:invalid-request HIER_NONE/- text/plain"),
        ("a head that is too long", bench.head("/", more=f"A: {'a' * MORE_THAN_HEAD}\r\n"), "NONE/431 NONE error:request-too-large HIER_NONE/- text/plain"),
    ):
        with bench.connect() as link:
            link.sendall(text)
            reply = reply_of(link)
            bench.expect(what, expected, len(reply))
    text = b"GET ftp://127.0.0.1/ HTTP/1.1\r\nHost: a\r\n\r\n"
    reply = bench.send(text)
    bench.expect("a scheme that is not served", "NONE/501 GET ftp://127.0.0.1/ HIER_NONE/- text/plain", len(reply), **{"in": len(text), "rule": 2})
    bench.connect().close()
    line = bench.expect("a link that says nothing", "NONE/000 NONE error:transaction-end-before-headers HIER_NONE/- -", 0, **{"in": 0})
    bench.check("its check", "check" not in line, line)
    bench.send(b"GET http://")
    bench.expect("a part of a head", "NONE_ABORTED/000 NONE error:transaction-end-before-headers HIER_NONE/- - client_gone", 0, **{"in": 11})
    bench.stop(server)
    bench.verify()


def tags(bench: Bench) -> None:
    """A line has the first tag that helpers gave the request, allowed or denied, escaped, and none where they gave none."""
    Path("helper.sh").write_text(TAGGING)
    Path("helper.sh").chmod(0o755)
    server = bench.start(conf=TAGS)
    for path, rule, tag in (
        ("/hello", "2", "first"), ("/plain", "2", "second"), ("/denied", "1", "denied"), ("/odd", "2", "a%20%22b%20"), ("/empty", "2", "-"),
        ("/broken", "1", None),
    ):
        bench.ask(bench.head(path))
        line = bench.next_line()
        bench.same(f"the tag of {path}", (line.get("rule"), line.get("tag")), (rule, tag))
    bench.stop(server)
    bench.verify()


def redirects(bench: Bench) -> None:
    """A redirect of the rewriter, and a request that goes on in another's place, whose line has the target that the client asked for."""
    Path("rewriter").write_text(
        "while read -r url rest; do case $url in\n"
        "*/moved) echo 'OK status=308 url=\"http://new.example/\"' ;;\n"
        f"*/other) echo 'OK rewrite-url=\"http://{bench.at()}/placed\"' ;;\n"
        "*) echo ERR ;;\nesac; done\n"
    )
    server = bench.start(conf="url_rewrite_program /bin/sh rewriter\nurl_rewrite_children 1\n" + CONF)
    reply = bench.send(bench.head("/moved"))
    bench.expect("a redirect", f"TCP_REDIRECT/308 GET http://{bench.at()}/moved HIER_NONE/- -", len(reply))
    reply = bench.send(bench.head("/other"))
    bench.expect("another target", f"TCP_MISS/200 GET http://{bench.at()}/other HIER_DIRECT/127.0.0.1 -", len(reply), down=bench.origin.written["/placed"])
    bench.stop(server)


def faults(bench: Bench) -> None:
    """What an origin does wrong, or who is not there."""
    server = bench.start()
    at = bench.at()
    with socket.socket() as nobody:
        nobody.bind(("127.0.0.1", 0))
        port = nobody.getsockname()[1]
        for what, host, path, expected in (
            ("refused", f"127.0.0.1:{port}", "/", f"TCP_MISS/502 GET http://127.0.0.1:{port}/ HIER_DIRECT/127.0.0.1 text/plain refused"),
            ("unreachable", "224.0.0.1", "/", "TCP_MISS/502 GET http://224.0.0.1/ HIER_DIRECT/224.0.0.1 text/plain unreachable"),
            ("no spelling of a host", "127.1", "/", "TCP_MISS/502 GET http://127.1/ HIER_NONE/- text/plain name_not_found"),
            ("no HTTP", "", "/ssh", f"TCP_MISS/502 GET http://{at}/ssh HIER_DIRECT/127.0.0.1 text/plain not_http"),
            ("cut off before a byte", "", "/nothing", f"TCP_MISS/502 GET http://{at}/nothing HIER_DIRECT/127.0.0.1 text/plain cut_off"),
            ("cut off in the head", "", "/part-of-head", f"TCP_MISS/502 GET http://{at}/part-of-head HIER_DIRECT/127.0.0.1 text/plain cut_off"),
            ("cut off in the body", "", "/part-of-body", f"TCP_MISS/200 GET http://{at}/part-of-body HIER_DIRECT/127.0.0.1 - cut_off"),
        ):
            with bench.connect() as link:
                link.sendall(bench.head(path, host=host))
                reply = reply_of(link)
                bench.expect(what, expected, len(reply))
        text = f"CONNECT 127.0.0.1:{port} HTTP/1.1\r\nHost: a\r\n\r\n".encode()
        with bench.connect() as link:
            link.sendall(text)
            reply = reply_of(link)
        bench.expect("a tunnel that is refused", f"TCP_TUNNEL/502 CONNECT 127.0.0.1:{port} HIER_DIRECT/127.0.0.1 text/plain refused", len(reply), **{"in": len(text)})
    # A client that leaves within the reply, and one that leaves while nothing comes.
    for path, status in (("/drip", 200), ("/silent", 0)):
        link = bench.connect()
        link.sendall(bench.head(path))
        if status:
            link.recv(1000)
        time.sleep(0.3)
        reset(link)
        line = bench.next_line()
        code = "TCP_MISS_ABORTED/200" if status else line["code"]
        bench.same(f"a client that leaves, {path}", (line["code"], line.get("cause")), (code, "client_gone"))
        bench.check(f"a client that leaves, {path}, its code", line["code"].startswith("TCP_MISS_ABORTED/"), line)
    # The name is none that anybody has. Without a name server nothing says so.
    bench.send(bench.head("/", host="nowhere.invalid"))
    line = bench.next_line()
    bench.check("no such name", line.get("cause") in ("name_not_found", "lookup_failed") and line["way"] == "HIER_NONE/-", line)
    bench.stop(server)


def no_thread(bench: Bench) -> None:
    """A tunnel for which no thread can be had."""
    server = bench.start(2)
    link = bench.connect()
    link.sendall(bench.head("/hello"))
    reply_of(link)
    bench.next_line()
    size = server.value("VmSize") << 10
    old = resource.getrlimit(resource.RLIMIT_AS)
    resource.prlimit(server.pid, resource.RLIMIT_AS, (size, old[1]))
    try:
        with bench.connect() as other:
            other.sendall(f"CONNECT {bench.at()} HTTP/1.1\r\nHost: a\r\n\r\n".encode())
            reply = reply_of(other)
    finally:
        resource.prlimit(server.pid, resource.RLIMIT_AS, old)
    bench.expect("a tunnel", f"TCP_TUNNEL/502 CONNECT {bench.at()} HIER_NONE/- text/plain no_thread", len(reply))
    link.close()
    bench.stop(server)


def out_of_memory(bench: Bench) -> None:
    """Requests of each of which another allocation is refused, until none is. A dial that gets no memory and a reply of the proxy's
    own that is out of memory have it as their cause, a line has the status that its client got, and a line for which there was no memory is counted as dropped."""
    if shutil.which("cc") is None:
        print("access, out of memory: left out, since there is no cc")
        return
    Path("refusing.c").write_text(LIBRARY)
    subprocess.run(["cc", "-O1", "-shared", "-fPIC", "-o", "refusing.so", "refusing.c", "-ldl"], check=True)
    control = Control(Path("control"), 0, False)
    server = bench.start(1, variables={"LD_PRELOAD": os.path.abspath("refusing.so"), "REFUSING": os.path.abspath("control")})
    bench.ask(bench.head("/hello"))
    bench.next_line()
    causes: dict[str, int] = {}
    dropped = 0
    for number in range(1, 1000):
        control.refuse(number)
        try:
            reply = bench.ask(bench.head("/hello"))
        except OSError:
            reply = b""
        control.end()
        if not control.refused:
            break
        # One worker writes one line after the other, so that of the next request stands behind that of this one, if it is there.
        bench.ask(bench.head("/behind"))
        line = bench.next_line()
        if line["request"].endswith("/behind"):
            dropped += 1
            continue
        if not bench.next_line()["request"].endswith("/behind"):
            raise AssertionError(f"two lines for one request: {line}")
        status, cause = line["code"].rpartition("/")[2], line.get("cause", "none")
        causes[cause] = causes.get(cause, 0) + 1
        if reply and reply.split(b" ")[1] != status.encode() or status in ("500", "502") and cause != "out_of_memory":
            bench.check(f"where allocation {number} is refused", False, (reply[:40], line))
    bench.check("allocations that are refused", number > 10, number)
    bench.check("causes", set(causes) <= {"none", "out_of_memory"} and causes.get("out_of_memory", 0) > 0, causes)
    bench.stop(server)
    said = [int(match[1]) for match in map(DROPPED.fullmatch, Path("messages").read_text().splitlines()) if match]
    # Where there is no memory for what is noted of a connection its end counts, too.
    bench.check("lines that were dropped", 0 < dropped <= sum(said) <= 2 * dropped, (said, dropped))


def ends(bench: Bench) -> None:
    """Links that end by a limit of time, since others wait, and since the server is stopped."""
    server = bench.start(2)
    at = bench.at()
    with socket.socket() as listener:
        # The system drops who comes to a full queue.
        listener.bind(("127.0.0.1", 0))
        listener.listen(0)
        port = listener.getsockname()[1]
        full = []
        for _ in range(4):
            full.append(socket.socket())
            full[-1].setblocking(False)
            full[-1].connect_ex(listener.getsockname())
        reply = bench.ask(bench.head("/", host=f"127.0.0.1:{port}"))
        bench.expect("timed out", f"TCP_MISS_TIMEDOUT/502 GET http://127.0.0.1:{port}/ HIER_DIRECT/127.0.0.1 text/plain timed_out", len(reply))
        for one in full:
            one.close()
    # Two links hold both workers: a tunnel that is silent, and one that says nothing. Another client gets the worker of the second.
    silent, _ = tunnel(bench)
    unused = bench.connect()
    time.sleep(0.5)
    bench.ask(bench.head("/hello"))
    bench.expect("gave way without a request", "NONE/000 NONE error:transaction-end-before-headers HIER_NONE/- - gave_way", 0, **{"in": 0})
    bench.expect("the client that waited", f"TCP_MISS/200 GET http://{at}/hello HIER_DIRECT/127.0.0.1 -")
    other, _ = tunnel(bench)
    begun = time.monotonic()
    bench.ask(bench.head("/hello"))
    bench.check("it waited", time.monotonic() - begun > 5, time.monotonic() - begun)
    bench.expect("gave way", f"TCP_TUNNEL/200 CONNECT {at} HIER_DIRECT/127.0.0.1 - gave_way")
    bench.expect("the other client that waited", f"TCP_MISS/200 GET http://{at}/hello HIER_DIRECT/127.0.0.1 -")
    bench.stop(server)
    bench.expect("shutdown", f"TCP_TUNNEL/200 CONNECT {at} HIER_DIRECT/127.0.0.1 - shutdown")
    for one in (silent, unused, other):
        one.close()


def escapes(bench: Bench) -> None:
    """Odd bytes of a target are escaped, and escapes stay."""
    server = bench.start()
    raw = "/a\"b'c%20d~\xe9?x=\x7f"
    reply = bench.send(bench.head(raw))
    line = bench.next_line()
    if reply.startswith(b"HTTP/1.1 400 "):
        # The target is refused, so no byte of it reaches the log.
        bench.same("a target that is refused", line["request"], "NONE error:invalid-request")
        raw = "/a\"b'c%20d~"
        bench.send(bench.head(raw))
        line = bench.next_line()
        bench.same("a target", line["request"], f"GET http://{bench.at()}/a%22b%27c%20d~")
    else:
        bench.same("a target", line["request"], f"GET http://{bench.at()}/a%22b%27c%20d~%E9?x=%7F")
    bench.stop(server)


def pipes(bench: Bench) -> None:
    """A pipe without a reader keeps nobody from being served. Lines that it does not take are dropped and counted."""
    os.mkfifo("access.pipe")
    server = bench.start(log="access.pipe")
    reader = os.open("access.pipe", os.O_RDWR | os.O_NONBLOCK)
    fcntl.fcntl(reader, 1031, 4096)  # F_SETPIPE_SZ
    link = bench.connect()
    for number in range(200):
        link.sendall(bench.head(f"/{number}"))
        bench.origin.read.clear()
        if not reply_of(link).endswith(b"hello"):
            raise AssertionError(f"request {number} was not answered")
    text = os.read(reader, 65536)
    first = text.decode().splitlines()
    bench.check("what it took is whole lines", text.endswith(b"\n") and all(LINE.fullmatch(line) for line in first), text)
    bench.check("it took some and not all", 5 < len(first) < 100, len(first))
    link.sendall(bench.head("/later"))
    reply_of(link)
    link.close()
    later = b""
    begun = time.monotonic()
    while b"\n" not in later and time.monotonic() - begun < PATIENCE:
        try:
            later += os.read(reader, 65536)
        except BlockingIOError:
            time.sleep(0.05)
    bench.check("a line once it is read", b"/later " in later and later.endswith(b"\n"), later)
    bench.stop(server)
    dropped = [int(count) for count in DROPPED.findall(Path("messages").read_text())]
    bench.same("the lines in all", len(first) + sum(dropped), 200)
    bench.check("messages are few", len(dropped) <= 2, dropped)
    os.close(reader)


def files(bench: Bench) -> None:
    """A file that goes away is made anew by `reconfigure`. One that cannot be opened stops nobody, and is said. Without the variable
    there is none."""
    server = bench.start()
    bench.send(bench.head("/one"))
    bench.expect("a line", f"TCP_MISS/200 GET http://{bench.at()}/one HIER_DIRECT/127.0.0.1 -")
    bench.log.rename("access.log.1")
    bench.send(bench.head("/two"))
    bench.check("a line behind the renaming", until(PATIENCE, lambda: "/two" in Path("access.log.1").read_text()), "none")
    bench.check("no file of the name", not bench.log.exists())
    server.order("reconfigure\n")
    bench.same("an order", server.hear(PATIENCE), "reconfigured 2")
    bench.seen = 0
    bench.send(bench.head("/three"))
    bench.expect("a line of the new file", f"TCP_MISS/200 GET http://{bench.at()}/three HIER_DIRECT/127.0.0.1 -")
    bench.same("the lines of the old one", len(Path("access.log.1").read_text().splitlines()), 2)
    bench.stop(server)
    bench.log.unlink()
    for log in ("no-such-folder/access.log", "/", None):
        Path("messages").unlink(missing_ok=True)
        server = bench.start(log=log)
        bench.check(f"a reply where the log is {log}", bench.send(bench.head("/hello")).endswith(b"hello"))
        bench.stop(server)
        said = Path("messages").read_text() if Path("messages").exists() else ""
        bench.same(f"what it says where the log is {log}", said, "access log: the file cannot be opened\naccess log: 1 lines were dropped\n" if log else "")
        bench.verify()
    bench.check("no file", not bench.log.exists())


class Names(threading.Thread):
    """A name server at 127.0.0.1: `nothing.test` is no name, and of `broken.test` it says that it has failed."""

    def __init__(self) -> None:
        super().__init__(daemon=True)
        self.socket = socket.socket(socket.AF_INET, socket.SOCK_DGRAM)
        self.socket.bind(("127.0.0.1", 53))
        self.start()

    def run(self) -> None:
        while True:
            question, peer = self.socket.recvfrom(4096)
            code = 2 if b"broken" in question else 3
            self.socket.sendto(question[:2] + bytes((0x81, 0x80 | code)) + question[4:6] + b"\0\0\0\0\0\0" + question[12:], peer)


def names(bench: Bench) -> None:
    """Names that are none, or cannot be asked for."""
    Names()
    server = bench.start()
    for host, cause in (("nothing.test", "name_not_found"), ("broken.test", "lookup_failed")):
        reply = bench.send(bench.head("/", host=host))
        bench.expect(host, f"TCP_MISS/502 GET http://{host}/ HIER_NONE/- text/plain {cause}", len(reply))
    bench.stop(server)


CHECKS = [outcomes, own_replies, tags, redirects, faults, no_thread, out_of_memory, escapes, pipes, files]
# One that waits most of its time is made beside the others.
SLOW_CHECKS = [ends]
OWN_CHECKS = [names]


def with_names(program: str) -> int:
    """Tries what needs a name server, in namespaces where this machine gives them."""
    spaces = ["unshare", "--user", "--map-root-user", "--net", "--mount"] if os.getuid() else ["unshare", "--net", "--mount"]
    folder = tempfile.mkdtemp()
    conf = Path(folder) / "resolv.conf"
    conf.write_text("nameserver 127.0.0.1\n")
    script = f'ip link set lo up && mount --bind {conf} /etc/resolv.conf && exec "$@"'
    words = [*spaces, "sh", "-c", script, "sh", sys.executable, __file__, "--program", program]
    if subprocess.run([*spaces, "sh", "-c", script, "sh", "true"], capture_output=True).returncode:
        print("access: left out what needs a name server, since this machine gives no namespaces")
        return 0
    return subprocess.run([*words, *[one.__name__ for one in OWN_CHECKS]]).returncode


def main() -> int:
    parser = argparse.ArgumentParser(description=__doc__, formatter_class=argparse.RawDescriptionHelpFormatter)
    known = {one.__name__: one for one in CHECKS + SLOW_CHECKS + OWN_CHECKS}
    parser.add_argument("names", nargs="*", metavar="NAME", help=f"some of: {', '.join(known)}")
    parser.add_argument("--program", default=str(HERE.parent / "crates/sq_main/out/sq_main"))
    parser.add_argument("--namespaces", action="store_true", help="try those, too, that need a name server")
    options = parser.parse_args()
    if unknown := [name for name in options.names if name not in known]:
        parser.error(f"there is no {unknown[0]}")
    program = os.path.abspath(options.program)
    if not os.access(program, os.X_OK):
        parser.error(f"{program} is no program: build it first, or name it by --program")
    beside = []
    for one in [] if options.names else SLOW_CHECKS:
        beside.append(subprocess.Popen([sys.executable, __file__, "--program", program, one.__name__], stdout=subprocess.PIPE, text=True))
    top = tempfile.mkdtemp(prefix="access.")
    bench = Bench(program)

    def give_up(*_: object) -> None:
        print(f"access, {bench.what}: it has not come to its end in time", flush=True)
        for server in bench.servers:
            server.kill()
        for one in beside:
            one.kill()
        os._exit(1)

    signal.signal(signal.SIGALRM, give_up)
    for check in [known[name] for name in options.names] or CHECKS:
        # A check whose times do not hold is made once more: what else the machine does may have taken a second away.
        if not tried("access", bench, check, os.path.join(top, check.__name__), SECONDS):
            print(f"access, {bench.what}: once more")
            bench.failed += not tried("access", bench, check, os.path.join(top, f"{check.__name__}-again"), SECONDS)
    signal.alarm(0)
    os.chdir("/")
    for one in beside:
        said, _ = one.communicate()
        print(said, end="")
        bench.failed += one.returncode != 0
    if options.namespaces:
        bench.failed += with_names(program) != 0
    if bench.failed:
        print(f"access: what they left stands in {top}")
    else:
        shutil.rmtree(top)
    print(f"access: {bench.failed} failed")
    return 1 if bench.failed else 0


if __name__ == "__main__":
    sys.exit(main())
