"""A second proxy behind the first one, which is sent what the first one passed on, and has to take it as the same message.

Each connection of the first proxy to an origin carries one request, and what a client got of it is one reply. The second proxy is sent
that request byte by byte, in front of an origin that keeps what comes: exactly one request has to reach it, with the same method and the
same bytes of a body, and one that was cut off must not look whole. A reply is sent the other way, by the origin to the second proxy, and
has to reach its client as one reply, with the same status and the same bytes of a body. So where the two proxies stand in a row,
neither sees a message that the other does not see.

A second proxy may refuse a request for reasons of its own. It has refused where nothing reached the origin, and its client got one
reply with a status of REFUSALS and nothing behind it; a reply that it refuses becomes a 502 of its own. This program itself refuses no
message of its own kind, but where the fields that the first one added have made the head larger than what is read.

Two things are known of others and left out. nginx 1.22 takes an interim reply for the reply, so none is sent to it. Squid's parser is
relaxed unless told otherwise, and takes `get` for `GET`, so methods are compared without regard to case there."""

import os
import re
import select
import shutil
import socket
import subprocess
import tempfile
import time
from collections import Counter
from contextlib import ExitStack
from dataclasses import dataclass

SECONDS = 20.0  # after which a message has not come through
LARGEST_HEAD = 65_536
MOST_FIELDS = 128
# 4xx and 5xx by which a server says that it takes no such message: RFC 9110 section 15.5 and 15.6, RFC 6585 section 5.
REFUSALS = {400, 405, 411, 413, 414, 417, 431, 501, 505}
# Lines of their configurations: no cache, no logs, and heads and bodies as large as they come.
SQUID = """http_access allow all
cache deny all
pid_filename none
access_log none
cache_log /dev/null
coredump_dir none
shutdown_lifetime 1 second
server_persistent_connections off
request_header_max_size 256 KB
reply_header_max_size 256 KB
pinger_enable off
"""
NGINX = r"""access_log off;
client_max_body_size 0;
large_client_header_buffers 8 256k;
proxy_http_version 1.1;
proxy_request_buffering off;
proxy_buffering off;
proxy_buffer_size 256k;
proxy_buffers 8 256k;
proxy_busy_buffers_size 512k;
merge_slashes off;
ignore_invalid_headers off;
map $http_host $there { ~:(?<port>\d+)$ $port; }
"""
ESTABLISHED = b"HTTP/1.1 200 Connection established\r\n\r\n"


class Apart(Exception):
    """The second proxy takes something else for a message than the first one, or is not to be had."""


@dataclass
class Message:
    """A message as RFC 9112 section 6.3 frames it: its first line, its fields, its body, whether that is whole, and what follows."""

    line: bytes
    fields: list[tuple[bytes, bytes]]
    head: int
    body: bytes = b""
    whole: bool = True
    rest: bytes = b""

    def values(self, name: bytes) -> list[bytes]:
        return [value for key, value in self.fields if key.lower() == name]

    @property
    def status(self) -> int:
        return int(self.line.split(b" ")[1])

    @property
    def method(self) -> bytes:
        return self.line.split(b" ")[0]

    @property
    def is_too_large(self) -> bool:
        """Whether this program refuses its head."""
        return len(self.fields) > MOST_FIELDS or self.head > LARGEST_HEAD


def chunks(data: bytes) -> tuple[bytes, bool, bytes]:
    """The body of a text in chunks, whether its end is there, and what follows."""
    body, at = bytearray(), 0
    while True:
        end = data.find(b"\r\n", at)
        if end < 0:
            return bytes(body), False, b""
        size = re.match(rb"[0-9A-Fa-f]+", data[at:end])
        if not size:
            raise Apart(f"no size of a chunk: {data[at:end]!r}")
        count, at = int(size[0], 16), end + 2
        if not count:
            trailers = 0 if data[at : at + 2] == b"\r\n" else data.find(b"\r\n\r\n", at) + 2 - at
            if trailers < 0 or not data[at:]:
                return bytes(body), False, b""
            return bytes(body), True, data[at + trailers + 2 :]
        body += data[at : at + count]
        at += count + 2
        if len(data) < at:
            return bytes(body), False, b""


def message(data: bytes, asked: bytes = b"", ended: bool = False) -> Message | None:
    """The first message of a text, or none where its head is not whole. `asked` is the method that it replies to, and `ended` says that no
    more comes. What the two proxies write is strict, so whatever is not is an error here."""
    head, end, rest = data.partition(b"\r\n\r\n")
    if not end:
        return None
    line, *lines = head.split(b"\r\n")
    fields = []
    for one in lines:
        name, colon, value = one.partition(b":")
        if not colon:
            raise Apart(f"this is no field: {one!r}")
        fields.append((name, value.strip(b" \t")))
    read = Message(line, fields, len(head) + 4)
    codings, lengths = read.values(b"transfer-encoding"), read.values(b"content-length")
    if asked and (asked == b"HEAD" or read.status in (204, 304) or read.status < 200):
        read.rest = rest
    elif codings:
        if lengths or [coding.lower() for coding in codings] != [b"chunked"]:
            raise Apart(f"two framings, or an unknown one: {codings!r}, {lengths!r}")
        read.body, read.whole, read.rest = chunks(rest)
    elif lengths:
        if len(set(lengths)) > 1 or not lengths[0].isdigit():
            raise Apart(f"no length: {lengths!r}")
        count = int(lengths[0])
        read.body, read.whole, read.rest = rest[:count], len(rest) >= count, rest[count:]
    elif asked:
        read.body, read.whole = rest, ended
    else:
        read.rest = rest
    return read


def reply(data: bytes, asked: bytes, ended: bool) -> Message | None:
    """The first reply that is not an interim one."""
    while (read := message(data, asked, ended)) and 100 <= read.status < 200 and read.status != 101:
        data = read.rest
    return read


class Second:
    """A second proxy; how many messages came through it, and how."""

    def __init__(self, kind: str) -> None:
        self.kind = kind if kind in ("squid", "nginx") else "program"
        self.counts: Counter[str] = Counter()
        self.ending = ExitStack()
        with socket.socket() as free:
            free.bind(("127.0.0.1", 0))
            self.port: int = free.getsockname()[1]
        self.folder = tempfile.mkdtemp(prefix="second.")
        os.chmod(self.folder, 0o755)
        self.ending.callback(shutil.rmtree, self.folder, ignore_errors=True)
        words = {"squid": self.squid, "nginx": self.nginx, "program": lambda: self.program(kind)}[self.kind]()
        with open(os.path.join(self.folder, "said"), "wb") as said:
            self.process = subprocess.Popen(words, stdin=subprocess.PIPE, stdout=said, stderr=said, cwd=self.folder)
        limit = time.monotonic() + SECONDS
        while True:
            try:
                socket.create_connection(("127.0.0.1", self.port), 1).close()
                return
            except OSError:
                if self.process.poll() is not None or time.monotonic() > limit:
                    self.stop()
                    raise Apart(f"{kind} does not begin to listen") from None
                time.sleep(0.05)

    def stop(self) -> None:
        """Ends the second proxy."""
        assert self.process.stdin
        self.process.stdin.close()
        if self.kind != "program":
            self.process.terminate()
        try:
            self.process.wait(SECONDS)
        except subprocess.TimeoutExpired:
            self.process.kill()
            self.process.wait()
        self.ending.close()

    def file(self, name: str, text: str) -> str:
        path = os.path.join(self.folder, name)
        with open(path, "w", encoding="ascii") as file:
            file.write(text)
        return path

    def program(self, program: str) -> list[str]:
        conf = self.file("conf", "http_access allow all\n")
        return [os.path.abspath(program), "serve", conf, "--port", str(self.port), "--workers", "32"]

    def squid(self) -> list[str]:
        # As a server in front of the origin that a request's Host names, so that it reads the very bytes that an origin would.
        text = f"http_port 127.0.0.1:{self.port} accel vhost allow-direct\n" + SQUID
        return ["squid", "-N", "-f", self.file("conf", text)]

    def nginx(self) -> list[str]:
        folders = "".join(f"{kind}_temp_path {self.folder}/{kind};\n" for kind in ("client_body", "proxy", "fastcgi", "uwsgi", "scgi"))
        text = (
            f"daemon off; worker_processes 1; pid {self.folder}/pid; error_log /dev/null; {'user root;' if os.getuid() == 0 else ''}\n"
            f"events {{ worker_connections 512; }}\nhttp {{\n{NGINX}{folders}server {{ listen 127.0.0.1:{self.port} backlog=512;\n"
            "location / { proxy_pass http://127.0.0.1:$there$request_uri; } } }\n"
        )
        return ["nginx", "-c", self.file("conf", text), "-p", self.folder]

    def asked(self, request: bytes) -> bytes:
        """A request as the second proxy is sent it: this program is asked in absolute form, whose authority is that of the Host."""
        if self.kind != "program":
            return request
        line, rest = request.split(b"\r\n", 1)
        method, target, version = line.split(b" ")
        authority = rest[len(b"Host: ") : rest.index(b"\r\n")]
        return b"%s http://%s%s %s\r\n%s" % (method, authority, b"" if target == b"*" else target, version, rest)

    def talk(self, sent: bytes, ends: bool, listener: socket.socket, answer: bytes, closes: bool) -> tuple[bytes, list[bytes]]:
        """Sends a text, and answers the first whole request that reaches the origin: what the client got up to its end, and what each
        connection to the origin brought. `ends` says that nothing follows what is sent, and `closes` nothing what is answered."""
        got, came, answered = bytearray(), [], False
        limit = time.monotonic() + SECONDS
        with ExitStack() as links:
            client = links.enter_context(socket.create_connection(("127.0.0.1", self.port), SECONDS))
            client.setblocking(False)
            origins: dict[socket.socket, bytearray] = {}
            over = False
            while not over:
                if time.monotonic() > limit:
                    raise Apart(f"no end comes: the client got {bytes(got)!r}, and the origin {[bytes(one) for one in came]!r}")
                readable, writable = ready([client, listener, *origins], [client] if sent else [], 0.05)
                if writable:
                    try:
                        sent = sent[client.send(sent) :]
                    except BlockingIOError:
                        pass
                    except OSError:
                        sent = b""
                    if not sent and ends:
                        ends = False
                        try:
                            client.shutdown(socket.SHUT_WR)
                        except OSError:
                            pass
                if listener in readable:
                    link = links.enter_context(listener.accept()[0])
                    link.settimeout(SECONDS)
                    origins[link] = bytearray()
                    came.append(origins[link])
                for link in [link for link in readable if link in origins]:
                    more = received(link)
                    if not more:
                        del origins[link]
                        continue
                    origins[link] += more
                    read = message(bytes(origins[link]))
                    if read and read.whole and not answered:
                        answered = True
                        try:
                            link.sendall(answer)
                            if closes:
                                link.shutdown(socket.SHUT_WR)
                        except OSError:
                            pass
                if client in readable:
                    more = received(client)
                    got += more
                    over = not more
            # What has come meanwhile.
            while ready([listener], [], 0)[0]:
                link = links.enter_context(listener.accept()[0])
                came.append(bytearray(received(link)))
        return bytes(got), [bytes(one) for one in came]

    def takes(self, request: bytes, listener: socket.socket, sent: bytes | None = None) -> None:
        """A request that the first proxy passed on has to be one request, with the same body. `sent` is what is sent in its place."""
        first = message(request)
        if first is None:
            self.counts["requests cut off in their heads"] += 1
            return
        if first.rest:
            raise Apart(f"the first proxy wrote more than one request: {first.rest!r}")
        method = first.method
        answer = b"HTTP/1.1 204 No Content\r\nConnection: close\r\n\r\n"
        got, came = self.talk(self.asked(sent or request), not first.whole, listener, answer, True)
        if not came:
            told = reply(got, method, True)
            allowed = REFUSALS if self.kind != "program" else {431} if first.is_too_large else set()
            if not first.whole and (told is None or told.status >= 400):
                self.counts["requests cut off"] += 1
            elif told is None or told.status not in allowed or told.rest:
                raise Apart(f"the second proxy lets nothing through of {request!r}: {got!r}")
            else:
                self.counts[f"requests refused by {told.status}"] += 1
            return
        if len(came) > 1:
            raise Apart(f"the second proxy makes {len(came)} requests of {request!r}: {came!r}")
        second = message(came[0])
        if second is None or not second.whole:
            if first.whole or second and not first.body.startswith(second.body):
                raise Apart(f"the second proxy makes {came[0]!r} of {request!r}")
            self.counts["requests cut off"] += 1
            return
        same_method = second.method == method or self.kind == "squid" and second.method == method.upper()
        if not first.whole or second.rest or second.body != first.body or not same_method:
            raise Apart(f"the second proxy makes {came[0]!r} of {request!r}")
        told = reply(got, second.method, True)
        if told is None or told.status != 204 or told.rest:
            raise Apart(f"the second proxy answers {request!r} with {got!r}")
        self.counts["requests taken as one"] += 1

    def returns(self, got: bytes, method: bytes, closes: bool, listener: socket.socket) -> None:
        """A reply that the first proxy passed on has to be one reply, with the same body."""
        asked = b"HEAD" if method == b"HEAD" else b"GET"
        first = reply(got, method, closes)
        if first is None or first.rest:
            self.counts["replies beside others"] += 1
            return
        if self.kind == "nginx" and not got.startswith(first.line):
            self.counts["replies behind interim ones"] += 1
            return
        place = b"127.0.0.1:%d" % listener.getsockname()[1]
        request = self.asked(b"%s / HTTP/1.1\r\nHost: %s\r\nConnection: close\r\n\r\n" % (asked, place))
        heard, came = self.talk(request, False, listener, got, closes)
        second = reply(heard, asked, True)
        if len(came) != 1 or second is None or second.rest:
            raise Apart(f"the second proxy makes {heard!r} of the reply {got!r}")
        if second.status == 502 != first.status and (self.kind != "program" or first.is_too_large):
            self.counts["replies refused by 502"] += 1
        elif second.status != first.status or not first.whole and (second.whole or not first.body.startswith(second.body)):
            raise Apart(f"the second proxy makes {heard!r} of the reply {got!r}")
        elif first.whole and (second.body != first.body or not second.whole):
            raise Apart(f"the second proxy makes {heard!r} of the reply {got!r}")
        else:
            self.counts["replies taken as one" if first.whole else "replies cut off"] += 1

    def sees_others(self) -> bool:
        """Whether a request that is not the one that was passed on is seen as such: one with other bytes in its body, or fewer."""
        with socket.create_server(("127.0.0.1", 0)) as listener:
            place = b"127.0.0.1:%d" % listener.getsockname()[1]
            request = b"POST / HTTP/1.1\r\nHost: %s\r\nContent-Length: 2\r\nConnection: close\r\n\r\nhi" % place
            self.takes(request, listener)
            for sent in (request.replace(b"hi", b"ho"), request.replace(b"Length: 2", b"Length: 1")):
                try:
                    self.takes(request, listener, sent)
                    return False
                except Apart:
                    pass
        return True

    def has_refused_most(self) -> bool:
        """Whether it has refused more than it took, so that the run shows nothing."""
        refused, taken = (sum(count for what, count in self.counts.items() if word in what) for word in ("refused", "taken"))
        return refused >= taken

    def summary(self) -> str:
        return ", ".join(f"{count} {what}" for what, count in sorted(self.counts.items()))

    def judge(self, requests: list[bytes], got: bytes, closes: bool, listener: socket.socket) -> None:
        """Judges what the first proxy passed on in a case: each request, and the reply where the case had one alone."""
        if ESTABLISHED in got:  # the last connection carries a tunnel, which is no message
            requests = requests[:-1]
            self.counts["tunnels"] += 1
        for request in requests:
            self.takes(request, listener)
        if len(requests) == 1 and ESTABLISHED not in got and message(requests[0]):
            self.returns(got, requests[0].split(b" ")[0], closes, listener)


def ready(readers: list[socket.socket], writers: list[socket.socket], seconds: float) -> tuple[list[socket.socket], list[socket.socket]]:
    """Those of the sockets that can be read and written, which `select` tells of numbers below 1,024 alone."""
    polled = select.poll()
    links = {link.fileno(): link for link in [*readers, *writers]}
    for number, link in links.items():
        polled.register(number, select.POLLIN * (link in readers) | select.POLLOUT * (link in writers))
    found = {links[number]: events for number, events in polled.poll(seconds * 1000)}
    ended = select.POLLERR | select.POLLHUP
    return (
        [link for link in readers if found.get(link, 0) & (select.POLLIN | ended)],
        [link for link in writers if found.get(link, 0) & (select.POLLOUT | ended)],
    )


def received(link: socket.socket) -> bytes:
    try:
        return link.recv(262_144)
    except OSError:
        return b""
