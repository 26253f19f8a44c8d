#!/usr/bin/env python3
"""Random and mutated heads and bodies through `aclproxy serve`, against the plain model of tests/model.py.

    tests/fuzz.py PROGRAM [--seed N] [--count N] [--print N]

Each case is a text of one or several requests, made by the seed; an origin of this program keeps what reaches it. Compared are, byte
by byte: what the client gets, what the origin gets, whether the connection stays, and for each request that reached the origin
the next `allowed` entry of the journal, which has to have its method and target. Each journal is verified at its end. Nobody but
127.0.0.1 can be dialled, by the rules of the run. The last line states counts; the status is 0 where nothing differed."""

import argparse
import ipaddress
import os
import random
import re
import shutil
import socket
import subprocess
import sys
import tempfile
from urllib.parse import unquote_to_bytes

sys.path.insert(0, os.path.dirname(os.path.abspath(__file__)))
import model  # noqa: E402

ROUND = 20000  # cases of one server, so that no journal grows long
WAIT = 30
HERE = ipaddress.IPv4Address("127.0.0.1")


# What is sent


class Maker:
    def __init__(self, rng, port):
        self.rng, self.port = rng, port
        self.origin = b"127.0.0.1:%d" % port

    def one(self, *choices):
        return self.rng.choice(choices)

    def odds(self, part):
        return self.rng.random() < part

    def word(self, most=12):
        return bytes(self.rng.choice(b"abcdefghijklmnopqrstuvwxyzABCXYZ0123456789-_") for _ in range(self.rng.randint(1, most)))

    def method(self):
        if self.odds(0.92):
            return self.one(b"GET", b"POST", b"HEAD", b"PUT", b"OPTIONS", b"DELETE", b"CONNECT", b"get", b"M-SEARCH")
        return self.one(b"connect", b"TRACE", b"X!#$%&'*+-.^_`|~", b"G(T", b"", self.word())

    def path(self):
        if self.odds(0.6):
            return self.one(b"", b"/", b"/" + self.word(), b"?q", b"/a?b", b"/denied")
        return self.one(
            b"", b"/", b"/" + self.word(), b"/a/../b", b"?q", b"/?q=/", b"/%64enied", b"/denied", b"//x", b"/a%zz", b'/"<>^`{|}\\',
            b"/a#b", b"/\xc3\xa9", b"/\xff", b"/a b", b"?", b"/x?denied", b"/;p=1", b"/" + self.word() + b"?" + self.word(),
        )  # fmt: skip

    def target(self, method):
        if method == b"CONNECT" and self.odds(0.8):
            return self.one(self.origin, self.origin, self.origin, b"127.0.0.1", b"127.0.0.1:0", b"a.example:443", b"[::1]:1", self.origin + b"/", b"u@" + self.origin)  # fmt: skip
        if self.odds(0.85):
            return b"http://" + self.origin + self.path()
        scheme = self.one(b"http", b"HTTP", b"https", b"ftp", b"1http", b"h-t.t+p", b"", b"ws")
        host = self.one(
            self.origin, b"127.0.0.1", b"127.0.0.1:1", b"127.0.0.2:%d" % self.port, b"[::1]:%d" % self.port, b"[::ffff:127.0.0.1]:%d" % self.port,
            b"127.1:%d" % self.port, b"localhost:%d" % self.port, b"127.0.0.1:0%d" % self.port, b"a_b.example", b"a,b", b"", b":%d" % self.port,
            b"u:p@" + self.origin, b"127.0.0.1:", b"127.0.0.1:65536", b"127.0.0.01:%d" % self.port, b"[::1", b"[1::2::3]", b"a.example:80", b"*",
        )  # fmt: skip
        return self.one(scheme + b"://" + host + self.path(), b"/" + self.word(), b"*", host, scheme + b":/" + host, scheme + b":" + host)

    def version(self):
        if self.odds(0.97):
            return self.one(*[b"HTTP/1.1"] * 12, b"HTTP/1.0")
        return self.one(b"HTTP/1.2", b"HTTP/2.0", b"http/1.1", b"HTTP/1.10", b"HTTP/1", b"")

    def value(self):
        if self.odds(0.02):
            return self.one(b"a\x01", b"a\x00b", b"a\rb", b"a\x7f", b"a\r\n b")
        return self.one(b"", self.word(), b"a, b", b"a:b", b'"q, r"', b"\x80\xff", b"x\ty", b" pad ", b"v" * self.rng.randint(0, 300))

    def field(self):
        name = self.one(
            self.word(), self.word(), b"Accept", b"Via", b"X-Forwarded-For", b"Cookie", b"Keep-Alive", b"Proxy-Connection", b"TE", b"Trailer", b"Upgrade",
            b"Proxy-Authorization", b"Expect", b"X-A", b"X-B", b"Close", b"Content_Length",
        )  # fmt: skip
        if self.odds(0.06):
            name = self.one(b"Host", b"Content-Length", b"Content-Length", b"Transfer-Encoding", b"Transfer-Encoding")
        value = self.value()
        if name == b"Expect" and self.odds(0.7):
            value = self.one(b"100-continue", b"100-Continue", b"x")
        if name == b"Content-Length" and self.odds(0.6):
            value = self.one(b"0", b"3", b"03", b"+3", b"3, 3", b"-1", b"9223372036854775808", b"5")
        if name == b"Transfer-Encoding" and self.odds(0.7):
            value = self.one(b"chunked", b"Chunked", b"gzip, chunked", b"identity", b"chunked, chunked", b" chunked ", b"xchunked")
        return name + (self.one(b": ", b":", b":\t") if self.odds(0.99) else self.one(b" : ", b" ", b"")) + value

    def connection(self):
        return b"Connection: " + self.one(b"close", b"keep-alive", b"X-A", b"X-A, close", b"content-length", b"Transfer-Encoding", b"host", b", ,X-B", b"CLOSE", b"closed", b"via")  # fmt: skip

    def chunks(self):
        out = b""
        for _ in range(self.rng.randint(0, 4)):
            data = bytes(self.rng.choice(b"abc\r\n\x00\xff0") for _ in range(self.rng.randint(1, 30)))
            size = self.one(b"%x", b"%X", b"0%x", b"%x;a=b", b"%x ;q", b"%x\t", b"%x;") % len(data)
            if self.odds(0.01):
                size = (b"%x;" % len(data)).ljust(self.rng.randint(4090, 4098), b"e")
            out += size + b"\r\n" + data + b"\r\n"
        trailers = self.one(b"", b"", b"A: b\r\n", b"A: b\r\nC: d\r\n") if self.odds(0.995) else b"A" * self.rng.randint(65528, 65536) + b"\r\n"
        return out + self.one(b"0\r\n", b"0\r\n", b"000\r\n", b"0;x\r\n") + trailers + b"\r\n"

    def request(self):
        """A head and its body, mostly well formed."""
        end = self.one(*[b"\r\n"] * 9, b"\n")
        method = self.method()
        lines = [method + b" " + self.target(method) + b" " + self.version()]
        fields = [self.field() for _ in range(self.rng.choice((0, 0, 1, 1, 2, 3, 6)))] if self.odds(0.6) else [b"Accept: */*"]
        if self.odds(0.98):
            fields.append(self.one(b"Host: x", b"host: " + self.origin, b"Host:"))
        if self.odds(0.2):
            fields.append(self.connection())
        if self.odds(0.01):
            fields += [b"A: 1"] * self.rng.randint(120, 130)
        body = b""
        if self.odds(0.35):
            if self.odds(0.5):
                body = bytes(self.rng.choice(b"abc\r\n\x00\xff") for _ in range(self.rng.randint(0, 60)))
                fields.append(b"Content-Length: %d" % len(body))
            else:
                body = self.chunks()
                fields.append(b"Transfer-Encoding: chunked")
            if self.odds(0.15):
                body = self.mutated(body)
            if self.odds(0.15):
                fields.append(b"Expect: 100-continue")
        self.rng.shuffle(fields)
        return self.one(*[b""] * 12, b"\r\n", b"\n\r\n") + end.join(lines + fields + [b"", b""]) + body

    def soup(self):
        """A request with up to four lines of framing, whose body may be chunks, a request, or both."""
        lines = [
            b"Content-Length: 5", b"Content-Length: 0", b"content-length: 5", b"Content-Length: 005", b"Content-Length: +5", b"Content-Length: 5, 5",
            b"Content-Length: 60", b"Content-Length : 5", b"Content_Length: 5", b" Content-Length: 5", b"Content-Length:", b"X: y\nContent-Length: 5",
            b"X: y\rContent-Length: 5", b"Transfer-Encoding: chunked", b"Transfer-Encoding: chunked", b"TRANSFER-ENCODING:chunked", b"Transfer-Encoding: Chunked \t",
            b"Transfer-Encoding : chunked", b"Transfer-Encoding: \x0bchunked", b"Transfer-Encoding: chunked\x0b", b"Transfer_Encoding: chunked",
            b"Transfer-Encoding: identity", b"Transfer-Encoding: gzip, chunked", b"Transfer-Encoding: chunked, chunked", b"Transfer-Encoding: xchunked",
            b"Transfer-Encoding:", b"Transfer-Encoding:\r\n chunked", b" Transfer-Encoding: chunked", b"X: y\nTransfer-Encoding: chunked", b"Connection: close",
            b"Connection: content-length", b"Connection: transfer-encoding", b"Expect: 100-continue", b"Host: y", b"TE: chunked", b"Trailer: Content-Length",
        ]  # fmt: skip
        second = b"GET http://" + self.origin + b"/second HTTP/1.1\r\nHost: x\r\n\r\n"
        body = self.one(
            b"", b"hello", b"0\r\n\r\n", b"0\r\n\r\n" + second, b"5\r\nhello\r\n0\r\n\r\n", b"%x\r\n%s\r\n0\r\n\r\n" % (len(second), second), second, b"0\n\r\n",
            b"0\r\n\n" + second, b"0\r\nContent-Length: 5\r\n\r\n" + second, b"5\nhello\r\n0\r\n\r\n", b"5;\nhello\r\n0\r\n\r\n", b"-5\r\n", self.chunks(),
        )  # fmt: skip
        framing = [self.rng.choice(lines) for _ in range(self.rng.choice((0, 1, 1, 1, 2, 2, 3, 4)))]
        head = self.one(b"POST", b"GET", b"HEAD", b"PUT") + b" http://" + self.origin + self.one(b"/a", b"/a", b"/a", b"/denied") + b" " + self.one(*[b"HTTP/1.1"] * 7, b"HTTP/1.0")
        return b"\r\n".join([head, b"Host: x"] + framing + [b"", b""]) + body

    def mutated(self, text):
        """The text with a few bytes changed."""
        text = bytearray(text)
        for _ in range(self.rng.randint(1, 3)):
            at = self.rng.randint(0, len(text))
            piece = self.one(
                b"\r", b"\n", b"\r\n", b" ", b"\t", b"\x00", b":", b",", b";", b"/", b"?", b"#", b"@", b"%", b"\x7f", b"\x80", b"0", b"9", b"a", b"\x0b", b"\\", b"[", b"]",
                b"\r\n ", b"\n\n", b"\r\n\r\n", bytes([self.rng.randrange(256)]),
            )  # fmt: skip
            act = self.rng.randrange(4)
            if act == 0:
                text[at:at] = piece
            elif act == 1:
                del text[at : at + self.rng.randint(1, 3)]
            elif act == 2:
                text[at : at + 1] = piece
            else:
                text[at:at] = text[at : at + self.rng.randint(1, 20)]
        return bytes(text)

    def case(self):
        text = b"".join(self.soup() if self.odds(0.25) else self.request() for _ in range(self.rng.choice((1, 1, 1, 1, 2, 3))))
        if self.odds(0.3):
            text = self.mutated(text)
        if self.odds(0.002):
            text = self.one(b"A" * 65536, b"\r\n" * 32770, b"GET http://" + self.origin + b"/" + b"a" * self.rng.randint(65400, 65600) + b" HTTP/1.1\r\nHost: x\r\n\r\n")  # fmt: skip
        return text

    def reply(self):
        if self.odds(0.5):
            return b"HTTP/1.1 200 OK\r\nContent-Length: 2\r\n\r\nok"
        head = b""
        for _ in range(self.rng.choice((0, 0, 0, 1, 2))):
            head += self.one(b"HTTP/1.1 100 Continue\r\n\r\n", b"HTTP/1.1 103 x\r\nA: b\r\n\r\n")
        line = self.one(b"HTTP/1.1 ", b"HTTP/1.1 ", b"HTTP/1.0 ") + self.one(b"200 OK", b"204 x", b"304 x", b"404 Not Found", b"500", b"007 x", b"101 x", b"302 ")
        body = bytes(self.rng.choice(b"abc\r\n\x00\xff") for _ in range(self.rng.randint(0, 40)))
        fields = [self.field() for _ in range(self.rng.choice((0, 0, 1, 3)))]
        framing = self.rng.randrange(4)
        if framing == 0:
            fields.append(b"Content-Length: %d" % len(body))
        elif framing == 1:
            fields.append(b"Transfer-Encoding: chunked")
            body = self.chunks()
        if self.odds(0.2):
            fields.append(self.connection())
        self.rng.shuffle(fields)
        text = head + b"\r\n".join([line] + fields + [b"", b""]) + body
        return self.mutated(text) if self.odds(0.4) else text


# The run


class Differs(Exception):
    pass


class Server:
    def __init__(self, program, folder, port):
        self.program = program
        self.conf = os.path.join(folder, "squid.conf")
        self.journal = os.path.join(folder, "journal")
        with open(self.conf, "w", encoding="ascii") as file:
            file.write(
                "acl no url_regex /denied\nacl here dst 127.0.0.1\nacl there port %d\n" % port
                + "http_access deny no\nhttp_access allow here there\nhttp_access deny all\n"
            )
        for _ in range(20):
            with socket.socket() as sock:
                sock.bind(("127.0.0.1", 0))
                self.port = sock.getsockname()[1]
            with open(self.journal, "wb") as journal:
                words = [program, "serve", self.conf, "--port", str(self.port), "--workers", "4"]
                self.process = subprocess.Popen(words, stdin=subprocess.PIPE, stdout=subprocess.PIPE, stderr=journal)
            if self.process.stdout.readline() == b"listening %d\n" % self.port:
                return
            self.process.wait()
        sys.exit("the server does not begin")

    def stop(self):
        """Ends the server; gives what is wrong with its journal, and the targets that it allows, in order."""
        said, _ = self.process.communicate(b"shutdown\n", timeout=120)
        if said != b"stopped\n" or self.process.returncode:
            return [f"the server ends with {said!r} and status {self.process.returncode}"], []
        told = subprocess.run([self.program, "verify", self.conf, self.journal], capture_output=True, timeout=600)
        wrong = [] if re.fullmatch(rb"verified \d+\n", told.stdout) else [f"the journal: {told.stdout!r}"]
        asked, allowed = {}, []
        with open(self.journal, "rb") as journal:
            for line in journal:
                event, _, answer = line.rstrip(b"\n").partition(b" => ")
                words = event.split(b" ")
                if words[3:4] == [b"ask"]:
                    asked[answer.split(b" ")[1]] = (unquote_to_bytes(words[5]), unquote_to_bytes(words[6]))
                elif words[3:4] == [b"take"]:
                    request = asked.pop(words[4])
                    # A scheme that is not served is judged, and answered by 501.
                    if b" allowed " in answer and (request[0] == b"CONNECT" or request[1][:7].lower() == b"http://"):
                        allowed.append(request)
        return wrong, allowed


class Run:
    def __init__(self, program, seed, folder):
        self.listener = socket.socket()
        self.listener.bind(("127.0.0.1", 0))
        self.listener.listen(16)
        self.listener.settimeout(WAIT)
        self.port = self.listener.getsockname()[1]
        self.rng = random.Random(seed)
        self.maker = Maker(self.rng, self.port)
        self.program, self.folder = program, folder
        self.client = None
        self.reached, self.turns, self.kinds = [], 0, {}

    def judge(self, request):
        if b"/denied" in unquote_to_bytes(request.target):
            return False, b"denied rule 1"
        _, _, address, port, _ = request.parts
        return (True, None) if address == HERE and port == self.port else (False, b"denied rule 3")

    def read(self, sock, count):
        data = b""
        while len(data) < count:
            try:
                piece = sock.recv(count - len(data))
            except ConnectionError:
                piece = b""
            if not piece:
                break
            data += piece
        return data

    def same(self, what, sock, wanted):
        got = self.read(sock, len(wanted))
        if got != wanted:
            sock.settimeout(1)
            try:
                got += self.read(sock, 65536)
            except TimeoutError:
                pass
            raise Differs(f"{what}\n  was to get {wanted!r}\n  and got    {got!r}")

    def ends(self, what, sock):
        got = self.read(sock, 1)
        if got:
            raise Differs(f"{what} was to get nothing more, and got {got + self.read(sock, 4096)!r}")

    def nobody(self):
        """No connection has come to the origin that the model does not have."""
        self.listener.settimeout(0)
        try:
            link, _ = self.listener.accept()
        except BlockingIOError:
            return
        finally:
            self.listener.settimeout(WAIT)
        link.settimeout(1)
        raise Differs(f"a request reached the origin that should not: {self.read(link, 4096)!r}")

    def send(self, sock, data):
        try:
            sock.sendall(data)
        except ConnectionError:
            pass

    def shut(self, sock):
        try:
            sock.shutdown(socket.SHUT_WR)
        except OSError:
            pass

    def drop(self):
        if self.client:
            self.client.close()
            self.client = None

    def count(self, kind):
        self.kinds[kind] = self.kinds.get(kind, 0) + 1

    def case(self, text, server):
        if not self.client:
            self.client = socket.create_connection(("127.0.0.1", server.port), WAIT)
            self.client.setsockopt(socket.IPPROTO_TCP, socket.TCP_NODELAY, 1)
        at = self.rng.choice((len(text), len(text), self.rng.randint(0, len(text))))
        self.send(self.client, text[:at])
        if at < len(text):
            self.send(self.client, text[at:])
        rest = text
        while True:
            turn = model.turn(rest, b"127.0.0.1", self.judge)
            if turn is None:
                if rest:
                    # A head that is cut off, or empty lines: the input ends there, and no reply comes.
                    self.count("cut head")
                    self.shut(self.client)
                    self.ends("the client of a head that is cut off", self.client)
                    self.drop()
                return
            self.turns += 1
            if not turn.reach:
                self.count(turn.client[9:12].decode())
                self.same("the client", self.client, turn.client)
            else:
                self.exchange(turn)
            if not turn.stays:
                if self.client:
                    self.ends("the client", self.client)
                self.drop()
                return
            rest = turn.rest

    def exchange(self, turn):
        request = turn.reach
        self.reached.append((request.method, request.target))
        link, _ = self.listener.accept()
        link.settimeout(WAIT)
        with link:
            if request.method == b"CONNECT":
                self.count("tunnel")
                self.shut(self.client)
                self.same("the origin of a tunnel", link, turn.origin)
                self.ends("the origin of a tunnel", link)
                back = self.maker.reply()
                self.send(link, back)
                self.shut(link)
                self.same("the client of a tunnel", self.client, turn.client + back)
                return
            if turn.waits:
                self.shut(self.client)
            self.same("the origin", link, turn.origin)
            if turn.waits or turn.broken:
                self.count("refused body" if turn.broken else "body that is cut off")
                self.ends("the origin of a body that is not whole", link)
                self.same("the client", self.client, turn.client)
                return
            self.count("forwarded")
            reply = self.maker.reply()
            text, stays = model.replied(request, reply)
            self.send(link, reply)
            self.shut(link)
            self.same("the client", self.client, turn.client + text)
            self.ends("the origin", link)
            turn.stays = stays


def main():
    words = argparse.ArgumentParser(description=__doc__, formatter_class=argparse.RawDescriptionHelpFormatter)
    words.add_argument("program")
    words.add_argument("--seed", type=int, default=1)
    words.add_argument("--count", type=int, default=2000)
    words.add_argument("--print", type=int, default=5, help="how many differences are printed in full")
    words = words.parse_args()
    folder = tempfile.mkdtemp(prefix="fuzz.")
    program = os.path.abspath(words.program)
    wrong, done, total, reached, kinds = [], 0, 0, 0, {}
    try:
        while done < words.count:
            run = Run(program, f"{words.seed}.{done // ROUND}", folder)
            server = Server(program, folder, run.port)
            told = []
            for number in range(done, min(done + ROUND, words.count)):
                text = run.maker.case()
                try:
                    run.case(text, server)
                    run.nobody()
                except (Differs, OSError) as differs:
                    wrong.append(f"case {number}: {text!r}\n  {differs}")
                    run.drop()
                    told.append(number)
                done += 1
                if len(wrong) >= 100:
                    break
            run.drop()
            ill, allowed = server.stop()
            wrong += ill
            if not told and allowed != run.reached:
                wrong.append(f"the journal allows {len(allowed)} requests, and {len(run.reached)} reached the origin")
                wrong += [f"  {a!r} and {b!r}" for a, b in zip(allowed, run.reached) if a != b][:3]
            run.listener.close()
            total += run.turns
            reached += len(run.reached)
            for kind, count in run.kinds.items():
                kinds[kind] = kinds.get(kind, 0) + count
            print(f"fuzz: {done} cases, {total} turns, {len(wrong)} wrong", flush=True)
            if len(wrong) >= 100:
                break
    finally:
        shutil.rmtree(folder, ignore_errors=True)
    for text in wrong[: words.print]:
        print(text)
    print("fuzz: " + ", ".join(f"{kind} {count}" for kind, count in sorted(kinds.items())))
    print(f"fuzz: seed {words.seed}, {done} cases, {total} turns, {reached} requests reached the origin, {len(wrong)} wrong")
    return 1 if wrong else 0


if __name__ == "__main__":
    sys.exit(main())
