"""The clients: each does one thing after the other, and keeps what it sent and what came of it."""

import asyncio
import dataclasses
import hashlib
import json
import os
import random
import socket
import time
from collections import Counter
from dataclasses import dataclass, field
from typing import Awaitable, Callable, TextIO

from .origin import reset
from .replies import PLANS, Sent, data
from .resolver import WORDS
from .rewrites import ANSWERS, LOSSES, SAYS

FRONT = 600  # bytes of a reply that are kept as they came


@dataclass
class World:
    """What the clients know of the run."""

    port: int
    http: int
    echo: int
    nobody: int
    has_six: bool
    has_names: bool
    until: float
    patience: float
    pause: float  # the seconds for which a client rests at most between two requests, or between two words of a tunnel
    seed: str


@dataclass
class Connection:
    """What a client did over one connection, and what it noticed."""

    what: str
    address: str
    port: int
    began: float
    requests: list[Sent] = field(default_factory=list)
    rest: str = ""  # bytes behind the last reply that was waited for
    ended: float = 0.0
    own: str = ""  # the status of the proxy's own reply to what is no request
    line: str = ""  # the method and target of that, where it has any
    is_reset: bool = False  # whether the client ended it by a reset
    wrong: list[str] = field(default_factory=list)


class Gone(Exception):
    """The connection has ended, or what is waited for takes too long."""


class Client:
    def __init__(self, world: World, number: int, log: TextIO) -> None:
        self.world = world
        self.number = number
        self.random = random.Random(f"{world.seed}.{number}")
        self.log = log
        self.count = 0
        self.counts: Counter[str] = Counter()
        self.conn = Connection("", "", 0, 0.0)
        self.held = bytearray()
        self.reply = bytearray()
        self.reader: asyncio.StreamReader
        self.writer: asyncio.StreamWriter

    # Requests.

    def address(self) -> str:
        if self.number < 3:
            return f"127.0.{1 + self.number % 2}.{1 + self.random.randrange(2)}"
        if self.world.has_six and self.random.random() < 0.08:
            return "::1"
        return f"127.0.0.{1 + self.random.randrange(8)}"

    def name(self) -> str:
        """A name that the test's own name server is asked for."""
        kind = self.random.random()
        word = "dead" if kind < 0.004 else "slow" if kind < 0.03 else self.random.choice(WORDS)
        return f"{word if self.world.has_six or word != 'six' else 'one'}-{self.random.randrange(4 if word == 'late' else 20)}.test"

    def host(self) -> str:
        if self.world.has_names and self.random.random() < 0.25:
            return self.name()
        kind = self.random.random()
        if kind < 0.6:
            return "127.0.0.1"
        if kind < 0.8 or not self.world.has_six:
            return self.random.choice(["localhost", "LocalHost"])
        return "[::1]"

    def word(self) -> str:
        kind = self.random.random()
        variant = self.random.randrange(8)
        if kind < 0.35:
            return f"do-table.{variant}"
        calm = ["ok", "ok", "err", "late", "late", "slow", "trickle", "cr", "bh"]
        wild = ["stall", "bad", "twice", "stray", "long", "half", "flood", "noise", "exit"]
        return f"do-{self.random.choice(calm if kind < 0.85 else wild)}.{variant}"

    def path(self, what: str, word: str) -> str:
        return self.front_of_path(what, word) + (self.mark() if self.random.random() < 0.25 else "")

    def mark(self) -> str:
        """What tells the program that rewrites what to do with this request."""
        does = self.random.choice(ANSWERS[:6] * 5 + ANSWERS + LOSSES)
        return f"/rw-{does}.{self.random.choice(sorted(SAYS))}/i{self.number}.{self.count}"

    def front_of_path(self, what: str, word: str) -> str:
        kind = self.random.random()
        if kind < 0.6:
            return f"/{what}/h{self.random.randrange(1, 7)}/{word}"
        if kind < 0.64:
            return f"/{what}/{self.random.choice(['deny', 'DENY', 'd%65ny', 'Deny', 'never', 'No'])}/{word}"
        return f"/{what}/{self.random.randrange(100)}"

    def request(self, method: str = "", what: str = "", body: tuple[int, int] | None = None, **more: object) -> Sent:
        """A request that its words decide about."""
        rng = self.random
        self.count += 1
        number = f"{self.number}.{self.count}"
        word = self.word()
        method = method or rng.choice(["GET"] * 8 + ["HEAD", "OPTIONS", "DELETE", "Get"])
        if not what:
            what = rng.choice(["small"] * 12 + sorted(PLANS))
        fields = [("Host", "a"), ("X-Id", number)]
        kind = rng.random()
        if kind < 0.86:
            target = f"http://{self.host()}:{self.world.http}{self.path(what, word)}"
        elif kind < 0.90:
            target = f"http://{rng.choice(['x.deny.example', 'DENY.example', 'elsewhere.example:81', 'a.elsewhere.example.deny.example'])}{self.path(what, word)}"
        elif kind < 0.93:
            target = f"http://127.0.0.1:{self.world.nobody}{self.path(what, word)}"
        elif kind < 0.95:
            target = f"{rng.choice(['ftp', 'HTTPS', 'x+y.z-1'])}://127.0.0.1{self.path(what, word)}"
        elif kind < 0.97:
            target = f"HTTP://{self.host()}:{self.world.http}{rng.choice(['', '?q=1', '/?', '/squid-internal-mgr/x'])}"
        else:
            target = f"http://127.0.0.1:{self.world.http}/{what}/no/{word}?a=<b>&c='\"\\{{}}|^`"
        if rng.random() < 0.9:
            fields.append((rng.choice(["X-Word", "x-word"]), word))
            if rng.random() < 0.1:
                fields.append(("X-WORD", "two  \xe9\"%\\"))
        if rng.random() < 0.004:
            fields.append(("X-Word", "w" * 8200))
        if rng.random() < 0.15:
            fields += [("Connection", "X-Gone, , Keep-Alive"), ("X-Gone", "1"), ("Proxy-Authorization", "Basic eA=="), ("TE", "trailers")]
        if rng.random() < 0.1:
            fields += [("Via", "1.0 before"), ("X-Forwarded-For", "192.0.2.1"), ("Accept", " \t text/html;q=0.5 \t")]
        minor = int(str(more.pop("minor", 0 if rng.random() < 0.06 else 1)))
        if minor == 0 and rng.random() < 0.5:
            fields = fields[1:]
        if rng.random() < 0.1:
            fields.append(("Connection", "Close"))
        sent = Sent(number, method, target, minor, fields, body)
        for name, value in more.items():
            setattr(sent, name, value)
        if body is not None:
            if minor == 0:
                sent.chunked = False
            sent.fields.append(("Transfer-Encoding", "chunked") if sent.chunked else ("Content-Length", str(body[1])))
            if sent.expects:
                sent.fields.append(("Expect", "100-Continue"))
        return sent

    # The link.

    async def open(self, what: str, small: bool = False) -> bool:
        address = self.address()
        family = socket.AF_INET6 if ":" in address else socket.AF_INET
        link = socket.socket(family)
        link.setblocking(False)
        if small:
            link.setsockopt(socket.SOL_SOCKET, socket.SO_RCVBUF, 8192)
        began = time.time()
        try:
            link.bind((address, 0))
            target = ("::1" if ":" in address else "127.0.0.1", self.world.port)
            async with asyncio.timeout(self.world.patience):
                await asyncio.get_running_loop().sock_connect(link, target)
            self.reader, self.writer = await asyncio.open_connection(sock=link, limit=1 << 16)
        except (OSError, TimeoutError) as fault:
            link.close()
            self.counts[f"not connected, {type(fault).__name__}"] += 1
            await asyncio.sleep(0.05)
            return False
        self.held = bytearray()
        self.conn = Connection(what, address, link.getsockname()[1], began)
        return True

    def keep(self) -> None:
        """Writes down what came of the connection."""
        self.conn.ended = time.time()
        self.log.write(json.dumps(dataclasses.asdict(self.conn)) + "\n")
        self.counts["connections"] += 1

    async def put(self, bytes_: bytes) -> None:
        """Sends, and waits until it has gone out."""
        try:
            self.writer.write(bytes_)
            async with asyncio.timeout(self.world.patience):
                await self.writer.drain()
        except (OSError, TimeoutError) as fault:
            raise Gone("slow" if isinstance(fault, TimeoutError) else "cut") from None

    async def more(self) -> None:
        """Takes more of what comes."""
        try:
            async with asyncio.timeout(self.world.patience):
                bytes_ = await self.reader.read(65536)
        except TimeoutError:
            raise Gone("slow") from None
        except OSError:
            raise Gone("cut") from None
        if not bytes_:
            raise Gone("cut")
        self.held += bytes_

    async def line_end(self, at: int, mark: bytes) -> int:
        """Where the mark ends behind this place."""
        while True:
            found = self.held.find(mark, at)
            if found >= 0:
                return found + len(mark)
            await self.more()

    async def upto(self, at: int, sent: Sent) -> int:
        while len(self.held) < at:
            await self.more()
            self.note(sent)
        return at

    def note(self, sent: Sent) -> None:
        """Notes how much has come by now: of moments that are close to each other, the last."""
        now = time.time()
        if len(sent.events) > 1 and now - sent.events[-2][0] < 0.01:
            sent.events.pop()
        sent.events.append((now, len(self.held)))

    async def reply_end(self, sent: Sent) -> int:
        """Where the reply ends in what is held, by RFC 9112 section 6.3."""
        at = 0
        while True:
            head_at = at
            at = await self.line_end(at, b"\r\n\r\n")
            head = self.held[head_at:at].lower()
            status = head[9:12]
            if not (status.startswith(b"1") and status != b"101"):
                break
        self.note(sent)
        if sent.method == "HEAD" or status in (b"204", b"304") or sent.method == "CONNECT" and status == b"200":
            return at
        if b"\r\ntransfer-encoding: chunked\r\n" in head:
            while True:
                line_at, at = at, await self.line_end(at, b"\r\n")
                size = int(self.held[line_at:at], 16)
                at = await self.upto(at + size + 2, sent)
                if size == 0:
                    return at
        found = head.find(b"\r\ncontent-length: ")
        if found >= 0:
            return await self.upto(at + int(head[found + 18 :].split(b"\r\n")[0]), sent)
        while True:
            await self.more()
            self.note(sent)

    async def take(self, sent: Sent) -> bool:
        """Takes the reply to a request. Whether it is whole and the connection goes on."""
        try:
            at = await self.reply_end(sent)
            sent.end = "whole"
        except Gone as gone:
            at, sent.end = len(self.held), str(gone)
        except ValueError:
            at, sent.end = len(self.held), "noise"
        self.close_reply(sent, at)
        return sent.end == "whole" and b"\r\nConnection: close\r\n" not in self.reply

    def close_reply(self, sent: Sent, at: int) -> None:
        self.reply, self.held = self.held[:at], self.held[at:]
        sent.ended = time.time()
        sent.got = len(self.reply)
        sent.digest = hashlib.blake2b(self.reply, digest_size=16).hexdigest()
        sent.front = self.reply[:FRONT].decode("latin-1")
        if sent.got <= FRONT:
            sent.events = sent.events[-1:]
        self.counts["replies"] += 1

    def begin(self, sent: Sent) -> Sent:
        sent.began = time.time()
        self.conn.requests.append(sent)
        self.counts["requests"] += 1
        return sent

    async def ask(self, sent: Sent) -> bool:
        self.begin(sent)
        try:
            await self.put(sent.head())
            if sent.expects and sent.minor == 1:
                # What comes first is 100 Continue, or the reply.
                while b"\r\n\r\n" not in self.held:
                    await self.more()
                if not self.held.startswith(b"HTTP/1.1 100 "):
                    return await self.take(sent)
            if sent.body is not None:
                # What is answered may have to be taken before all of the body is out.
                sender = asyncio.create_task(self.put(sent.bytes_of_body()))
                goes_on = await self.take(sent)
                try:
                    await sender
                except Gone:
                    return False
                return goes_on
        except Gone as gone:
            if str(gone) == "slow":
                sent.end = "slow"
                self.close_reply(sent, len(self.held))
                return False
        return await self.take(sent)

    async def see_end(self) -> None:
        """Behind a reply that closes, nothing comes but the end."""
        try:
            while True:
                await self.more()
        except Gone as gone:
            if str(gone) == "slow":
                self.conn.wrong.append("the connection stays open behind a reply that closes it")
        self.conn.rest = self.held[:FRONT].decode("latin-1")

    async def rest(self) -> None:
        """Waits with an open connection, so that of many clients most are there at once and few ask."""
        if self.world.pause:
            await asyncio.sleep(min(self.random.random() * self.world.pause, max(0.0, self.world.until - time.time())))

    # What clients do.

    async def several(self) -> None:
        for _ in range(self.random.randrange(1, 7)):
            if not await self.ask(self.request()):
                return await self.see_end()
            await self.rest()

    async def pooled(self) -> None:
        for _ in range(self.random.randrange(1, 3)):
            size = self.random.choice([1000, 20_000, 60_000, 120_000])
            sent = self.request("GET", f"sized.{size}")
            path = f"/sized.{size}/x"
            if self.random.random() < 0.6:
                path = f"/sized.{size}/tag/x"
                words = [one for one in sent.fields if one[0].lower() != "x-word"]
                sent.fields = [*words, ("X-Word", f"do-tag.{self.random.randrange(8)}")]
            sent.target = f"http://{self.random.choice(['127.0.0.1', 'localhost'])}:{self.world.http}{path}"
            if not await self.ask(sent):
                return await self.see_end()
        await asyncio.sleep(self.random.random() * 0.5)

    async def post(self) -> None:
        size = self.random.choice([0, 1, 1000, 16384, 50_000, 200_000])
        sent = self.request(
            self.random.choice(["POST", "PUT", "PATCH"]),
            self.random.choice(["echo"] * 6 + ["hasty", "small", "resetbody", "reset"]),
            (self.random.randrange(5000), size),
            chunked=self.random.random() < 0.5,
            expects=self.random.random() < 0.2 and size > 0,
        )
        if await self.ask(sent):
            await self.ask(self.request())
        else:
            await self.see_end()

    async def slow_post(self) -> None:
        sent = self.begin(self.request("POST", "echo", (0, 3000)))
        text = sent.head() + sent.bytes_of_body()
        try:
            for at in range(0, len(text), 300):
                await self.put(text[at : at + 300])
                await asyncio.sleep(0.02)
        except Gone:
            pass
        await self.take(sent)

    async def broken_post(self) -> None:
        size = self.random.randrange(1, 100_000)
        sent = self.begin(self.request("POST", "echo", (0, size), whole=False))
        await self.put(sent.head() + data(0, self.random.randrange(size)))
        await asyncio.sleep(self.random.random() * 0.05)

    async def bad_chunks(self) -> None:
        # The body is refused: what came of it went to the origin, and nobody answers. A denial comes before that.
        sent = self.begin(self.request("POST", "echo", (0, 3), chunked=True, whole=False, minor=1))
        await self.put(sent.head() + b"3\r\nabc\r\nwhat\r\n\r\n")
        await self.take(sent)

    async def tunnel(self) -> None:
        sent = self.request("CONNECT")
        sent.target = f"{self.host()}:{self.world.echo}"
        await self.ask(sent)
        if not sent.front.startswith("HTTP/1.1 200 "):
            return
        try:
            for _ in range(self.random.randrange(1, 6)):
                sent.is_even = False
                bytes_ = data(self.random.randrange(5000), self.random.randrange(1, 40_000))
                sender = asyncio.create_task(self.put(bytes_))
                while len(self.held) < len(bytes_):
                    await self.more()
                await sender
                if self.held != bytes_:
                    self.conn.wrong.append("a tunnel gave other bytes back")
                    return
                self.held.clear()
                await self.rest()
                self.counts["tunnelled"] += len(bytes_)
                sent.tunnelled += len(bytes_)
                sent.is_even = True
        except Gone as gone:
            self.conn.wrong.append(f"a tunnel ended early: {gone}")
            return
        if self.random.random() < 0.5:
            self.writer.write_eof()
            await self.see_end()

    async def broken_tunnel(self) -> None:
        sent = self.request("CONNECT", whole=False)
        sent.target = f"127.0.0.1:{self.world.echo}"
        self.begin(sent)
        await self.put(sent.head() + data(0, self.random.randrange(60_000)))
        await asyncio.sleep(self.random.random() * 0.02)

    async def part_of_head(self) -> None:
        head = self.request().head()
        await self.put(head[: self.random.randrange(len(head))])
        await asyncio.sleep(self.random.choice([0, 0.02, 0.5]) * self.random.random())

    async def and_away(self) -> None:
        for _ in range(self.random.randrange(1, 4)):
            await self.put(self.begin(self.request("GET", is_alone=False)).head())
        await asyncio.sleep(self.random.choice([0, 0.05]) * self.random.random())

    async def part_of_reply(self) -> None:
        sent = self.begin(self.request("GET", "big"))
        await self.put(sent.head())
        try:
            await self.more()
            sent.end = "left"
        except Gone as gone:
            sent.end = str(gone)
        self.close_reply(sent, len(self.held))

    async def stalled_reader(self) -> None:
        sent = self.begin(self.request("GET", "sized.6000000"))
        await self.put(sent.head())
        await asyncio.sleep(0.5 + self.random.random())
        if self.random.random() < 0.5:
            await self.take(sent)

    async def noise(self) -> None:
        # Not of empty lines alone, behind which the proxy waits for more.
        rng = self.random
        await self.put(b"z" + bytes(rng.randrange(256) for _ in range(rng.randrange(400))) + b"\r\n\r\n")
        await self.own_reply("400 Bad Request", "bad request")

    async def own_reply(self, status: str, body: str) -> None:
        """Takes a reply to what is no request: it has to be this, byte by byte, and then the end."""
        self.conn.own = status[:3]
        try:
            while True:
                await self.more()
        except Gone as gone:
            wanted = f"HTTP/1.1 {status}\r\nContent-Type: text/plain\r\nContent-Length: {len(body) + 1}\r\nConnection: close\r\n\r\n{body}\n"
            # What the proxy did not read before it closed may reset the connection, and take the reply with it.
            if not wanted.encode().startswith(bytes(self.held)) or str(gone) == "slow":
                self.conn.wrong.append(f"it was answered {bytes(self.held[:FRONT])!r} ({gone}), and not {wanted!r}")
            self.counts["replies"] += 1

    async def bad_head(self) -> None:
        http = f"http://127.0.0.1:{self.world.http}/small"
        heads = {
            "GET /small HTTP/1.1\r\nHost: a\r\n\r\n": "400 Bad Request",
            f"GET {http} HTTP/1.1\r\n\r\n": "400 Bad Request",
            f"GET {http} HTTP/1.1\r\nHost: a\r\nhost: a\r\n\r\n": "400 Bad Request",
            f"GET http://u:p@127.0.0.1:{self.world.http}/ HTTP/1.1\r\nHost: a\r\n\r\n": "400 Bad Request",
            f"GET {http}#part HTTP/1.1\r\nHost: a\r\n\r\n": "400 Bad Request",
            f"GET {http} HTTP/1.1\r\nHost: a\r\nX : y\r\n\r\n": "400 Bad Request",
            f"GET {http} HTTP/1.1\r\nHost: a\r\n folded\r\n\r\n": "400 Bad Request",
            "CONNECT 127.0.0.1 HTTP/1.1\r\nHost: a\r\n\r\n": "400 Bad Request",
            "CONNECT 127.0.0.1:0 HTTP/1.1\r\nHost: a\r\n\r\n": "400 Bad Request",
            f"POST {http} HTTP/1.1\r\nHost: a\r\nContent-Length: 1\r\nTransfer-Encoding: chunked\r\n\r\n": "400 Bad Request",
            f"POST {http} HTTP/1.1\r\nHost: a\r\nContent-Length: 1\r\nContent-Length: 1\r\n\r\n": "400 Bad Request",
            f"POST {http} HTTP/1.1\r\nHost: a\r\nContent-Length: +1\r\n\r\n": "400 Bad Request",
            f"POST {http} HTTP/1.0\r\nTransfer-Encoding: chunked\r\n\r\n": "400 Bad Request",
            f"POST {http} HTTP/1.1\r\nHost: a\r\nTransfer-Encoding: gzip, chunked\r\n\r\n": "501 Not Implemented",
            f"GET {http} HTTP/1.1\r\nHost: a\r\nX: {'v' * 70_000}\r\n\r\n": "431 Request Header Fields Too Large",
            f"GET {http} HTTP/1.1\r\nHost: a\r\n{''.join(f'X: {n}' + chr(13) + chr(10) for n in range(128))}\r\n": "431 Request Header Fields Too Large",
        }
        head = self.random.choice(sorted(heads))
        body = {"400": "bad request", "501": "not implemented", "431": "head too large"}[heads[head][:3]]
        self.conn.line = head.split(" HTTP/")[0]
        await self.put(head.encode())
        await self.own_reply(heads[head], body)

    async def byte_by_byte(self) -> None:
        sent = self.begin(self.request())
        head = sent.head()
        # A long one comes in larger pieces, so that it is whole before others may take its worker.
        step = 1 + len(head) // 200
        for at in range(0, len(head), step):
            await self.put(head[at : at + step])
            await asyncio.sleep(0.0005)
        if not await self.take(sent):
            await self.see_end()

    async def at_once(self) -> None:
        all_ = [self.begin(self.request(followed=place < 2, is_alone=False)) for place in range(3)]
        await self.put(b"".join(sent.head() for sent in all_))
        for sent in all_:
            if not await self.take(sent):
                return await self.see_end()

    async def nothing(self) -> None:
        await asyncio.sleep(self.random.random() * 0.3)
        if self.random.random() < 0.5:
            await self.put(b"\r\n" * self.random.randrange(20))

    async def idle(self) -> None:
        if await self.ask(self.request()):
            await asyncio.sleep(self.random.random())
            if not await self.ask(self.request()):
                await self.see_end()

    async def live(self) -> None:
        weights: dict[Callable[[], Awaitable[None]], int] = {
            self.several: 34,
            self.post: 9,
            self.slow_post: 2,
            self.broken_post: 4,
            self.bad_chunks: 3,
            self.tunnel: 7,
            self.broken_tunnel: 4,
            self.part_of_head: 8,
            self.and_away: 8,
            self.part_of_reply: 5,
            self.stalled_reader: 1,
            self.noise: 3,
            self.bad_head: 6,
            self.byte_by_byte: 2,
            self.at_once: 6,
            self.nothing: 3,
            self.idle: 3,
        }
        for action in (self.several, self.tunnel):
            weights[action] *= 5 if self.world.pause else 1
        actions, chances = list(weights), list(weights.values())
        while time.time() < self.world.until:
            action = self.pooled if self.number < 3 else self.random.choices(actions, chances)[0]
            if not await self.open(action.__name__, action == self.stalled_reader):
                continue
            try:
                await action()
            except Gone as gone:
                if str(gone) == "slow":
                    self.conn.wrong.append(f"what it sent was not taken within {self.world.patience} seconds")
            except OSError:
                # The link failed as it was used: the server had closed it.
                self.counts["links that failed"] += 1
            self.conn.is_reset = self.random.random() < 0.35
            if self.conn.is_reset:
                reset(self.writer)
            else:
                self.writer.close()
            self.keep()
            await asyncio.sleep(self.random.random() * 0.02)


async def attend(world: World, count: int, log: str) -> None:
    with open(log, "w", buffering=1 << 16) as file:
        clients = [Client(world, number, file) for number in range(count)]
        await asyncio.gather(*(client.live() for client in clients))
    total: Counter[str] = Counter()
    for client in clients:
        total.update(client.counts)
    with open(log + ".counts.new", "w") as out:
        json.dump(total, out)
    os.rename(log + ".counts.new", log + ".counts")


def run(world: World, count: int, log: str) -> None:
    asyncio.run(attend(world, count, log))
