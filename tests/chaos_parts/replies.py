"""What an origin does for a path, and what the client and the origin then have to get: docs/FORMATS.md, written out by hand."""

from dataclasses import dataclass, field
from functools import lru_cache
from typing import Callable

PATTERN = bytes(range(33, 126)) * 64
CONTINUE = b"HTTP/1.1 100 Continue\r\n\r\n"
Fields = tuple[tuple[str, str], ...]
Passes = Callable[[str], bool]  # whether a field of this name goes on


@lru_cache(maxsize=256)
def data(offset: int, size: int) -> bytes:
    """So many bytes of one text without end."""
    start = offset % len(PATTERN)
    return (PATTERN * ((start + size) // len(PATTERN) + 1))[start : start + size]


@dataclass(frozen=True)
class Plan:
    """A reply of an origin's. `body` is what a client is to have of it, in these pieces."""

    status: str = "200 OK"
    minor: int = 1
    interim: tuple[str, ...] = ()
    kept: Fields = ()
    dropped: Fields = ()
    frame: str = "length"  # or chunked, close, none
    pieces: tuple[bytes, ...] = ()
    announced: int | None = None  # a length that is not that of the pieces
    raw: bytes | None = None  # all that it writes, where that is no reply
    tail: bytes = b""  # what it writes behind its body
    pause: float = 0.0  # seconds between pieces
    end: str = "wait"  # or close, reset: behind the last byte
    works: bool = True  # whether a client gets it, and no 502
    of_head: Fields | None = None  # the fields that a HEAD gets of one that does not work: what they say of a body is not looked at
    is_cut: bool = False  # whether the client's connection closes behind what came
    is_loose: bool = False  # its end may overtake what it wrote: a client gets a front of that, or a 502

    def head(self) -> bytes:
        fields = self.dropped + self.kept
        if self.frame == "length":
            fields += (("Content-Length", str(sum(map(len, self.pieces)) if self.announced is None else self.announced)),)
        elif self.frame == "chunked":
            fields += (("Transfer-Encoding", "Chunked"),)
        lines = [f"HTTP/1.{self.minor} {self.status}", *(f"{name}: {value}" for name, value in fields), "", ""]
        return "\r\n".join(lines).encode("latin-1")

    def written(self, method: str) -> list[bytes]:
        """The writes of the origin."""
        if self.raw is not None:
            return [self.raw] if self.raw else []
        out = [f"{line}\r\nX-Hint: {at}\r\n\r\n".encode() for at, line in enumerate(self.interim)]
        out.append(self.head())
        if method == "HEAD":
            return out
        for at, piece in enumerate(self.pieces):
            out.append(b"%X;part=%d\r\n%s\r\n" % (len(piece), at, piece) if self.frame == "chunked" else piece)
        if self.frame == "chunked" and not self.is_cut:
            out.append(b"000;last\r\nTrailer: 1\r\n\r\n")
        return out + ([self.tail] if self.tail else [])


SMALL = (data(0, 1024),)
TEXT: Fields = (("Content-Type", "text/plain"), ("X-Kept", "a  b"))
HOPS: Fields = (("Connection", "X-Hop, Keep-Alive"), ("X-Hop", "1"), ("Keep-Alive", "timeout=5"), ("Proxy-Connection", "x"), ("Trailer", "t"), ("TE", "trailers"), ("Upgrade", "h2c"))

PLANS: dict[str, Plan] = {
    "small": Plan(pieces=SMALL, kept=TEXT, dropped=HOPS),
    "empty": Plan(pieces=()),
    "big": Plan(pieces=(data(5, 204_800),)),
    "chunked": Plan(pieces=(data(1, 1000), data(7, 24), b"x"), frame="chunked", kept=TEXT),
    "bigchunks": Plan(pieces=tuple(data(n, 20_000) for n in range(5)), frame="chunked"),
    "close": Plan(pieces=SMALL, frame="close", minor=0, end="close"),
    "early": Plan(pieces=SMALL, interim=("HTTP/1.1 103 Early Hints", "HTTP/1.1 102 Processing")),
    "many": Plan(pieces=SMALL, interim=("HTTP/1.1 103 Early Hints",) * 16),
    "toomany": Plan(pieces=SMALL, interim=("HTTP/1.1 103 Early Hints",) * 17, works=False),
    "late": Plan(pieces=(data(0, 500), data(500, 524)), pause=0.05),
    "trickle": Plan(pieces=tuple(bytes([b]) for b in data(3, 60)), pause=0.004),
    "trickled": Plan(pieces=tuple(bytes([b]) for b in data(3, 40)), frame="chunked", pause=0.004),
    "nobody": Plan(status="204 No Content", frame="none", kept=TEXT),
    "unchanged": Plan(status="304 Not Modified", frame="none", kept=(("ETag", '"a"'), ("Content-Length", "77"))),
    "fault": Plan(status="500 Our Fault", pieces=(b"sorry",)),
    "lie": Plan(pieces=(data(0, 10),), tail=data(10, 500)),
    "cut": Plan(pieces=SMALL, announced=5000, end="close", is_cut=True),
    "badchunk": Plan(pieces=(b"abc",), frame="chunked", tail=b"zz\r\n", is_cut=True),
    "halfchunk": Plan(pieces=(b"abcdef",), frame="chunked", end="close", is_cut=True),
    "resetbody": Plan(pieces=SMALL, announced=5000, end="reset", is_cut=True, is_loose=True),
    "hasty": Plan(pieces=SMALL, kept=TEXT, end="close", is_loose=True),
    "reset": Plan(raw=b"", end="reset", works=False),
    "nothing": Plan(raw=b"", end="close", works=False),
    "noise": Plan(raw=b"220 ready\r\n\r\n", end="close", works=False),
    "half": Plan(raw=b"HTTP/1.1 200 OK\r\nContent-", end="close", works=False),
    "stall": Plan(raw=b"HTTP/1.1 200 OK\r\n", end="close", pause=1.2, works=False),
    "switch": Plan(status="101 Switching Protocols", frame="none", dropped=(("Upgrade", "h2c"),), works=False),
    "lengths": Plan(raw=b"HTTP/1.1 200 OK\r\nContent-Length: 3\r\nContent-Length: 3\r\n\r\nabc", end="close", works=False, of_head=(("Content-Length", "3"), ("Content-Length", "3"))),
    "both": Plan(raw=b"HTTP/1.1 200 OK\r\nContent-Length: 3\r\nTransfer-Encoding: chunked\r\n\r\n3\r\nabc\r\n0\r\n\r\n", end="close", works=False, of_head=(("Content-Length", "3"),)),
    "coding": Plan(raw=b"HTTP/1.1 200 OK\r\nTransfer-Encoding: gzip\r\n\r\nabc", end="close", works=False, of_head=()),
    "wide": Plan(raw=b"HTTP/1.1 200 OK\r\nX: " + b"w" * 70_000 + b"\r\n\r\n", end="close", works=False),
}


def plan_of(path: str, body: bytes) -> Plan:
    """What an origin does for a path: its first part says it. `sized.N` has N bytes, and `echo` those of the request."""
    word = path.split("/")[1] if path.startswith("/") else "small"
    if word == "echo":
        return Plan(pieces=(body,) if body else ())
    if word.startswith("sized."):
        return Plan(pieces=(data(0, int(word[6:])),))
    return PLANS.get(word, PLANS["small"])


@dataclass
class Sent:
    """A request as a client sent it. `body` is where its bytes begin in the text and how many they are."""

    number: str
    method: str
    target: str
    minor: int
    fields: list[tuple[str, str]]
    body: tuple[int, int] | None = None
    chunked: bool = False
    expects: bool = False
    whole: bool = True
    followed: bool = False  # further requests were sent behind it before its reply came
    is_alone: bool = True  # no other request was on its way when it was sent
    # What came: the bytes, their digest and first bytes, how it ended, and when.
    began: float = 0.0
    ended: float = 0.0
    got: int = 0
    digest: str = ""
    front: str = ""
    end: str = ""  # whole, left, cut, slow, or none where nothing was waited for
    events: list[tuple[float, int]] = field(default_factory=list)
    tunnelled: int = 0  # bytes that came back through its tunnel
    is_even: bool = False  # as many as were sent into it

    def data(self) -> bytes:
        return data(*self.body) if self.body else b""

    def head(self) -> bytes:
        lines = [f"{self.method} {self.target} HTTP/1.{self.minor}", *(f"{name}: {value}" for name, value in self.fields), "", ""]
        return "\r\n".join(lines).encode("latin-1")

    def bytes_of_body(self) -> bytes:
        if self.body is None:
            return b""
        body = self.data()
        if not self.chunked:
            return body
        pieces = [body[at : at + 7000] for at in range(0, len(body), 7000)]
        return b"".join(b"%x;a\r\n%s\r\n" % (len(piece), piece) for piece in pieces) + b"0\r\n\r\n"

    def has_body(self) -> bool:
        """Whether there is one: a length of 0 is none."""
        return self.chunked or self.body is not None and self.body[1] > 0

    def closes(self) -> bool:
        return self.minor == 0 or any(name.lower() == "connection" and "close" in value.lower() for name, value in self.fields)


def own(status: str, body: str, stays: bool, method: str) -> bytes:
    lines = [f"HTTP/1.1 {status}", "Content-Type: text/plain", f"Content-Length: {len(body) + 1}"]
    lines += [] if stays else ["Connection: close"]
    return "\r\n".join([*lines, "", "" if method == "HEAD" else body + "\n"]).encode("ascii")


def elsewhere(status: str, location: str) -> bytes:
    """The reply that sends a client elsewhere."""
    return f"HTTP/1.1 {status}\r\nLocation: {location}\r\nContent-Length: 0\r\nConnection: close\r\n\r\n".encode("ascii")


def denial(sent: Sent, outcome: str) -> tuple[bytes, bool]:
    """The reply to a denied request, and whether the connection closes."""
    stays = not sent.has_body() and not sent.closes()
    return own("403 Forbidden", outcome, stays, sent.method), not stays


def lines_of(front: str, fields: list[tuple[str, str]], passes: Passes) -> bytes:
    """A head: its first line, and the fields that go on."""
    return "\r\n".join([front, *(f"{name}: {value}" for name, value in fields if passes(name)), "", ""]).encode("latin-1")


def reply(sent: Sent, plan: Plan, passes: Passes) -> tuple[bytes, bool]:
    """The reply to an allowed request that reached its origin, and whether the connection closes."""
    out = b""
    if sent.minor == 1 and sent.expects and sent.has_body():
        out = CONTINUE
    if sent.minor == 1:
        for at, line in enumerate(plan.interim[:16]):
            out += lines_of(line, [("X-Hint", str(at)), ("Via", "1.1 aclproxy")], passes)
    if not plan.works and (plan.of_head is None or sent.method != "HEAD"):
        return out + own("502 Bad Gateway", "bad gateway", False, sent.method), True
    has_body = sent.method != "HEAD" and plan.frame != "none"
    to_close = plan.frame == "close" or plan.frame == "chunked" and sent.minor == 0
    closes = sent.closes() or has_body and (to_close or plan.is_cut)
    fields = list(plan.kept if plan.works else plan.of_head or ())
    if plan.frame == "length" and plan.works:
        fields.append(("Content-Length", str(sum(map(len, plan.pieces)) if plan.announced is None else plan.announced)))
    if plan.frame == "chunked" and has_body and sent.minor == 1:
        fields.append(("Transfer-Encoding", "chunked"))
    fields.append(("Via", f"1.{plan.minor} aclproxy"))
    if sent.closes() or has_body and to_close:
        fields.append(("Connection", "close"))
    out += lines_of(f"HTTP/1.1 {plan.status}", fields, passes)
    if has_body:
        for piece in plan.pieces:
            out += b"%x\r\n%s\r\n" % (len(piece), piece) if plan.frame == "chunked" and sent.minor == 1 else piece
        if plan.frame == "chunked" and sent.minor == 1 and not plan.is_cut:
            out += b"0\r\n\r\n"
    return out, closes


HOP_BY_HOP = {"host", "connection", "proxy-connection", "keep-alive", "te", "trailer", "transfer-encoding", "upgrade", "proxy-authorization", "expect"}


def head_at_origin(sent: Sent, target: str, address: str, passes: Passes) -> bytes:
    """The head that the origin has to get, of a request that goes on with this target."""
    rest = target.split("://", 1)[1]
    end = min((rest.index(c) for c in "/?" if c in rest), default=len(rest))
    authority, path = rest[:end], rest[end:]
    if not path.startswith("/"):
        path = "*" if sent.method == "OPTIONS" and not path else "/" + path
    listed = {word.strip().lower() for name, value in sent.fields if name.lower() == "connection" for word in value.split(",")}
    kept = [(n, v.strip(" \t")) for n, v in sent.fields if n.lower() not in HOP_BY_HOP and (n.lower() not in listed or n.lower() == "content-length")]
    fields = [("Host", authority), *kept]
    if sent.chunked:
        fields.append(("Transfer-Encoding", "chunked"))
    fields += [("Via", f"1.{sent.minor} aclproxy"), ("X-Forwarded-For", address), ("Connection", "close")]
    return lines_of(f"{sent.method} {path} HTTP/1.1", fields, passes)
