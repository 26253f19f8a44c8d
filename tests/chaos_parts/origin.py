"""The origins: one of HTTP, which does what a path says, and one that sends back what comes. Each tells in a file what it got."""

import asyncio
import hashlib
import json
import os
import socket
import struct
from typing import TextIO

from .replies import plan_of

LIFE = 60.0  # seconds of a link of HTTP: on a machine that is too busy it ends too early, which is told
TUNNEL = 300.0  # those of one that sends back


PLACES = ("127.0.0.1", "127.0.0.9", "127.1.0.9", "::1")  # the addresses of the origins; the last one where there is such


def listeners(count: int) -> list[list[socket.socket]]:
    """So many ports, each with a socket at each of the addresses."""
    out: list[list[socket.socket]] = []
    while len(out) < count:
        sockets: list[socket.socket] = []
        port = 0
        for place in PLACES:
            try:
                family = socket.AF_INET6 if ":" in place else socket.AF_INET
                sockets.append(socket.create_server((place, port), family=family, backlog=1024))
                port = sockets[-1].getsockname()[1]
            except OSError:
                if ":" not in place:
                    break
        else:
            out.append(sockets)
            continue
        for one in sockets:
            one.close()
    return out


def reset(writer: asyncio.StreamWriter) -> None:
    """Ends a link by a reset."""
    link = writer.get_extra_info("socket")
    try:
        link.setsockopt(socket.SOL_SOCKET, socket.SO_LINGER, struct.pack("ii", 1, 0))
    except OSError:
        pass
    writer.transport.abort()


async def read_body(reader: asyncio.StreamReader, head: bytes) -> bytes:
    """The data of a request's body. An end before its end is told by an exception."""
    names = {}
    for line in head.split(b"\r\n")[1:-2]:
        name, _, value = line.partition(b":")
        names[name.lower()] = value.strip()
    if names.get(b"transfer-encoding") == b"chunked":
        body = b""
        while True:
            line = await reader.readuntil(b"\r\n")
            size = int(line, 16)
            piece = await reader.readexactly(size + 2)
            if size == 0:
                return body
            body += piece[:-2]
    return await reader.readexactly(int(names.get(b"content-length", b"0")))


class Origin:
    def __init__(self, log: TextIO) -> None:
        self.log = log

    def tell(self, **what: object) -> None:
        self.log.write(json.dumps(what) + "\n")

    async def serve(self, reader: asyncio.StreamReader, writer: asyncio.StreamWriter) -> None:
        heads: list[bytes] = []
        try:
            async with asyncio.timeout(LIFE):
                await self.answer(reader, writer, heads)
        except TimeoutError:
            for head in heads:
                self.tell(left=head.decode("latin-1"))
        except (OSError, asyncio.IncompleteReadError, asyncio.LimitOverrunError, ValueError):
            pass
        finally:
            writer.close()

    async def answer(self, reader: asyncio.StreamReader, writer: asyncio.StreamWriter, heads: list[bytes]) -> None:
        head = b""
        try:
            head = await reader.readuntil(b"\r\n\r\n")
        except asyncio.IncompleteReadError as cut:
            if cut.partial:
                self.tell(head=cut.partial.decode("latin-1"), whole=False)
            return
        heads.append(head)
        at = writer.get_extra_info("sockname")[0]
        method, path = head.split(b" ", 2)[:2]
        if path.startswith(b"/hasty"):
            # It answers and closes, whatever is still to come.
            body = b""
            self.tell(head=head.decode("latin-1"), at=at, whole=False)
        else:
            try:
                body = await read_body(reader, head)
            except (asyncio.IncompleteReadError, OSError, ValueError):
                self.tell(head=head.decode("latin-1"), at=at, whole=False)
                return
            digest = hashlib.blake2b(body, digest_size=16).hexdigest()
            self.tell(head=head.decode("latin-1"), at=at, whole=True, size=len(body), digest=digest)
        plan = plan_of(path.decode("latin-1"), body)
        for bytes_ in plan.written(method.decode()):
            writer.write(bytes_)
            await writer.drain()
            if plan.pause:
                await asyncio.sleep(plan.pause)
        if plan.end == "reset":
            reset(writer)
        elif plan.end == "wait":
            while await reader.read(65536):
                pass

    async def echo(self, reader: asyncio.StreamReader, writer: asyncio.StreamWriter) -> None:
        try:
            async with asyncio.timeout(TUNNEL):
                while piece := await reader.read(65536):
                    writer.write(piece)
                    await writer.drain()
        except (OSError, TimeoutError):
            pass
        finally:
            writer.close()


async def attend(ports: list[list[socket.socket]], log: str) -> None:
    with open(log, "w", buffering=1 << 16) as file:
        origin = Origin(file)
        for sockets, what in zip(ports, (origin.serve, origin.echo)):
            for one in sockets:
                await asyncio.start_server(what, sock=one, limit=1 << 18, backlog=1024)
        parent = os.getppid()
        while os.getppid() == parent:
            await asyncio.sleep(0.5)
            if os.path.exists("origins.end"):
                break
        file.flush()


def run(ports: list[list[socket.socket]], log: str) -> None:
    asyncio.run(attend(ports, log))
