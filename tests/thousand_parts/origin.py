"""An origin in a process of its own. It answers each GET with 1 KiB, kept open, and sends each line that is no request back."""

import asyncio
import contextlib
import multiprocessing
import multiprocessing.connection
from typing import Iterator

BODY = b"x" * 1024
REPLY = b"HTTP/1.1 200 OK\r\nContent-Type: text/plain\r\nContent-Length: 1024\r\n\r\n" + BODY


class Origin(asyncio.Protocol):
    """A connection to the origin."""

    def connection_made(self, transport: asyncio.BaseTransport) -> None:
        assert isinstance(transport, asyncio.Transport)
        self.transport = transport
        self.rest = b""

    def data_received(self, data: bytes) -> None:
        self.rest += data
        while self.rest:
            if self.rest.startswith(b"GET "):
                head, ended, rest = self.rest.partition(b"\r\n\r\n")
                if not ended:
                    return
                self.rest = rest
                if b"\r\nconnection: close" in head.lower():
                    self.transport.write(REPLY.replace(b"\r\n\r\n", b"\r\nConnection: close\r\n\r\n", 1))
                    self.transport.close()
                    return
                self.transport.write(REPLY)
            elif b"\n" in self.rest:
                line, _, self.rest = self.rest.partition(b"\n")
                self.transport.write(line + b"\n")
            else:
                return


def work(told: multiprocessing.connection.Connection) -> None:
    """The process: it serves until its pipe ends."""

    async def serve() -> None:
        loop = asyncio.get_running_loop()
        server = await loop.create_server(Origin, "127.0.0.1", 0, backlog=4096)
        told.send(server.sockets[0].getsockname()[1])
        ended = asyncio.Event()
        loop.add_reader(told.fileno(), ended.set)
        await ended.wait()
        loop.remove_reader(told.fileno())
        server.close()

    asyncio.run(serve())


@contextlib.contextmanager
def origin() -> Iterator[int]:
    """The port of the origin."""
    here, there = multiprocessing.get_context("fork").Pipe()
    process = multiprocessing.get_context("fork").Process(target=work, args=(there,), daemon=True)
    process.start()
    try:
        if not here.poll(20):
            raise SystemExit("the origin does not listen")
        yield int(here.recv())
    finally:
        here.send("end")
        process.join(5)
        if process.is_alive():
            process.kill()
            process.join()
