"""Clients: tunnels that are silent or say a word now and then, browsers, and kept connections."""

import asyncio
import contextlib
import time
from dataclasses import dataclass, field
from typing import Optional

# What is not there after so many seconds does not come.
PATIENCE = 30.0
# So many connections are opened at a time.
AT_ONCE = 100
OBJECTS = 18
TUNNELS = 6
PAGE_EACH = 5.0


@dataclass
class Came:
    """What came of a scene: how often it went well and not, and how long each took, in seconds."""

    good: int = 0
    failed: int = 0
    times: list[float] = field(default_factory=list)

    def part(self, share: float) -> float:
        """The time that this share of all did not exceed, in milliseconds."""
        if not self.times:
            return float("nan")
        ordered = sorted(self.times)
        return ordered[min(len(ordered) - 1, int(share * len(ordered)))] * 1000


class Link:
    """A connection through the proxy: a tunnel to the origin, or one for requests."""

    def __init__(self, reader: asyncio.StreamReader, writer: asyncio.StreamWriter) -> None:
        self.reader = reader
        self.writer = writer

    def close(self) -> None:
        with contextlib.suppress(OSError, RuntimeError):
            self.writer.close()

    async def word(self, text: bytes) -> bool:
        """Sends a line, and waits for it to come back."""
        try:
            self.writer.write(text + b"\n")
            return await asyncio.wait_for(self.reader.readline(), PATIENCE) == text + b"\n"
        except (OSError, TimeoutError, asyncio.TimeoutError):
            return False

    async def get(self, target: str, host: str) -> bool:
        """Asks for a page of 1 KiB, and reads it."""
        try:
            self.writer.write(f"GET {target} HTTP/1.1\r\nHost: {host}\r\n\r\n".encode())
            return await asyncio.wait_for(self.reply(), PATIENCE)
        except (OSError, TimeoutError, asyncio.TimeoutError, asyncio.IncompleteReadError, asyncio.LimitOverrunError, ValueError):
            return False

    async def reply(self) -> bool:
        head = await self.reader.readuntil(b"\r\n\r\n")
        lines = head.lower().split(b"\r\n")
        length = next((int(line.split(b":")[1]) for line in lines if line.startswith(b"content-length:")), 0)
        await self.reader.readexactly(length)
        return head.startswith(b"HTTP/1.1 200") and length == 1024


async def opened(proxy: int) -> Optional[Link]:
    """A connection to the proxy."""
    try:
        reader, writer = await asyncio.wait_for(asyncio.open_connection("127.0.0.1", proxy), PATIENCE)
    except (OSError, TimeoutError, asyncio.TimeoutError):
        return None
    return Link(reader, writer)


async def tunnel(proxy: int, origin: int) -> Optional[Link]:
    """A tunnel to the origin."""
    link = await opened(proxy)
    if link is None:
        return None
    try:
        link.writer.write(f"CONNECT 127.0.0.1:{origin} HTTP/1.1\r\nHost: 127.0.0.1:{origin}\r\n\r\n".encode())
        head = await asyncio.wait_for(link.reader.readuntil(b"\r\n\r\n"), PATIENCE)
        if head.split(b" ")[1:2] == [b"200"]:
            return link
    except (OSError, TimeoutError, asyncio.TimeoutError, asyncio.IncompleteReadError, asyncio.LimitOverrunError):
        pass
    link.close()
    return None


async def many(count: int, proxy: int, origin: int, tunnels: bool) -> tuple[list[Link], Came]:
    """Opens many tunnels, or connections with one request each, so many at a time."""
    came = Came()
    links: list[Link] = []
    room = asyncio.Semaphore(AT_ONCE)

    async def one() -> None:
        async with room:
            began = time.monotonic()
            link = await tunnel(proxy, origin) if tunnels else await opened(proxy)
            if link is not None and not tunnels and not await link.get(f"http://127.0.0.1:{origin}/", f"127.0.0.1:{origin}"):
                link.close()
                link = None
            if link is None:
                came.failed += 1
                return
            came.good += 1
            came.times.append(time.monotonic() - began)
            links.append(link)

    await asyncio.gather(*(one() for _ in range(count)))
    return links, came


async def speak(links: list[Link], seconds: float, each: float) -> Came:
    """Each tunnel says a word as often, for so long; without a span it says one at the end alone."""
    came = Came()
    until = time.monotonic() + seconds

    async def one(number: int, link: Link) -> None:
        if not each:
            await asyncio.sleep(seconds)
        else:
            await asyncio.sleep(each * number / max(1, len(links)))
        for turn in range(1 + int(seconds / each) if each else 1):
            began = time.monotonic()
            if not await link.word(f"{number} {turn}".encode()):
                came.failed += 1
                return
            came.good += 1
            came.times.append(time.monotonic() - began)
            if not each or began + each > until:
                return
            await asyncio.sleep(max(0.0, began + each - time.monotonic()))

    await asyncio.gather(*(one(number, link) for number, link in enumerate(links)))
    return came


async def browse(proxy: int, origin: int, count: int, seconds: float) -> tuple[Came, Came]:
    """Browsers with six tunnels each, which get a page of 18 objects every five seconds. Pages that came whole, and objects."""
    pages, objects = Came(), Came()
    until = time.monotonic() + seconds

    async def one(number: int) -> None:
        links: list[Optional[Link]] = [None] * TUNNELS
        await asyncio.sleep(PAGE_EACH * number / count)
        for _ in range(1 + int(seconds / PAGE_EACH)):
            began = time.monotonic()
            whole = await page(links)
            pages.good += whole
            pages.failed += not whole
            pages.times.append(time.monotonic() - began)
            if began + PAGE_EACH > until:
                break
            await asyncio.sleep(max(0.0, began + PAGE_EACH - time.monotonic()))
        for link in links:
            if link is not None:
                link.close()

    async def page(links: list[Optional[Link]]) -> bool:
        left = list(range(OBJECTS))

        async def over(place: int) -> bool:
            """Gets objects over one tunnel, which it opens where it is not open."""
            well = True
            while left:
                left.pop()
                began = time.monotonic()
                link = links[place] or await tunnel(proxy, origin)
                links[place] = link
                if link is None or not await link.get("/", f"127.0.0.1:{origin}"):
                    objects.failed += 1
                    well = False
                    if link is not None:
                        link.close()
                    links[place] = None
                    continue
                objects.good += 1
                objects.times.append(time.monotonic() - began)
            return well

        return all(await asyncio.gather(*(over(place) for place in range(TUNNELS))))

    await asyncio.gather(*(one(number) for number in range(count)))
    return pages, objects


async def pull(links: list[Link], seconds: float, length: int) -> tuple[int, int]:
    """Each tunnel sends so many bytes, and reads what comes back for so long: how many pieces came, and bytes."""
    pieces = total = 0
    until = time.monotonic() + seconds

    async def one(link: Link) -> None:
        nonlocal pieces, total
        link.writer.write((b"x" * 1023 + b"\n") * (length // 1024 + 1))
        while (left := until - time.monotonic()) > 0:
            try:
                piece = await asyncio.wait_for(link.reader.read(65536), left)
            except (OSError, TimeoutError, asyncio.TimeoutError):
                return
            if not piece:
                return
            pieces += 1
            total += len(piece)

    await asyncio.gather(*(one(link) for link in links))
    return pieces, total


async def load(links: list[Link], origin: int, seconds: float) -> Came:
    """Requests over kept connections, one after the other on each, for so long."""
    came = Came()
    until = time.monotonic() + seconds

    async def one(link: Link) -> None:
        while (began := time.monotonic()) < until:
            if not await link.get(f"http://127.0.0.1:{origin}/", f"127.0.0.1:{origin}"):
                came.failed += 1
                return
            came.good += 1
            came.times.append(time.monotonic() - began)

    await asyncio.gather(*(one(link) for link in links))
    return came
