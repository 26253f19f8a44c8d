#!/usr/bin/env python3
"""How many clients the proxy serves at once, beside Squid where that is installed, outside of the gate:

    tests/thousand.py [--program PATH] [--workers W] [--squid PATH|none] [--scenes NAME,..] [--counts N,..] [--browsers N,..] [--seconds S]

It begins all of it by itself, on ports of the loopback that are free, with its files in a folder of its own, and writes a table in Markdown.
The scenes:

    tunnels   tunnels that are silent, that say a word each 30 seconds, and each second: how many open and stay, memory, processor
    browsers  six tunnels each, and a page of 18 objects every five seconds: pages that come whole, and how long they take
    kept      connections that were asked for one page and stay open: memory, processor
    load      requests over 64 and over many kept connections: how many a second, and how long each takes
    grants    tunnels that share one bucket, 10 and many: what a piece costs; of this proxy alone
    start     the time to `listening`, and the memory of workers that wait
    orders    `reconfigure` with 60,000 domains, and `shutdown` with many open tunnels; of this proxy alone

Clients and origin are in Python, one process each, on the same machine: they limit what a row can show. The journal of this proxy is not
verified here. Each wait has an end, and a scene that takes too long is given up, and its row says so."""

import argparse
import asyncio
import sys
import tempfile
import time
from pathlib import Path
from typing import Awaitable, Callable, Iterator

sys.path.insert(0, str(Path(__file__).resolve().parent))

from thousand_parts import clients  # noqa: E402
from thousand_parts.origin import origin  # noqa: E402
from thousand_parts.proxies import RULES, Proxy, ours, raise_limit, squid, squid_path  # noqa: E402

TOP = Path(__file__).resolve().parent.parent
SCENES = ("tunnels", "browsers", "kept", "load", "grants", "start", "orders")
WORDS = (("silent", 0.0), ("a word each 30 s", 30.0), ("a word each second", 1.0))
DOMAINS = 60_000
SETTLES = 2  # the seconds after which all that opened is at rest
# What the bucket of the scene `grants` gains in a second, and how much it holds.
GAIN = 1_000_000


class Scenes:
    """The scenes, and what their options say."""

    def __init__(self, options: argparse.Namespace, folder: Path) -> None:
        self.options = options
        self.folder = folder
        self.squid = squid_path(options.squid)

    def proxies(self, workers: int | None = None) -> Iterator[Proxy]:
        """Each proxy in turn, from when it listens until its scene has ended."""
        with ours(self.options.program, self.folder, workers or self.options.workers) as proxy:
            yield proxy
        if self.squid is not None:
            with squid(self.squid, self.folder) as proxy:
                yield proxy

    def limited(self, work: Callable[[], Awaitable[list[str]]], seconds: float) -> list[str]:
        """The cells of a row, or that it took too long."""

        async def within() -> list[str]:
            return await asyncio.wait_for(work(), seconds)

        try:
            return asyncio.run(within())
        except (TimeoutError, asyncio.TimeoutError):
            return [f"given up after {seconds:.0f} s"]

    def idle(self, proxy: Proxy) -> Callable[[], float]:
        """Begins to look at the processor; what comes back says how much of one it took until then, in percent."""
        took, began = proxy.took(), time.monotonic()
        return lambda: 100 * (proxy.took() - took) / max(0.001, time.monotonic() - began)

    def tunnels(self) -> Iterator[list[str]]:
        seconds = self.options.seconds
        for count in self.options.counts:
            for name, each in WORDS:
                for proxy in self.proxies():

                    async def work(proxy: Proxy = proxy, count: int = count, each: float = each) -> list[str]:
                        links, came = await clients.many(count, proxy.port, self.origin, True)
                        if not each:
                            # Silence is what is measured: the word that shows that each tunnel is there comes behind it.
                            await asyncio.sleep(SETTLES)
                        processor = self.idle(proxy)
                        if not each:
                            await asyncio.sleep(seconds)
                        spent = processor()
                        words = await clients.speak(links, max(seconds, each + 1) if each else 0, each)
                        cells = [
                            f"{came.good:,} of {count:,} open, {came.part(0.5):.1f} and {came.part(0.99):.0f} ms; words {words.good:,}, failed {words.failed:,}, "
                            f"{words.part(0.5):.1f} and {words.part(0.99):.0f} ms",
                            f"{proxy.resident():.1f} MiB, {proxy.number('Threads'):,} threads, {spent if not each else processor():.1f}% of a processor",
                        ]
                        for link in links:
                            link.close()
                        return cells

                    yield [f"{count:,} tunnels, {name}", proxy.name, *self.limited(work, 3 * clients.PATIENCE + seconds * 2 + each + count / 20)]

    def browsers(self) -> Iterator[list[str]]:
        for count in self.options.browsers:
            for proxy in self.proxies():

                async def work(proxy: Proxy = proxy, count: int = count) -> list[str]:
                    processor = self.idle(proxy)
                    pages, objects = await clients.browse(proxy.port, self.origin, count, self.options.seconds)
                    return [
                        f"{pages.good:,} of {pages.good + pages.failed:,} pages whole, {pages.part(0.5):.0f} and {pages.part(0.99):.0f} ms; "
                        f"objects {objects.part(0.5):.1f} and {objects.part(0.99):.0f} ms, failed {objects.failed:,}",
                        f"{proxy.resident():.1f} MiB, {processor():.1f}% of a processor",
                    ]

                yield [f"{count:,} browsers", proxy.name, *self.limited(work, self.options.seconds * 3 + 20 * clients.PATIENCE)]

    def kept(self) -> Iterator[list[str]]:
        seconds = self.options.seconds
        for count in self.options.counts:
            for proxy in self.proxies():

                async def work(proxy: Proxy = proxy, count: int = count) -> list[str]:
                    links, came = await clients.many(count, proxy.port, self.origin, False)
                    await asyncio.sleep(1)
                    processor = self.idle(proxy)
                    await asyncio.sleep(seconds)
                    idle = processor()
                    alive = sum(not link.reader.at_eof() for link in links)
                    cells = [f"{came.good:,} of {count:,} asked, {alive:,} still open", f"{proxy.resident():.1f} MiB, {idle:.1f}% of a processor"]
                    for link in links:
                        link.close()
                    return cells

                yield [f"{count:,} kept connections between requests", proxy.name, *self.limited(work, 2 * clients.PATIENCE + seconds + count / 20)]

    def load(self) -> Iterator[list[str]]:
        for count in sorted({64, min(self.options.counts)}):
            for proxy in self.proxies():

                async def work(proxy: Proxy = proxy, count: int = count) -> list[str]:
                    links, opening = await clients.many(count, proxy.port, self.origin, False)
                    took, began = proxy.took(), time.monotonic()
                    came = await clients.load(links, self.origin, self.options.seconds)
                    spent = time.monotonic() - began
                    cells = [
                        f"{came.good / spent:,.0f} a second, {came.part(0.5):.1f} and {came.part(0.99):.0f} ms; failed {came.failed + opening.failed:,}",
                        f"{proxy.resident():.1f} MiB, {(proxy.took() - took) / max(1, came.good) * 1e6:.0f} microseconds a request",
                    ]
                    for link in links:
                        link.close()
                    return cells

                yield [f"1 KiB over {count:,} kept connections", proxy.name, *self.limited(work, 3 * clients.PATIENCE + self.options.seconds + count / 20)]

    def grants(self) -> Iterator[list[str]]:
        """Of this proxy alone: Squid grants otherwise."""
        rules = f"{RULES}delay_pools 1\ndelay_class 1 1\ndelay_access 1 allow all\ndelay_parameters 1 {GAIN}/{GAIN}\n"
        seconds = self.options.seconds
        for count in (10, min(self.options.counts)):
            with ours(self.options.program, self.folder, self.options.workers, rules) as proxy:

                async def work(proxy: Proxy = proxy, count: int = count) -> list[str]:
                    links, came = await clients.many(count, proxy.port, self.origin, True)
                    took = proxy.took()
                    pieces, length = await clients.pull(links, seconds, 2 * int(GAIN * (seconds + 1)) // count)
                    spent = proxy.took() - took
                    for link in links:
                        link.close()
                    return [
                        f"{came.good:,} of {count:,} open; {length / seconds:,.0f} bytes a second in {pieces:,} pieces",
                        f"{spent / max(1, pieces) * 1e6:.0f} microseconds a piece",
                    ]

                yield [f"{count:,} tunnels that share a bucket", proxy.name, *self.limited(work, 3 * clients.PATIENCE + seconds + count / 20)]

    def start(self) -> Iterator[list[str]]:
        for proxy in self.proxies():
            time.sleep(2)
            name = f"start with {self.options.workers:,} workers" if proxy.name == "this proxy" else "start"
            yield [name, proxy.name, f"listening after {proxy.started:.2f} s", f"{proxy.resident():.1f} MiB, {proxy.number('Threads'):,} threads"]

    def orders(self) -> Iterator[list[str]]:
        """Of this proxy alone: Squid is not ordered by a line."""
        # Ten to a line: a configuration has at most 1,048,576 bytes.
        lines = (" ".join(f".d{number + place}.ex" for place in range(10)) for number in range(0, DOMAINS, 10))
        rules = "".join(f"acl many dstdomain {line}\n" for line in lines) + "http_access deny many\n" + RULES
        with ours(self.options.program, self.folder, self.options.workers) as proxy:
            (self.folder / "ours.conf").write_text(rules)
            said, spent = proxy.order("reconfigure", 60)
            yield [f"`reconfigure` with {DOMAINS:,} domains", proxy.name, f"`{said or 'no answer'}` after {spent:.2f} s", f"{proxy.resident():.1f} MiB"]
            count = min(self.options.counts)

            async def work() -> list[str]:
                links, came = await clients.many(count, proxy.port, self.origin, True)
                loop = asyncio.get_running_loop()
                said, spent = await loop.run_in_executor(None, proxy.order, "shutdown", 45)
                for link in links:
                    link.close()
                return [f"`{said or 'no answer'}` after {spent:.2f} s; {came.good:,} tunnels were open", ""]

            yield [f"`shutdown` with {count:,} tunnels", proxy.name, *self.limited(work, 2 * clients.PATIENCE + 60)]

    def run(self) -> None:
        print("| Scene | Proxy | Clients got (times: median, and what 99 of 100 did not exceed) | The proxy took |\n|---|---|---|---|", flush=True)
        with origin() as self.origin:
            for name in self.options.scenes:
                for row in getattr(self, name)():
                    print("| " + " | ".join([*row, "", ""][:4]) + " |", flush=True)


def numbers(text: str) -> list[int]:
    found = [int(word) for word in text.split(",")]
    if not found or not all(1 <= number <= 8000 for number in found):
        raise ValueError
    return found


def scenes(text: str) -> list[str]:
    found = text.split(",")
    if not set(found) <= set(SCENES):
        raise ValueError
    return found


def main() -> None:
    parser = argparse.ArgumentParser(description="How many clients the proxy serves at once, beside Squid.")
    parser.add_argument("--program", default=str(TOP / "dist" / "aclproxy-x86_64-linux"))
    parser.add_argument("--workers", type=int, default=1024)
    parser.add_argument("--squid", help="the program Squid, or none; else the installed one")
    parser.add_argument("--scenes", type=scenes, default=list(SCENES), help=", ".join(SCENES))
    parser.add_argument("--counts", type=numbers, default=[1000, 4000], help="how many tunnels and connections")
    parser.add_argument("--browsers", type=numbers, default=[30, 100])
    parser.add_argument("--seconds", type=float, default=30.0, help="how long a scene goes on, at most 600")
    options = parser.parse_args()
    if not 1 <= options.seconds <= 600:
        parser.error("--seconds: 1 to 600")
    files = raise_limit()
    if max(options.counts) * 2 + 100 > files:
        print(f"thousand: this machine lets a process have {files:,} files, which {max(options.counts):,} connections may exceed", file=sys.stderr)
    with tempfile.TemporaryDirectory(prefix="thousand-") as folder:
        # Squid is a user of its own.
        Path(folder).chmod(0o755)
        Scenes(options, Path(folder)).run()


if __name__ == "__main__":
    main()
