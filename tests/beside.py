#!/usr/bin/env python3
"""How fast the proxy is beside Squid, outside of the gate: tests/beside.py [--program PATH] [--seconds N] [--rounds N]

It needs Debian's packages squid, nginx-light and wrk, and begins all of it by itself, on ports of the loopback that are free, with its files
in a folder of its own: an origin (nginx), a Squid without a cache and without logs, and this proxy with its journal in a file. Each row is
asked of both in turn, for so many seconds, in so many rounds, and its ratio is that of the medians: the numbers are those of one machine in
one run. Of each there is the processor time that the proxy's processes took for a request, its helpers left out. The journals of this proxy
are verified at the end, and a row in which a request failed says so; then the status is not 0."""

import argparse
import contextlib
import os
import random
import re
import shutil
import socket
import statistics
import subprocess
import sys
import tempfile
import time
from dataclasses import dataclass, field
from pathlib import Path
from typing import Iterator

TOP = Path(__file__).resolve().parent.parent
TICKS = os.sysconf("SC_CLK_TCK")
SIZES = {"1k": 1024, "64k": 65536, "10m": 10 * 1024 * 1024}
HELPER = """import sys
channels = sys.argv[1] != "0"
for line in sys.stdin:
    sys.stdout.write((line.split(" ", 1)[0] + " " if channels else "") + "OK\\n")
    sys.stdout.flush()
"""
# Each request of a thread has a number, so that each has a key of its own where a helper is asked.
LUA = """local count, own = 0, 0
local path, every, close = "{path}", {every}, {close}
function setup(thread) own = own + 1; thread:set("own", own) end
function request()
    count = count + 1
    local target = every and path .. "?" .. own .. "-" .. count or path
    return wrk.format("GET", target, close and {{ ["Connection"] = "close" }} or nil)
end
"""


@dataclass(frozen=True)
class Row:
    """What is asked: its name, the file, how many clients ask, whether each request has a connection of its own, the channels of the
    helper that is asked for each, if one is, and whether the requests go through a tunnel, of one client."""

    name: str
    file: str
    clients: int
    closes: bool = False
    channels: int | None = None
    tunnel: bool = False


ROWS = (
    Row("1 KiB, kept connections, 1 client", "1k", 1), Row("1 KiB, kept connections, 8 clients", "1k", 8), Row("1 KiB, kept connections, 64 clients", "1k", 64),
    Row("1 KiB, a connection each, 1 client", "1k", 1, True), Row("1 KiB, a connection each, 8 clients", "1k", 8, True),
    Row("1 KiB, a connection each, 64 clients", "1k", 64, True),
    Row("64 KiB, 8 clients", "64k", 8), Row("10 MiB, 1 client", "10m", 1), Row("10 MiB, 4 clients", "10m", 4),
    Row("1 KiB, one helper process without channels, 64 clients", "1k", 64, channels=0),
    Row("1 KiB, one helper process with 100 channels, 64 clients", "1k", 64, channels=100),
    Row("10 MiB through a tunnel, 1 client", "10m", 1, tunnel=True),
)


@dataclass
class Came:
    """What came of a row at a proxy, a number each round: requests a second, and microseconds of a processor for each."""

    rates: list[float] = field(default_factory=list)
    costs: list[float] = field(default_factory=list)
    failed: int = 0


def free_port() -> int:
    """A free port below those that the system gives to the ends of clients, so that none of these has it meanwhile."""
    for port in random.sample(range(20000, 32000), 100):
        with contextlib.suppress(OSError), socket.socket() as it:
            it.bind(("127.0.0.1", port))
            return port
    sys.exit("no port is free")


@contextlib.contextmanager
def running(words: list[str], port: int, journal: Path | None = None) -> Iterator[subprocess.Popen[bytes]]:
    """A program that listens, from when it does until it is to end."""
    with contextlib.ExitStack() as files:
        errors = files.enter_context(open(journal, "wb")) if journal else subprocess.DEVNULL
        process = subprocess.Popen(words, stdin=subprocess.PIPE, stdout=subprocess.DEVNULL, stderr=errors)
        try:
            for _ in range(300):
                with contextlib.suppress(OSError), socket.create_connection(("127.0.0.1", port), 1):
                    break
                if process.poll() is not None:
                    sys.exit(f"{words[0]} has ended")
                time.sleep(0.1)
            else:
                sys.exit(f"{words[0]} does not listen at port {port}")
            yield process
        finally:
            if process.stdin and journal:
                process.stdin.write(b"shutdown\n")
                process.stdin.flush()
            else:
                process.terminate()
            process.wait()


def took(pid: int) -> float:
    """The seconds of a processor that a process took."""
    words = Path(f"/proc/{pid}/stat").read_text(encoding="ascii", errors="replace").rpartition(")")[2].split()
    return (int(words[11]) + int(words[12])) / TICKS


def ask(folder: Path, row: Row, proxy: int, origin: int, seconds: int) -> tuple[float, int, int]:
    """Asks a proxy for a row: requests a second, how many there were, and how many failed."""
    script = folder / "ask.lua"
    script.write_text(LUA.format(path=f"http://127.0.0.1:{origin}/{row.file}", every=str(row.channels is not None).lower(), close=str(row.closes).lower()))
    words = ["wrk", "-t", "1", "-c", str(row.clients), "-d", f"{seconds}s", "--timeout", "20s", "-s", str(script), f"http://127.0.0.1:{proxy}/"]
    said = subprocess.run(words, capture_output=True, text=True, check=True).stdout
    count = re.search(r"(\d+) requests in ([\d.]+)(m?s)", said)
    if not count:
        sys.exit(f"wrk said: {said}")
    lasted = float(count[2]) / (1000 if count[3] == "ms" else 1)
    bad = re.search(r"Non-2xx or 3xx responses: (\d+)", said)
    errors = re.search(r"connect (\d+), read (\d+), write (\d+), timeout (\d+)", said)
    return int(count[1]) / lasted, int(count[1]), (int(bad[1]) if bad else 0) + (sum(map(int, errors.groups())) if errors else 0)


def ask_tunnel(row: Row, proxy: int, origin: int, seconds: int) -> tuple[float, int, int]:
    """The same through one tunnel, by a loop of this program: it ends at the first request that fails."""
    room, count = bytearray(262144), 0
    with socket.create_connection(("127.0.0.1", proxy), 20) as link:

        def is_served(words: str, length: int) -> bool:
            """Asks, and reads a head and so many bytes behind it: whether it is a 200 and all of them came."""
            link.sendall(f"{words} HTTP/1.1\r\nHost: 127.0.0.1:{origin}\r\n\r\n".encode("ascii"))
            said = b""
            while b"\r\n\r\n" not in said and (more := link.recv(65536)):
                said += more
            head, _, body = said.partition(b"\r\n\r\n")
            left = length - len(body) if b" 200 " in head else 0
            while left > 0 and (size := link.recv_into(room, min(left, len(room)))):
                left -= size
            return b" 200 " in head and left == 0

        served = is_served(f"CONNECT 127.0.0.1:{origin}", 0)
        begun = time.monotonic()
        while served and time.monotonic() < begun + seconds:
            served = is_served(f"GET /{row.file}", SIZES[row.file])
            count += served
        return count / (time.monotonic() - begun), count, int(not served)


def rules(folder: Path, row: Row) -> str:
    """The lines of squid.conf by which both decide."""
    if row.channels is None:
        return "acl here dst 127.0.0.1/32\nhttp_access allow here\nhttp_access deny all\n"
    # Squid is a user of its own, who may not see each Python.
    python = shutil.which("python3", path="/usr/bin:/bin") or sys.executable
    helper = f"{python} {folder}/helper {row.channels}"
    return f"external_acl_type v ttl=60 children-max=1 concurrency={row.channels} queue-size=1000 %URI {helper}\nacl e external v\nhttp_access allow e\nhttp_access deny all\n"


@contextlib.contextmanager
def squid(folder: Path, row: Row) -> Iterator[tuple[int, int]]:
    """A Squid: its port, and its process."""
    port = free_port()
    conf = folder / "theirs.conf"
    own = f"http_port 127.0.0.1:{port}\npid_filename none\ncache_log /dev/null\naccess_log none\ncache deny all\ncoredump_dir none\nshutdown_lifetime 1 second\n"
    conf.write_text(own + rules(folder, row))
    with running(["squid", "-N", "-f", str(conf)], port) as process:
        yield port, process.pid


@contextlib.contextmanager
def ours(program: str, folder: Path, row: Row) -> Iterator[tuple[int, int]]:
    """This proxy: its port, and its process. Its journal has to be verified."""
    port = free_port()
    conf, journal = folder / "ours.conf", folder / "journal"
    conf.write_text(rules(folder, row))
    with running([program, "serve", str(conf), "--port", str(port), "--workers", "64"], port, journal) as process:
        yield port, process.pid
    verified = subprocess.run([program, "verify", str(conf), str(journal)], capture_output=True, text=True, check=False)
    if verified.returncode != 0:
        sys.exit(f"the journal of {row.name} is not verified: {verified.stdout[-200:]}")


@contextlib.contextmanager
def origin(folder: Path) -> Iterator[int]:
    port = free_port()
    for name, size in SIZES.items():
        (folder / name).write_bytes(b"x" * size)
    conf = folder / "nginx.conf"
    conf.write_text(
        f"daemon off; worker_processes 2; pid {folder}/nginx.pid; error_log /dev/null; user root;\nevents {{ worker_connections 4096; }}\n"
        f"http {{ access_log off; sendfile on; keepalive_requests 1000000;\nserver {{ listen 127.0.0.1:{port} backlog=4096; root {folder}; }} }}\n"
    )
    with running(["nginx", "-c", str(conf)], port):
        yield port


def measure(program: str, folder: Path, port: int, row: Row, seconds: int, rounds: int) -> dict[str, Came]:
    came = {"ours": Came(), "squid": Came()}
    with ours(program, folder, row) as us, squid(folder, row) as them:
        for _ in range(rounds):
            for name, (proxy, pid) in (("ours", us), ("squid", them)):
                before = took(pid)
                rate, count, failed = ask_tunnel(row, proxy, port, seconds) if row.tunnel else ask(folder, row, proxy, port, seconds)
                came[name].rates.append(rate)
                came[name].costs.append((took(pid) - before) / max(count, 1) * 1e6)
                came[name].failed += failed
    return came


def main() -> None:
    words = argparse.ArgumentParser(description="how fast the proxy is beside Squid")
    words.add_argument("--program", default=str(TOP / "dist/aclproxy-x86_64-linux"))
    words.add_argument("--seconds", type=int, default=4)
    words.add_argument("--rounds", type=int, default=3)
    given = words.parse_args()
    for needed in ("squid", "nginx", "wrk"):
        if shutil.which(needed) is None:
            sys.exit(f"there is no {needed}")
    folder = Path(tempfile.mkdtemp(prefix="beside-"))
    try:
        folder.chmod(0o755)
        (folder / "helper").write_text(HELPER)
        print("| What | Requests a second, to Squid's | Processor time of a request: here, Squid | Failed: here, Squid |\n|---|---|---|---|")
        failed = 0
        with origin(folder) as port:
            for row in ROWS:
                came = measure(given.program, folder, port, row, given.seconds, given.rounds)
                rate = {name: statistics.median(it.rates) for name, it in came.items()}
                cost = {name: statistics.median(it.costs) for name, it in came.items()}
                ratio = f"{rate['ours'] / rate['squid']:.2f}" if rate["squid"] else "none came"
                print(f"| {row.name} | {rate['ours']:,.0f}, {ratio} | {cost['ours']:.0f}, {cost['squid']:.0f} microseconds | {came['ours'].failed}, {came['squid'].failed} |", flush=True)
                failed += sum(it.failed for it in came.values())
        if failed:
            sys.exit(f"{failed} requests failed")
    finally:
        shutil.rmtree(folder, ignore_errors=True)


if __name__ == "__main__":
    main()
