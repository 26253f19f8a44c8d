"""The proxies that are compared: this one and Squid, each with its processor time and memory."""

import contextlib
import os
import random
import re
import resource
import select
import shutil
import socket
import subprocess
import sys
import time
from dataclasses import dataclass
from pathlib import Path
from typing import IO, Iterator, Optional

TICKS = os.sysconf("SC_CLK_TCK")
FILES = 16384
RULES = "http_access allow all\n"


def raise_limit() -> int:
    """Has this process, and what it starts, open as many files as it may. Returns how many."""
    soft, hard = resource.getrlimit(resource.RLIMIT_NOFILE)
    for wanted in (max(hard, FILES), hard):
        with contextlib.suppress(ValueError, OSError):
            resource.setrlimit(resource.RLIMIT_NOFILE, (wanted, max(hard, wanted)))
            return wanted
    return soft


def free_port() -> int:
    """A free port below those that the system gives to the ends of clients."""
    for port in random.sample(range(20000, 32000), 100):
        with contextlib.suppress(OSError), socket.socket() as it:
            it.bind(("127.0.0.1", port))
            return port
    sys.exit("no port is free")


@dataclass
class Proxy:
    """A proxy that serves."""

    name: str
    process: "subprocess.Popen[bytes]"
    port: int
    started: float

    def took(self) -> float:
        """The seconds of a processor that it took."""
        words = Path(f"/proc/{self.process.pid}/stat").read_text(encoding="ascii", errors="replace").rpartition(")")[2].split()
        return (int(words[11]) + int(words[12])) / TICKS

    def number(self, name: str) -> int:
        found = re.search(rf"(?m)^{name}:\s+([0-9]+)", Path(f"/proc/{self.process.pid}/status").read_text(encoding="ascii", errors="replace"))
        return int(found[1]) if found else 0

    def resident(self) -> float:
        """Resident memory in MiB."""
        return self.number("VmRSS") / 1024

    def order(self, line: str, seconds: float) -> tuple[str, float]:
        """Gives this proxy an order: its answer, which is empty where none came in time, and how long that took."""
        assert self.process.stdin is not None and self.process.stdout is not None
        began = time.monotonic()
        self.process.stdin.write(line.encode() + b"\n")
        self.process.stdin.flush()
        return self.heard(seconds), time.monotonic() - began

    def heard(self, seconds: float) -> str:
        """The next line that it writes, or nothing where none comes in time."""
        assert self.process.stdout is not None
        ready, _, _ = select.select([self.process.stdout], [], [], seconds)
        return self.process.stdout.readline().decode().strip() if ready else ""


def end(process: "subprocess.Popen[bytes]") -> None:
    """Ends a process that was started here."""
    for ask, seconds in ((process.terminate, 10), (process.kill, 10)):
        if process.poll() is None:
            ask()
            with contextlib.suppress(subprocess.TimeoutExpired):
                process.wait(seconds)


@contextlib.contextmanager
def ours(program: str, folder: Path, workers: int, rules: str = RULES) -> Iterator[Proxy]:
    """This proxy, with its journal in a file. It is ended by its order, and killed where it does not obey within 45 seconds."""
    conf, port = folder / "ours.conf", free_port()
    conf.write_text(rules)
    with open(folder / "journal", "wb") as journal:
        began = time.monotonic()
        process = subprocess.Popen(
            [program, "serve", str(conf), "--port", str(port), "--workers", str(workers)], bufsize=0,
            stdin=subprocess.PIPE, stdout=subprocess.PIPE, stderr=journal,
        )
    proxy = Proxy("this proxy", process, port, began)
    try:
        said = proxy.heard(60)
        if not said.startswith("listening"):
            sys.exit(f"{program} does not listen: {said!r} {(folder / 'journal').read_bytes()[:300]!r}")
        proxy.started = time.monotonic() - began
        yield proxy
    finally:
        if process.poll() is None:
            with contextlib.suppress(OSError, subprocess.TimeoutExpired):
                assert process.stdin is not None
                process.stdin.write(b"shutdown\n")
                process.wait(45)
        end(process)
        close(process.stdin, process.stdout)


def close(*files: Optional[IO[bytes]]) -> None:
    for file in files:
        if file is not None:
            with contextlib.suppress(OSError):
                file.close()


@contextlib.contextmanager
def squid(path: str, folder: Path) -> Iterator[Proxy]:
    """A Squid without cache and logs."""
    conf, port = folder / "theirs.conf", free_port()
    conf.write_text(
        f"http_port 127.0.0.1:{port}\npid_filename none\ncache_log /dev/null\naccess_log none\ncache deny all\ncoredump_dir none\n"
        f"shutdown_lifetime 1 second\nmax_filedescriptors {min(FILES, resource.getrlimit(resource.RLIMIT_NOFILE)[0])}\n"
        f"acl SSL_ports port 1-65535\n{RULES}"
    )
    began = time.monotonic()
    process = subprocess.Popen([path, "-N", "-f", str(conf)], stdin=subprocess.DEVNULL, stdout=subprocess.DEVNULL, stderr=subprocess.DEVNULL)
    try:
        for _ in range(300):
            with contextlib.suppress(OSError), socket.create_connection(("127.0.0.1", port), 1):
                break
            if process.poll() is not None:
                sys.exit(f"{path} has ended with status {process.returncode}")
            time.sleep(0.1)
        else:
            sys.exit(f"{path} does not listen")
        yield Proxy("Squid", process, port, time.monotonic() - began)
    finally:
        end(process)


def squid_path(named: Optional[str]) -> Optional[str]:
    """The program Squid; None where it is not wanted, or not there."""
    if named == "none":
        return None
    return named or shutil.which("squid", path=f"{os.environ.get('PATH', '')}:/usr/sbin:/sbin")
