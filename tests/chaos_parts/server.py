"""A running `serve`: its orders, what it says, what the system says of it, and what comes over a link to it."""

import glob
import os
import queue
import re
import signal
import socket
import subprocess
import threading
import time
from pathlib import Path
from typing import Callable


def slurp(path: str) -> str:
    try:
        return Path(path).read_text()
    except OSError:
        return ""


def stat_of(pid: int) -> tuple[str, int]:
    """A process's state and its parent; neither where there is none."""
    text = slurp(f"/proc/{pid}/stat")
    if not text:
        return "", 0
    words = text.rsplit(")", 1)[1].split()
    return words[0], int(words[1])


class Server:
    """`before` is called in the new process, and `more` are variables of its environment."""

    def __init__(
        self, program: str, words: list[str], journal: str, before: Callable[[], None] | None = None, more: dict[str, str] | None = None
    ) -> None:
        with open(journal, "wb") as file:
            self.process = subprocess.Popen(
                [program, "serve", *words],
                stdin=subprocess.PIPE,
                stdout=subprocess.PIPE,
                stderr=file,
                preexec_fn=before,
                env=os.environ | (more or {}),
            )
        self.pid = self.process.pid
        self.said: queue.Queue[str | None] = queue.Queue()
        self.seen_pids = 0
        self.helpers: list[int] = []
        threading.Thread(target=self.listen, daemon=True).start()

    def listen(self) -> None:
        assert self.process.stdout
        for line in self.process.stdout:
            self.said.put(line.decode().rstrip("\n"))
        self.said.put(None)

    def hear(self, seconds: float) -> str:
        """The next line that it writes, or what is there in its place."""
        try:
            line = self.said.get(timeout=seconds)
        except queue.Empty:
            return f"nothing in {seconds:.0f} seconds"
        return "its end" if line is None else line

    def order(self, text: str) -> None:
        assert self.process.stdin
        try:
            self.process.stdin.write(text.encode())
            self.process.stdin.flush()
        except BrokenPipeError:
            pass

    def end_orders(self) -> None:
        assert self.process.stdin
        self.process.stdin.close()

    def has_ended(self) -> bool:
        return self.process.poll() is not None

    def ends(self, seconds: float) -> int | None:
        try:
            return self.process.wait(seconds)
        except subprocess.TimeoutExpired:
            return None

    def kill(self) -> None:
        if not self.has_ended():
            self.process.kill()
            self.process.wait()

    def live_helpers(self, pids: str) -> list[int]:
        """The helpers that live, of those that wrote their number into this file: children of this server."""
        text = slurp(pids)
        end = text.rfind("\n") + 1
        self.helpers += [int(word) for word in text[self.seen_pids : end].split()]
        self.seen_pids = end
        self.helpers = [pid for pid in self.helpers if stat_of(pid)[1] == self.pid and stat_of(pid)[0] != "Z"]
        return self.helpers

    def value(self, name: str) -> int:
        for line in slurp(f"/proc/{self.pid}/status").splitlines():
            if line.startswith(name + ":"):
                return int(line.split()[1])
        return 0

    def files(self) -> int:
        try:
            return len(os.listdir(f"/proc/{self.pid}/fd"))
        except OSError:
            return 0

    def unreaped(self) -> int:
        count = 0
        for path in glob.glob("/proc/[0-9]*"):
            state, parent = stat_of(int(os.path.basename(path)))
            count += state == "Z" and parent == self.pid
        return count


def signal_one(pid: int, what: signal.Signals, parent: int) -> bool:
    """Signals a helper, unless it has ended since."""
    if stat_of(pid)[1] != parent:
        return False
    try:
        os.kill(pid, what)
        return True
    except ProcessLookupError:
        return False


def until(seconds: float, holds: Callable[[], object]) -> bool:
    """Waits until this holds."""
    limit = time.monotonic() + seconds
    while not holds():
        if time.monotonic() > limit:
            return False
        time.sleep(0.05)
    return True


def free_port() -> int:
    for port in range(20_000 + os.getpid() % 5000, 32_000):
        with socket.socket() as link:
            try:
                link.bind(("0.0.0.0", port))
                return port
            except OSError:
                continue
    raise AssertionError("no port is free")


def reply_of(link: socket.socket) -> bytes:
    """A reply with a length."""
    out = b""
    try:
        while b"\r\n\r\n" not in out:
            more = link.recv(65536)
            if not more:
                return out
            out += more
        head, body = out.split(b"\r\n\r\n", 1)
        found = re.search(rb"(?i)\r\ncontent-length: (\d+)", head)
        while found and len(body) < int(found[1]):
            more = link.recv(65536)
            if not more:
                break
            body += more
        return head + b"\r\n\r\n" + body
    except OSError as fault:
        return out + f"<{type(fault).__name__}>".encode()
