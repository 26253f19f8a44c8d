#!/usr/bin/env python3
"""What memory open connections and open checks take, outside of the gate: tests/open_checks.py [PROGRAM]

The program, `dist/aclproxy-x86_64-linux` if none is named, runs scripts by `replay`, each through a pipe that is held open at its end.
Then all of its connections are open and all of its checks wait, and the system tells how much memory of the program is resident (VmRSS),
and how much was at the most (VmHWM). A request asks for a target of its own, with no field or with six, 431 bytes of them as `name:value`,
as a browser has them; each check that waits has a question of its own, of which a class of 100 channels has sent 100. Journals and sockets
are not counted: a script has none of them. How many steps said `waits` is compared, and a run that does not come to its end within
LIMIT seconds ends all with a status other than 0."""

import contextlib
import errno
import fcntl
import itertools
import os
import re
import select
import subprocess
import sys
import tempfile
import termios
import time
from collections.abc import Iterator
from pathlib import Path

TOP = Path(__file__).resolve().parent.parent
MOST = 65_536
# The seconds that one run may take.
LIMIT = 120
RULES = """external_acl_type v ttl=60 children-max=1 concurrency=100 queue-size=100000 %URI /bin/helper
acl known external v
http_access allow known
http_access deny all
"""
FIELDS = " ".join((
    "", "Host:a.example", "User-Agent:Mozilla/5.0%20(X11;%20Linux%20x86_64;%20rv:128.0)%20Gecko/20100101%20Firefox/128.0",
    "Accept:text/html,application/xhtml+xml,application/xml;q=0.9,*/*;q=0.8", "Accept-Language:en-US,en;q=0.5",
    "Accept-Encoding:gzip,%20deflate", "Cookie:" + "c" * 200,
))


def script(opens: int, asks: int, waits: int, fields: str) -> Iterator[str]:
    """So many connections, each with an address of its own, so many of which ask, and so many of which wait."""
    for number in range(1, opens + 1):
        yield f"0 open {number} 10.{number >> 16}.{number >> 8 & 255}.{number & 255} 4000\n"
    for number in range(1, asks + 1):
        yield f"0 ask {number} GET http://host-{number}.example/{fields}\n"
    for number in range(1, waits + 1):
        yield f"0 step {number}\n"
    if waits:
        yield "0 started 1 v\n"


def put(process: subprocess.Popen[bytes], pipe: Path, lines: Iterator[str], until: float) -> int:
    """Puts lines into the pipe from which a program reads, and leaves it open: the pipe."""
    # Without a reader the pipe cannot be opened so, and it is tried again; with one, a write waits no longer than the limit.
    while True:
        try:
            into = os.open(pipe, os.O_WRONLY | os.O_NONBLOCK)
            break
        except OSError as error:
            if error.errno != errno.ENXIO:
                raise
        still_runs(process, until)
        time.sleep(0.01)
    left = b""
    while left or (left := "".join(itertools.islice(lines, 1000)).encode("ascii")):
        if select.select([], [into], [], 0.1)[1]:
            with contextlib.suppress(BlockingIOError, BrokenPipeError):
                left = left[os.write(into, left) :]
        still_runs(process, until)
    return into


def left_in(pipe: int) -> int:
    """How many bytes of a pipe were not read."""
    return int.from_bytes(fcntl.ioctl(pipe, termios.FIONREAD, bytes(4)), sys.byteorder)


def still_runs(process: subprocess.Popen[bytes], until: float) -> None:
    """Ends it all where the program has ended, or the time is over."""
    if process.poll() is not None:
        sys.exit(f"the script was not run to its end: status {process.returncode}")
    if time.monotonic() > until:
        sys.exit(f"the script was not run within {LIMIT} seconds")


def kilobytes(said: str, name: str) -> int:
    """What the system says of a process by this name, in bytes."""
    found = re.search(rf"^{name}:\s*(\d+) kB", said, re.M)
    if not found:
        sys.exit(f"the system says no {name}")
    return int(found[1]) * 1024


def resident(program: str, folder: Path, waits: int, lines: Iterator[str]) -> tuple[int, int]:
    """The bytes that are resident once these lines were run, and the most that were. So many of their steps have to wait."""
    rules, pipe, output = folder / "squid.conf", folder / "script", folder / "output"
    rules.write_text(RULES)
    pipe.unlink(missing_ok=True)
    os.mkfifo(pipe)
    until = time.monotonic() + LIMIT
    with open(output, "wb") as to, subprocess.Popen([program, "replay", str(rules), str(pipe)], stdout=to) as process:
        try:
            into = put(process, pipe, lines, until)
            # All is run once nothing is left in the pipe and the process waits for more of it.
            wait = Path(f"/proc/{process.pid}/wchan")
            while left_in(into) or "pipe_read" not in wait.read_text(encoding="ascii"):
                still_runs(process, until)
                time.sleep(0.05)
            said = Path(f"/proc/{process.pid}/status").read_text(encoding="ascii")
            os.close(into)
            process.wait(max(until - time.monotonic(), 1))
        except BaseException:
            process.kill()
            raise
    if process.returncode != 0:
        sys.exit(f"the script was not run to its end: status {process.returncode}")
    with open(output, encoding="ascii") as it:
        waited = sum(" => waits " in line for line in it)
    if waited != waits:
        sys.exit(f"{waited} steps wait, and not {waits}")
    return kilobytes(said, "VmRSS"), kilobytes(said, "VmHWM")


def main() -> None:
    program = sys.argv[1] if len(sys.argv) > 1 else str(TOP / "dist/aclproxy-x86_64-linux")
    rows = (
        ("nothing", 0, 0, 0, ""), ("connections", MOST, 0, 0, ""), ("10,000 that ask", MOST, 10_000, 0, ""),
        ("10,000 that ask and wait", MOST, 10_000, 10_000, ""), ("10,000 that ask and wait, with fields", MOST, 10_000, 10_000, FIELDS),
        ("all ask", MOST, MOST, 0, ""), ("all ask, and 10,000 wait", MOST, MOST, 10_000, ""), ("all ask and wait", MOST, MOST, MOST, ""),
        ("all ask and wait, with fields", MOST, MOST, MOST, FIELDS),
    )
    print("| Open connections | open checks | that wait | | resident, MB | at the most |\n|---|---|---|---|---|---|")
    with tempfile.TemporaryDirectory(prefix="checks-") as folder:
        for name, opens, asks, waits, fields in rows:
            now, most = resident(program, Path(folder), waits, script(opens, asks, waits, fields))
            print(f"| {opens:,} | {asks:,} | {waits:,} | {name} | {now / 1e6:.1f} | {most / 1e6:.1f} |", flush=True)


if __name__ == "__main__":
    main()
