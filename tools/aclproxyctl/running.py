"""One run of a service: a `serve` that gets orders, the `split` that writes its journal, and the folder of both.

The journal goes from `serve` through a pipe into `split`, without the supervisor between them: `split --lines` writes what it
reads at once, so an entry is in a file as soon as it left the pipe, and if the supervisor is killed, `serve` reads the end of
its orders and ends, and `split` writes what is left.
"""

import fcntl
import os
import re
import shutil
import signal
import subprocess
import sys
import time
from dataclasses import dataclass
from datetime import datetime, timedelta, timezone
from pathlib import Path
from typing import Optional

from aclproxyctl.access import VARIABLE as ACCESS_VARIABLE
from aclproxyctl.access_log import AccessLog, dropped_in
from aclproxyctl.appended import Appended, Left
from aclproxyctl.errors import NEEDS, UserError
from aclproxyctl.helper_errors import VARIABLE, helper_errors
from aclproxyctl.journal import KEPT_CONF, pieces_of, started
from aclproxyctl.listening import Port
from aclproxyctl.retention import Limits
from aclproxyctl.service import DEFAULT_WORKERS, SERVICE, Service
from aclproxyctl.sockets import clients_of
from aclproxyctl.warnings import zone_offset

# `verify` reads 1 GiB at most. What is written while the last connections of a run come to their end needs room too.
RUN_BYTES = 768 * 1024 * 1024
PIECE_LINES = 1_000_000
# A further file of the access log begins at this size, and each day.
ACCESS_BYTES = 256 * 1024 * 1024
# How long a server that was sent a signal has until it is killed.
KILLED_AFTER = 5.0
CURRENT_CONF = "current.conf"
HELPER_ERRORS = "helpers.err"
# The file to which `serve` writes what it has to say to its administrator after its start, and the variable that names it.
MESSAGES = "messages"
MESSAGES_VARIABLE = "ACLPROXY_MESSAGES"
# The variable that tells `serve` for how many seconds connections go on once it was ordered to end.
LINGER_VARIABLE = "ACLPROXY_LINGER"
LINGER = 3600
# The statuses of a shell whose program cannot be run.
NOT_STARTED = (126, 127)


@dataclass(frozen=True)
class Options:
    """What the service is started with."""

    program: str
    conf: str
    journal: str
    port: Optional[int]
    workers: Optional[int]
    offset: Optional[int]
    from_zone: bool
    grace: float
    run_bytes: int = RUN_BYTES
    piece_lines: int = PIECE_LINES
    limits: Limits = Limits()
    packing: bool = True
    access_log: bool = True
    access_bytes: int = ACCESS_BYTES
    # The host and port at which metrics are served.
    metrics: Optional[tuple[str, int]] = None
    # The one address and the port at which clients come; else `port` of all addresses.
    listen: Optional[tuple[str, int]] = None
    # For how many seconds the connections of a run go on once a new run has begun.
    linger: int = LINGER


def say(text: str) -> None:
    """A line of the service's own log."""
    try:
        print(f"aclproxyctl: {text}", file=sys.stderr, flush=True)
    except OSError:
        pass


def write_new(path: Path, text: bytes) -> None:
    """A file for its owner alone, which comes to be whole or not at all."""
    beside = path.with_name(path.name + ".new")
    descriptor = os.open(beside, os.O_WRONLY | os.O_CREAT | os.O_TRUNC, 0o600)
    with open(descriptor, "wb") as file:
        file.write(text)
        file.flush()
        os.fsync(file.fileno())
    os.replace(beside, path)


def new_folder(journal: Path) -> Path:
    """A folder of its own for a run, named by the moment of its start, so that names have the order of runs."""
    journal.mkdir(mode=0o700, parents=True, exist_ok=True)
    moment = datetime.now(timezone.utc)
    known = [started(entry) for entry in journal.iterdir()]
    last = max((at for at in known if at is not None), default=None)
    if last is not None:
        # The clock may have been set back since the run before.
        moment = max(moment, datetime.fromtimestamp(0, timezone.utc) + timedelta(milliseconds=last + 1))
    while True:
        folder = journal / (moment.strftime("%Y%m%dT%H%M%S.") + f"{moment.microsecond // 1000:03}Z")
        try:
            folder.mkdir(mode=0o700)
            return folder
        except FileExistsError:
            moment += timedelta(milliseconds=1)


def is_anybody_connected(port: int, process: int) -> bool:
    """Whether a connection of this process to this port is open; where the system does not tell, somebody may be."""
    clients = clients_of(port, process)
    return clients is None or clients.connected > 0


def refusal_in(piece: Path) -> str:
    """Why the port was not opened, where `serve` says that in place of a journal, or nothing."""
    try:
        with open(piece, "rb") as text:
            line = text.readline(4096)
    except OSError:
        return ""
    found = re.fullmatch(rb"aclproxy: port [0-9]+: (.+)\n", line)
    return found[1].decode(errors="replace") if found else ""


class Run:
    """One run: a `serve`, the `split` that writes its journal, and its folder."""

    def __init__(self, options: Options, source: bytes, port: Port) -> None:
        self.folder = new_folder(Path(options.journal))
        # Who removes or compresses runs passes over one that is locked. `split` holds the lock, too, should the supervisor be killed.
        self.lock = os.open(self.folder, os.O_RDONLY | os.O_DIRECTORY | os.O_CLOEXEC)
        fcntl.flock(self.lock, fcntl.LOCK_EX)
        self.source = source
        self.workers = options.workers
        self.offset = zone_offset() if options.from_zone else options.offset
        write_new(self.folder / KEPT_CONF, source)
        write_new(self.folder / CURRENT_CONF, source)
        # The port is that of the socket that it is handed.
        command = [options.program, "serve", str(self.folder / CURRENT_CONF), "--port", str(port.port)]
        for name, value in (("--workers", options.workers), ("--utc-offset", self.offset)):
            if value is not None:
                command += [name, str(value)]
        split = shutil.which("split")
        if split is None:
            raise UserError(NEEDS, "the program split is not found; Debian has it in the package coreutils")
        self.errors = helper_errors(self.folder / HELPER_ERRORS)
        # How many lines of its access log could not be written, as far as it has said.
        self.lost = 0
        self.messages = Appended(self.folder / MESSAGES, self.heard, "the server")
        # Each has a session of its own: Ctrl-C in a terminal is for the supervisor alone.
        self.split = subprocess.Popen(
            [split, f"--lines={options.piece_lines}", "--numeric-suffixes", "--suffix-length=6", "-", str(self.folder / "journal.")],
            stdin=subprocess.PIPE, stdout=subprocess.DEVNULL, start_new_session=True, umask=0o077, pass_fds=(self.lock,),
        )
        assert self.split.stdin is not None
        env = {**os.environ, VARIABLE: str(self.errors.path.absolute()), MESSAGES_VARIABLE: str(self.messages.path.absolute())}
        env.update({"LISTEN_FDS": "1", LINGER_VARIABLE: str(options.linger)})
        # One that this process was started with is nobody's here.
        env.pop(ACCESS_VARIABLE, None)
        self.access = AccessLog(self.folder, options.access_bytes) if options.access_log else None
        if self.access is not None:
            env[ACCESS_VARIABLE] = str(self.access.path.absolute())
        try:
            self.serve = subprocess.Popen(
                port.command(command), stdin=subprocess.PIPE, stdout=subprocess.PIPE, stderr=self.split.stdin, start_new_session=True,
                env=env, pass_fds=(port.descriptor,),
            )
        except OSError as fault:
            self.split.kill()
            raise UserError(NEEDS, f"{options.program} cannot be run: {fault.strerror}") from None
        finally:
            # From here on `serve` alone has this end of the pipe.
            self.split.stdin.close()
        assert self.serve.stdin is not None and self.serve.stdout is not None
        self.output = self.serve.stdout.fileno()
        os.set_blocking(self.serve.stdin.fileno(), False)
        os.set_blocking(self.output, False)
        self.rest = b""
        self.last = ""
        self.listening = False
        self.refusal = ""
        self.port = 0
        self.ended = False
        self.begun_at = time.monotonic()
        self.asked_at: Optional[float] = None
        self.killed_at: Optional[float] = None

    def listens(self, port: int) -> None:
        """It serves at this port from now on."""
        self.listening = True
        self.port = port
        workers = self.workers if self.workers is not None else DEFAULT_WORKERS
        try:
            write_new(self.folder / SERVICE, Service(self.serve.pid, port, workers).text())
        except OSError:
            # `status` knows less then.
            pass
        self.hide_access_log()

    def hide_access_log(self) -> None:
        if self.access is not None:
            try:
                self.access.make_private()
            except OSError as fault:
                say(f"{self.access.path} may be readable for others: {fault.strerror}")

    def heard(self, line: str) -> None:
        """A line that the server has for its administrator."""
        self.lost += dropped_in(line)
        say(line)

    def order(self, line: bytes) -> None:
        """Hands `serve` an order. One that is gone has none; a pipe that is full holds more than enough."""
        assert self.serve.stdin is not None
        if self.serve.stdin.closed:
            return
        try:
            os.write(self.serve.stdin.fileno(), line + b"\n")
        except OSError:
            pass

    def lines(self) -> list[str]:
        """The lines that `serve` wrote since; at its output's end `ended` is set."""
        try:
            read = os.read(self.output, 65536)
        except BlockingIOError:
            return []
        if not read:
            self.ended = True
            return []
        *lines, self.rest = (self.rest + read).split(b"\n")
        said = [line.decode("latin-1") for line in lines]
        if said:
            self.last = said[-1]
        return said

    def follow(self) -> None:
        """Hands on what helpers and the server have written for the administrator."""
        self.errors.forward()
        self.messages.forward()

    def is_flooded(self) -> bool:
        """Whether more is written there than is read, so that it has to be dropped soon again."""
        return self.errors.flooded or self.messages.flooded

    def bytes(self) -> int:
        """How many bytes its journal has."""
        total = 0
        for piece in pieces_of(self.folder):
            try:
                total += piece.stat().st_size
            except OSError:
                pass
        return total

    def shut_down(self) -> None:
        """It lets nobody in any more, and its connections go on for as long as runs linger."""
        if self.asked_at is None:
            self.asked_at = time.monotonic()
            self.order(b"shutdown")

    def leave(self) -> None:
        """The same, but its connections go on for half a minute at most: nobody has the other end of its orders any more."""
        self.shut_down()
        assert self.serve.stdin is not None
        self.serve.stdin.close()

    def kill(self) -> None:
        """Ends it at once; a second time, by the signal that none can withstand."""
        now = time.monotonic()
        if self.killed_at is None:
            self.killed_at = now
            self.serve.send_signal(signal.SIGTERM)
        elif now - self.killed_at >= KILLED_AFTER:
            self.serve.kill()

    def close(self, left: Optional[Left] = None) -> int:
        """Waits for both processes, and has the status of `serve`."""
        status = self.serve.wait()
        assert self.serve.stdin is not None and self.serve.stdout is not None
        self.serve.stdin.close()
        self.serve.stdout.close()
        if left is None:
            self.errors.close()
        else:
            left.add(self.errors)
        self.messages.close()
        (self.folder / SERVICE).unlink(missing_ok=True)
        self.hide_access_log()
        os.close(self.lock)
        try:
            self.split.wait(KILLED_AFTER)
        except subprocess.TimeoutExpired:
            say(f"split has not ended, since somebody holds the pipe of the journal; it goes on in {self.folder}")
            return status
        if self.split.returncode != 0:
            say(f"split ended with status {self.split.returncode}: the journal in {self.folder} is not whole")
        if not self.listening:
            pieces = pieces_of(self.folder)
            self.refusal = refusal_in(pieces[0]) if pieces else ""
            if not pieces or self.refusal or status in NOT_STARTED:
                # It has not begun: there is nothing to keep.
                shutil.rmtree(self.folder, ignore_errors=True)
        return status
