"""A file to whose end other processes write lines. It is read within a limit and kept short, however much they write."""

import errno
import fcntl
import os
import signal
import time
from pathlib import Path
from typing import Callable

# So many bytes and lines are read in a second. What comes beyond is dropped.
MOST_BYTES = 64 * 1024
MOST_LINES = 2000
# A longer line is cut into several.
LONGEST = 8192
# The file begins anew after so many bytes, once all of them were read.
LONGEST_FILE = 64 * 1024


def text_of(line: bytes) -> str:
    """A line as text for a log: bytes that are no text, and control characters, are escaped."""
    text = line.decode("utf-8", "backslashreplace")
    return "".join(c if c.isprintable() or c == "\t" else repr(c)[1:-1] for c in text)


class Appended:
    """Hands on the lines of such a file. `log` returns False for a line that could not be written; it counts as dropped."""

    def __init__(self, path: Path, log: Callable[[str], object], writers: str, clock: Callable[[], float] = time.monotonic) -> None:
        self.path = path
        self.log = log
        self.writers = writers
        self.clock = clock
        # Only for its owner.
        self.file = os.open(path, os.O_RDWR | os.O_CREAT | os.O_APPEND | os.O_CLOEXEC, 0o600)
        self.place = 0
        self.rest = b""
        # Whether the beginning of the next line was dropped.
        self.inside = False
        self.dropped = 0
        self.dropped_in_all = 0
        self.began = clock()
        self.bytes_left = MOST_BYTES
        self.lines_left = MOST_LINES
        # Whether more came than may be read: then the file is looked at more often.
        self.flooded = False

    def forward(self) -> None:
        """Hands on what came since, as far as this second's limit reaches, and drops the rest."""
        now = self.clock()
        if not 0 <= now - self.began < 1:
            self.began = now
            self.bytes_left = MOST_BYTES
            self.lines_left = MOST_LINES
            self.tell_dropped()
            self.flooded = False
        size = os.fstat(self.file).st_size
        if size < self.place:
            # Somebody else has emptied it.
            self.place = 0
        self.read(size)
        if self.place < size:
            self.drop(size)
        if self.place > 0 and (self.flooded or self.place >= LONGEST_FILE):
            size = os.fstat(self.file).st_size
            if self.flooded and size > self.place:
                self.drop(size)
            if size == self.place:
                os.ftruncate(self.file, 0)
                self.place = 0

    def read(self, size: int) -> None:
        """Reads up to this size, or up to the limit."""
        while self.place < size and self.bytes_left > 0 and self.lines_left > 0:
            piece = os.pread(self.file, min(size - self.place, self.bytes_left), self.place)
            if not piece:
                return
            self.place += len(piece)
            self.bytes_left -= len(piece)
            if self.inside:
                before, ended, piece = piece.partition(b"\n")
                self.dropped += len(before) + len(ended)
                self.inside = not ended
            *lines, self.rest = (self.rest + piece).split(b"\n")
            while len(self.rest) > LONGEST:
                lines.append(self.rest[:LONGEST])
                self.rest = self.rest[LONGEST:]
            for line in lines:
                for at in range(0, max(1, len(line)), LONGEST):
                    self.hand_on(line[at : at + LONGEST])

    def hand_on(self, line: bytes) -> None:
        if self.lines_left <= 0:
            self.flooded = True
            self.dropped += len(line) + 1
            return
        self.lines_left -= 1
        if self.log(text_of(line)) is False:
            self.dropped += len(line) + 1

    def drop(self, size: int) -> None:
        """Drops what stands up to this size. A line that was read in part is handed on so."""
        self.flooded = True
        if self.rest:
            self.hand_on(self.rest)
            self.rest = b""
        self.dropped += size - self.place
        self.place = size
        self.inside = os.pread(self.file, 1, size - 1) != b"\n"

    def tell_dropped(self) -> None:
        if self.dropped:
            self.log(f"at least {self.dropped:,} bytes that {self.writers} wrote were dropped: at most {MOST_BYTES:,} bytes and {MOST_LINES:,} lines a second are kept")
            self.dropped_in_all += self.dropped
            self.dropped = 0

    def is_open_elsewhere(self) -> bool:
        """Whether another process may still write to it: a lease is given to one that has it alone."""
        try:
            fcntl.fcntl(self.file, fcntl.F_SETLEASE, fcntl.F_WRLCK)
            fcntl.fcntl(self.file, fcntl.F_SETLEASE, fcntl.F_UNLCK)
            return False
        except OSError as fault:
            return fault.errno == errno.EAGAIN

    def held_by(self) -> list[int]:
        """The processes, but this one, that have it open."""
        mine = os.fstat(self.file)
        found = []
        for number in [int(name) for name in os.listdir("/proc") if name.isdigit() and int(name) != os.getpid()]:
            try:
                for entry in os.listdir(f"/proc/{number}/fd"):
                    it = os.stat(f"/proc/{number}/fd/{entry}")
                    if (it.st_dev, it.st_ino) == (mine.st_dev, mine.st_ino):
                        found.append(number)
                        break
            except OSError:
                # It has ended, or is another user's.
                continue
        return found

    def end_writers(self) -> list[int]:
        """Ends the processes that write to it beyond the limit."""
        found = self.held_by() if self.flooded else []
        for number in found:
            try:
                os.kill(number, signal.SIGKILL)
            except OSError:
                continue
        return found

    def close(self) -> None:
        """Hands on what is left, within the limit, whole lines or not. The file is removed."""
        if not self.flooded:
            self.began -= 1
        self.forward()
        if self.rest:
            self.hand_on(self.rest)
            self.rest = b""
        self.tell_dropped()
        os.close(self.file)
        self.path.unlink(missing_ok=True)


class Left:
    """Files of runs that have ended, to which a process still writes that a helper has started and left behind."""

    def __init__(self, say: Callable[[str], object]) -> None:
        self.say = say
        self.files: list[Appended] = []

    def add(self, file: Appended) -> None:
        """Closes a file, at once or later. The program has ended its helpers, so who floods it now would do so without end."""
        self.files.append(file)
        self.look()

    def look(self) -> None:
        """Reads on, and ends who writes more than may be read."""
        for file in self.files[:]:
            file.forward()
            ended = file.end_writers()
            if ended:
                self.say(f"helpers have left processes behind that write to standard error without end: {', '.join(map(str, ended))}; they were ended")
            if not file.is_open_elsewhere():
                file.close()
                self.files.remove(file)

    def close(self) -> None:
        """The service ends."""
        self.look()
        for file in self.files:
            file.close()
        self.files = []
