"""What is counted of a run as it grows: in its journal, and in its access log where the program writes one."""

import bisect
import time
from collections import Counter
from dataclasses import dataclass, field, fields
from pathlib import Path
from typing import Any, BinaryIO, Callable, Optional, TypeVar

from aclproxyctl.access import TUNNEL, access_files, parse
from aclproxyctl.errors import UserError
from aclproxyctl.journal import Reader, open_piece, pieces_of, shown
from aclproxyctl.state import Standing, State

BLOCK = 1 << 20
# Look-ups of names stand in a journal as helpers of this class, whose blank stays escaped.
LOOKUP = "dst%20lookup"
# A label has at most so many values; what comes beyond is counted as `other`.
MOST_LABELS = 1000
# The upper bounds of a histogram, in seconds.
BOUNDS = (0.001, 0.0025, 0.005, 0.01, 0.025, 0.05, 0.1, 0.25, 0.5, 1.0, 2.5, 5.0, 10.0, 30.0, 60.0)

Key = TypeVar("Key")


@dataclass
class Histogram:
    """How many values lie up to each bound, and above the last, and their sum."""

    counts: list[int] = field(default_factory=lambda: [0] * (len(BOUNDS) + 1))
    sum: float = 0.0

    def add(self, value: float) -> None:
        self.counts[bisect.bisect_left(BOUNDS, value)] += 1
        self.sum += value

    def join(self, other: "Histogram") -> None:
        self.counts = [one + more for one, more in zip(self.counts, other.counts)]
        self.sum += other.sum

    def buckets(self) -> list[tuple[str, float]]:
        """As Prometheus has them: each bound with how many values are not above it."""
        found = []
        total = 0
        for bound, count in zip((*map(str, BOUNDS), "+Inf"), self.counts):
            total += count
            found.append((bound, float(total)))
        return found


class Growing:
    """The lines of files that grow, from where they were read up to before."""

    def __init__(self, run: Path, files: Callable[[Path], list[Path]]) -> None:
        self.run = run
        self.files = files
        self.place = 0
        self.file: Optional[BinaryIO] = None
        self.rest = b""
        self.bytes = 0

    def lines(self) -> list[bytes]:
        """Some lines that came since; none where there are no more."""
        while True:
            found = self.files(self.run)
            if self.file is None:
                if self.place >= len(found):
                    return []
                self.file = open_piece(found[self.place])
            # What is there when a further file is seen is all that this one has.
            further = self.place + 1 < len(found)
            block = self.file.read(BLOCK)
            if block:
                self.bytes += len(block)
                *lines, self.rest = (self.rest + block).split(b"\n")
                if lines:
                    return lines
            elif further:
                self.close()
                self.place += 1
            else:
                return []

    def close(self) -> None:
        if self.file is not None:
            self.file.close()
            self.file = None


@dataclass
class Counts:
    """The counts of a run, or of several together."""

    runs: int = 0
    entries: int = 0
    opened: int = 0
    dropped: int = 0
    reconfigurations: int = 0
    outcomes: Counter[tuple[str, str, str]] = field(default_factory=Counter)
    faults: Counter[str] = field(default_factory=Counter)
    questions: Counter[str] = field(default_factory=Counter)
    replies: Counter[tuple[str, str]] = field(default_factory=Counter)
    waits: dict[str, Histogram] = field(default_factory=dict)
    starts: Counter[str] = field(default_factory=Counter)
    failed_starts: Counter[str] = field(default_factory=Counter)
    ends: Counter[str] = field(default_factory=Counter)
    # Of access logs. Bytes to and from clients, then to and from origins.
    logged: int = 0
    silent: int = 0
    odd: int = 0
    lost: int = 0
    denied: int = 0
    failed: int = 0
    statuses: Counter[tuple[str, str]] = field(default_factory=Counter)
    causes: Counter[str] = field(default_factory=Counter)
    sent: int = 0
    received: int = 0
    sent_on: int = 0
    fetched: int = 0
    durations: Histogram = field(default_factory=Histogram)

    def join(self, other: "Counts") -> None:
        """Adds the counts of another run."""
        for one in fields(self):
            mine, more = getattr(self, one.name), getattr(other, one.name)
            if isinstance(mine, int):
                setattr(self, one.name, mine + more)
            elif isinstance(mine, Histogram):
                mine.join(more)
            elif isinstance(mine, Counter):
                mine.update(more)
            else:
                for name, found in more.items():
                    mine.setdefault(name, Histogram()).join(found)

    def plain(self) -> dict[str, Any]:
        """The same as numbers, texts and lists, for a file."""
        found: dict[str, Any] = {}
        for one in fields(self):
            value = getattr(self, one.name)
            if isinstance(value, Counter):
                found[one.name] = [[*(key if isinstance(key, tuple) else (key,)), count] for key, count in sorted(value.items())]
            elif isinstance(value, Histogram):
                found[one.name] = [*value.counts, value.sum]
            elif isinstance(value, dict):
                found[one.name] = {name: [*wait.counts, wait.sum] for name, wait in sorted(value.items())}
            else:
                found[one.name] = value
        return found

    @staticmethod
    def of_plain(found: dict[str, Any]) -> "Counts":
        """The counts of such a file. KeyError, TypeError or ValueError where it is none."""
        counts = Counts()
        for one in fields(counts):
            value, there = getattr(counts, one.name), found[one.name]
            if isinstance(value, Counter):
                for *key, count in there:
                    value[str(key[0]) if len(key) == 1 else tuple(map(str, key))] = whole(count)
            elif isinstance(value, Histogram):
                setattr(counts, one.name, histogram_of(there))
            elif isinstance(value, dict):
                value.update({name: histogram_of(wait) for name, wait in there.items()})
            else:
                setattr(counts, one.name, whole(there))
        return counts


def histogram_of(found: list[float]) -> Histogram:
    if len(found) != len(BOUNDS) + 2:
        raise ValueError
    return Histogram([whole(count) for count in found[:-1]], float(found[-1]))


def whole(value: Any) -> int:
    """A count of a file of counters."""
    count = int(value)
    if not 0 <= count < 1 << 63:
        raise ValueError
    return count


@dataclass
class Counted:
    """What was counted of a run up to a moment: its journal has so many bytes in so many pieces, of which those of a last line without an end."""

    counts: Counts
    standing: Standing
    bytes: int = 0
    pieces: int = 0
    cut: int = 0
    has_access: bool = False
    fault: str = ""


class Watched:
    """A run whose journal and access log are read as they grow."""

    def __init__(self, run: Path) -> None:
        self.run = run
        self.counts = Counts(runs=1)
        self.journal = Growing(run, pieces_of)
        self.access = Growing(run, access_files)
        self.has_access = False
        self.reader = Reader(str(run))
        self.state = State()
        # The questions that were sent and have no reply, with their process and moment.
        self.sent: dict[bytes, tuple[bytes, int]] = {}
        self.fault = ""
        # Whether something was counted that its file of counters lacks.
        self.changed = True
        self.kept_at = float("-inf")
        # Whether it has ended, whether nothing more comes then, and whether all of it was counted.
        self.over = False
        self.whole = True
        self.closed = False

    def update(self, seconds: float = float("inf")) -> bool:
        """Counts what came since, for so long, and says whether that was all. A journal that cannot be read is left as it is."""
        if self.closed:
            return True
        end = time.monotonic() + seconds
        try:
            while True:
                entries, accesses = self.journal.lines(), self.access.lines()
                for line in entries:
                    self.line(line)
                for line in accesses:
                    count_access(self.counts, line)
                if not entries and not accesses:
                    break
                self.changed = True
                if time.monotonic() > end:
                    return False
            self.has_access = self.has_access or bool(access_files(self.run))
        except (UserError, OSError, ValueError, IndexError) as fault:
            self.changed = self.changed or not self.fault
            self.fault = str(fault) or type(fault).__name__
        return True

    def counted(self) -> Counted:
        try:
            pieces = len(pieces_of(self.run))
        except UserError:
            # It was removed.
            pieces = 0
        return Counted(self.counts, self.state.standing(), self.journal.bytes, pieces, len(self.journal.rest), self.has_access, self.fault)

    def close(self) -> None:
        self.closed = True
        self.journal.close()
        self.access.close()

    def line(self, line: bytes) -> None:
        reader, state, counts = self.reader, self.state, self.counts
        if reader.line == 0:
            if reader.entry(line) is None:
                return
        else:
            reader.line += 1
        before = reader.before
        words = line.split(b" ", before + 3)
        kind, first = words[before + 1], words[before + 2]
        if kind == b"close":
            check = state.clients.get(first)
            counts.dropped += check is not None and check in state.waiting
        elif kind in (b"died", b"line"):
            self.of_process(kind, line, first)
        elif kind == b"act" and b" => stop " in line:
            # One that wrote a bad line has ended before, and is none of the helpers any more.
            self.end(line[line.index(b" => stop ") + 9 :])
        state.words(words, line, before)
        counts.entries += 1
        if kind == b"take":
            outcome = line[line.index(b" => ") + 4 :].decode("latin-1").split(" ")[2:]
            rule = outcome[2] if outcome[1] in ("rule", "fault") else ""
            count(counts.outcomes, (outcome[0], outcome[1], rule), (outcome[0], outcome[1], "other"))
            if outcome[1] == "fault":
                counts.faults[outcome[4]] += 1
        elif kind == b"open":
            counts.opened += 1
        elif kind == b"act" and b" => s" in line:
            answer = line[line.index(b" => ") + 4 :].split(b" ")
            if answer[0] == b"send":
                name = word_of(state.helpers.get(answer[1], b"?"))
                counts.questions[name] += 1
                self.sent[answer[2]] = (answer[1], state.last)
        elif kind == b"started":
            counts.starts[word_of(words[before + 3].split(b" ", 1)[0])] += 1
        elif kind == b"startfail":
            counts.failed_starts[word_of(words[before + 3].split(b" ", 1)[0])] += 1
        elif kind == b"reconfigure":
            counts.reconfigurations += 1

    def of_process(self, kind: bytes, line: bytes, process: bytes) -> None:
        counts = self.counts
        helper = self.state.helpers.get(process)
        if helper is None:
            return
        name = word_of(helper)
        if kind == b"died":
            self.end(process)
            return
        answer = line[line.rindex(b" => ") + 4 :].split(b" ")
        if answer[0] != b"reply":
            counts.replies[(name, answer[0].decode("latin-1"))] += 1
            self.end(process)
            return
        counts.replies[(name, answer[2].decode("latin-1"))] += 1
        asked = self.sent.pop(answer[1], None)
        if asked is not None:
            moment = int(line.split(b" ", self.reader.before + 1)[self.reader.before])
            counts.waits.setdefault(name, Histogram()).add((moment - asked[1]) / 1000)

    def end(self, process: bytes) -> None:
        """A helper ends, and its questions with it."""
        helper = self.state.helpers.get(process)
        if helper is not None:
            self.counts.ends[word_of(helper)] += 1
            self.sent = {question: sent for question, sent in self.sent.items() if sent[0] != process}


def count_access(counts: Counts, line: bytes) -> None:
    """A line of an access log."""
    access = parse(line.decode("latin-1"))
    if access is None:
        counts.odd += 1
        return
    fields = access.fields
    counts.sent += access.bytes
    if "in" in fields:
        counts.received += access.number("in")
    if "up" in fields:
        counts.sent_on += access.number("up")
        counts.fetched += access.number("down")
    if access.failed:
        counts.failed += 1
        count(counts.causes, fields.get("cause", "other"), "other")
    if access.silent:
        counts.silent += 1
        return
    counts.logged += 1
    counts.denied += access.denied
    status = f"{access.status // 100}xx" if access.status else "none"
    count(counts.statuses, (access.code, status), ("other", status))
    if not access.code.startswith(TUNNEL):
        counts.durations.add(access.elapsed / 1000)


def count(counter: "Counter[Key]", key: "Key", other: "Key") -> None:
    """Counts one under its key, or under another where there are too many of them."""
    counter[key if key in counter or len(counter) < MOST_LABELS else other] += 1


def word_of(word: bytes) -> str:
    return shown(word.decode("latin-1"))
