"""Journals: pieces of a run in their order, lines, entries, and the requests in them. Memory is that of what is open."""

import fcntl
import functools
import os
import re
import time
from dataclasses import dataclass, field
from datetime import datetime, timedelta, timezone
from pathlib import Path
from typing import BinaryIO, Callable, Iterator, NamedTuple, Optional

from aclproxyctl.errors import CUT, MISSING, NO_RUN, VERSION, UserError, of_system
from aclproxyctl.packed import open_plain_or_packed

# A piece may be compressed once it is whole.
PIECE = re.compile(r"journal\.([0-9]+)(\.gz|\.zst)?")
KEPT_CONF = "squid.conf"
# A line of a journal has at most so many bytes before its LF.
GREATEST_LINE = 4_194_344
BLOCK = 1 << 20
KINDS = frozenset(
    ("begin", "open", "close", "ask", "step", "take", "started", "startfail", "line", "died", "act", "reconfigure", "seat", "grant", "leave")
)


def unescape(word: str) -> bytes:
    """The text of an escaped word."""
    if word == "-":
        return b""
    parts = word.encode("latin-1").split(b"%")
    out = [parts[0]]
    for part in parts[1:]:
        try:
            out.append(bytes([int(part[:2], 16)]) + part[2:])
        except ValueError:
            out.append(b"%" + part)
    return b"".join(out)


def shown(word: str) -> str:
    """The text of an escaped word, where each byte that is no visible ASCII stays escaped: a request has none."""
    if "%" not in word and word != "-":
        return word
    return "".join(chr(byte) if 0x21 <= byte <= 0x7E else f"%{byte:02X}" for byte in unescape(word))


def escape(text: bytes) -> str:
    """A text as one escaped word."""
    if text == b"":
        return "-"
    if text == b"-":
        return "%2D"
    return "".join(chr(byte) if 0x21 <= byte <= 0x7E and byte not in b"%>" else f"%{byte:02X}" for byte in text)


def pieces_of(run: Path) -> list[Path]:
    """The pieces of a run in their order."""
    found: dict[int, Path] = {}
    try:
        for name in sorted(os.listdir(run)):
            match = PIECE.fullmatch(name)
            if match:
                # Of a piece and its compressed form, which stand side by side while it is compressed, the first counts.
                found.setdefault(int(match.group(1)), run / name)
    except OSError as fault:
        raise of_system(fault, str(run)) from None
    return [found[number] for number in sorted(found)]


def whole_pieces(run: Path) -> list[Path]:
    """The same; an error where one is missing in their row."""
    pieces = pieces_of(run)
    for number, piece in enumerate(pieces):
        if int(piece.name.split(".")[1]) != number:
            raise UserError(MISSING, f"{run}: the piece journal.{number:06} is missing: all pieces of a run, in their order, are its journal")
    return pieces


def is_written(run: Path) -> bool:
    """Whether a supervisor, or what it started, holds the run: each run's folder is locked for as long."""
    try:
        descriptor = os.open(run, os.O_RDONLY | os.O_DIRECTORY | os.O_CLOEXEC)
    except OSError:
        return True
    try:
        fcntl.flock(descriptor, fcntl.LOCK_SH | fcntl.LOCK_NB)
        return False
    except OSError:
        return True
    finally:
        os.close(descriptor)


def runs_of(folder: Path) -> list[Path]:
    """The runs of a folder of journals, oldest first: itself, if it is one, else the folders in it that have pieces."""
    if pieces_of(folder):
        return [folder]
    try:
        inner = sorted(entry for entry in folder.iterdir() if entry.is_dir() and not entry.name.startswith("."))
        return [entry for entry in inner if pieces_of(entry)]
    except OSError as fault:
        raise of_system(fault, str(folder)) from None


def runs_at(named: str) -> list[Path]:
    """The runs of a folder that someone named; an error where there is none."""
    folder = Path(named)
    if not folder.exists():
        raise UserError(MISSING, f"{named}: there is no such folder")
    if not folder.is_dir():
        raise UserError(NO_RUN, f"{named}: it is no folder with runs, but a file")
    runs = runs_of(folder)
    if not runs:
        raise UserError(NO_RUN, f"{named}: there is no run in this folder; `aclproxyctl run --journal` writes them, as START-TIME/journal.000000")
    return runs


def started(run: Path) -> Optional[int]:
    """When a run was started, by the name that `run` gave to it, in milliseconds."""
    try:
        at = datetime.strptime(run.name, "%Y%m%dT%H%M%S.%fZ").replace(tzinfo=timezone.utc)
        return (at - datetime.fromtimestamp(0, timezone.utc)) // timedelta(milliseconds=1)
    except ValueError:
        return None


def open_piece(path: Path) -> BinaryIO:
    return open_plain_or_packed(path)


@dataclass
class Tail:
    """What is read after the last whole line of a journal, and how many bytes were read in all."""

    cut: bytes = b""
    bytes: int = 0


def lines_of_files(paths: list[Path], tail: Tail) -> Iterator[bytes]:
    """The whole lines of these files, joined, without their LF. A rest without LF is left in the tail."""
    rest = b""
    for path in paths:
        with open_piece(path) as file:
            while True:
                block = file.read(BLOCK)
                if not block:
                    break
                tail.bytes += len(block)
                *lines, rest = (rest + block).split(b"\n")
                yield from lines
                if len(rest) > GREATEST_LINE:
                    raise UserError(VERSION, f"{path}: a line has over {GREATEST_LINE:,} bytes: this is no journal")
    tail.cut = rest


def lines_following(
    runs: Callable[[], list[Path]], stop: Callable[[], bool] = lambda: False, pause: float = 0.2, files: Callable[[Path], list[Path]] = pieces_of
) -> Iterator[tuple[Path, Optional[bytes]]]:
    """The lines of the last run and of those that follow it, for as long as they come: a run begins before the one that it follows has ended.
    None stands where nothing came for a moment.
    """
    last: Optional[Path] = None
    read: dict[Path, Iterator[Optional[bytes]]] = {}
    while not stop():
        known = runs()
        for run in known[-1:] if last is None else [path for path in known if path.name > last.name]:
            last = run
            read[run] = steps_of_run(run, functools.partial(is_followed, run, runs), files)
        quiet = True
        for run, lines in list(read.items()):
            for line in lines:
                if line is None:
                    break
                quiet = False
                yield (run, line)
                if stop():
                    return
            else:
                del read[run]
        if quiet:
            yield (last or Path(), None)
            time.sleep(pause)


def is_followed(run: Path, runs: Callable[[], list[Path]]) -> bool:
    """Whether a later run has begun, and this one has ended."""
    return any(path.name > run.name for path in runs()) and not is_written(run)


def lines_of_run(run: Path, stop: Callable[[], bool], pause: float, files: Callable[[Path], list[Path]] = pieces_of) -> Iterator[Optional[bytes]]:
    """The lines of a run as they come. None stands where nothing came for a moment."""
    for line in steps_of_run(run, lambda: False, files):
        if stop():
            return
        yield line
        if line is None:
            time.sleep(pause)


def steps_of_run(run: Path, has_ended: Callable[[], bool], files: Callable[[Path], list[Path]] = pieces_of) -> Iterator[Optional[bytes]]:
    """The lines of a run as they come, and None where there is none yet, up to where it has no more since it was found to have ended."""
    place = 0
    rest = b""
    ended = False
    file: Optional[BinaryIO] = None
    try:
        while True:
            pieces = files(run)
            if file is None and place < len(pieces):
                file = open_piece(pieces[place])
            line = file.readline() if file is not None else b""
            if line:
                rest += line
                if rest.endswith(b"\n"):
                    yield rest[:-1]
                    rest = b""
                continue
            if file is not None and place + 1 < len(files(run)):
                if file.peek(1):  # type: ignore[attr-defined]
                    continue
                file.close()
                file = None
                place += 1
                continue
            if ended:
                return
            ended = has_ended()
            yield None
    finally:
        if file is not None:
            file.close()


class Entry(NamedTuple):
    """An entry: its moment in milliseconds, the first words of its event and those of its answer."""

    moment: int
    event: list[str]
    answer: list[str]


class Reader:
    """Reads the lines of one journal, of version 1 or 2, as entries of the kinds that are wanted."""

    def __init__(self, name: str, wanted: frozenset[str] = KINDS) -> None:
        self.name = name
        self.wanted = wanted
        self.line = 0
        # How many words stand before the moment.
        self.before = 0

    def entry(self, line: bytes) -> Optional[Entry]:
        """The entry of the next line; None for the line that states the version, and for kinds that are not wanted."""
        self.line += 1
        if self.line == 1:
            if line == b"journal 2":
                self.before = 2
                return None
            if re.fullmatch(rb"journal [0-9]+", line):
                raise UserError(VERSION, f"{self.name}: a journal of version {line.decode()[8:]}, which is not known here: 1 and 2 are")
            if not re.match(rb"[0-9]+ begin ", line):
                raise UserError(VERSION, f"{self.name}: this is no journal: its first line is neither `journal 2` nor a begin")
        event, arrow, answer = line.decode("latin-1").partition(" => ")
        # Of an event the first four words are enough: of an `ask` these are its connection, method and target.
        before = self.before
        words = event.split(" ", before + 5)
        try:
            kind = words[before + 1]
            if kind not in self.wanted and kind in KINDS and arrow:
                return None
            moment = int(words[before])
        except (IndexError, ValueError):
            arrow = ""
        if not arrow or kind not in KINDS:
            raise UserError(VERSION, f"{self.name}: line {self.line} is no entry of a journal of version {2 if before else 1}")
        return Entry(moment, words[before + 1 : before + 5], answer.split(" "))


@dataclass
class Request:
    """A request of a journal: who asked for what, and what came of it."""

    asked: int
    client: str
    method: str
    target: str
    taken: int = 0
    epoch: int = 0
    outcome: list[str] = field(default_factory=list)

    @property
    def denied(self) -> bool:
        return self.outcome[:1] == ["denied"]

    @property
    def dropped(self) -> bool:
        """Its connection closed before it had its outcome."""
        return not self.outcome

    @property
    def rule(self) -> Optional[int]:
        return int(self.outcome[2]) if self.outcome[1:2] and self.outcome[1] in ("rule", "fault") else None


OUTCOME = re.compile(r"(?:allowed|denied) (?:rule [0-9]{1,19}|default)|denied empty|denied fault [0-9]{1,19} [^ ]+ [A-Za-z]+")
OF_REQUESTS = frozenset(("ask", "take", "open", "close", "reconfigure"))


def outcome_of(entry: Entry) -> tuple[int, list[str]]:
    """The epoch and the outcome of a `take`. IndexError or ValueError where it has not the words of one."""
    if not OUTCOME.fullmatch(" ".join(entry.answer[2:])):
        raise ValueError
    return int(entry.answer[1]), entry.answer[2:]


def wordless(name: str, entry: Entry) -> UserError:
    """The error for an entry that has not the words of its kind."""
    return UserError(VERSION, f"{name}: the entry `{' '.join(entry.event)[:80]}` has not the words of one")


class Requests:
    """Puts entries together to requests: what is open is kept, all else is given away."""

    def __init__(self, name: str) -> None:
        self.name = name
        self.clients: dict[str, str] = {}
        self.checks: dict[str, Request] = {}
        self.open: dict[str, str] = {}
        self.epoch = 1
        self.configured: Optional[str] = None

    def entry(self, entry: Entry) -> Optional[Request]:
        """The request that ends with this entry, if one does. After a reconfiguration `configured` has its text, escaped."""
        self.configured = None
        event = entry.event
        kind = event[0]
        try:
            if kind == "ask":
                client = self.clients.get(event[1], "-")
                self.checks[entry.answer[1]] = Request(entry.moment, client, event[2], event[3])
                self.open[event[1]] = entry.answer[1]
            elif kind == "take":
                request = self.checks.pop(event[1], None)
                epoch, outcome = outcome_of(entry)
                if request is not None:
                    request.taken = entry.moment
                    request.epoch = epoch
                    request.outcome = outcome
                return request
            elif kind == "open":
                self.clients[event[1]] = event[2]
            elif kind == "close":
                self.clients.pop(event[1], None)
                request = self.checks.pop(self.open.pop(event[1], ""), None)
                if request is not None:
                    request.taken = entry.moment
                    request.epoch = self.epoch
                return request
            elif kind == "reconfigure":
                self.epoch = int(entry.answer[1])
                self.configured = event[1]
        except (IndexError, ValueError):
            raise wordless(self.name, entry) from None
        return None


def cut_error(name: str, cut: bytes) -> UserError:
    return UserError(
        CUT,
        f"{name}: its last line, of {len(cut):,} bytes, has no end: the proxy was killed or its disk was full, or it is still running; "
        "the lines before it were read",
    )
