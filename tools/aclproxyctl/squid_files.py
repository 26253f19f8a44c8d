"""Files of a squid.conf of Squid's: what they include, lists' files of values, and the new text that comes of them."""

import glob
import os
from dataclasses import dataclass, field
from typing import Iterator, Optional

from aclproxyctl.confs import Line, lines_of, read
from aclproxyctl.errors import SYSTEM, UserError, of_system

DEEPEST_INCLUDE = 16
# What is included in all, so that files that include one another come to an end.
MOST_FILES = 1000
MOST_BYTES = 64 << 20
# How the first line of a file begins that a conversion wrote.
WRITTEN = "# Converted by aclproxyctl from "


@dataclass(frozen=True)
class Item:
    """A joined line of a file."""

    path: str
    line: Line

    def where(self) -> str:
        return f"{self.path}:{self.line.number}"

    def word(self, place: int) -> str:
        return self.line.word(place)


@dataclass
class Stop:
    """What would change: where, why, what to write instead, and the word of `--accept` that goes on without it."""

    item: Item
    why: str
    instead: str = ""
    accept: str = ""


@dataclass
class Converted:
    """The new text, the line that each of its lines came from, and what was found."""

    text: list[str] = field(default_factory=list)
    origins: list[Optional[Item]] = field(default_factory=list)
    stops: list[Stop] = field(default_factory=list)
    warned: list[tuple[Item, str]] = field(default_factory=list)
    kept: int = 0
    left: int = 0
    files: int = 0
    bytes: int = 0

    def keep(self, item: Item, *lines: str) -> None:
        for line in lines:
            self.text.append(line)
            self.origins.append(item)
        self.kept += 1

    def leave(self, item: Item, reason: str) -> None:
        self.text.append(f"# [{item.where()}: {reason}] {item.line.shown(400)}")
        self.origins.append(item)
        self.left += 1

    def note(self, item: Optional[Item], text: str) -> None:
        self.text.append(text)
        self.origins.append(item)

    def stand_in(self, item: Item, line: str) -> None:
        """A line in the place of one that stops, so that what stands behind it is judged as well. It is never written."""
        self.text.append(line)
        self.origins.append(item)

    def stop(self, item: Item, why: str, instead: str = "", accept: str = "") -> None:
        self.stops.append(Stop(item, why, instead, accept))

    def warn(self, item: Item, text: str) -> None:
        self.warned.append((item, text))


def items_of(path: str, top: str, depth: int, found: Converted) -> Iterator[Item]:
    """The lines of a file and of those that it includes, each file in its place."""
    source = read(path)
    found.files += 1
    found.bytes += len(source)
    for line in lines_of(source):
        item = Item(path, line)
        if line.words[:1] != [b"include"]:
            yield item
            continue
        if depth == DEEPEST_INCLUDE:
            if not any("16 deep" in stop.why for stop in found.stops):
                found.stop(item, "files are included more than 16 deep")
            continue
        if is_too_much(found):
            continue
        yield item
        for place in range(1, len(line.words)):
            pattern = os.fsdecode(line.words[place]).strip('"')
            names = sorted(glob.glob(os.path.join(os.path.dirname(top) or ".", pattern)))
            if not names:
                found.stop(item, f"there is no file {pattern}; Squid ends with an error there", "take the line out, or correct the name")
            for name in names:
                if is_too_much(found):
                    if not any("are included in all" in stop.why for stop in found.stops):
                        why = f"more than {MOST_FILES:,} files, or {MOST_BYTES >> 20} MiB, are included in all"
                        found.stop(item, why, "include each file once")
                    break
                yield from items_of(name, top, depth + 1, found)


def is_too_much(found: Converted) -> bool:
    return found.files > MOST_FILES or found.bytes > MOST_BYTES


def is_utf8(text: bytes) -> bool:
    try:
        text.decode("utf-8")
        return True
    except UnicodeDecodeError:
        return False


def values_of_file(path: str) -> list[str]:
    """The values of a list's file, one a line, as Squid reads them."""
    values = []
    for raw in read(path).decode("utf-8", "surrogateescape").split("\n"):
        # A `#` in front or behind a blank begins a comment.
        kept: list[str] = []
        for word in raw.split():
            if word.startswith("#"):
                break
            kept.append(word)
        if kept:
            start = raw.index(kept[0])
            values.append(raw[start : raw.rindex(kept[-1], start) + len(kept[-1])] if len(kept) > 1 else kept[0])
    return values


def write_converted(found: Converted, path: str, to: Optional[str]) -> str:
    """The whole new text. It is written to the file `to`, unless that is there and no conversion wrote it."""
    source = f"{WRITTEN}{os.path.basename(path)}. What changes nothing is commented out.\n" + "".join(line + "\n" for line in found.text)
    if to is None:
        return source
    try:
        if os.path.lexists(to):
            with open(to, encoding="utf-8", errors="replace") as file:
                if not file.readline().startswith(WRITTEN):
                    raise UserError(SYSTEM, f"{to} is there already, and no conversion wrote it: name another file, or take it away first")
            # It takes the place of the old one whole, and has its mode.
            mode = os.stat(to).st_mode & 0o777
            beside = f"{to}.new"
            with open(beside, "w", encoding="utf-8", errors="replace") as file:
                os.fchmod(file.fileno(), mode)
                file.write(source)
            os.replace(beside, os.path.realpath(to))
        else:
            with open(to, "x", encoding="utf-8", errors="replace") as file:
                file.write(source)
    except OSError as fault:
        raise of_system(fault, to) from None
    return source
