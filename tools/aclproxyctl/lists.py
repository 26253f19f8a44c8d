"""lists: makes the files of `aclproxy-domains` out of lists of domains, one a line, as UT1 and others publish them."""

import os
import re
import struct
import tempfile
import zlib
from dataclasses import dataclass
from pathlib import Path
from typing import BinaryIO, Iterable, Iterator, TextIO

from aclproxyctl.domains import HEAD, NAME_FORM, DomainFile, Unreadable
from aclproxyctl.errors import DONE, MISSING, NO, USAGE, UserError, of_system
from aclproxyctl.words import plural

DOMAIN = re.compile(rb"\.?[a-z0-9_-]+(?:\.[a-z0-9_-]+)*")
ADDRESS = re.compile(rb"[0-9a-f:.]+")
# Names are spread over so many parts, each of which fits into memory.
PARTS_BITS = 6
# A bucket has about so many names.
IN_BUCKET = 4
# A line has fewer bytes than this: a name has 253 at most, and an address and a comment may stand beside it.
GREATEST_LINE = 65536


@dataclass
class Count:
    """What a list has come to."""

    names: int = 0
    lines_passed: int = 0


def sources_of(words: Iterable[str]) -> dict[str, list[str]]:
    """The files of each list: NAME=FILE, or a folder whose subfolders NAME have a file `domains`."""
    found: dict[str, list[str]] = {}
    for word in words:
        name, equals, path = word.partition("=")
        if equals:
            found.setdefault(name, []).append(path)
        elif os.path.isdir(word):
            inner = sorted(Path(word).glob("*/domains"))
            if not inner:
                raise UserError(MISSING, f"{word}: it has no NAME/domains")
            for file in inner:
                found.setdefault(file.parent.name, []).append(str(file))
        else:
            raise UserError(USAGE if os.path.exists(word) else MISSING, f"{word}: it is NAME=FILE, or a folder with NAME/domains in it")
    for name in found:
        if not NAME_FORM.fullmatch(name):
            raise UserError(USAGE, f"{name!r} is no name of a list: letters, digits, `_`, `-` and, not in front, `.`")
    return found


def name_of(line: bytes) -> bytes:
    """The name that a line states, in small letters; empty where there is none."""
    words = line.split(b"#", 1)[0].lower().split()
    if len(words) == 2 and ADDRESS.fullmatch(words[0]):
        # As a hosts file has it: an address, and the name.
        del words[0]
    return words[0].rstrip(b".") if len(words) == 1 else b""


def lines_of_list(file: BinaryIO) -> Iterator[bytes]:
    """The lines of a list. Of one that is too long to state a name, `!` stands for the line, which is none."""
    while line := file.readline(GREATEST_LINE):
        is_long = len(line) == GREATEST_LINE
        yield b"!" if is_long else line
        while is_long and line and not line.endswith(b"\n"):
            line = file.readline(GREATEST_LINE)


def spread(paths: list[str], below: bool, parts: list[BinaryIO], count: Count) -> int:
    """Writes each name to the part that its checksum says, and has how many there were."""
    total = 0
    for path in paths:
        try:
            with open(path, "rb") as file:
                for line in lines_of_list(file):
                    name = name_of(line)
                    if not DOMAIN.fullmatch(name):
                        count.lines_passed += 1 if line.split(b"#", 1)[0].strip() else 0
                        continue
                    if below and not name.startswith(b"."):
                        name = b"." + name
                    parts[zlib.crc32(name) >> (32 - PARTS_BITS)].write(name + b"\n")
                    total += 1
        except OSError as fault:
            raise of_system(fault, path) from None
    return total


def write(to: BinaryIO, parts: list[BinaryIO], total: int, count: Count) -> None:
    """Writes the file: its names by buckets, and where each bucket begins."""
    bits = max(PARTS_BITS, (max(total, 1) // IN_BUCKET).bit_length())
    starts: list[int] = []
    at = HEAD + 4 * ((1 << bits) + 1)
    to.seek(at)
    for number, part in enumerate(parts):
        part.seek(0)
        rows = sorted({(zlib.crc32(name) >> (32 - bits), name) for name in part.read().split(b"\n") if name})
        place = 0
        for bucket in range(number << (bits - PARTS_BITS), (number + 1) << (bits - PARTS_BITS)):
            starts.append(at)
            first = place
            while place < len(rows) and rows[place][0] == bucket:
                place += 1
            text = b"\n" + b"".join(name + b"\n" for _, name in rows[first:place])
            to.write(text)
            at += len(text)
        count.names += len(rows)
    if at >= 1 << 32:
        raise UserError(NO, "a list has 4 GB at most")
    starts.append(at)
    to.seek(0)
    to.write(f"aclproxy-domains 1 {bits} {count.names}".encode().ljust(HEAD - 1) + b"\n")
    to.write(struct.pack(f"<{len(starts)}I", *starts))


def old_count(path: str) -> int:
    """How many names the list has that is there, if one is."""
    try:
        return DomainFile(path).count
    except (OSError, Unreadable):
        return 0


def build(folder: str, name: str, paths: list[str], below: bool, smaller: bool) -> Count:
    """Makes one list. It takes the place of the old one whole, or not at all."""
    to = os.path.join(folder, name)
    count = Count()
    with tempfile.TemporaryDirectory(prefix=".update-", dir=folder) as room:
        parts: list[BinaryIO] = []
        try:
            for number in range(1 << PARTS_BITS):
                parts.append(open(os.path.join(room, str(number)), "w+b"))
            total = spread(paths, below, parts, count)
            beside = os.path.join(room, "new")
            with open(beside, "wb") as file:
                write(file, parts, total, count)
                file.flush()
                os.fsync(file.fileno())
        finally:
            for part in parts:
                part.close()
        before = old_count(to)
        if not smaller and count.names * 2 < before:
            raise UserError(NO, f"{name} would have {count.names:,} names and has {before:,}: it stays as it was; --smaller takes it")
        os.chmod(beside, 0o644)
        os.replace(beside, to)
    return count


def update(out: TextIO, folder: str, words: list[str], below: bool, smaller: bool) -> int:
    """The command. A list that cannot be made stays as it was, and the others are made."""
    sources = sources_of(words)
    status = DONE
    try:
        os.makedirs(folder, exist_ok=True)
        for name, paths in sources.items():
            try:
                count = build(folder, name, paths, below, smaller)
            except UserError as fault:
                out.write(f"{fault.text}\n")
                status = NO
                continue
            are = "is no name was" if count.lines_passed == 1 else "are no names were"
            passed = f"; {plural(count.lines_passed, 'line')} that {are} passed over" if count.lines_passed else ""
            out.write(f"{name}: {plural(count.names, 'name')}{passed}\n")
    except OSError as fault:
        raise of_system(fault, folder) from None
    return status


def ask(out: TextIO, folder: str, name: str, host: str) -> int:
    """The command: whether a list holds of a host."""
    try:
        found = DomainFile(os.path.join(folder, name))
    except OSError as fault:
        raise of_system(fault, os.path.join(folder, name)) from None
    except Unreadable as fault:
        raise UserError(NO, str(fault)) from None
    holds = found.has(host.lower().encode("utf-8", "surrogateescape"))
    out.write(f"{name} {'has' if holds else 'does not have'} {host}\n")
    return DONE if holds else NO
