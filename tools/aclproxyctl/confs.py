"""Lines of a squid.conf as the program joins them, for their texts: what they mean is the program's word alone."""

import re
from dataclasses import dataclass
from pathlib import Path
from typing import Callable, Optional

from aclproxyctl.errors import of_system

PREDEFINED = {
    b"all": b"src",
    b"localhost": b"src",
    b"CONNECT": b"method",
    b"manager": b"url_regex",
    b"to_localhost": b"dst",
    b"to_linklocal": b"dst",
}
BLANKS = b" \t"
GREATEST = 1_048_576


def words_of(text: bytes) -> list[bytes]:
    """The words of a joined line. One that begins with `#` ends it."""
    words: list[bytes] = []
    for word in re.split(rb"[ \t]+", text):
        if word.startswith(b"#"):
            break
        if word:
            words.append(word)
    return words


@dataclass(frozen=True)
class Line:
    """A joined line: the number of its first part and of its last, from 1, its text and its words."""

    number: int
    last: int
    text: bytes
    words: list[bytes]

    def shown(self, most: int = 200) -> str:
        """Its text for people: on one line, and not too long."""
        text = re.sub(rb"[ \t]+", b" ", self.text).strip().decode("utf-8", "backslashreplace")
        text = "".join(c if c.isprintable() else repr(c)[1:-1] for c in text)
        return text if len(text) <= most else text[: most - 4] + " ..."

    def word(self, place: int) -> str:
        return self.words[place].decode("utf-8", "backslashreplace") if place < len(self.words) else ""


def lines_of(source: bytes) -> list[Line]:
    """The joined lines of a file, those without words too."""
    parts = source.split(b"\n")
    if parts and parts[-1] == b"":
        parts.pop()
        ended = True
    else:
        ended = False
    last = len(parts) - 1
    parts = [part[:-1] if part.endswith(b"\r") and (i < last or ended) else part for i, part in enumerate(parts)]
    lines: list[Line] = []
    place = 0
    while place < len(parts):
        first = place
        pieces: list[bytes] = []
        while True:
            part = parts[place]
            goes_on = part.endswith(b"\\") and not part.lstrip(BLANKS).startswith(b"#")
            pieces.append(part[:-1] if goes_on else part)
            place += 1
            if not goes_on or place == len(parts):
                break
        text = b" ".join(pieces) + (b" " if goes_on else b"")
        lines.append(Line(first + 1, place, text, words_of(text)))
    return lines


def read(path: str) -> bytes:
    try:
        return Path(path).read_bytes()
    except OSError as fault:
        raise of_system(fault, path) from None


def taken_out(line: Line) -> bytes:
    """What stands in the place of a line that is taken out."""
    return b"#"


def without(source: bytes, lines: list[Line], stand_in: Callable[[Line], bytes] = taken_out) -> bytes:
    """The file with these lines taken out, or others in their place, so that all others keep their numbers."""
    parts = source.split(b"\n")
    for line in lines:
        for place in range(line.number - 1, line.last):
            parts[place] = b"#"
        parts[line.number - 1] = stand_in(line)
    return b"\n".join(parts)


class Conf:
    """A configuration's source and its lines by number."""

    def __init__(self, source: bytes) -> None:
        self.source = source
        self.lines = lines_of(source)
        self.by_number = {line.number: line for line in self.lines}
        self.rules = [line for line in self.lines if line.words[:1] == [b"http_access"]]

    def line(self, number: int) -> Optional[Line]:
        return self.by_number.get(number)

    def rule(self, number: int) -> Optional[Line]:
        """Rule N: the N-th line of `http_access`."""
        return self.rules[number - 1] if 1 <= number <= len(self.rules) else None

    def port(self) -> str:
        """Where it listens unless an option says otherwise: the first line of `http_port` counts."""
        for line in self.lines:
            if line.word(0) == "http_port":
                return line.word(1).rpartition(":")[2]
        return "3128"
