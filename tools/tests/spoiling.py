"""Files that are spoilt by a sequence of changes, which a seed gives."""

import gzip
import random
import subprocess
from pathlib import Path
from typing import Callable

# What is put in, in places where something else is awaited.
PIECES = [
    b" ", b"\n", b"=> ", b"%", b'"', b"\\\n", b"!", b"-", b"\xff", b"#", b"0", b"acl ", b"http_access deny ",
    b"\0", b"\r\n", b"\t", b"%00", b"%GG", b"=", b"/", b"[", b"(", b"*", b"{9999}", b"a" * 70_000,
    b"(" * 3000, b"\xc2\xb2", b"1_0", b"+1", b" 1", b"../", b"\xef\xbb\xbf",
]  # fmt: skip
# Numbers at limits of types, of dates and of what Python reads as a number.
NUMBERS = [
    b"0", b"-1", b"00", b"1_0", b"\xb2", b"2147483648", b"4294967296", b"9223372036854775807", b"9223372036854775808",
    b"18446744073709551616", b"253402300800000", b"9" * 30, b"9" * 4300, b"9" * 5000, b"1e9", b"0x10", b"nan",
]  # fmt: skip


def is_digit(byte: int) -> bool:
    return 0x30 <= byte <= 0x39


def number_at(text: bytearray, place: int) -> tuple[int, int]:
    """Where the number begins and ends that stands at a place or behind it; nothing where there is none."""
    first = next((at for at in range(place, len(text)) if is_digit(text[at])), len(text))
    last = next((at for at in range(first, len(text)) if not is_digit(text[at])), len(text))
    return first, last


def spoilt(source: bytes, chance: random.Random) -> bytes:
    """The text with some bytes, numbers or lines changed, taken out or put in."""
    text = bytearray(source)
    for _ in range(chance.randint(1, 4)):
        kind, place = chance.randrange(9), chance.randrange(len(text) + 1)
        if kind == 0 and place < len(text):
            text[place] = chance.randrange(256)
        elif kind == 1:
            del text[place : place + chance.randint(1, 30)]
        elif kind == 2:
            text[place:place] = chance.choice(PIECES)
        elif kind in (3, 4):
            first, last = number_at(text, place)
            if first < last:
                text[first:last] = chance.choice(NUMBERS)
        elif kind == 5 and not chance.randrange(4):
            del text[place:]
        else:
            lines = bytes(text).split(b"\n")
            at = chance.randrange(len(lines))
            if kind == 6:
                del lines[at]
            elif kind == 7:
                words = lines[at].split(b" ")
                chance.shuffle(words)
                lines[at] = b" ".join(words)
            else:
                lines[chance.randrange(len(lines) + 1) : 0] = [lines[at]] * chance.choice((1, 1, 1, 200))
            text = bytearray(b"\n".join(lines))
    return bytes(text)


def by_zstd(text: bytes) -> bytes:
    """The text as zstd compresses it."""
    return subprocess.run(["zstd", "-qc"], input=text, stdout=subprocess.PIPE, check=True).stdout


PACKERS: dict[str, Callable[[bytes], bytes]] = {"": bytes, ".gz": lambda text: gzip.compress(text, 1, mtime=0), ".zst": by_zstd}


def write_spoilt(path: Path, source: bytes, suffix: str, chance: random.Random) -> Path:
    """Writes a text in this form, which is spoilt before or after it is compressed, or is whole; its path."""
    kind = chance.randrange(4)
    text = PACKERS[suffix](spoilt(source, chance) if kind in (1, 2) else source)
    to = path.with_name(path.name + suffix)
    to.parent.mkdir(parents=True, exist_ok=True)
    to.write_bytes(spoilt(text, chance) if kind == 3 else text)
    return to
