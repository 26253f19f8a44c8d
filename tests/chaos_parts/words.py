"""The spellings of docs/FORMATS.md: escaped words of a journal, and texts of a helper's key."""

from functools import lru_cache


def escape(text: bytes) -> str:
    """A text as one word of a journal."""
    if not text:
        return "-"
    if text == b"-":
        return "%2D"
    return "".join(chr(b) if 0x21 <= b <= 0x7E and b not in b"%>" else f"%{b:02X}" for b in text)


def unescape(word: str) -> bytes:
    """The text of a word."""
    if word == "-":
        return b""
    if "%" not in word:
        return word.encode("ascii")
    first, *rest = word.split("%")
    text = bytearray(first.encode("ascii"))
    for part in rest:
        text.append(int(part[:2], 16))
        text += part[2:].encode("ascii")
    return bytes(text)


PLAIN_IN_KEYS = frozenset(range(33, 127)) - frozenset(b'"%\\<>')


def in_key(text: bytes | None) -> str:
    """A token's text as it stands in a key; nothing is `-`."""
    if text is None:
        return "-"
    return "".join(chr(b) if b in PLAIN_IN_KEYS else f"%{b:02X}" for b in text)


@lru_cache(maxsize=4096)
def percent_decoded(text: bytes) -> bytes:
    """What `url_regex` looks at: `%` and two hexadecimal digits are a byte, any other `%` stays."""
    out = bytearray()
    at = 0
    while at < len(text):
        digits = text[at + 1 : at + 3]
        if text[at] == 0x25 and len(digits) == 2 and all(d in b"0123456789abcdefABCDEF" for d in digits):
            out.append(int(digits, 16))
            at += 3
        else:
            out.append(text[at])
            at += 1
    return bytes(out)
