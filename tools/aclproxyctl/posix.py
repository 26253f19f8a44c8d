"""Patterns of Squid, POSIX extended regular expressions as the C library of GNU reads them, in the syntax of Rust's regex."""

import re

# `.` and `[^x]` stand for any byte in Squid. In Rust's regex they stand for characters of UTF-8, and `.` for no line feed,
# and who asks for a target with %0A or %FF in it would pass a rule.
ANY_BYTE = "(?s-u)"
META = set("\\.+*?()|[]{}^$#&-~")
CLASSES = {"alnum", "alpha", "blank", "cntrl", "digit", "graph", "lower", "print", "punct", "space", "upper", "xdigit"}


class Untranslatable(Exception):
    """A pattern whose meaning cannot be kept; its text says why."""


def literal(character: str) -> str:
    """A character that stands for itself."""
    if character == " ":
        return "\\x20"
    return "\\" + character if character in META else character


def escape_at(pattern: str, place: int) -> str:
    """What stands for `\\` and the character at this place."""
    if place >= len(pattern):
        raise Untranslatable("it ends with a `\\`")
    character = pattern[place]
    if character in "wWsSbB<>":
        return "\\" + character
    if character == "`":
        return "\\A"
    if character == "'":
        return "\\z"
    if character in "123456789":
        raise Untranslatable(f"`\\{character}` refers back to a group, which Rust's regex cannot")
    if character in "dDtnrxXpPuUQEAzZhHvVkKGR":
        raise Untranslatable(
            f"`\\{character}` is the plain letter `{character}` for Squid, and who wrote it meant something else: write [0-9] for a digit, "
            "or the letter without the `\\`"
        )
    return literal(character)


def bracket_at(pattern: str, place: int) -> tuple[str, int]:
    """The bracket that begins at this place, and the place behind it."""
    out = ["["]
    at = place + 1
    if pattern[at : at + 1] == "^":
        out.append("^")
        at += 1
    first = at
    while True:
        if at >= len(pattern):
            raise Untranslatable("a `[` has no `]`")
        character = pattern[at]
        if character == "]" and at > first:
            return "".join(out) + "]", at + 1
        if character == "[" and pattern[at + 1 : at + 2] in (":", ".", "="):
            kind = pattern[at + 1]
            end = pattern.find(kind + "]", at + 2)
            name = pattern[at + 2 : end] if end >= 0 else ""
            if kind != ":" or name not in CLASSES:
                raise Untranslatable(f"`{pattern[at:end + 2] if end >= 0 else pattern[at:]}` in brackets has no like in Rust's regex")
            out.append(f"[:{name}:]")
            at = end + 2
            continue
        # `-` between two characters is a range; at the ends it stands for itself.
        is_range = character == "-" and at > first and pattern[at + 1 : at + 2] not in ("]", "")
        if is_range:
            out.append("-")
        elif character in "[]\\^&~-":
            out.append("\\" + character)
        elif character == " ":
            out.append("\\x20")
        else:
            out.append(character)
        at += 1


def translate(pattern: str) -> str:
    """The pattern in the syntax of Rust's regex, with the meaning that it has for Squid."""
    out: list[str] = []
    at = 0
    # What the last part is: nothing that can be repeated, a part, or a repetition of one.
    last = "none"
    any_byte = False
    while at < len(pattern):
        character = pattern[at]
        if character == "." or pattern[at : at + 2] in ("[^", "\\W", "\\S", "\\w", "\\s", "\\b", "\\B", "\\<", "\\>"):
            any_byte = True
        if character == "\\":
            out.append(escape_at(pattern, at + 1))
            at += 2
            last = "part"
        elif character == "[":
            text, at = bracket_at(pattern, at)
            out.append(text)
            last = "part"
        elif character in "*+?" or (character == "{" and re.match(r"\{[0-9]*(,[0-9]*)?\}", pattern[at:]) and pattern[at + 1] != "}"):
            if last == "none":
                raise Untranslatable(f"nothing stands before `{character}` that it could repeat" + (": (?...) is of another syntax" if character == "?" else ""))
            if last == "repeated" and not (out[-1] == "*" and character == "?"):
                raise Untranslatable(f"`{out[-1]}{character}` repeats a repetition for Squid, and means something else in Rust's regex: put ( ) around")
            if character == "{":
                end = pattern.index("}", at)
                least, comma, most = pattern[at + 1 : end].partition(",")
                out.append("{" + (least or "0") + comma + most + "}")
                at = end + 1
            else:
                out.append(character)
                at += 1
            last = "repeated"
        elif character == "{":
            raise Untranslatable("`{` begins no repetition, and Squid passes over such a pattern: put \\ before it, or take the pattern out")
        elif character in "}]":
            out.append("\\" + character)
            at += 1
            last = "part"
        else:
            out.append(character if character in ".()|^$" else literal(character))
            at += 1
            last = "none" if character in "(|^" else "part"
    return (ANY_BYTE if any_byte else "") + "".join(out)
