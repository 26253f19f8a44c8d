"""Patterns of Squid over a host or a path as patterns of `url_regex`, which looks at the whole target.

What `url_regex` sees of http is `SCHEME://HOST[:PORT]`, then nothing, or `/` or `?` and more, percent-decoded; of CONNECT it is
`HOST:PORT`. A HOST is a name or an IPv4 address, without `%`, `/`, `:` and `?` in it, or an IPv6 address in brackets. Squid sees of
a host its letters in lower case, and of a path that is missing `/`, and of one that begins with `?` the same behind a `/`.
"""

import re
from dataclasses import dataclass
from typing import Callable, Optional, Sequence

from aclproxyctl.posix import CLASSES, Untranslatable, bracket_at, escape_at, literal, translate

EVERY = frozenset(range(256))
WORD = frozenset(b"abcdefghijklmnopqrstuvwxyzABCDEFGHIJKLMNOPQRSTUVWXYZ0123456789_")
SPACE = frozenset(b" \t\n\r\f\v")
UPPER = frozenset(range(65, 91))
# Bytes that end a host that is a name or an IPv4 address, and those that an IPv6 address is made of.
ENDS_HOST = frozenset(b"/:?")
OF_IPV6 = frozenset(b"0123456789abcdefABCDEF:.[]")
SLASH, QUERY, OPENS, CLOSES = b"/?[]"
AUTHORITY = "^[^:/]+://[^/?]+"
IN_HOST = "[^/:?]"
POSIX_SETS: dict[str, Callable[[str], bool]] = {
    "alpha": str.isalpha, "digit": str.isdigit, "alnum": str.isalnum, "upper": str.isupper, "lower": str.islower, "blank": lambda c: c in " \t",
    "space": lambda c: c in " \t\n\r\f\v", "punct": lambda c: 33 <= ord(c) <= 126 and not c.isalnum(), "xdigit": lambda c: c in "0123456789abcdefABCDEF",
    "graph": lambda c: 33 <= ord(c) <= 126, "print": lambda c: 32 <= ord(c) <= 126, "cntrl": lambda c: ord(c) < 32 or ord(c) == 127,
}


@dataclass(frozen=True)
class Atom:
    """A part of a pattern: a set of bytes, a group, or a place (`^`, `$`, an edge of a word)."""

    kind: str
    # In the syntax of Rust's regex, without its repetition.
    text: str
    repeat: str = ""
    least: int = 1
    bytes: frozenset[int] = frozenset()
    branches: tuple[tuple["Atom", ...], ...] = ()
    negated: bool = False


Branch = Sequence[Atom]


def in_bracket(pattern: str, place: int, end: int) -> tuple[frozenset[int], bool]:
    """The bytes between the brackets from `place` to `end`, and whether `^` stands before them."""
    at = place + 1
    negated = pattern[at] == "^"
    at += negated
    found: set[int] = set()
    first = at
    while at < end - 1 or at == first:
        if pattern[at] == "[" and pattern[at + 1 : at + 2] == ":":
            stop = pattern.index(":]", at)
            name = pattern[at + 2 : stop]
            assert name in CLASSES
            found.update(byte for byte in range(128) if POSIX_SETS[name](chr(byte)))
            at = stop + 2
        elif pattern[at + 1 : at + 2] == "-" and at + 2 < end - 1:
            found.update(range(ord(pattern[at]), ord(pattern[at + 2]) + 1))
            at += 3
        else:
            found.update(pattern[at].encode())
            at += 1
    return frozenset(found), negated


def escaped(pattern: str, at: int) -> Atom:
    """`\\` and the character behind it."""
    character = pattern[at + 1]
    text = escape_at(pattern, at + 1)
    if character in "bB<>":
        return Atom("edge", text, least=0)
    if character in "`'":
        return Atom("begin" if character == "`" else "end", text, least=0)
    sets = {"w": WORD, "W": EVERY - WORD, "s": SPACE, "S": EVERY - SPACE}
    return Atom("set", text, bytes=sets.get(character, frozenset(character.encode()[:1])), negated=character in "WS")


def parse(pattern: str, at: int = 0) -> tuple[tuple[tuple[Atom, ...], ...], int]:
    """The branches of a pattern that `translate` reads, from a place to its end or to the `)` of its group."""
    branches: list[tuple[Atom, ...]] = []
    branch: list[Atom] = []
    while at < len(pattern) and pattern[at] != ")":
        character = pattern[at]
        if character == "|":
            branches.append(tuple(branch))
            branch = []
            at += 1
            continue
        if character == "\\":
            atom = escaped(pattern, at)
            at += 2
        elif character == "[":
            text, end = bracket_at(pattern, at)
            found, negated = in_bracket(pattern, at, end)
            atom = Atom("set", text, bytes=EVERY - found if negated else found, negated=negated)
            at = end
        elif character == "(":
            inner, end = parse(pattern, at + 1)
            if end == len(pattern):
                raise Untranslatable("a `(` has no `)`")
            atom = Atom("group", "", branches=inner)
            at = end + 1
        elif character == ".":
            atom = Atom("set", ".", bytes=EVERY, negated=True)
            at += 1
        elif character in "^$":
            atom = Atom("begin" if character == "^" else "end", character, least=0)
            at += 1
        else:
            atom = Atom("set", literal(character), bytes=frozenset(character.encode()[:1]))
            at += 1
        repeat = re.compile(r"[*+?]|\{[0-9]*(,[0-9]*)?\}").match(pattern, at)
        if repeat is not None and pattern[at] not in "^$":
            text = repeat[0]
            at = repeat.end()
            least = {"*": 0, "?": 0, "+": 1}.get(text)
            if least is None:
                fewest, comma, most = text[1:-1].partition(",")
                least = int(fewest or "0")
                text = "{" + (fewest or "0") + comma + most + "}"
            if re.compile(r"[*+?]|\{[0-9,]*\}").match(pattern, at):
                raise Untranslatable("a repetition is repeated")
            atom = Atom(atom.kind, atom.text, text, least, atom.bytes, atom.branches, atom.negated)
        branch.append(atom)
    return (*branches, tuple(branch)), at


def branches_of(pattern: str) -> tuple[tuple[Atom, ...], ...]:
    """The branches of a whole pattern."""
    translate(pattern)
    branches, end = parse(pattern)
    if end < len(pattern):
        raise Untranslatable("a `)` has no `(`: put \\ before it, if it stands for itself")
    return branches


def can_be_empty(branch: Branch) -> bool:
    return all(atom.least == 0 or (atom.kind == "group" and any(can_be_empty(inner) for inner in atom.branches)) for atom in branch)


def first_bytes(branch: Branch) -> frozenset[int]:
    """The bytes with which a match may begin."""
    found: set[int] = set()
    for atom in branch:
        if atom.kind == "group":
            for inner in atom.branches:
                found |= first_bytes(inner)
        else:
            found |= atom.bytes
        if not can_be_empty([atom]):
            break
    return frozenset(found)


def backwards(branch: Branch) -> list[Atom]:
    return [Atom(atom.kind, atom.text, atom.repeat, atom.least, atom.bytes, tuple(tuple(backwards(inner)) for inner in atom.branches), atom.negated)
            for atom in reversed(branch)]


def has(branch: Branch, *kinds: str) -> bool:
    return any(atom.kind in kinds or any(has(inner, *kinds) for inner in atom.branches) for atom in branch)


def spread(branch: Branch, kind: str, place: int) -> list[Branch]:
    """The branches of a branch whose group at its beginning (0) or its end (-1) has `^` or `$` in it: `(^|x)y` is `^y|xy`."""
    if not branch or branch[place].kind != "group" or branch[place].repeat or not has([branch[place]], kind):
        return [branch]
    rest = branch[1:] if place == 0 else branch[:-1]
    return [ways for inner in branch[place].branches for ways in spread((*inner, *rest) if place == 0 else (*rest, *inner), kind, place)]


def needs_one_outside(branch: Branch, those: frozenset[int]) -> bool:
    """Whether each match has a byte that is none of those."""
    return any(
        atom.least > 0 and (not atom.bytes & those if atom.kind == "set" else atom.kind == "group" and all(needs_one_outside(inner, those) for inner in atom.branches))
        for atom in branch
    )


def printed(branch: Branch, within_host: bool) -> str:
    """The text of a branch; within a host, no byte of it is one that ends a host."""
    out = []
    for atom in branch:
        text = atom.text
        if atom.kind == "group":
            text = "(" + "|".join(printed(inner, within_host) for inner in atom.branches) + ")"
        elif within_host and atom.kind == "set" and atom.bytes & ENDS_HOST:
            if not atom.bytes - ENDS_HOST:
                raise Untranslatable(f"`{atom.text}` is in no host")
            if text == ".":
                text = IN_HOST
            elif text.startswith("[^"):
                text = text[:-1] + "/:?]"
            else:
                text = f"[{text}&&{IN_HOST}]"
        out.append(text + atom.repeat)
    return "".join(out)


def check_case(branch: Branch) -> None:
    """A set that tells capitals from small letters has another meaning where case is off."""
    for atom in branch:
        for inner in atom.branches:
            check_case(inner)
        told = EVERY - atom.bytes if atom.negated else atom.bytes
        if atom.kind == "set" and any(byte + 32 not in told for byte in told & UPPER):
            raise Untranslatable(f"`{atom.text}` names capitals, and Squid looks at a host in small letters: write it in small ones")


def of_host(pattern: str, fold: bool) -> str:
    """A pattern of `dstdom_regex` as one of `url_regex`, which has to stand behind `-i`."""
    branches = branches_of(pattern)
    out = []
    for branch in [ways for whole in branches for begun in spread(whole, "begin", 0) for ways in spread(begun, "end", -1)]:
        body = list(branch)
        begins = bool(body) and body[0].kind == "begin"
        ends = bool(body) and body[-1].kind == "end" and len(body) > begins
        body = body[begins : len(body) - ends]
        if has(body, "begin", "end"):
            raise Untranslatable("it has `^` or `$` within it")
        if can_be_empty(body):
            raise Untranslatable("it holds of every host, or of none")
        if not fold:
            check_case(body)
        outside = needs_one_outside(body, OF_IPV6)
        if not (outside or (begins and OPENS not in first_bytes(body)) or (ends and CLOSES not in first_bytes(backwards(body)))):
            raise Untranslatable("it may hold of a part of an IPv6 address, which is written otherwise in a target")
        text = printed(body, True)
        before, behind = "" if begins else IN_HOST + "*", "(:[0-9]*)?([/?]|$)" if ends else ""
        out.append(f"[^:/]+://{before}{text}{behind}")
        out.append(f"{before}{text}{'' if ends else IN_HOST + '*'}:[0-9]+$")
    return f"(?s-u)^({'|'.join(out)})"


def without_any(branch: Branch) -> Optional[Branch]:
    """What stands behind the `.*` with which a branch begins; None where it begins otherwise."""
    if branch and branch[0].text == "." and branch[0].repeat == "*":
        rest = branch[1:]
        return without_any(rest) or rest
    return None


def begins_safely(branch: Branch) -> bool:
    """Whether no match of it is empty or begins with `?`, so that none begins where a target without a path has its query."""
    return not can_be_empty(branch) and QUERY not in first_bytes(branch)


class Never(Untranslatable):
    """A branch that holds of no path."""


def path_branch(branch: Branch) -> str:
    """A branch of a pattern over a path, in the place behind the host and its port."""
    begins = bool(branch) and branch[0].kind == "begin"
    rest: Branch = branch[1:] if begins else branch
    passed = without_any(rest)
    if passed is not None:
        begins, rest = False, passed
    if has(rest, "begin") or (rest and rest[0].kind == "edge"):
        raise Untranslatable("it has `^`, or begins with an edge of a word")
    if can_be_empty(rest):
        raise Untranslatable("it holds of every path, or of none")
    first, more = rest[0], rest[1:]
    is_slash = first.kind == "set" and first.bytes == {SLASH} and not first.repeat
    at_end = bool(more) and all(atom.kind == "end" for atom in more)
    if is_slash:
        if not more:
            # Each path begins with it.
            return ""
        passed = without_any(more)
        if passed is not None:
            # `/.*x`: the path begins with `/`, so `x` stands anywhere behind its first byte.
            if not begins_safely(passed):
                raise Untranslatable("it may hold of a query without a path")
            return "[/?].*" + printed(passed, False)
        if at_end:
            return "/?$" if begins else "([/?].*/$|/?$)"
        if not begins_safely(more):
            raise Untranslatable("it may hold of a query without a path")
        return "/" + printed(more, False) if begins else f"([/?].*)?/{printed(more, False)}"
    starts = first_bytes(rest)
    if begins:
        raise Untranslatable("it begins with `/` among others") if SLASH in starts else Never("a path begins with `/`, and this does not")
    text = printed(rest, False)
    if SLASH not in starts and QUERY not in starts:
        return "[/?].*" + text
    if first.kind != "set" or first.repeat:
        raise Untranslatable("it may begin with `/` or `?`, repeated or in a group")
    ways = ["[/?].*" + text]
    tail = printed(more, False)
    if SLASH in first.bytes:
        if not begins_safely(more) and not at_end:
            raise Untranslatable("it may hold of a query without a path")
        ways.append("/?" + tail if at_end else "/" + tail)
    if QUERY in first.bytes:
        ways.append("\\?" + tail)
    return f"({'|'.join(ways)})"


def of_path(pattern: str) -> str:
    """A pattern of `urlpath_regex` as one of `url_regex`."""
    branches = branches_of(pattern)
    ways = []
    never = None
    for branch in [begun for whole in branches for begun in spread(whole, "begin", 0)]:
        try:
            ways.append(path_branch(branch))
        except Never as fault:
            never = fault
    if never is not None and not ways:
        raise never
    return f"(?s-u){AUTHORITY}" + (ways[0] if len(ways) == 1 else f"({'|'.join(ways)})")
