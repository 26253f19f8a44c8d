"""Rules that can be passed in a way that surprises."""

import re
import time
from dataclasses import dataclass
from typing import Iterator, Optional

from aclproxyctl.confs import PREDEFINED, Conf, Line

GROUPS = (b"any-of", b"all-of")
# The workers that `aclproxyctl run` and the package's unit start the proxy with.
WORKERS = 1024
# How many names are looked up at once where `dst_lookup on` does not say; twice as many questions wait.
LOOKUPS = 8


@dataclass(frozen=True)
class Warned:
    """A line, and what is to be known of it."""

    line: Line
    text: str


class Lists:
    """Which lists a file states, with their types and lines."""

    def __init__(self, conf: Conf) -> None:
        self.types: dict[bytes, bytes] = dict(PREDEFINED)
        self.lines: dict[bytes, list[Line]] = {}
        for line in conf.lines:
            if line.words[:1] == [b"acl"] and len(line.words) > 2:
                self.types.setdefault(line.words[1], line.words[2])
                self.lines.setdefault(line.words[1], []).append(line)

    def reached(self, terms: list[bytes]) -> dict[bytes, bool]:
        """The lists of values that these terms reach, each with whether it is reached without `!` in some place."""
        found: dict[bytes, bool] = {}
        seen: set[tuple[bytes, bool]] = set()
        work = [(term, True) for term in terms]
        while work:
            term, plain = work.pop()
            name = term.lstrip(b"!")
            plain = plain != term.startswith(b"!")
            if (name, plain) in seen or name not in self.types:
                continue
            seen.add((name, plain))
            if self.types[name] in GROUPS:
                for line in self.lines.get(name, []):
                    work.extend((member, plain) for member in line.words[3:])
            else:
                found[name] = found.get(name, False) or plain
        return found


def zone_offset() -> int:
    """By how many minutes the machine's local time is ahead of UTC now."""
    return time.localtime().tm_gmtoff // 60


def case_is_on(line: Line) -> bool:
    """Whether some pattern of the line has letters and regards their case."""
    fold = False
    for word in line.words[3:]:
        if word in (b"-i", b"+i"):
            fold = word == b"-i"
        elif not fold and b"(?i)" not in word and any(97 <= byte <= 122 for byte in word.split(b"://")[-1]):
            return True
    return False


def has_bare_dot(line: Line) -> bool:
    """Whether some pattern of the line has a `.` that stands for a character and not for every byte."""
    for word in line.words[3:]:
        bare = re.sub(rb"\[\^?\]?[^\]]*\]", b"", re.sub(rb"\\.", b"", word))
        if b"." in bare and not bare.startswith((b"(?s-u)", b"(?-us)", b'"')):
            return True
    return False


def of_lines(conf: Conf, lists: Lists) -> Iterator[Warned]:
    for line in conf.lines:
        if line.words[:1] == [b"acl"] and line.words[2:3] == [b"url_regex"]:
            for word in line.words[3:]:
                if word.startswith(b'"'):
                    name = word.decode("utf-8", "replace")
                    yield Warned(line, f"{name} is a pattern here, and not the name of a file: write the patterns of that file")


def of_rules(conf: Conf, lists: Lists, looked_up: bool) -> Iterator[Warned]:
    told: set[str] = set()
    for line in conf.rules:
        if len(line.words) < 3 or line.words[1] not in (b"allow", b"deny"):
            continue
        reached = lists.reached(line.words[2:])
        # What a denial needs to hold, and what an allowance needs not to: there a list that does not hold lets a request pass.
        keeps_out = {name for name, plain in reached.items() if plain == (line.words[1] == b"deny")}
        by_type: dict[bytes, list[bytes]] = {}
        for name in sorted(keeps_out):
            by_type.setdefault(lists.types[name], []).append(name)
        names = ", ".join(name.decode("utf-8", "replace") for name in by_type.get(b"dst", []))
        if names and not looked_up:
            yield Warned(
                line,
                f"{names} of type dst holds of hosts that are written as addresses: who writes a name, as `localhost` or one of their "
                "own that stands for such an address, passes. Put `dst_lookup on` first in the file",
            )
        for kind, seen in ((b"dstdomain", "the name that the client gives for the tunnel is seen: what is asked for inside is not"),
                           (b"url_regex", "host and port are seen, as `host:443`: a pattern over a path or `https://` never holds")):
            if kind in by_type and kind.decode() not in told:
                told.add(kind.decode())
                listed = ", ".join(name.decode("utf-8", "replace") for name in by_type[kind])
                if listed == "manager":
                    told.discard(kind.decode())
                    continue
                also = " A host that is written as an address has no name that could match." if kind == b"dstdomain" else ""
                yield Warned(line, f"{listed} of type {kind.decode()} keeps requests out; of https only {seen}.{also}")
        for name in by_type.get(b"url_regex", []):
            for where in lists.lines.get(name, []):
                if has_bare_dot(where) and f"dot {where.number}" not in told:
                    told.add(f"dot {where.number}")
                    yield Warned(where, "`.` stands for a character, and neither for a line feed nor for a byte outside of UTF-8: who asks with "
                                 "%0A or %FF in that place passes. Begin the pattern with (?s-u), and `.` stands for each byte")
                if case_is_on(where) and f"case {where.number}" not in told:
                    told.add(f"case {where.number}")
                    yield Warned(where, "the target is looked at as it was sent, and a host may be sent in capitals: put -i in front, "
                                 "since a rule keeps requests out by this list")


def of_times(lists: Lists, offset: Optional[int]) -> Iterator[Warned]:
    here = zone_offset()
    if offset is not None or here == 0:
        return
    for name, lines in lists.lines.items():
        if lists.types[name] == b"time":
            yield Warned(
                lines[0],
                f"hours and days are those of UTC unless `serve` is told otherwise, and this machine is {here:+d} minutes from it: start it "
                f"with --utc-offset {here}, or by `aclproxyctl run --offset-from-zone`",
            )
            return


def of_lookups(conf: Conf, looked_up: bool) -> Iterator[Warned]:
    """What the number of look-ups means, where the file leaves it as it is."""
    for line in conf.lines:
        if not looked_up or line.words[:2] != [b"dst_lookup", b"on"]:
            continue
        stated = {word.partition(b"=")[0]: word.partition(b"=")[2] for word in line.words[2:]}
        at_once = stated.get(b"children-max", str(LOOKUPS).encode())
        if b"queue-size" in stated or not at_once.isdigit():
            continue
        yield Warned(
            line,
            f"{int(at_once)} names are looked up at once and {2 * int(at_once)} wait; a request for one name more is denied (QueueFull), so a page with many "
            "new names may lack parts. `dst_lookup on children-max=64 queue-size=4096` has room for many clients",
        )


def of_counts(lists: Lists, workers: Optional[int]) -> Iterator[Warned]:
    """Lists of connections that never hold: a process has at most one connection for each worker."""
    most = WORKERS if workers is None else workers
    for name, lines in lists.lines.items():
        for line in lines if lists.types[name] == b"maxconn" else []:
            number = line.word(3)
            if number.isdecimal() and int(number) >= most:
                started = f"--workers {most}" if workers is not None else f"--workers {most}, as the package starts it,"
                yield Warned(line, f"with {started} an address never has more than {most} connections, so this list never holds: state a lower number")


def of_conf(conf: Conf, offset: Optional[int], looked_up: bool, workers: Optional[int] = None) -> list[Warned]:
    """All warnings of a file, in the order of its lines."""
    lists = Lists(conf)
    found = [*of_lines(conf, lists), *of_rules(conf, lists, looked_up), *of_times(lists, offset), *of_lookups(conf, looked_up), *of_counts(lists, workers)]
    return sorted(found, key=lambda warned: warned.line.number)
