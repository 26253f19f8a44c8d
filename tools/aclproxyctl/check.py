"""check: what the program says of a configuration, in words."""

import os
import tempfile
from dataclasses import dataclass
from typing import Callable, Optional, TextIO

from aclproxyctl import words
from aclproxyctl.confs import PREDEFINED, Conf, Line, read, taken_out, without
from aclproxyctl.errors import DONE, INTERNAL, NO, NOT_UTF8, UserError
from aclproxyctl.program import ask
from aclproxyctl.warnings import Warned, of_conf

MOST = 50
# All that is judged for the faults of one file has about so many bytes, where these are more than MOST.
MOST_TEXT = 16 << 20


@dataclass(frozen=True)
class Judged:
    """What `parse` wrote: notices and counts, or a fault."""

    notices: list[tuple[int, str]]
    counts: Optional[dict[str, int]]
    fault: Optional[tuple[int, int]]


def judge(program: str, path: str) -> Judged:
    """Asks the program for its judgement of a file."""
    answer = ask(program, ["parse", path])
    last = answer.lines[-1].split(" ") if answer.lines else []
    try:
        if answer.status == 0 and last[0] == "ok":
            notices = [(int(line.split(" ")[1]), line.split(" ")[2]) for line in answer.lines[:-1]]
            return Judged(notices, {last[i]: int(last[i + 1]) for i in range(1, len(last), 2)}, None)
        if answer.status == 2 and last[:2] == ["error", "config"]:
            return Judged([], None, (int(last[2]), int(last[3])))
    except (IndexError, ValueError):
        pass
    raise UserError(INTERNAL, f"{program} parse answered what it is not to: {' '.join(last)!r}, status {answer.status}")


def judge_source(program: str, source: bytes) -> Judged:
    """The same of a text."""
    with tempfile.TemporaryDirectory(prefix="aclproxyctl-") as folder:
        path = os.path.join(folder, "squid.conf")
        with open(path, "wb") as file:
            file.write(source)
        return judge(program, path)


@dataclass(frozen=True)
class Fault:
    """A fault of a file, and the line whose leaving out it follows from, if it does."""

    number: int
    kind: int
    follows: Optional[Line]
    # The file in which it is the first fault.
    conf: Conf


def all_faults(program: str, conf: Conf, first: tuple[int, int], most: int = MOST, stand_in: Callable[[Line], bytes] = taken_out) -> tuple[list[Fault], bool]:
    """The first fault and those that come to light when each faulty line is taken out, and whether there may be more.

    `stand_in` gives what is judged in the place of a faulty line. The file is judged anew for each fault, so fewer are reported of a long one.
    """
    most = min(most, max(MOST, MOST_TEXT // max(1, len(conf.source))))
    faults = [Fault(first[0], first[1], None, conf)]
    left_out: list[Line] = []
    while len(faults) < most:
        line = conf.line(faults[-1].number)
        if line is None or line in left_out:
            # A fault of the whole file, at line 0: no line can be taken out for it.
            return faults, False
        left_out.append(line)
        rest = Conf(without(conf.source, left_out, stand_in))
        judged = judge_source(program, rest.source)
        if judged.fault is None:
            return faults, False
        # A rule does not miss a list that another one stands in for.
        follows = None if judged.fault[1] == 7 and stand_in is not taken_out else cause_of(conf, judged.fault, left_out)
        faults.append(Fault(*judged.fault, follows=follows, conf=rest))
    return faults, True


def cause_of(conf: Conf, fault: tuple[int, int], left_out: list[Line]) -> Optional[Line]:
    """The line that was left out and that states what the fault misses, where no line before it states it as well."""
    number, kind = fault
    line = conf.line(number)
    if kind == 16:
        stated = (b"delay_class", b"delay_parameters", b"delay_pools")
        return next((gone for gone in left_out if gone.words[:1] and gone.words[0] in stated), None)
    if line is None:
        return None
    if kind == 15 or (kind == 8 and line.words[:1] == [b"delay_parameters"]):
        return next((gone for gone in left_out if gone.words[:1] in ([b"delay_pools"], [b"delay_class"])), None)
    if kind == 9:
        return next((gone for gone in left_out if gone.words[:1] == [b"external_acl_type"] and gone.words[1:2] == line.words[3:4]), None)
    if kind != 7:
        return None
    present = set(PREDEFINED)
    for other in conf.lines:
        if other.number < number and other not in left_out and other.words[:1] == [b"acl"]:
            present.update(other.words[1:2])
    for term in line.words[1:]:
        name = term.lstrip(b"!")
        if name not in present:
            for gone in left_out:
                if gone.words[:1] == [b"acl"] and gone.words[1:2] == [name]:
                    return gone
    return None


def tell_fault(out: TextIO, path: str, fault: Fault, further: bool, told: set[str]) -> None:
    """Says a fault. What Squid does and what to write instead is said once."""
    kind = words.KINDS.get(fault.kind)
    line = fault.conf.line(fault.number)
    mark = ""
    if fault.follows is not None:
        mark = f" (follows from line {fault.follows.number}, which was left out)"
    elif further:
        mark = " (further fault, found with those above left out)"
    out.write(f"{path}:{fault.number}: {words.of_fault(fault.conf, fault.number, fault.kind)}{mark}\n")
    if line is not None:
        out.write(f"    {line.shown()}\n")
    if fault.follows is not None or kind is None:
        return
    form = words.form_of(line) if line is not None and line.words else None
    for label, text in (("form:   ", form), ("Squid:  ", kind.squid), ("instead:", words.instead(line, fault.kind))):
        if text is not None and text not in told:
            told.add(text)
            out.write(f"  {label} {text}\n")


def tell_refused(out: TextIO, program: str, path: str, conf: Conf, first: tuple[int, int]) -> int:
    """Says what is wrong with a file, and gives the status for it."""
    faults, more = all_faults(program, conf, first)
    told: set[str] = set()
    for place, fault in enumerate(faults):
        tell_fault(out, path, fault, place > 0, told)
    out.write(f"{path} is refused: {words.plural(len(faults), 'fault')}")
    out.write(", and there may be more\n" if more else "\n")
    return NOT_UTF8 if first[1] == 19 else NO


def tell_counts(out: TextIO, path: str, counts: dict[str, int]) -> None:
    said = [
        words.plural(counts.get("acls", 0), "list") + f" ({len(PREDEFINED)} of them there from the start)",
        words.plural(counts.get("rules", 0), "rule"),
        words.plural(counts.get("classes", 0), "class of helpers", "classes of helpers"),
        words.plural(counts.get("pools", 0), "delay pool"),
    ]
    out.write(f"{path} is accepted: {', '.join(said[:-1])} and {said[-1]}\n")
    if counts.get("rules", 0) == 0:
        out.write("  without a rule every request is denied\n")


def tell_warnings(out: TextIO, path: str, warned: list[Warned]) -> None:
    for warning in warned:
        out.write(f"{path}:{warning.line.number}: warning: {warning.text}\n")
        out.write(f"    {warning.line.shown()}\n")


def check(out: TextIO, program: str, path: str, offset: Optional[int], workers: Optional[int] = None, quiet: bool = False) -> int:
    """The command: judges the file, and says in words what came of it."""
    source = read(path)
    conf = Conf(source)
    judged = judge(program, path)
    if judged.fault is not None:
        return tell_refused(out, program, path, conf, judged.fault)
    if quiet:
        return DONE
    for number, directive in judged.notices:
        line = conf.line(number)
        out.write(f"{path}:{number}: no effect: {words.of_notice(line, directive)}\n")
        if line is not None:
            out.write(f"    {line.shown()}\n")
    looked_up = any(line.words[:2] == [b"dst_lookup", b"on"] for line in conf.lines) and all(
        directive != "dst_lookup" for _, directive in judged.notices
    )
    tell_warnings(out, path, of_conf(conf, offset, looked_up, workers))
    assert judged.counts is not None
    tell_counts(out, path, judged.counts)
    return DONE
