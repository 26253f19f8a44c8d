"""explain --check: what came of a request that a journal has, by which lines, and what its access log says of it."""

import ipaddress
import os
from dataclasses import dataclass, field
from pathlib import Path
from typing import Iterator, Optional, TextIO

from aclproxyctl import words
from aclproxyctl.access import Access, access_files, is_access_log, lines_of_access, parse
from aclproxyctl.confs import Conf
from aclproxyctl.disk import size_in_words
from aclproxyctl.errors import DONE, INTERNAL, MISSING, NO, UNDECIDED, UserError
from aclproxyctl.explain import Asked, Holding, Machine, NotStarted, Question, Reply, Unanswered, tell_rules
from aclproxyctl.journal import KEPT_CONF, Entry, Reader, Tail, lines_of_files, outcome_of, runs_at, unescape, whole_pieces, wordless
from aclproxyctl.status import moment

WANTED = frozenset(("begin", "open", "close", "ask", "take", "act", "started", "startfail", "line", "died", "reconfigure"))


@dataclass
class Recorded:
    """A check of a journal: what was asked, by which configuration it was judged, and what helpers had answered by then."""

    run: Path
    asked: Asked
    conn: str
    outcome: list[str] = field(default_factory=list)
    epoch: int = 1
    closed: bool = False


class Past:
    """Reads a journal up to the end of one check."""

    def __init__(self, run: Path, check: str) -> None:
        self.run = run
        self.check = check
        self.reader = Reader(str(run), WANTED)
        self.offset = 0
        # The client of each open connection, and the texts of configurations that were read later.
        self.clients: dict[str, str] = {}
        self.confs: dict[int, bytes] = {}
        self.classes: dict[str, str] = {}
        self.failed: set[str] = set()
        # Questions without a reply, by their numbers: their process, and class and key.
        self.sent: dict[str, tuple[str, tuple[str, bytes], str]] = {}
        self.replies: dict[tuple[str, bytes], Reply] = {}
        self.found: Optional[Recorded] = None

    def read(self, lines: Iterator[bytes]) -> Optional[Recorded]:
        for line in lines:
            entry = self.reader.entry(line)
            if entry is None:
                continue
            try:
                if self.ends(line, entry):
                    break
            except (IndexError, KeyError, ValueError):
                raise wordless(str(self.run), entry) from None
        return self.found

    def ends(self, line: bytes, entry: Entry) -> bool:
        """Takes an entry; whether the check ends with it."""
        kind = entry.event[0]
        if kind == "ask" and entry.answer[:2] == ["check", self.check]:
            self.found = self.asked(line, entry.moment, entry.event[1])
        elif kind == "take" and entry.event[1] == self.check and self.found is not None:
            self.found.epoch, self.found.outcome = outcome_of(entry)
            return True
        elif kind == "close":
            self.clients.pop(entry.event[1], None)
            if self.found is not None and self.found.conn == entry.event[1]:
                self.found.closed = True
                return True
        else:
            self.other(kind, entry.event, entry.answer)
        return False

    def asked(self, line: bytes, at: int, conn: str) -> Recorded:
        before = self.reader.before
        event = line.decode("latin-1").rpartition(" => ")[0].split(" ")[before + 3 :]
        method, target, *fields = [os.fsdecode(unescape(word)) for word in event]
        client = self.clients[conn]
        same = sum(one == client for one in self.clients.values())
        return Recorded(self.run, Asked(client, method, target, fields, at, self.offset, max(same, 1)), conn)

    def other(self, kind: str, event: list[str], answer: list[str]) -> None:
        if kind == "begin":
            self.offset = int(event[1])
        elif kind == "open":
            ipaddress.ip_address(event[2])
            self.clients[event[1]] = event[2]
        elif kind == "reconfigure":
            self.confs[int(answer[1])] = unescape(event[1])
        elif kind == "started":
            self.classes[answer[1]] = unescape(event[2]).decode("utf-8", "replace")
        elif kind == "startfail":
            self.failed.add(unescape(event[2]).decode("utf-8", "replace"))
        elif kind == "act" and answer[0] == "send":
            self.sent[answer[2]] = (answer[1], (self.classes.get(answer[1], "?"), unescape(answer[4])), answer[3])
        elif kind == "line" and answer[0] == "reply":
            _, key, channel = self.sent.pop(answer[1], ("", ("", b""), "-"))
            text = unescape(event[2])
            self.replies[key] = text if channel == "-" else text.partition(b" ")[2]
        elif kind in ("died", "line") or (kind == "act" and answer[0] == "stop"):
            self.end(answer[1] if kind == "act" else event[1])

    def end(self, process: str) -> None:
        """A process ends, and its questions with it."""
        for number, (of, key, _) in list(self.sent.items()):
            if of == process:
                self.replies[key] = None
                del self.sent[number]

    def answer(self, question: Question) -> Reply:
        """What the helper had answered to this question."""
        key = (question.helper, question.key)
        if key in self.replies:
            return self.replies[key]
        if question.helper in self.failed:
            raise NotStarted
        raise Unanswered

    def conf(self, epoch: int) -> tuple[str, bytes]:
        """The configuration of an epoch, and what it is called."""
        if epoch in self.confs:
            return f"configuration {epoch}", self.confs[epoch]
        path = self.run / KEPT_CONF
        try:
            return str(path), path.read_bytes()
        except OSError:
            raise UserError(MISSING, f"{self.run}: it has no {KEPT_CONF}, the configuration of its start") from None


def runs_named(named: str) -> list[Path]:
    """The runs in which a check is looked for, the last one first: those of a folder, or the one whose access log, or piece, is named."""
    path = Path(named)
    if path.is_file() and (is_access_log(path) or path.name.startswith("journal.")):
        return [path.absolute().parent]
    return runs_at(named)[::-1]


def line_of_check(run: Path, check: str) -> Optional[Access]:
    """What the access log of a run says of a check."""
    word = f" check={check}".encode()
    for line in lines_of_access(access_files(run)):
        if word in line:
            access = parse(line.decode("latin-1"))
            if access is not None and access.fields.get("check") == check:
                return access
    return None


def tell_request(out: TextIO, found: Recorded, check: str, access: Optional[Access]) -> None:
    asked = found.asked
    out.write(f"check {check} of the run {found.run.name}, asked {moment(asked.moment)} by {asked.client} over connection {found.conn}\n")
    out.write(f"  {shown_word(asked.method)} {shown_word(asked.target)}\n")
    if access is not None:
        cause = f", which failed: {access.fields['cause']}" if "cause" in access.fields else ""
        out.write(f"  what came of it: {access.code}/{access.status:03}, {size_in_words(access.bytes)} to the client in {access.elapsed / 1000:.3f} s{cause}\n")


def shown_word(text: str) -> str:
    return "".join(c if c.isprintable() else repr(c)[1:-1] for c in text)


def explain_check(out: TextIO, program: str, named: str, check: int) -> int:
    """The command."""
    number = str(check)
    for run in runs_named(named):
        past = Past(run, number)
        found = past.read(lines_of_files(whole_pieces(run), Tail()))
        if found is not None:
            break
    else:
        raise UserError(MISSING, f"{named}: no check has the number {number} there")
    tell_request(out, found, number, line_of_check(run, number))
    if not found.outcome:
        out.write("its connection closed before it was judged\n" if found.closed else "it is not judged yet\n")
        return UNDECIDED
    name, source = past.conf(found.epoch)
    conf = Conf(source)
    out.write(words.of_outcome(found.outcome) + "\n")
    rule_number = int(found.outcome[2]) if found.outcome[1] in ("rule", "fault") else None
    rule = conf.rule(rule_number) if rule_number is not None else None
    if rule is not None:
        out.write(f"  {name}:{rule.number}: {rule.shown()}\n")
    machine = Machine(program, source, found.asked)
    try:
        again = machine.run(found.asked.script(), past.answer)
    except UserError as fault:
        if fault.status != INTERNAL:
            raise
        out.write(f"how the rules came to that cannot be shown: {fault.text}\n")
        return NO if found.outcome[0] == "denied" else DONE
    if again.outcome is not None and again.outcome != found.outcome:
        # As where a helper has answered the same question otherwise meanwhile, or connections came and went.
        out.write(f"asked by itself now, it would be {words.of_outcome(again.outcome)}; what follows is about that\n")
        rule_number = int(again.outcome[2]) if again.outcome[1] in ("rule", "fault") else None
    holding = Holding(conf, machine, past.answer)
    out.write("the rules, up to the one that decided:\n" if rule is not None else "the rules, of which none matched:\n")
    tell_rules(out, name, conf, holding, rule_number)
    return NO if found.outcome[0] == "denied" else DONE
