"""explain: what comes of one request, and by which lines."""

import os
import select
import socket
import subprocess
import tempfile
import time
from dataclasses import dataclass, field
from pathlib import Path
from typing import Callable, Optional, TextIO, Union

from aclproxyctl import words
from aclproxyctl.check import judge, tell_refused
from aclproxyctl.confs import Conf, Line, read
from aclproxyctl.errors import DONE, INTERNAL, NO, NOT_UTF8, REFUSED, UNDECIDED, USAGE, UserError
from aclproxyctl.journal import escape, unescape
from aclproxyctl.program import ask
from aclproxyctl.warnings import GROUPS, Lists

# A helper has so many seconds for its answer.
PATIENCE = 10.0
# So many questions may follow one another; without --ask, so many outcomes are shown.
DEEPEST = 100
MOST_OUTCOMES = 16
MOST_LISTS = 200
LOOKUP = "dst lookup"


@dataclass(frozen=True)
class Asked:
    """A request, the client's side of it, and when it is asked."""

    client: str
    method: str
    target: str
    fields: list[str]
    moment: int
    offset: int
    connections: int

    def script(self) -> list[str]:
        texts = " ".join(escape(os.fsencode(text)) for text in (self.method, self.target, *self.fields))
        opens = [f"open {number} {self.client} {50000 + number % 15000}" for number in range(1, self.connections + 1)]
        return [f"begin {self.offset}", *opens, f"ask 1 {texts}"]


@dataclass(frozen=True)
class Question:
    """What a helper is asked: its class, its key, and its channel where it has some."""

    number: str
    process: str
    helper: str
    key: bytes
    channel: str


# What came of a question: a line without its channel, or None where the process ended.
Reply = Optional[bytes]
Asker = Callable[[Question], Reply]


@dataclass
class Answered:
    """What a check came to: an outcome, or the question that it waits for, and the script so far."""

    script: list[str]
    outcome: Optional[list[str]] = None
    question: Optional[Question] = None
    pool: Optional[str] = None


class Machine:
    """Runs scripts of one configuration by the program's `replay`."""

    def __init__(self, program: str, source: bytes, asked: Asked) -> None:
        self.program = program
        self.source = source
        self.asked = asked

    def lines(self, script: list[str]) -> list[list[str]]:
        """What comes of a script's lines: the words of each, with the answer behind `=>`."""
        with tempfile.TemporaryDirectory(prefix="aclproxyctl-") as folder:
            conf, file = os.path.join(folder, "squid.conf"), os.path.join(folder, "script")
            Path(conf).write_bytes(self.source)
            Path(file).write_text("".join(f"{self.asked.moment} {line}\n" for line in script), encoding="ascii")
            answer = ask(self.program, ["replay", conf, file])
        last = answer.lines[-1].split(" ") if answer.lines else [""]
        if answer.status == 3 and int(last[2]) == len(self.asked.script()):
            raise UserError(USAGE, self.no_request())
        if answer.status != 0:
            raise UserError(INTERNAL, f"{self.program} replay ended with status {answer.status}: {' '.join(last)}")
        return [line.split(" ") for line in answer.lines]

    def no_request(self) -> str:
        if self.asked.method == "CONNECT":
            return f"`CONNECT {self.asked.target}` is no request: CONNECT wants HOST:PORT, as www.example.com:443"
        return (
            f"`{self.asked.method} {self.asked.target}` is no request that a proxy is asked: the method is a token, as GET, and the URL is "
            "http://HOST[:PORT]/PATH without user, fragment (#) and spaces; a header is NAME: VALUE"
        )

    def run(self, script: list[str], asker: Asker) -> Answered:
        """Goes on with the check for as long as its questions are answered. A reply of `asker` is tried once a question."""
        for _ in range(DEEPEST):
            lines = self.lines([*script, "step 1"])
            step = [line for line in lines if line[1:3] == ["step", "1"]][-1]
            answer = step[step.index("=>") + 1 :]
            if answer[0] == "done":
                return self.taken([*script, "step 1"])
            script = [*script, "step 1"]
            if answer[0] == "waits":
                script = self.started(script, lines)
                question = self.question(self.lines(script), answer[1])
                try:
                    reply = asker(question)
                except Unanswered:
                    return Answered(script, question=question)
                except NotStarted:
                    made = f" {escape(question.helper.encode())}"
                    script = [f"startfail {line[8:]}" if line.startswith("started ") and line.endswith(made) else line for line in script]
                    continue
                script = [*script, self.reply(question, reply)]
        raise UserError(INTERNAL, f"over {DEEPEST} questions follow one another")

    def taken(self, script: list[str]) -> Answered:
        outcome = [line for line in self.lines([*script, "take 1"]) if line[1] == "take"][-1]
        found = Answered(script, outcome=outcome[outcome.index("=>") + 3 :])
        if found.outcome is not None and found.outcome[0] == "allowed":
            seat = [line for line in self.lines([*script, "take 1", "seat 1"]) if line[1] == "seat"][-1]
            if seat[-1] != "none":
                found.pool = seat[-1]
        return found

    def started(self, script: list[str], lines: list[list[str]]) -> list[str]:
        """The script with each start made that is due."""
        open_starts: dict[str, int] = {}
        for line in lines:
            words_of = " ".join(line[line.index("=>") + 2 :]) if line[1] == "act" and line[3] == "start" else ""
            if words_of:
                open_starts[words_of] = open_starts.get(words_of, 0) + 1
            if line[1] == "started":
                key = " ".join(line[2:4])
                open_starts[key] = open_starts.get(key, 0) - 1
        return script + [f"started {what}" for what, count in open_starts.items() for _ in range(max(0, count))]

    def question(self, lines: list[list[str]], number: str) -> Question:
        """The question of this number, as it was sent."""
        classes: dict[str, str] = {}
        for line in lines:
            if line[1] == "started":
                classes[line[-1]] = unescape(line[3]).decode("utf-8", "replace")
            if line[1] == "act" and line[3] == "send" and line[5] == number:
                return Question(number, line[4], classes.get(line[4], "?"), unescape(line[7]), line[6])
        raise UserError(INTERNAL, f"question {number} was not sent")

    def reply(self, question: Question, reply: Reply) -> str:
        if reply is None:
            return f"died {question.process}"
        channel = b"" if question.channel == "-" else question.channel.encode() + b" "
        return f"line {question.process} {escape(channel + reply)}"


class Unanswered(Exception):
    """Nobody answers this question."""


class NotStarted(Exception):
    """The helper's program cannot be started."""


def nobody(question: Question) -> Reply:
    raise Unanswered


def program_of(conf: Conf, helper: str) -> list[bytes]:
    """The program of a class and its words."""
    for line in conf.lines:
        if line.words[:1] == [b"external_acl_type"] and line.words[1:2] == [helper.encode()]:
            rest = line.words[2:]
            while rest and (b"=" in rest[0] or rest[0] in (b"ipv4", b"ipv6")) and not rest[0].startswith(b"%"):
                rest = rest[1:]
            while rest and rest[0].startswith(b"%"):
                rest = rest[1:]
            return rest
    return []


class Helpers:
    """Asks the helpers of a configuration, each question once, and keeps what they said."""

    def __init__(self, out: TextIO, conf: Conf, machine: Machine) -> None:
        self.out = out
        self.conf = conf
        self.machine = machine
        self.known: dict[tuple[str, bytes], Reply] = {}
        self.failed: set[str] = set()

    def remembered(self, question: Question) -> Reply:
        if question.helper in self.failed:
            raise NotStarted
        try:
            return self.known[(question.helper, question.key)]
        except KeyError:
            raise Unanswered from None

    def answer(self, question: Question) -> Reply:
        key = (question.helper, question.key)
        if question.helper in self.failed:
            raise NotStarted
        if key not in self.known:
            tell_question(self.out, question)
            reply = self.look_up(question) if question.helper == LOOKUP else self.run(question)
            said = "nothing, and ended" if reply is None else f"`{shown(reply)}`"
            self.out.write(f"  it said {said}\n")
            self.known[key] = reply
        return self.known[key]

    def run(self, question: Question) -> Reply:
        command = program_of(self.conf, question.helper)
        sent = question.key if question.channel == "-" else question.channel.encode() + b" " + question.key
        try:
            process = subprocess.Popen(command, stdin=subprocess.PIPE, stdout=subprocess.PIPE, start_new_session=True)
        except OSError as fault:
            self.out.write(f"  {shown(command[0]) if command else 'its program'} cannot be started: {fault.strerror}\n")
            self.failed.add(question.helper)
            raise NotStarted from None
        assert process.stdin is not None and process.stdout is not None
        try:
            try:
                process.stdin.write(sent + b"\n")
                process.stdin.flush()
            except OSError:
                pass
            line = first_line(process.stdout.fileno(), PATIENCE)
        finally:
            process.kill()
            process.wait()
            process.stdout.close()
            try:
                process.stdin.close()
            except OSError:
                pass
        if line is None:
            return None
        if question.channel != "-":
            channel, _, line = line.partition(b" ")
            if channel != question.channel.encode():
                raise UserError(NO, f"the helper of {question.helper} answered for another channel: `{shown(channel + b' ' + line)}`")
        return line

    def look_up(self, question: Question) -> Reply:
        """What the proxy's own look-up answers: whether an address of the host is in the list."""
        host, _, rest = question.key.partition(b" ")
        name = unquote(rest.split(b" ")[0]).decode("utf-8", "replace").removesuffix(" lookup")
        try:
            found = sorted({str(info[4][0]) for info in socket.getaddrinfo(unquote(host).decode("ascii", "replace"), None)})
        except OSError as fault:
            self.out.write(f"  {shown(host)} was not found: {fault.strerror}\n")
            return b"BH"
        self.out.write(f"  {shown(host)} has {words.plural(len(found), 'address', 'addresses')}: {', '.join(found)}\n")
        source = closure(self.conf, Lists(self.conf), name.encode()) + b"http_access allow " + name.encode() + b"\nhttp_access deny all\n"
        for address in found:
            literal = f"[{address}]" if ":" in address else address
            asked = self.machine.asked
            other = Asked(asked.client, "GET", f"http://{literal}/", [], asked.moment, asked.offset, asked.connections)
            machine = Machine(self.machine.program, source, other)
            held = machine.run(other.script(), nobody)
            if held.outcome == ["allowed", "rule", "1"]:
                return b"OK"
        return b"ERR"


def unquote(text: bytes) -> bytes:
    """A percent-encoded text of a key."""
    return unescape(text.decode("latin-1")) if text != b"-" else b""


def first_line(source: int, seconds: float) -> Optional[bytes]:
    """The first line of a pipe without its LF; None where it ends before."""
    end = time.monotonic() + seconds
    got = b""
    while b"\n" not in got:
        ready, _, _ = select.select([source], [], [], max(0.0, end - time.monotonic()))
        if not ready:
            raise UserError(UNDECIDED, f"the helper has not answered within {seconds:g} seconds; the proxy waits for it without an end")
        block = os.read(source, 65536)
        if not block:
            return None
        got += block
    return got.split(b"\n")[0]


def shown(text: bytes) -> str:
    return "".join(c if c.isprintable() else repr(c)[1:-1] for c in text.decode("utf-8", "backslashreplace"))


def tell_question(out: TextIO, question: Question, indent: str = "") -> None:
    if question.helper == LOOKUP:
        out.write(f"{indent}the host's name is looked up, for the question `{shown(question.key)}`\n")
    else:
        channel = "" if question.channel == "-" else f", on channel {question.channel}"
        out.write(f"{indent}the helper {question.helper} is asked `{shown(question.key)}`{channel}\n")


def closure(conf: Conf, lists: Lists, name: bytes) -> bytes:
    """The lines of the file that state a list: its own, those of its members and of its helper."""
    wanted: set[bytes] = set()
    work = [name]
    helpers: set[bytes] = set()
    while work:
        current = work.pop()
        if current in wanted:
            continue
        wanted.add(current)
        for line in lists.lines.get(current, []):
            if lists.types.get(current) in GROUPS:
                work.extend(member.lstrip(b"!") for member in line.words[3:])
            elif lists.types.get(current) == b"external":
                helpers.update(line.words[3:4])
    kept = []
    for line in conf.lines:
        if (
            (line.words[:1] == [b"acl"] and line.words[1:2] and line.words[1] in wanted)
            or (line.words[:1] == [b"external_acl_type"] and line.words[1:2] and line.words[1] in helpers)
            or line.words[:1] == [b"dst_lookup"]
        ):
            kept.append(b" ".join(line.words) + b"\n")
    return b"".join(kept)


# Whether a list holds: yes, no, or what stands in the way of saying so.
Held = Union[bool, str]


class Holding:
    """Whether each list holds for the request, asked of the program one by one."""

    def __init__(self, conf: Conf, machine: Machine, asker: Asker) -> None:
        self.conf = conf
        self.lists = Lists(conf)
        self.machine = machine
        self.asker = asker
        self.known: dict[bytes, Held] = {}

    def of(self, name: bytes) -> Held:
        if name not in self.known:
            self.known[name] = self.find(name) if len(self.known) < MOST_LISTS else "not looked at here: there are too many"
        return self.known[name]

    def find(self, name: bytes) -> Held:
        source = closure(self.conf, self.lists, name) + b"http_access allow " + name + b"\nhttp_access deny all\n"
        found = Machine(self.machine.program, source, self.machine.asked).run(self.machine.asked.script(), self.asker)
        if found.question is not None:
            return "a look-up decides" if found.question.helper == LOOKUP else f"the helper {found.question.helper} decides"
        assert found.outcome is not None
        if found.outcome[1] == "fault":
            return f"a fault: {words.CAUSES.get(found.outcome[4], found.outcome[4])}"
        return found.outcome[0] == "allowed"


@dataclass
class Terms:
    """The terms of a rule, in words, and whether all hold: None where that is not known."""

    said: list[str] = field(default_factory=list)
    matches: Optional[bool] = True


def terms_of(rule: Line, holding: Holding) -> Terms:
    terms = Terms()
    for term in rule.words[2:]:
        if terms.matches is False:
            terms.said.append(f"{shown(term)}: not looked at")
            continue
        held = holding.of(term.lstrip(b"!"))
        if isinstance(held, str):
            terms.said.append(f"{shown(term)}: {held}")
            terms.matches = None
        else:
            holds = held != term.startswith(b"!")
            terms.said.append(f"{shown(term)}: {'holds' if holds else 'does not hold'}")
            if not holds:
                terms.matches = False
    return terms


def tell_rules(out: TextIO, path: str, conf: Conf, holding: Holding, decided: Optional[int]) -> None:
    """Each rule up to the one that decided, or that matches at the latest, with what can be said of its terms."""
    last = decided if decided is not None else len(conf.rules)
    for number, rule in enumerate(conf.rules[:last], 1):
        terms = terms_of(rule, holding)
        how = "decides" if number == decided else {True: "matches", False: "does not match", None: "cannot be told"}[terms.matches]
        out.write(f"  rule {number}, {path}:{rule.number}: {rule.shown()}: {how}\n    {', '.join(terms.said)}\n")
        if terms.matches is True:
            # No rule behind one that matches is looked at.
            return


def tell_branches(out: TextIO, machine: Machine, found: Answered, indent: str, left: list[int]) -> None:
    """What would come of each reply to the question that a check waits for."""
    assert found.question is not None
    tell_question(out, found.question, indent)
    for said in (b"OK", b"ERR", b"BH"):
        if left[0] <= 0:
            out.write(f"{indent}  and so on\n")
            return
        left[0] -= 1
        after = machine.run([*found.script, machine.reply(found.question, said)], nobody)
        if after.outcome is not None:
            out.write(f"{indent}  {said.decode()}: {words.of_outcome(after.outcome)}\n")
        else:
            out.write(f"{indent}  {said.decode()}:\n")
            tell_branches(out, machine, after, indent + "    ", left)


def explain(out: TextIO, program: str, path: str, asked: Asked, with_helpers: bool) -> int:
    """The command."""
    source = read(path)
    conf = Conf(source)
    judged = judge(program, path)
    if judged.fault is not None:
        return NOT_UTF8 if tell_refused(out, program, path, conf, judged.fault) == NOT_UTF8 else REFUSED
    machine = Machine(program, source, asked)
    helpers = Helpers(out, conf, machine)
    found = machine.run(asked.script(), helpers.answer if with_helpers else nobody)
    holding = Holding(conf, machine, helpers.remembered)
    if found.outcome is None:
        out.write("undecided: a helper decides; --ask asks it\n" if found.question and found.question.helper != LOOKUP
                  else "undecided: the addresses of the host's name decide; --ask looks them up\n")
        tell_branches(out, machine, found, "", [MOST_OUTCOMES])
        out.write("the rules, as far as one can say:\n")
        tell_rules(out, path, conf, holding, None)
        return UNDECIDED
    out.write(words.of_outcome(found.outcome) + "\n")
    number = int(found.outcome[2]) if found.outcome[1] in ("rule", "fault") else None
    rule = conf.rule(number) if number is not None else None
    if rule is not None:
        out.write(f"  {path}:{rule.number}: {rule.shown()}\n")
    if found.pool is not None:
        out.write(f"  its bytes go by delay pool {found.pool}\n")
    out.write("the rules, up to the one that decided:\n" if rule is not None else "the rules, of which none matched:\n")
    tell_rules(out, path, conf, holding, number)
    return NO if found.outcome[0] == "denied" else DONE
