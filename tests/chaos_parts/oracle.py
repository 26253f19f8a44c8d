"""Plays a journal of `serve` on a model of its own, line by line: each answer, question, verdict and reply of a helper is judged.

The model knows the configurations that were written, when each was ordered, and the tables that helpers answered by.
"""

import re
from bisect import bisect_right
from collections import Counter, defaultdict
from dataclasses import dataclass, field
from typing import Iterator

from .model import HIT, LOOKUP, MISS, Answers, Configuration, Sight, read_target
from .resolver import Answers as Said
from .words import escape, percent_decoded, unescape

REPLY = re.compile(
    rb'(?:(0|[1-9][0-9]*) )?(OK|ERR|BH)(?: +(?:[A-Za-z0-9_-]+=(?:"(?:[^"\\]|\\.)*"|[^" ][^ ]*|)|[^ ="]+))* *\r?', re.DOTALL
)
PAIR = re.compile(rb' +(?:([A-Za-z0-9_-]+)=(?:"((?:[^"\\]|\\.)*)"|([^" ][^ ]*|))|[^ ="]+)', re.DOTALL)
TOLD = re.compile(rb' message="([^"]*)"(?: log=g(\d+))?')


@dataclass
class Order:
    """A configuration that was ordered: its text, when it was written and when it was answered, by the clock."""

    config: Configuration
    ordered: float
    answered: float


@dataclass
class Check:
    number: int
    conn: int
    epoch: int
    sight: Sight
    identity: str
    asked: float
    answers: Answers = field(default_factory=dict)
    tags: dict[tuple[str, str], str | None] = field(default_factory=dict)
    waits: int | None = None
    is_done: bool = False


@dataclass
class Question:
    epoch: int
    cls: str
    key: str
    checks: set[int] = field(default_factory=set)
    sent: float = 0.0
    proc: int = 0
    # What came of it.
    answer: str | None = None
    tag: str | None = None


@dataclass
class Process:
    epoch: int
    cls: str
    open: dict[str, int] = field(default_factory=dict)
    keys: set[str] = field(default_factory=set)
    # It answered twice, and the second line came when another question was open: it is behind by an answer from then on.
    is_behind: bool = False


@dataclass
class Verdict:
    """What the journal says of a request."""

    epoch: int
    outcome: str
    address: str
    port: int
    asked: float
    taken: float
    pool: int | None
    late: bool  # it was taken after its configuration had been replaced
    check: int
    sight: Sight
    answers: Answers
    tag: str | None


@dataclass
class Session:
    """A connection that a worker served: when it closed, and the checks that were asked on it."""

    address: str
    port: int
    checks: list[int] = field(default_factory=list)
    closed: float = float("inf")


SHOWN = 12


class Contradiction(Exception):
    pass


# The tags that a helper names whatever its table is.
TAGS = {"5": "of ERR", "6": None, "7": '"first"\n'}


def named_by(line: bytes) -> str | None:
    """The value of the first pair `tag` of a reply."""
    for found in PAIR.finditer(line):
        if found[1] == b"tag":
            if found[2] is None:
                return percent_decoded(found[3]).decode("latin-1")
            text = re.sub(rb"\\(.)", lambda one: {b"r": b"\r", b"n": b"\n"}.get(one[1], one[1]), found[2], flags=re.DOTALL)
            return text.decode("latin-1")
    return None


def lookup_of(acl: str) -> str:
    """The list with the values of one that asks for a look-up, by its name in a key."""
    return percent_decoded(acl.encode("ascii")).decode("ascii").removesuffix(" lookup") + " literal"


class Oracle:
    def __init__(
        self,
        first: Configuration,
        orders: list[Order],
        tables: list[tuple[float, float, set[bytes]]],
        offset: int,
        workers: int,
        said: Said,
    ) -> None:
        self.orders = orders
        self.said = said
        self.tables = tables
        self.offset = offset
        self.workers = workers
        self.configs = {1: first}
        self.epoch = 1
        self.began = 0
        self.changed: dict[int, float] = {}  # when an epoch began
        self.conns: dict[int, tuple[str, int]] = {}
        self.full: list[tuple[float, float]] = []  # from when on until when all workers were in use
        self.given_up = 0  # look-ups that failed, of names that are there
        self.most_open = 0  # connections that were open at once
        self.addresses: Counter[str] = Counter()
        self.checks: dict[int, Check] = {}
        self.of_conn: dict[int, int] = {}
        self.questions: dict[int, Question] = {}
        self.procs: dict[int, Process] = {}
        self.starting: Counter[tuple[int, str]] = Counter()
        self.living: Counter[tuple[int, str]] = Counter()
        self.unsent: defaultdict[tuple[int, str], set[int]] = defaultdict(set)
        # Of (epoch, class): of a key the answer, its date and its tag.
        self.kept: defaultdict[tuple[int, str], dict[str, tuple[str, float, str | None]]] = defaultdict(dict)
        self.verdicts: dict[str, Verdict] = {}
        self.unfinished: dict[str, int] = {}
        self.sessions: defaultdict[int, list[Session]] = defaultdict(list)
        self.opened: Counter[tuple[str, int]] = Counter()
        self.asked: defaultdict[tuple[str, int], list[str]] = defaultdict(list)
        self.counts: Counter[str] = Counter()
        self.entries = 0
        self.wrong: list[str] = []
        self.unsaid = 0
        self.about = ""  # the request that a line is about
        self.blamed: list[str] = []
        self.moment = 0.0

    def must(self, holds: bool, what: str) -> None:
        if not holds:
            raise Contradiction(what)

    def play(self, lines: Iterator[str]) -> None:
        number = 0
        for number, line in enumerate(lines, 1):
            if not line.endswith("\n"):
                self.odd(f"line {number} is cut off")
                break
            try:
                if number == 1:
                    self.must(line == "journal 2\n", "the first line is not `journal 2`")
                else:
                    self.entry(number, line[:-1])
            except Contradiction as what:
                self.odd(f"line {number}: {what}\n    {line[:600].rstrip()}")
                if self.about and len(self.blamed) < SHOWN:
                    self.blamed.append(self.about)
            except (ValueError, IndexError, KeyError) as fault:
                self.odd(f"line {number} is no line that is known here ({fault!r})\n    {line[:600].rstrip()}")

    def odd(self, what: str) -> None:
        """What contradicts. What follows from it contradicts too, so that only the first ones are told."""
        self.unsaid += len(self.wrong) >= SHOWN
        if len(self.wrong) < SHOWN:
            self.wrong.append(what)

    def entry(self, number: int, line: str) -> None:
        event, _, answer = line.partition(" => ")
        words, told = event.split(" "), answer.split(" ")
        self.entries += 1
        self.must(int(words[0]) == number - 1, "its number is not that of its place")
        moment = int(words[2])
        self.must(moment >= self.moment, "its moment falls")
        self.moment = moment
        kind = words[3]
        self.about = self.checks[int(words[4])].identity if kind in ("step", "take") else ""
        self.counts[kind if kind != "act" else f"act {told[0]}"] += 1
        if kind == "reconfigure":
            self.reconfigure(words[4], told)
        self.must(int(words[1]) == self.epoch, "its epoch is another")
        if kind != "reconfigure":
            getattr(self, "on_" + kind)(words[4:], told, number)

    def on_begin(self, words: list[str], told: list[str], number: int) -> None:
        self.must(self.entries == 1 and words == [str(self.offset)] and told == ["epoch", "1"], "it is no beginning of this run")
        self.changed[1] = self.moment

    def on_open(self, words: list[str], told: list[str], number: int) -> None:
        conn, address, port = int(words[0]), words[1], int(words[2])
        self.must(conn not in self.conns and 1 <= conn <= self.workers and told == ["ok"], "this worker has a connection already")
        self.conns[conn] = (address, port)
        self.most_open = max(self.most_open, len(self.conns))
        if len(self.conns) == self.workers:
            self.full.append((self.moment, float("inf")))
        self.sessions[conn].append(Session(address, port))
        self.addresses[address] += 1
        self.opened[address, port] += 1

    def on_close(self, words: list[str], told: list[str], number: int) -> None:
        conn = int(words[0])
        self.must(conn in self.conns and told == ["ok"], "no such connection is open")
        if len(self.conns) == self.workers:
            self.full[-1] = (self.full[-1][0], self.moment)
        self.addresses[self.conns.pop(conn)[0]] -= 1
        self.sessions[conn][-1].closed = self.moment
        check = self.of_conn.pop(conn, None)
        if check is not None:
            self.drop(check)
            self.counts["checks dropped"] += 1

    def drop(self, number: int) -> None:
        check = self.checks.pop(number)
        if check.waits is not None:
            self.questions[check.waits].checks.discard(number)

    def on_ask(self, words: list[str], told: list[str], number: int) -> None:
        conn = int(words[0])
        self.must(conn in self.conns and conn not in self.of_conn and told[0] == "check", "there can be no check")
        target = read_target(unescape(words[1]).decode(), unescape(words[2]).decode("latin-1"))
        fields = []
        for word in words[3:]:
            name, _, value = unescape(word).decode("latin-1").partition(":")
            fields.append((name, value))
        identity = next((value for name, value in fields if name == "X-Id"), "")
        address, port = self.conns[conn]
        seconds = int(self.moment) // 1000 + 60 * self.offset
        sight = Sight(address, port, target, tuple(fields), seconds, self.addresses[address])
        self.about = identity
        check = Check(int(told[1]), conn, self.epoch, sight, identity, self.moment)
        self.must(bool(identity), "a request that no client sent")
        self.must(identity not in self.verdicts and identity not in self.unfinished, "a request that was asked before")
        self.unfinished[identity] = check.number
        self.asked[address, port].append(identity)
        self.checks[check.number] = check
        self.sessions[conn][-1].checks.append(check.number)
        self.of_conn[conn] = check.number

    def on_step(self, words: list[str], told: list[str], number: int) -> None:
        check = self.checks[int(words[0])]
        if check.waits is not None:
            question = self.questions[check.waits]
            if question.answer is None:
                self.must(told == ["waits", str(check.waits)], f"question {check.waits} is open")
                return
            check.waits = None
        config = self.configs[check.epoch]
        need = config.judge(check.sight, check.answers)
        if isinstance(need, str):
            self.must(told == ["done"], f"it should be done, with {need}")
            check.is_done = True
            return
        cls = config.classes[need.cls]
        kept = self.kept[check.epoch, need.cls].get(need.key)
        fresh = None
        if kept is not None:
            ttl = cls.ttl if kept[0] == HIT else cls.negative_ttl
            fresh = kept[0] if self.moment - kept[1] < ttl * 1000 else None
        if told[0] == "took":
            self.must(told[1] == escape(need.cls.encode()), f"it should need class {need.cls}")
            if len(need.key) > 8192:
                answer = "KeyTooLong"
            elif fresh is not None:
                answer = fresh
            else:
                # Exactly when is for `verify`: a queue that is full has at least so many questions that were not sent.
                self.must(len(self.unsent[check.epoch, need.cls]) >= cls.queue, "no answer is kept, and the queue has room")
                answer = "QueueFull"
            self.counts[f"took {'kept' if fresh else answer}"] += 1
            check.answers[need.cls, need.key] = answer
            check.tags[need.cls, need.key] = kept[2] if kept is not None and answer == fresh else None
            return
        self.must(told[0] == "waits", f"it should need class {need.cls}")
        self.must(fresh is None and len(need.key) <= 8192, "it should take a kept answer or a fault")
        at = int(told[1])
        question = self.questions.setdefault(at, Question(check.epoch, need.cls, need.key))
        self.must(
            question.answer is None and (question.epoch, question.cls, question.key) == (check.epoch, need.cls, need.key),
            f"question {at} is another: {question.cls} {question.key}, and not {need.cls} {need.key}",
        )
        if not question.proc:
            self.unsent[check.epoch, need.cls].add(at)
        question.checks.add(check.number)
        check.waits = at

    def on_take(self, words: list[str], told: list[str], number: int) -> None:
        check = self.checks[int(words[0])]
        self.must(check.is_done, "no step of it was done")
        outcome = self.configs[check.epoch].judge(check.sight, check.answers)
        assert isinstance(outcome, str)
        words = outcome.split()
        self.counts[" ".join([*words[:2], words[-1]] if words[1] == "fault" else words[:2])] += 1
        place = self.configs[check.epoch].pool_of(check.sight)
        address, port = self.conns[check.conn]
        self.verdicts[check.identity] = Verdict(
            check.epoch,
            outcome,
            address,
            port,
            check.asked,
            self.moment,
            place,
            check.epoch != self.epoch,
            check.number,
            check.sight,
            check.answers,
            self.tag_of(check),
        )
        del self.unfinished[check.identity]
        del self.of_conn[check.conn]
        del self.checks[check.number]
        # A list's name stands in a fault as an escaped word; those of the configurations here are as they are.
        wanted = f"epoch {check.epoch} {outcome}"
        self.must(" ".join(told) == wanted, f"it should be {wanted}")

    def tag_of(self, check: Check) -> str | None:
        """What the first helper that named a tag did, in the order in which the rules asked."""
        tags = [check.tags.get(asked) for asked in check.sight.asked if check.answers.get(asked) in (HIT, MISS)]
        named = [tag for tag in tags if tag is not None]
        self.counts["requests with a tag"] += bool(named)
        return named[0] if named else None

    def on_act(self, words: list[str], told: list[str], number: int) -> None:
        if told[0] == "start":
            self.starting[int(told[1]), unescape(told[2]).decode()] += 1
        elif told[0] == "send":
            proc, at, key = self.procs[int(told[1])], int(told[2]), unescape(told[4]).decode("latin-1")
            question = self.questions.setdefault(at, Question(proc.epoch, proc.cls, key))
            self.must((question.epoch, question.cls, question.key) == (proc.epoch, proc.cls, key), f"question {at} is {question.cls} {question.key}")
            self.must(not question.proc and question.answer is None, f"question {at} was sent before")
            cls = self.configs[proc.epoch].classes[proc.cls]
            channel = told[3]
            self.must(channel not in proc.open and (channel == "-" if cls.concurrency == 0 else int(channel) < cls.concurrency), "its channel is not free")
            proc.open[channel] = at
            proc.keys.add(key)
            question.proc, question.sent = int(told[1]), self.moment
            self.unsent[proc.epoch, proc.cls].discard(at)
        elif told[0] != "stop":
            raise Contradiction("it is no act")

    def on_started(self, words: list[str], told: list[str], number: int) -> None:
        home = int(words[0]), unescape(words[1]).decode()
        self.must(self.starting[home] > 0 and told[0] == "proc", "no start of it is open")
        self.must(home[1] != "nowhere", "there is no such program")
        self.starting[home] -= 1
        self.living[home] += 1
        self.procs[int(told[1])] = Process(*home)

    def on_startfail(self, words: list[str], told: list[str], number: int) -> None:
        home = int(words[0]), unescape(words[1]).decode()
        self.must(self.starting[home] > 0 and told == ["ok"], "no start of it is open")
        self.must(home[1] == "nowhere", "this program can be started")
        self.starting[home] -= 1
        if not self.starting[home] and not self.living[home]:
            for at in sorted(self.unsent.pop(home, ())):
                self.settle(at, "NoHelper")

    def settle(self, at: int, answer: str, tag: str | None = None) -> None:
        """Gives a question its answer, and it to the checks that wait for it."""
        question = self.questions[at]
        question.answer, question.tag = answer, tag
        for number in question.checks:
            self.checks[number].answers[question.cls, question.key] = answer
            self.checks[number].tags[question.cls, question.key] = tag
        question.checks = set()

    def lose(self, number: int, cause: str) -> None:
        proc = self.procs.pop(number)
        self.living[proc.epoch, proc.cls] -= 1
        for at in proc.open.values():
            self.settle(at, cause)

    def on_died(self, words: list[str], told: list[str], number: int) -> None:
        self.must(told == ["ok"], "it should be ok")
        self.lose(int(words[0]), "Died")

    def on_line(self, words: list[str], told: list[str], number: int) -> None:
        proc = self.procs[int(words[0])]
        cls = self.configs[proc.epoch].classes[proc.cls]
        bytes_ = unescape(words[1])
        found = REPLY.fullmatch(bytes_) if len(bytes_) <= 65_536 else None
        is_bad = found is None or (found[1] is not None) != (cls.concurrency > 0) or b"\0" in bytes_ or b"\r" in bytes_[:-1]
        if is_bad or found is None:
            self.must(told == ["bad"], "it is no reply line")
            self.counts["line bad"] += 1
            return self.lose(int(words[0]), "BadReply")
        channel = found[1].decode() if found[1] is not None else "-"
        at = proc.open.get(channel)
        if at is None:
            self.must(told == ["stray"], "nothing waits for it")
            self.counts["line stray"] += 1
            return self.lose(int(words[0]), "Stray")
        word = found[2].decode()
        self.must(told == ["reply", str(at), word.lower()], f"it replies to question {at}")
        question = self.questions[at]
        del proc.open[channel]
        answer = {"OK": HIT, "ERR": MISS, "BH": "Bh"}[word]
        self.settle(at, answer, named_by(bytes_))
        ttl = {HIT: cls.ttl, MISS: cls.negative_ttl}.get(answer)
        if ttl is not None:
            kept = self.kept[proc.epoch, proc.cls]
            kept.pop(question.key, None)
            if ttl > 0:
                kept[question.key] = (answer, self.moment, question.tag)
        self.truth(proc, question, word, bytes_)

    def truth(self, proc: Process, question: Question, word: str, bytes_: bytes) -> None:
        """What the helper should have said: by the key's own words, and by the table that it had."""
        if question.cls == LOOKUP:
            return self.looked_up(proc, question, word)
        told = TOLD.search(bytes_)
        self.must(told is not None, "no helper says so")
        assert told is not None
        if told[1] == b"again":
            self.counts["answers of a helper that answers twice"] += 1
            proc.is_behind = True
            return
        if proc.is_behind:
            self.must(told[1].decode("latin-1") in proc.keys, "it was not asked so")
            self.counts["answers of a helper that answers twice"] += 1
            return
        self.must(told[1].decode("latin-1") == question.key, f"it was asked {question.key}")
        found = re.search(r"do-([a-z]+)(?:\.([^ /]*))?", question.key)
        do, variant = (found[1], found[2] or "") if found else ("ok", "")
        if question.cls == "paths":
            wanted = {"err": "ERR", "bh": "BH"}.get(do, "OK")
        elif do in ("table", "tag"):
            table = int(told[2])
            first, last, listed = self.tables[table]
            # A helper reads the table between question and answer. Moments are whole milliseconds.
            self.must(first * 1000 <= self.moment + 1 and question.sent - 1 <= last * 1000, f"table {table} did not hold then")
            wanted = "OK" if variant.encode() in listed else "ERR"
            if do == "tag":
                wanted = "ERR" if variant == "5" else "OK"
                self.must(question.tag == TAGS.get(variant, f"t{(int(variant) + table) % 3}"), f"the helper does not name {question.tag}")
            self.counts[f"answers by a {do}"] += 1
        elif do == "late":
            wanted = "OK" if variant[-1:] in "02468" else "ERR"
        else:
            wanted = {"ok": "OK", "bh": "BH", "slow": "OK", "trickle": "OK", "cr": "OK", "twice": "OK"}.get(do, "ERR")
        self.must(word == wanted, f"the helper says {wanted} to {question.key}")
        self.counts["answers of helpers"] += 1

    def looked_up(self, proc: Process, question: Question, word: str) -> None:
        """What a look-up should have said: by what the name server did."""
        name, acl, _ = question.key.split(" ")
        values = self.configs[proc.epoch].acls[lookup_of(acl)].values
        may = self.said.shown(name, values, self.moment / 1000)
        self.counts[f"look-ups that say {word}"] += 1
        if word == "BH" and word not in may:
            self.given_up += 1
            return
        self.must(word in may, f"by the name server it is one of {sorted(may)}")

    def reconfigure(self, word: str, told: list[str]) -> None:
        self.epoch += 1
        self.must(told == ["epoch", str(self.epoch)], f"it should be epoch {self.epoch}")
        self.must(len(self.orders) >= self.epoch - 1, "nobody ordered it")
        order = self.orders[self.epoch - 2]
        self.must(unescape(word).decode() == order.config.text, "its text is not the one that was written")
        self.must(order.ordered * 1000 - 1 <= self.moment <= order.answered * 1000 + 1, "its moment is not that of the order")
        old = self.configs[self.epoch - 1]
        self.configs[self.epoch] = order.config
        self.changed[self.epoch] = self.moment
        for name, cls in order.config.classes.items():
            if name in old.classes and old.classes[name].text == cls.text:
                # It goes over: the old configuration has it no more.
                self.kept[self.epoch, name] = self.kept.pop((self.epoch - 1, name), {})

    def was_full(self, first: float, last: float) -> bool:
        """Whether all workers were in use at some moment between these two of the driver's."""
        at = bisect_right(self.full, (last * 1000 + 1, 0.0)) - 1
        return at >= 0 and self.full[at][1] >= first * 1000 - 1

    def epochs_between(self, first: float, last: float) -> tuple[int, int]:
        """The least and the greatest epoch that could be current between these two moments of the driver's."""
        answered = [order.answered for order in self.orders]
        ordered = [order.ordered for order in self.orders]
        return 1 + bisect_right(answered, first), 1 + bisect_right(ordered, last)
