"""Compares the access log of a run with what its clients and origins got: docs/OPERATING.md, "The access log"."""

import re
from collections import Counter, defaultdict
from dataclasses import dataclass
from pathlib import Path
from typing import Any, Iterator

from access import DROPPED, LINE

from .judge import Judge, is_found
from .model import read_target
from .oracle import Session, Verdict
from .replies import Sent, plan_of
from .rewrites import Fate

QUOTED = frozenset(b"\"'") | frozenset(range(33)) | frozenset(range(127, 256))
ERRORS = {"400": "error:invalid-request", "431": "error:request-too-large"}
# Why a reply of an origin's is none, or ends early, by the first part of a path.
CAUSES = dict.fromkeys(("reset", "nothing", "half", "stall", "cut", "halfchunk", "resetbody"), {"cut_off"})
CAUSES |= dict.fromkeys(("noise", "switch", "toomany", "lengths", "both", "coding", "wide"), {"not_http"})
CAUSES |= {"badchunk": {"not_http", "cut_off"}}


def url(target: str) -> str:
    """A target as a line has it."""
    return "".join(f"%{b:02X}" if b in QUOTED else chr(b) for b in target.encode("latin-1"))


def writes_tags(program: str) -> bool:
    """Whether a program's access log has the tags of requests."""
    return b" tag=" in Path(program).read_bytes()


def read_lines(paths: list[str]) -> Iterator[str]:
    for path in paths:
        with open(path, encoding="latin-1", newline="\n") as file:
            yield from file


@dataclass
class Line:
    """A line of the log, in its parts."""

    text: str
    parts: dict[str, str]

    def number(self, name: str) -> int:
        """A count of it, or -1 where it has none."""
        return int(self.parts.get(name) or -1)

    @property
    def cause(self) -> str:
        return self.parts.get("cause") or ""


class AccessJudge:
    def __init__(self, judge: Judge, has_tags: bool) -> None:
        self.judge = judge
        self.has_tags = has_tags
        self.oracle = judge.oracle
        self.counts: Counter[str] = Counter()
        self.of_check = {verdict.check: identity for identity, verdict in self.oracle.verdicts.items()}
        self.of_check |= {check: identity for identity, check in self.oracle.unfinished.items()}
        self.reset: set[str] = set()  # requests whose client ended its connection by a reset
        self.records: defaultdict[tuple[str, int], list[dict[str, Any]]] = defaultdict(list)

    def odd(self, what: str, line: Line | None, identity: str = "") -> None:
        self.judge.odd(f"the access log: {what}" + (f"\n    {line.text}" if line else ""), identity)

    def record(self, record: dict[str, Any]) -> None:
        """Takes note of what a client did over a connection."""
        self.records[record["address"], record["port"]].append(record)
        if record["is_reset"]:
            self.reset |= {one["number"] for one in record["requests"]}

    def look(self, paths: list[str], messages: str) -> None:
        """Each request that was asked and each connection without one has a line, in their order at each worker, and there is no other."""
        lines: defaultdict[int, list[Line]] = defaultdict(list)
        for text in read_lines(paths):
            match = LINE.fullmatch(text.rstrip("\n"))
            if match is None or not text.endswith("\n"):
                self.odd("it is no line", Line(text.rstrip("\n")[:600], {}))
                continue
            line = Line(match[0], {name: value for name, value in match.groupdict().items() if value is not None})
            lines[line.number("conn")].append(line)
            self.counts["lines of the access log"] += 1
        for conn in {*lines, *self.oracle.sessions}:
            self.of_worker(lines[conn], self.oracle.sessions[conn])
        dropped = sum(int(match[1]) for match in map(DROPPED.fullmatch, messages.splitlines()) if match)
        if dropped:
            self.odd(f"{dropped} lines were dropped", None)

    def of_worker(self, lines: list[Line], sessions: list[Session]) -> None:
        wanted = [(session, check) for session in sessions for check in session.checks or [-1]]
        for line, (session, check) in zip(lines, wanted):
            if line.number("check") != check:
                self.odd(f"it should be the line of check {check} of {session.address} {session.port}", line, self.of_check.get(check, ""))
                return
            if line.parts["client"] != session.address:
                self.odd(f"the client is {session.address}", line)
            if check < 0:
                self.silent(line, session)
            else:
                self.request(line, session, self.of_check[check])
        if len(lines) > len(wanted):
            counts = f"{len(lines)} lines, and {len(wanted)} requests and connections without one"
            self.odd(f"of this worker there are {counts}", lines[len(wanted)])
        elif len(wanted) > len(lines):
            session, check = wanted[len(lines)]
            self.odd(f"there is no line of check {check} of {session.address} {session.port}", None, self.of_check.get(check, ""))

    def silent(self, line: Line, session: Session) -> None:
        """A connection on which no request was asked."""
        code, status = line.parts["code"].split("/")
        self.counts["lines without a request"] += 1
        if code.removesuffix("_ABORTED") != "NONE" or code.endswith("_ABORTED") != (line.cause == "client_gone"):
            self.odd("its code is wrong", line)
        kind = "-" if status == "000" else "text/plain"
        if line.parts["way"] != "HIER_NONE/-" or line.parts["type"] != kind or line.number("rule") >= 0:
            self.odd("it has what belongs to a request", line)
        # On a machine that is too busy a client may be so late that its link gives way: after two seconds without a byte, at the soonest.
        may_give_way = line.cause == "gave_way" and int(line.parts["elapsed"]) >= 2_000
        if line.cause not in ("", "client_gone") and not may_give_way or line.number("up") >= 0:
            self.odd("it has no such cause, and no origin", line)
        # A port may be that of several connections, one after the other.
        may = [self.may_be_silent(line, status, one) for one in self.records[session.address, session.port]]
        if not any(may):
            self.odd("no client sent or got this", line)
        if status == "000" and line.number("bytes") > 0:
            self.odd("nothing was sent, and bytes are counted", line)

    def may_be_silent(self, line: Line, status: str, record: dict[str, Any]) -> bool:
        """Whether the line may be that of this connection. Where a head was refused it may have that one's method and target."""
        requests = {f"NONE {ERRORS.get(status, 'error:transaction-end-before-headers')}", record["line"]}
        is_answered = status == (record["own"] or "000") or status == "000" and line.cause == "client_gone"
        return line.parts["request"] in requests and is_answered

    def request(self, line: Line, session: Session, identity: str) -> None:
        verdict = self.oracle.verdicts.get(identity)
        known = self.judge.sent.get(identity)
        if known is None or verdict is None or sent_is_wrong(known[0]):
            return
        sent = known[0]
        self.counts["lines of requests"] += 1
        what = self.front(line, sent, verdict) or self.times(line, sent, verdict, session)
        if not what:
            fates = self.judge.fates.get(identity) or self.judge.possible("", sent, verdict)
            whats = [self.ending(line, sent, verdict, fate) for fate in fates]
            what = "" if "" in whats else whats[0]
        if what:
            self.odd(what, line, identity)
        if line.cause:
            self.counts[f"cause {line.cause}"] += 1
        self.counts[f"code {line.parts['code'].split('/')[0]}"] += 1

    def front(self, line: Line, sent: Sent, verdict: Verdict) -> str:
        if line.parts["request"] != f"{sent.method} {url(sent.target)}":
            return f"the request is {sent.method} {url(sent.target)}"
        outcome = verdict.outcome.split(" ")
        rule = int(outcome[2]) if outcome[1] in ("rule", "fault") else -1
        if line.number("rule") != rule:
            return f"the outcome is {verdict.outcome}"
        tag = None if verdict.tag is None else url(verdict.tag) or "-"
        self.counts["lines with a tag"] += "tag" in line.parts
        if self.has_tags and line.parts.get("tag") != tag:
            return f"its tag is {tag}"
        code = line.parts["code"].split("/")[0]
        if code.endswith("_ABORTED") != (line.cause == "client_gone") or code.endswith("_TIMEDOUT") != (line.cause == "timed_out"):
            return "its code and its cause do not fit"
        return ""

    def times(self, line: Line, sent: Sent, verdict: Verdict, session: Session) -> str:
        end = round(float(line.parts["moment"]) * 1000)
        head = end - int(line.parts["elapsed"])
        if not sent.began * 1000 - 2 <= head <= verdict.asked + 1:
            return f"its head came at {head}; it was sent at {sent.began} and asked at {verdict.asked}"
        if not verdict.taken - 1 <= end <= session.closed + 1:
            return f"its end is not between {verdict.taken} and {session.closed}"
        return ""

    def ending(self, line: Line, sent: Sent, verdict: Verdict, fate: Fate) -> str:
        """What of a line contradicts, if this became of its request."""
        code, status = line.parts["code"].split("/")
        code = code.removesuffix("_ABORTED")
        wanted, statuses, causes, ways, kind = self.wanted(line, sent, verdict, fate)
        got = status_of(sent)
        is_whole = sent.end == "whole" or sent.end == "cut" and "" in causes and sent.got == line.number("bytes")
        # A client that has all may have reset its link before the line was written.
        may_be_gone = not is_whole or sent.number in self.reset and float(line.parts["moment"]) > sent.ended - 0.002
        if code != wanted:
            return f"its code is {wanted}"
        if line.cause == "gave_way" and sent.number in self.judge.gave_way:
            return ""
        # What was to be written to a client that had left may be counted as its reply.
        if got and status != got or not got and status not in statuses | {"000"} and line.cause != "client_gone":
            return f"the client got {got or statuses}"
        if line.cause not in (causes | {"client_gone"} if may_be_gone else causes):
            return f"its cause is {causes}, and the client's reply ended by {sent.end or 'nothing that it waited for'}"
        if line.parts["way"] not in ways and not (line.cause == "client_gone" and line.parts["way"] == "HIER_NONE/-"):
            return f"the origin is {ways}"
        if line.parts["type"] != ("-" if status == "000" else kind(status)):
            return "its type is another"
        is_dialled = wanted in ("TCP_MISS", "TCP_TUNNEL")
        if (line.number("up") >= 0) != is_dialled and line.cause != "client_gone":
            return "it has an origin's bytes, or has none"
        return self.bytes_(line, sent, verdict, fate) if line.cause != "client_gone" else ""

    def wanted(self, line: Line, sent: Sent, verdict: Verdict, fate: Fate) -> tuple[str, set[str], set[str], set[str], Any]:
        """Code, statuses, causes, ways and the type of each status, of which one has to be there."""
        way, cause = line.parts["way"], line.cause
        nowhere, own, others = {"HIER_NONE/-"}, lambda _: "text/plain", lambda _: "-"
        if not verdict.outcome.startswith("allowed"):
            return "TCP_DENIED", {"403"}, {""}, nowhere, own
        if fate.location:
            return "TCP_REDIRECT", {fate.status[:3]}, {""}, nowhere, others
        target = read_target(sent.method, fate.target)
        if sent.method != "CONNECT" and target.scheme != "http":
            return "NONE", {"501"}, {""}, nowhere, own
        code = "TCP_TUNNEL" if sent.method == "CONNECT" else "TCP_MISS"

        def by_status(status: str) -> str:
            return "text/plain" if status == "502" else "-"

        if not is_found(target.host):
            self.judge.given_up += cause == "lookup_failed" and why_not(target.host) != cause
            return code, {"502"}, {why_not(target.host), "lookup_failed"}, nowhere, own
        if way == "HIER_NONE/-" and self.judge.is_named(sent, verdict, fate):
            return code, {"502"}, {"lookup_failed", "name_not_found"}, nowhere, own
        record = self.judge.at_origin.get(sent.number)
        addresses = {record["at"]} if record else self.judge.addresses(target.host, sent, verdict)
        ways = {f"HIER_DIRECT/{address}" for address in addresses}
        if target.port == self.judge.world.nobody:
            return code, {"502"}, {"refused"}, ways, own
        if sent.method == "CONNECT":
            return code, {"200"}, {""}, ways, by_status
        if not sent.whole:
            return code, set(), {"client_gone", "other"}, ways, by_status
        plan = plan_of(target.path, sent.data())
        word = target.path.split("/")[1] if target.path.startswith("/") else ""
        is_head = sent.method == "HEAD" and (plan.works or plan.of_head is not None)
        if plan.is_loose or sent.number in self.judge.left:
            return code, {plan.status[:3], "502"}, {"", "cut_off"}, ways, by_status
        causes = {""} if is_head else CAUSES.get(word, {""})
        return code, {plan.status[:3] if plan.works or is_head else "502"}, causes, ways, by_status

    def bytes_(self, line: Line, sent: Sent, verdict: Verdict, fate: Fate) -> str:
        """What of its counts contradicts. What a client did not wait for is counted nowhere else."""
        sent_bytes = line.number("bytes")
        if sent_bytes < sent.got + sent.tunnelled:
            return f"the client got {sent.got + sent.tunnelled} bytes"
        if sent.end != "whole" or not sent.is_alone or not sent.whole:
            return ""
        head = len(sent.head())
        if sent.method == "CONNECT" and verdict.outcome.startswith("allowed"):
            counts = [line.number(name) for name in ("bytes", "in", "up", "down")]
            sums = [sent.got + sent.tunnelled, head + sent.tunnelled, sent.tunnelled, sent.tunnelled]
            return "" if counts == sums or not sent.is_even else f"its counts are {sums}"
        self.counts["lines whose bytes were compared"] += 1
        if sent_bytes != sent.got:
            return f"the client got {sent.got} bytes"
        body = len(sent.bytes_of_body())
        if not head <= line.number("in") <= head + body:
            return f"the client sent {head} bytes and {body} of a body"
        record = self.judge.at_origin.get(sent.number)
        if record is None or not record["whole"]:
            return ""
        up = len(record["head"]) + record["size"]
        if line.number("in") != head + body or line.number("up") < up or line.number("up") > up and not sent.chunked:
            return f"the client sent {head + body} bytes, and the origin got {up}"
        plan = plan_of(read_target(sent.method, fate.target).path, sent.data())
        down = sum(map(len, plan.written(sent.method)))
        if plan.works and not plan.is_loose and not down - len(plan.tail) <= line.number("down") <= down:
            return f"the origin wrote {down} bytes"
        return ""


def why_not(host: str) -> str:
    """The cause of a host that is not found."""
    return "lookup_failed" if host.split("-")[0] in ("broken", "dead") else "name_not_found"


def sent_is_wrong(sent: Sent) -> bool:
    """Whether its reply is reported as a contradiction already."""
    return sent.end == "slow"


def status_of(sent: Sent) -> str:
    """The status of what came, behind heads that come before it."""
    found = [one for one in re.findall(r"(?:^|\r\n\r\n)HTTP/1\.1 (\d\d\d) ", sent.front) if one[0] != "1"]
    return found[0] if found else ""
