"""Compares what clients and origins got with what the journal says of each request, and the bytes of pools with their buckets."""

import hashlib
import json
from collections import Counter, defaultdict
from dataclasses import dataclass
from functools import lru_cache
from typing import Any

from .configs import ABSENT
from .model import LOOKUP, MISS, Bucket, Configuration, in_range, is_literal, read_target
from .oracle import Oracle, Verdict, lookup_of
from .replies import CONTINUE, Passes, Sent, denial, elsewhere, head_at_origin, own, plan_of, reply
from .resolver import HAS, STATIC
from .rewrites import MARK, Asked, Fate, Program, fate_of


STILL = 5.0  # seconds for which a client saw nothing on a link that may have given way: ten, but a busy client looks late


@lru_cache(maxsize=64)
def digest_of(bytes_: bytes) -> str:
    return hashlib.blake2b(bytes_, digest_size=16).hexdigest()


@dataclass
class Wanted:
    """What a client has to get: these bytes, then the end of the connection or not; and whether they are an origin's reply."""

    bytes_: bytes
    closes: bool
    from_origin: bool
    is_loose: bool = False
    is_given_up: bool = False  # its name is there, and its look-up failed


@dataclass
class World:
    """The ports of the origin and of nobody, and how many clients there are."""

    http: int
    nobody: int
    clients: int


class Judge:
    def __init__(self, oracle: Oracle, world: World, started: float) -> None:
        self.oracle = oracle
        self.world = world
        self.started = started  # by the clock, before the server was
        self.wrong: list[tuple[str, str]] = []  # what is wrong, and the request's identity
        self.counts: Counter[str] = Counter()
        self.sent: dict[str, tuple[Sent, str]] = {}
        self.left: set[str] = set()  # requests that an origin left before it had written its reply, since that took too long
        self.gave_way: set[str] = set()  # requests of connections that may have been closed for other clients
        self.named = 0  # requests whose host is a name that is there, and those of them whose look-up failed
        self.given_up = 0
        self.from_origin: set[str] = set()
        self.at_origin: dict[str, dict[str, Any]] = {}  # of a request what an origin told
        self.program: Program | None = None
        self.asked: dict[str, Asked] = {}  # of a request the question to the program that rewrites
        self.fates: dict[str, list[Fate]] = {}  # what may have become of a request, by what its client got
        self.of_bucket: defaultdict[tuple[int, Bucket], list[Sent]] = defaultdict(list)
        self.limits: dict[tuple[int, Bucket], tuple[int, int]] = {}
        self.fullest = 0.0

    def odd(self, what: str, identity: str) -> None:
        self.wrong.append((what, identity))

    def hear_program(self, log: str, killed: dict[int, list[float]]) -> None:
        """Reads what the processes of the program that rewrites told. To be called before the replies are looked at."""
        rewriter = self.oracle.configs[1].rewriter
        if rewriter is None:
            return
        self.program = Program(rewriter.concurrency)
        self.program.read(log, killed)
        for one in self.program.asked:
            found = MARK.search(one.target)
            if found and found[3] in self.asked:
                self.odd("the program that rewrites was asked twice about it", found[3])
            elif found:
                self.asked[found[3]] = one

    def possible(self, name: str, sent: Sent, verdict: Verdict) -> list[Fate]:
        """What may become of a request that the rules allow: in most cases it is one thing."""
        stays = Fate(sent.target)
        asked = self.asked.get(sent.number)
        if self.program is None or sent.method == "CONNECT" or not MARK.search(sent.target):
            return [stays]
        if asked is None:
            rewriter = self.oracle.configs[1].rewriter
            assert rewriter
            is_excused = rewriter.program == ABSENT or rewriter.queue < self.world.clients
            if not is_excused and sent.end and not self.program.ended_between(verdict.taken / 1000 - 1, sent.ended):
                self.odd(f"{name}: the rewriter was not asked, though no process of it ended and its queue had room", sent.number)
            self.counts["rewriter: not asked"] += 1
            return [stays]
        self.counts[f"rewriter: {'heard' if asked.is_heard else 'not heard'}"] += 1
        if not asked.is_heard:
            return [stays]
        told = fate_of(sent.target, self.world.http, self.world.nobody)
        return [told] if asked.is_sure else [told, stays]

    def questions(self) -> None:
        """Each question to the program that rewrites is about a request that was allowed, as its client sent it, and once at most."""
        if self.program is None:
            return
        may: Counter[tuple[str, str, str]] = Counter()
        for identity, (sent, address) in self.sent.items():
            verdict = self.oracle.verdicts.get(identity)
            if verdict is not None and verdict.outcome.startswith("allowed") and sent.method != "CONNECT":
                may[sent.target, address, sent.method] += 1
        for one in self.program.asked:
            about = one.target, one.address, one.method
            found = MARK.search(one.target)
            identity = found[3] if found else ""
            may[about] -= 1
            if may[about] < 0:
                self.odd(f"the program that rewrites was asked about {about}, and no such request was allowed or left", identity)
            elif identity and one.at * 1000 < self.oracle.verdicts[identity].taken - 2:
                self.odd(f"the program that rewrites was asked at {one.at}, before it was allowed", identity)
        self.counts.update(self.program.counts)
        for what in self.program.wrong:
            self.odd(what, "")

    def wanted(self, sent: Sent, verdict: Verdict, fate: Fate) -> Wanted:
        if not verdict.outcome.startswith("allowed"):
            bytes_, closes = denial(sent, verdict.outcome)
            return Wanted(bytes_, closes, False)
        if fate.location:
            return Wanted(elsewhere(fate.status, fate.location), True, False)
        target = read_target(sent.method, fate.target)
        if sent.method != "CONNECT" and target.scheme != "http":
            return Wanted(own("501 Not Implemented", "not implemented", False, sent.method), True, False)
        if target.port == self.world.nobody or not is_found(target.host):
            return Wanted(own("502 Bad Gateway", "bad gateway", False, sent.method), True, False)
        if sent.method == "CONNECT":
            return Wanted(b"HTTP/1.1 200 Connection established\r\n\r\n", True, False)
        if not sent.whole:
            return Wanted(b"", True, False)
        plan = plan_of(target.path, sent.data())
        bytes_, closes = reply(sent, plan, self.passes("reply", verdict))
        is_loose = plan.is_loose or sent.number in self.left
        return Wanted(bytes_, closes, plan.works or sent.method == "HEAD" and plan.of_head is not None, is_loose)

    def passes(self, side: str, verdict: Verdict) -> Passes:
        """Which fields go on, by the configuration that judged the request, and what it saw of it."""
        config = self.oracle.configs[verdict.epoch]

        def passes(name: str) -> bool:
            goes = config.passes(side, name, verdict.sight)
            self.counts[f"fields of a {side} that did not go on"] += not goes
            return goes

        return passes

    def connection(self, record: dict[str, Any]) -> None:
        address, port = record["address"], record["port"]
        requests = [Sent(**one) for one in record["requests"]]
        last = requests[-1].number if requests else ""
        if self.may_give_way(record, requests):
            self.gave_way |= {sent.number for sent in requests}
            self.counts["links that may have given way"] += 1
        for what in [] if last in self.gave_way else record["wrong"]:
            self.odd(f"{record['what']}: {what}", last)
        if record["rest"]:
            self.odd(f"{record['what']}: behind the last reply came {record['rest']!r}", last)
        missed = ""
        place = 0
        for sent in requests:
            if sent.body is not None:
                sent.body = (sent.body[0], sent.body[1])
            self.sent[sent.number] = (sent, address)
            verdict = self.oracle.verdicts.get(sent.number)
            is_asked = verdict is not None or sent.number in self.oracle.unfinished
            if is_asked and missed:
                self.odd(f"it was asked, and {missed} before it on its connection was not", sent.number)
            if not is_asked:
                missed = sent.number
            if verdict is not None:
                if (verdict.address, verdict.port) != (address, port):
                    self.odd(f"it was sent from {address} {port}", sent.number)
                if verdict.check < place:
                    self.odd("it was asked before a request that was sent earlier", sent.number)
                place = verdict.check
            self.request(record["what"], sent, verdict, address)

    def may_give_way(self, record: dict[str, Any], requests: list[Sent]) -> bool:
        """Whether a connection stood still while all workers were in use, so that it may have been closed for another client."""
        moments = [record["began"], record["ended"]]
        for sent in requests:
            moments += [sent.began, sent.ended or sent.began, *(at for at, _ in sent.events)]
        moments.sort()
        is_still = any(after - before >= STILL for before, after in zip(moments, moments[1:]))
        # What a client reads late was written long before.
        is_still |= record["what"] == "stalled_reader" and moments[-1] - moments[0] >= 2 * STILL
        return is_still and self.oracle.was_full(record["began"], record["ended"])

    def request(self, what: str, sent: Sent, verdict: Verdict | None, address: str) -> None:
        name = f"{what}, {sent.method} {sent.target}"
        if sent.end == "slow":
            self.odd(f"{name}: it took too long; what came is {sent.front!r}", sent.number)
            return
        if verdict is None:
            if sent.got or sent.end == "whole":
                self.odd(f"{name}: no verdict is noted, and the client got {sent.front!r}", sent.number)
            elif sent.end == "cut" and not (sent.followed or what in ("at_once", "and_away") or sent.number in self.gave_way):
                self.odd(f"{name}: no verdict is noted, and the connection was closed", sent.number)
            return
        self.times(name, sent, verdict)
        if not sent.end:
            return
        fates = self.possible(name, sent, verdict) if verdict.outcome.startswith("allowed") else [Fate(sent.target)]
        found = [(fate, wanted, self.misfit(sent, wanted)) for fate in fates for wanted in self.all_wanted(sent, verdict, fate)]
        fits = [(fate, wanted) for fate, wanted, what in found if not what]
        if not fits:
            self.odd(f"{name}: the journal says {verdict.outcome}; {found[0][2]}", sent.number)
            return
        self.fates[sent.number] = [fate for fate, _ in fits]
        fate, wanted = fits[0]
        host = read_target(sent.method, fate.target).host
        self.named += self.is_named(sent, verdict, fate)
        if wanted.is_given_up and not self.oracle.said.may_fail(host, moment_of(sent, verdict)):
            self.given_up += 1
        if fate.location:
            self.counts["rewriter: clients sent elsewhere"] += 1
        elif fate.target != sent.target:
            self.counts["rewriter: other targets"] += 1
        self.counts[f"compared {sent.front[9:12] or 'no reply'}"] += 1
        if all(one.from_origin for _, one in fits):
            self.from_origin.add(sent.number)
            if verdict.pool is not None and not sent.expects:
                config = self.oracle.configs[verdict.epoch]
                for bucket, restore, most in config.buckets(verdict.pool, address, verdict.tag):
                    self.of_bucket[verdict.epoch, bucket].append(sent)
                    self.limits[verdict.epoch, bucket] = (restore, most)

    def all_wanted(self, sent: Sent, verdict: Verdict, fate: Fate) -> list[Wanted]:
        """What may come for a fate: where an origin's end may overtake its reply, a 502 too."""
        wanted = self.wanted(sent, verdict, fate)
        unreached = own("502 Bad Gateway", "bad gateway", False, sent.method)
        out = [wanted]
        if wanted.is_loose:
            front = CONTINUE if wanted.bytes_.startswith(CONTINUE) else b""
            out.append(Wanted(front + unreached, True, False))
        if self.is_named(sent, verdict, fate) and wanted.bytes_ != unreached:
            out.append(Wanted(unreached, True, False, is_given_up=True))
        return out

    def is_named(self, sent: Sent, verdict: Verdict, fate: Fate) -> bool:
        """Whether the name of a host that is there is looked up for a dial."""
        target = read_target(sent.method, fate.target)
        is_dialled = verdict.outcome.startswith("allowed") and not fate.location and (sent.method == "CONNECT" or target.scheme == "http")
        return is_dialled and not is_literal(target.host) and is_found(target.host)

    def misfit(self, sent: Sent, wanted: Wanted) -> str:
        """What of a reply is not as it has to be."""
        whole = len(wanted.bytes_)
        if sent.got > whole or sent.digest != digest_of(wanted.bytes_[: sent.got]):
            return f"the client got {sent.got} bytes, {sent.front!r}, and not {whole}, {wanted.bytes_[:600]!r}"
        # A server that closes with bytes of the client's unread resets the connection, and what it wrote may be lost on the way.
        is_unread = wanted.closes and (sent.body is not None or sent.followed)
        has_no_end = wanted.is_loose or sent.number in self.gave_way
        if sent.got < whole and not (is_unread or has_no_end or sent.end == "left"):
            return f"of {whole} bytes came {sent.got}, {sent.front!r} ({sent.end})"
        if sent.end == "cut" and not wanted.closes and not has_no_end:
            return f"the connection was closed behind {sent.front!r}"
        return ""

    def times(self, name: str, sent: Sent, verdict: Verdict) -> None:
        if verdict.asked < sent.began * 1000 - 2 or sent.ended and verdict.taken > sent.ended * 1000 + 2:
            self.odd(f"{name}: its moments are not those of the client, {sent.began} to {sent.ended}", sent.number)
        first, last = self.oracle.epochs_between(sent.began, sent.ended or verdict.asked / 1000 + 0.002)
        if not first <= verdict.epoch <= last:
            self.odd(f"{name}: it was judged by epoch {verdict.epoch}, and the current ones were {first} to {last}", sent.number)

    def look_who_left(self, log: str) -> None:
        """To be called before the replies are looked at."""
        with open(log) as file:
            self.left = {identity_of(head) for line in file if (head := json.loads(line).get("left"))}
        self.counts["left by an origin that took too long"] += len(self.left)

    def origins(self, log: str) -> None:
        seen: set[str] = set()
        with open(log) as file:
            for line in file:
                record = json.loads(line)
                if "left" in record:
                    continue
                head = record["head"]
                identity = identity_of(head)
                known = self.sent.get(identity)
                verdict = self.oracle.verdicts.get(identity)
                self.counts["requests at origins"] += 1
                if not head.endswith("\r\n\r\n"):
                    self.odd(f"a part of a head reached an origin: {head!r}", identity)
                elif known is None or verdict is None or not verdict.outcome.startswith("allowed"):
                    self.odd(f"a request reached an origin, and nothing allowed it: {head!r}", identity)
                elif identity in seen:
                    self.odd(f"a request reached origins twice: {head!r}", identity)
                else:
                    sent, address = known
                    self.at_origin[identity] = record
                    self.reached(record["at"], sent, verdict)
                    passes = self.passes("request", verdict)
                    fates = self.fates.get(identity) or self.possible(f"{sent.method} {sent.target}", sent, verdict)
                    heads = [head_at_origin(sent, fate.target, address, passes).decode("latin-1") for fate in fates if not fate.location]
                    if head not in heads:
                        self.odd(f"an origin got the head {head!r}, and not {heads!r}", identity)
                    if record["whole"] and sent.body is not None and sent.whole:
                        if record["size"] != sent.body[1] or record["digest"] != digest_of(sent.data()):
                            self.odd(f"an origin got another body, of {record['size']} bytes", identity)
                    elif record["whole"] and record["size"]:
                        self.odd(f"an origin got a body of {record['size']} bytes", identity)
                seen.add(identity)
        for identity in self.from_origin - seen:
            self.odd("a reply of an origin's came, and no origin had the request", identity)

    def addresses(self, host: str, sent: Sent, verdict: Verdict) -> set[str]:
        """Where an origin of this host may be dialled."""
        return {host} if is_literal(host) else self.oracle.said.addresses(host, moment_of(sent, verdict))

    def reached(self, at: str, sent: Sent, verdict: Verdict) -> None:
        """An origin was reached where its host is, and at no address that a list had to see and did not."""
        fates = self.fates.get(sent.number) or self.possible("", sent, verdict)
        hosts = {read_target(sent.method, fate.target).host for fate in fates}
        may = {address for host in hosts for address in self.addresses(host, sent, verdict)}
        if at not in may:
            self.odd(f"an origin was reached at {at}, and not at one of {sorted(may)}", sent.number)
        for (cls, key), answer in verdict.answers.items():
            if cls == LOOKUP and answer == MISS:
                name, acl, _ = key.split(" ")
                self.counts["names that were dialled where a rule had looked"] += 1
                values = self.oracle.configs[verdict.epoch].acls[lookup_of(acl)].values
                if hosts == {name} and any(in_range(value, at) for value in values):
                    self.odd(f"{name} was reached at {at}, and the rules had it that it is not in {lookup_of(acl)}", sent.number)

    def pools(self) -> None:
        """What came of a bucket up to a moment is no more than it held at first, and what was restored since.

        What came had been granted before. A second is counted where it may have been.
        """
        for (epoch, name), all_ in self.of_bucket.items():
            restore, most = self.limits[epoch, name]
            config: Configuration = self.oracle.configs[epoch]
            opening = most * config.initial // 100
            # The clock is read before the file is, and the entry may have a later moment, that of another thread's entry.
            began = 1000 * (self.oracle.orders[epoch - 2].ordered if epoch > 1 else self.started)
            replaced = self.oracle.changed.get(epoch + 1)
            # Behind a reconfiguration a bucket whose last seat was left is made anew. Its first byte shows when a seat was there.
            late = sum(replaced is not None and bool(one.events) and one.events[0][0] * 1000 + 1 >= replaced for one in all_)
            steps: list[tuple[float, int, Sent]] = []
            for one in all_:
                before = 0
                for at, total in one.events:
                    steps.append((at * 1000, total - before, one))
                    before = total
            steps.sort(key=lambda step: step[0])
            self.counts["buckets of tags" if isinstance(name[2], str) else "buckets"] += 1
            total = 0
            for at, count, one in steps:
                total += count
                marks = max(0, int(at + 1 - began) // 1000)
                bound = opening * (1 + late) + restore * (marks + late)
                self.fullest = max(self.fullest, total / bound if bound else float(total > 0))
                if total > bound:
                    self.odd(f"bucket {name} of epoch {epoch} gave {total} bytes by {at:.0f}: at most {opening} and {marks} times {restore}", one.number)
                    break
            if not late:
                self.quiet(epoch, name, all_, steps, restore, most)

    def quiet(self, epoch: int, name: Bucket, all_: list[Sent], steps: list[tuple[float, int, Sent]], restore: int, most: int) -> None:
        """From a moment on at which nothing was on its way, no more comes than a full bucket and what was restored since."""
        for first in all_:
            start = first.began * 1000
            if any(one is not first and one.began * 1000 <= start <= one.ended * 1000 for one in all_):
                continue
            total = 0
            for at, count, one in steps:
                if at < start:
                    continue
                total += count
                seconds = int(at + 1 - start) // 1000 + 1
                self.fullest = max(self.fullest, total / (most + restore * seconds) if most else 0.0)
                if total > most + restore * seconds:
                    self.odd(f"bucket {name} of epoch {epoch} gave {total} bytes from {start:.0f} to {at:.0f}: at most {most} and {seconds} times {restore}", one.number)
                    return
            self.counts["quiet moments"] += 1

    def names(self) -> None:
        """Of names that are there few look-ups fail: as many as a machine that is too busy for a moment makes."""
        failed, all_ = self.given_up + self.oracle.given_up, self.named + self.oracle.counts["look-ups that say OK"]
        self.counts["look-ups that failed of names that are there"] += failed
        self.counts["names that had another answer the second time"] += self.oracle.said.changed()
        if failed > 2 + all_ // 100:
            self.odd(f"of {all_} look-ups of names that are there {failed} failed", "")

    def connections(self, opened: Counter[tuple[str, int]], began: Counter[tuple[str, int]]) -> None:
        for (address, port), count in opened.items():
            if count > began[address, port]:
                self.odd(f"a connection from {address} {port} was opened {count} times, and there were {began[address, port]}", "")


def moment_of(sent: Sent, verdict: Verdict) -> float:
    """A moment by which a request's origin was dialled."""
    return sent.ended or verdict.taken / 1000 + 60


def is_found(host: str) -> bool:
    """Whether there is such a host."""
    return is_literal(host) or host in STATIC or host.endswith(".test") and host.split("-")[0] in HAS


def identity_of(head: str) -> str:
    at = head.find("\r\nX-Id: ")
    return head[at + 8 :].split("\r\n")[0] if at >= 0 else ""


def lines_of(journal: str, identity: str) -> list[str]:
    """What a journal has of a request."""
    out: list[str] = []
    check = ""
    questions: set[str] = set()
    with open(journal) as file:
        for line in file:
            words = line.rstrip("\n").split(" ")
            if len(words) < 6:
                continue
            kind = words[3]
            if kind == "ask" and f"X-Id:{identity}" in words:
                check = words[-1]
            elif kind in ("step", "take") and words[4] == check:
                if words[-2] == "waits":
                    questions.add(words[-1])
            elif not (kind == "act" and words[5] == "send" and words[7] in questions or kind == "line" and words[-3] == "reply" and words[-2] in questions):
                continue
            if check:
                out.append(line.rstrip("\n")[:1000])
                if kind == "take" and words[4] == check:
                    break
    return out[:60]
