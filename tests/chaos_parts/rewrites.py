"""What the program that rewrites says for a word of a target, and what becomes of the request then: docs/CONFIGURATION.md, by hand."""

import json
import re
from bisect import bisect_left
from collections import Counter
from dataclasses import dataclass, field

MARK = re.compile(r"/rw-([a-z]+)\.([a-z]+)/i([0-9]+\.[0-9]+)(?![0-9])")
UNINVITED = 'OK url="http://uninvited.example/"'


@dataclass(frozen=True)
class Fate:
    """What becomes of a request that is allowed: its client is sent elsewhere, or it goes on with a target."""

    target: str
    status: str = ""
    location: str = ""


@dataclass(frozen=True)
class Says:
    """What the program writes. `target` is the one that the request goes on with, where it does not stay; {http} and {nobody} are ports."""

    text: str
    status: str = ""
    location: str = ""
    target: str = ""


JUST = 0.5  # seconds before the end of a process in which what it writes may stay unread

ELSEWHERE = "http://c.example/?a=b"

SAYS: dict[str, Says] = {
    "same": Says("OK"),
    "err": Says('ERR rewrite-url="http://127.0.0.1:{http}/fault"'),
    "bh": Says('BH url="http://c.example/"'),
    "found": Says(f'OK url="{ELSEWHERE}"', "302 Found", ELSEWHERE),
    "moved": Says('OK status=301 url="http://c.example/"', "301 Moved Permanently", "http://c.example/"),
    "named": Says('OK url="http://c.example/" status=302 bare', "302 Found", "http://c.example/"),
    "see": Says("OK status=303 url=/d", "303 See Other", "/d"),
    "temporary": Says('OK status=307 url="https://c.example:8443/#d"', "307 Temporary Redirect", "https://c.example:8443/#d"),
    "permanent": Says("OK status=308 url=~", "308 Permanent Redirect", "~"),
    "decoded": Says("OK url=http://c.example/%7Ea%2g", "302 Found", "http://c.example/~a%2g"),
    "quoted": Says('OK url="http://c.example/\\"\\\\%41"', "302 Found", 'http://c.example/"\\%41'),
    "first": Says('OK url=/first url=/second status=301 status=308', "301 Moved Permanently", "/first"),
    "both": Says('OK rewrite-url="http://127.0.0.1:{http}/fault" url="/elsewhere"', "302 Found", "/elsewhere"),
    # An `OK` that names no status of these, no URL of visible ASCII or no target of http changes nothing.
    "status": Says('OK status=200 url="http://c.example/"'),
    "empty": Says('OK url=""'),
    "blank": Says("OK url=http://c.example/a%20b"),
    "ftp": Says('OK rewrite-url="ftp://127.0.0.1:{http}/fault"'),
    "path": Says("OK rewrite-url=/fault"),
    "fragment": Says('OK rewrite-url="http://127.0.0.1:{http}/fault#c"'),
    "user": Says('OK rewrite-url="http://a@127.0.0.1:{http}/fault"'),
    "other": Says('OK rewrite-url="http://127.0.0.1:{http}/fault/new"', target="http://127.0.0.1:{http}/fault/new"),
    "spelt": Says('OK rewrite-url="HTTP://LocalHost:{http}?q"', target="HTTP://LocalHost:{http}?q"),
    "cut": Says("OK rewrite-url=http://127.0.0.1:{http}/cut/x%41", target="http://127.0.0.1:{http}/cut/xA"),
    "chunked": Says('OK rewrite-url="http://localhost:{http}/chunked"', target="http://localhost:{http}/chunked"),
    "down": Says('OK rewrite-url="http://127.0.0.1:{nobody}/x"', target="http://127.0.0.1:{nobody}/x"),
}
# What else the program does. Of the second row no answer comes, so that the request goes on as it came.
ANSWERS = ("now", "late", "turn", "trickle", "cr", "after", "twice", "stall")
LOSSES = ("dies", "half", "bad", "stray", "long", "flood", "mute")


def fate_of(target: str, http: int, nobody: int) -> Fate:
    """What becomes of a request about which the program was heard."""
    found = MARK.search(target)
    says = SAYS[found[2]] if found else SAYS["err"]
    if says.location:
        return Fate(target, says.status, says.location)
    return Fate(says.target.format(http=http, nobody=nobody) or target)


def line_of(word: str, http: int, nobody: int) -> str:
    """The line that the program writes for a word."""
    return SAYS[word].text.format(http=http, nobody=nobody)


@dataclass
class Asked:
    """A question as a process of the program had it."""

    target: str
    address: str
    method: str
    at: float
    pid: int
    channel: str
    is_heard: bool = False
    is_sure: bool = True  # whether it is known if it was heard


@dataclass
class Life:
    """A process of the program: the questions that it has, by their channels, and those that it answered, with the moments."""

    began: float
    last: float = 0.0  # when it told something last
    open_: dict[str, Asked] = field(default_factory=dict)
    answered: list[tuple[float, Asked]] = field(default_factory=list)
    is_over: bool = False


@dataclass
class Program:
    """What the processes of the program told of themselves: a line when one has a question, and one before it writes."""

    concurrency: int
    asked: list[Asked] = field(default_factory=list)
    ends: list[float] = field(default_factory=list)  # when processes ended, or had to be ended
    wrong: list[str] = field(default_factory=list)
    counts: Counter[str] = field(default_factory=Counter)

    def read(self, log: str, killed: dict[int, list[float]]) -> None:
        """Plays each process's lines: which questions its replies answer, by docs/FORMATS.md."""
        lives: dict[int, Life] = {}
        with open(log) as file:
            for line in file:
                told = json.loads(line)
                pid, at = told["pid"], told["at"]
                if told.get("begins"):
                    # The system gives a number again once its process has ended.
                    self.doubt(lives.get(pid), killed.get(pid, []))
                    lives[pid] = Life(at)
                life = lives[pid]
                life.last = at
                if "asked" in told:
                    self.ask(told, life.open_)
                for text in told.get("wrote", []):
                    if not life.is_over and not self.hear(text, at, life):
                        life.is_over = True
                        self.ends.append(at)
                if told.get("ends"):
                    self.ends.append(at)
                    if self.concurrency:
                        self.forget(life, at)
        for pid, life in lives.items():
            self.doubt(life, killed.get(pid, []))
        self.ends = sorted([*self.ends, *(at for all_ in killed.values() for at in all_)])

    def doubt(self, life: Life | None, killed: list[float]) -> None:
        """A process may have been killed between its last line in the file and what it then wrote."""
        if life and any(at >= life.began for at in killed):
            self.forget(life, life.last)

    def forget(self, life: Life, moment: float) -> None:
        """What a process wrote right before this moment may not be heard: with channels another question to it may fail first."""
        for at, one in life.answered:
            if at >= moment - (JUST if self.concurrency else 0.0):
                one.is_sure = False

    def ask(self, told: dict[str, object], open_: dict[str, Asked]) -> None:
        words = str(told["asked"]).split(" ")
        channel = words.pop(0) if self.concurrency else "-"
        if len(words) != 4 or not words[1].endswith("/-") or words[2] != "-":
            self.wrong.append(f"the program that rewrites was asked {told['asked']!r}")
            return
        if channel in open_ or self.concurrency and int(channel) >= self.concurrency:
            self.wrong.append(f"the program that rewrites was asked {told['asked']!r} on a channel that is not free")
        at, pid = told["at"], told["pid"]
        assert isinstance(at, float) and isinstance(pid, int)
        open_[channel] = Asked(words[0], words[1][:-2], words[3], at, pid, channel)
        self.asked.append(open_[channel])
        found = MARK.search(words[0])
        self.counts["rewriter: " + (found[1] if found else "plain")] += 1

    def hear(self, text: str, at: float, life: Life) -> bool:
        """Takes a line that a process wrote. Whether the process goes on behind it."""
        channel, _, rest = text.partition(" ") if self.concurrency else ("-", "", text)
        one = life.open_.pop(channel, None) if rest.startswith(("OK", "ERR", "BH")) and len(text) <= 65_536 else None
        self.counts["rewriter: lines"] += 1
        if one is None:
            return False
        one.is_heard = True
        life.answered.append((at, one))
        return True

    def ended_between(self, first: float, last: float) -> bool:
        at = bisect_left(self.ends, first)
        return at < len(self.ends) and self.ends[at] <= last
