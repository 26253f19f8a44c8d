"""How a run stands: what its journal comes to, entry by entry, and that in numbers."""

from dataclasses import dataclass, field
from typing import Iterator, Optional

from aclproxyctl.errors import VERSION, UserError
from aclproxyctl.journal import Reader, shown


@dataclass
class Tally:
    """What a run counts. Moments are in milliseconds."""

    entries: int = 0
    begun: int = 0
    last: int = 0
    epoch: int = 1
    since: int = 0
    requests: int = 0
    allowed: int = 0
    denied: int = 0
    faults: int = 0
    ended: int = 0


@dataclass
class Standing(Tally):
    """A run in numbers; helpers are those that live, by class."""

    connections: int = 0
    checks: int = 0
    waiting: int = 0
    helpers: dict[str, int] = field(default_factory=dict)


@dataclass
class State(Tally):
    """What a journal comes to: counts, and what is open. All words stay bytes, since a run has millions of lines."""

    clients: dict[bytes, Optional[bytes]] = field(default_factory=dict)
    waiting: dict[bytes, bool] = field(default_factory=dict)
    helpers: dict[bytes, bytes] = field(default_factory=dict)

    def line(self, line: bytes, before: int) -> None:
        """An entry's line, with so many words before its moment."""
        self.words(line.split(b" ", before + 3), line, before)

    def words(self, words: list[bytes], line: bytes, before: int) -> None:
        """The same of a line whose first words are told apart."""
        kind, first = words[before + 1], words[before + 2]
        self.entries += 1
        self.last = int(words[before])
        if kind == b"step":
            self.waiting[first] = b" => waits " in line
        elif kind == b"ask":
            self.requests += 1
            check = line[line.rindex(b" => check ") + 10 :]
            self.clients[first] = check
            self.waiting[check] = False
        elif kind == b"take":
            self.waiting.pop(first, None)
            outcome = words[before + 3].split(b" ")
            self.allowed += outcome[3] == b"allowed"
            self.denied += outcome[3] == b"denied"
            self.faults += outcome[4] == b"fault"
        elif kind == b"open":
            self.clients[first] = None
        elif kind == b"close":
            self.waiting.pop(self.clients.pop(first, None) or b"", None)
        elif kind == b"started":
            helper, _, process = words[before + 3].partition(b" => proc ")
            if not process:
                raise ValueError
            self.helpers[process] = helper
        elif kind == b"died" or (kind == b"line" and line.endswith((b" => bad", b" => stray"))):
            self.end(first)
        elif kind == b"act":
            if b" => stop " in line:
                self.end(line[line.index(b" => stop ") + 9 :])
        elif kind == b"begin":
            self.begun = self.since = self.last
        elif kind == b"reconfigure":
            self.epoch = int(line[line.rindex(b" => epoch ") + 10 :])
            self.since = self.last

    def end(self, process: bytes) -> None:
        if self.helpers.pop(process, None) is not None:
            self.ended += 1

    def standing(self) -> Standing:
        helpers: dict[str, int] = {}
        for word in self.helpers.values():
            name = shown(word.decode("latin-1"))
            helpers[name] = helpers.get(name, 0) + 1
        return Standing(
            self.entries, self.begun, self.last, self.epoch, self.since, self.requests, self.allowed, self.denied, self.faults, self.ended,
            len(self.clients), len(self.waiting), sum(self.waiting.values()), helpers,
        )


def state_of(name: str, lines: Iterator[bytes]) -> State:
    """What the lines of a journal come to."""
    reader, state = Reader(name), State()
    for line in lines:
        if reader.line == 0:
            # The first line says which version it is, or is the first entry of version 1.
            if reader.entry(line) is None:
                continue
        else:
            reader.line += 1
        try:
            state.line(line, reader.before)
        except (IndexError, ValueError):
            raise UserError(VERSION, f"{name}: line {reader.line} is no entry") from None
    return state
