"""log: one line a request, in the native format of Squid's access.log."""

import functools
import heapq
import ipaddress
import re
import sys
import time
from dataclasses import dataclass, field
from datetime import datetime, timedelta
from pathlib import Path
from typing import Callable, Iterator, Optional, TextIO, Union

from aclproxyctl.access import TUNNEL, Access, Odd, access_files, accesses, host_of, is_access_log, is_host, parse
from aclproxyctl.confs import Conf, read
from aclproxyctl.errors import DONE, MISSING, USAGE, UserError
from aclproxyctl.journal import (
    KEPT_CONF,
    OF_REQUESTS,
    Reader,
    Request,
    Requests,
    Tail,
    cut_error,
    lines_following,
    lines_of_files,
    lines_of_run,
    outcome_of,
    pieces_of,
    runs_at,
    runs_of,
    shown,
    started,
    unescape,
    whole_pieces,
    wordless,
)

# An access log that is followed may be ahead of its journal by so many of these pauses, in seconds.
JOURNAL_PAUSE = 0.1
MOST_PAUSES = 10

Network = Union[ipaddress.IPv4Network, ipaddress.IPv6Network]


@dataclass(frozen=True)
class Choice:
    """Which requests are chosen."""

    denied: bool = False
    client: Optional[Network] = None
    since: Optional[int] = None
    failed: bool = False
    # In milliseconds.
    slow: Optional[int] = None
    host: Optional[str] = None

    @property
    def needs_access_log(self) -> bool:
        """Whether a journal, which has decisions alone, cannot answer it."""
        return self.failed or self.slow is not None

    def has_access(self, access: Access) -> bool:
        """The same of a line of an access log. How long a tunnel is open says nothing of how slow it is."""
        return not (
            (self.denied and not access.denied)
            or (self.failed and not access.failed)
            or (self.slow is not None and (access.elapsed < self.slow or access.code.startswith(TUNNEL)))
            or (self.since is not None and access.moment < self.since)
            or (self.host is not None and not is_host(access.host, self.host))
            or (self.client is not None and not is_in(access.client, self.client))
        )

    def has(self, request: Request) -> bool:
        if self.denied and not request.denied:
            return False
        if self.since is not None and request.taken < self.since:
            return False
        if self.host is not None and not is_host(host_of(shown(request.target)), self.host):
            return False
        if self.client is not None:
            return is_in(request.client, self.client)
        return True


@functools.lru_cache(maxsize=4096)
def is_in(client: str, network: Network) -> bool:
    try:
        return ipaddress.ip_address(client) in network
    except ValueError:
        return False


def client_of(text: str) -> Network:
    """An address or a block."""
    try:
        return ipaddress.ip_network(text, strict=False)
    except ValueError:
        raise UserError(USAGE, f"--client {text}: it is no address, as 10.1.2.3, and no block, as 10.0.0.0/8") from None


def moment_of(text: str, now: Optional[float] = None) -> int:
    """A moment in milliseconds: seconds since 1970, a date with or without a time, or as 30m, 12h or 7d before now."""
    ago = re.fullmatch(r"([0-9]{1,9})([smhd])", text)
    if ago:
        span = {"s": 1, "m": 60, "h": 3600, "d": 86400}[ago.group(2)] * int(ago.group(1))
        return int(((time.time() if now is None else now) - span) * 1000)
    if re.fullmatch(r"[0-9]{9,15}(\.[0-9]{1,9})?", text):
        return int(float(text) * 1000)
    try:
        at = datetime.fromisoformat(text.replace("Z", "+00:00"))
        # A date without a zone is one of the machine's.
        return (at.astimezone() - datetime.fromtimestamp(0).astimezone()) // timedelta(milliseconds=1)
    except (ValueError, OverflowError):
        raise UserError(USAGE, f"{text} is no time: write 2026-11-29, 2026-11-29T08:30, seconds since 1970, or 30m, 12h, 7d") from None


class Rules:
    """The texts of rules by epoch, as far as they are known."""

    def __init__(self, first: Optional[bytes]) -> None:
        self.texts: dict[int, list[str]] = {}
        if first is not None:
            self.add(1, first)

    def add(self, epoch: int, source: bytes) -> None:
        self.texts[epoch] = [line.shown(1000) for line in Conf(source).rules]

    def text(self, epoch: int, rule: int) -> str:
        known = self.texts.get(epoch, [])
        return known[rule - 1] if 1 <= rule <= len(known) else "-"


def line_of(request: Request) -> str:
    """A request in Squid's native format. What a journal has not is 000, 0 or `-`, as Squid writes it, so that tools read it."""
    target, method = shown(request.target), shown(request.method)
    if request.denied:
        result, way, kind = "TCP_DENIED/403", "HIER_NONE/-", "text/plain"
    elif request.dropped:
        result, way, kind = "NONE_ABORTED/000", "HIER_NONE/-", "-"
    else:
        result, way, kind = ("TCP_TUNNEL/000" if method == "CONNECT" else "TCP_MISS/000"), "HIER_DIRECT/-", "-"
    spent = request.taken - request.asked
    return (
        f"{request.taken // 1000}.{request.taken % 1000:03} {spent:6} {request.client} {result} 0 {method} {target} - {way} {kind}"
    )


def with_rule(request: Request, rules: Rules) -> str:
    """What decided: the rule's number and text, or what else did."""
    if request.dropped:
        return "undecided"
    if request.rule is None:
        return request.outcome[1]
    more = f" fault {request.outcome[3]} {request.outcome[4]}" if request.outcome[1] == "fault" else ""
    return f"rule {request.rule}{more}: {rules.text(request.epoch, request.rule)}"


def kept_conf(run: Path) -> Optional[bytes]:
    try:
        return (run / KEPT_CONF).read_bytes()
    except OSError:
        return None


def requests_of(name: str, lines: Iterator[bytes], rules: Optional[Rules]) -> Iterator[Request]:
    """The requests of a journal's lines, in the order of their ends."""
    reader, requests = Reader(name, OF_REQUESTS), Requests(name)
    for line in lines:
        entry = reader.entry(line)
        if entry is None:
            continue
        request = requests.entry(entry)
        if requests.configured is not None and rules is not None:
            rules.add(requests.epoch, unescape(requests.configured))
        if request is not None:
            yield request


def text_of(request: Request, rules: Optional[Rules]) -> str:
    """The line of a request."""
    return line_of(request) + (" " + with_rule(request, rules) if rules is not None else "") + "\n"


@dataclass
class Source:
    """A journal: what it is called, its pieces, the configuration of its start, where that is known, its access log, and when it began, by
    its name.
    """

    name: str
    pieces: list[Path]
    first: Optional[bytes]
    access: list[Path] = field(default_factory=list)
    begun: Optional[int] = None


class Decisions:
    """What decided each check of a journal, which is read as far as the checks that are asked for."""

    def __init__(self, name: str, lines: Iterator[bytes], first: Optional[bytes]) -> None:
        self.reader = Reader(name, frozenset(("take", "reconfigure")))
        self.lines = lines
        self.rules = Rules(first)
        # The epoch and the outcome of those that were taken, and whose requests have not ended.
        self.taken: dict[str, tuple[int, tuple[str, ...]]] = {}

    def take(self, check: str) -> Optional[tuple[int, tuple[str, ...]]]:
        """The epoch and the outcome of a check, which is asked for once. None where the journal does not have it."""
        pauses = 0
        while check not in self.taken:
            line = next(self.lines, None)
            if line == b"":
                pauses += 1
            if line is None or pauses > MOST_PAUSES:
                return None
            if line == b"":
                continue
            entry = self.reader.entry(line)
            if entry is None:
                continue
            try:
                if entry.event[0] == "reconfigure":
                    self.rules.add(int(entry.answer[1]), unescape(entry.event[1]))
                else:
                    epoch, outcome = outcome_of(entry)
                    self.taken[entry.event[1]] = (epoch, tuple(map(sys.intern, outcome)))
            except (IndexError, ValueError):
                raise wordless(self.reader.name, entry) from None
        return self.taken.pop(check)

    def text(self, check: str) -> str:
        """The rule that decided a check, or what else did; `-` where the journal does not have it."""
        found = self.take(check)
        return with_rule(Request(0, "", "", "", epoch=found[0], outcome=list(found[1])), self.rules) if found is not None else "-"


def text_of_access(access: Access, decisions: Optional[Decisions]) -> str:
    """A line of an access log, with what decided where that is asked for."""
    if decisions is None:
        return access.text + "\n"
    check = access.fields.get("check", "")
    return f"{access.text} {decisions.text(check) if check else 'unjudged'}\n"


def last_written(run: Path) -> float:
    """When something was written last to the journal or the access log of a run, in milliseconds."""
    found = 0.0
    for file in [*pieces_of(run), *access_files(run)]:
        try:
            found = max(found, file.stat().st_mtime * 1000)
        except OSError:
            continue
    return found


def since_then(runs: list[Path], since: Optional[int]) -> list[Path]:
    """The runs but those that had ended before a moment: the one behind them had begun, and nothing was written any more."""
    kept = []
    for place, run in enumerate(runs):
        follows = started(runs[place + 1]) if place + 1 < len(runs) else None
        if since is None or follows is None or follows > since or last_written(run) >= since:
            kept.append(run)
    return kept


def sources_of(named: str, conf: Optional[str], since: Optional[int]) -> list[Source]:
    """All runs of a folder that reach beyond a moment, or a journal's file."""
    given = read(conf) if conf is not None else None
    path = Path(named)
    if path.is_dir():
        runs = since_then(runs_at(named), since)
        return [Source(str(run), whole_pieces(run), given if given is not None else kept_conf(run), access_files(run), started(run)) for run in runs]
    if path.exists():
        if path.is_file() and is_access_log(path):
            # The journal beside it, if it stands where it was written.
            run = path.absolute().parent
            return [Source(named, whole_pieces(run), given if given is not None else kept_conf(run), [path])]
        return [Source(named, [path], given)]
    raise UserError(MISSING, f"{named}: there is no such file or folder")


def chosen(source: Source, choice: Choice, rules: Optional[Rules], tail: Tail) -> Iterator[Request]:
    """The requests of a journal that are chosen."""
    for request in requests_of(source.name, lines_of_files(source.pieces, tail), rules):
        if choice.has(request):
            yield request


def chosen_accesses(source: Source, choice: Choice, odd: Odd) -> Iterator[Access]:
    """The lines of an access log that are chosen."""
    for access in accesses(source.access, odd):
        if choice.has_access(access):
            yield access


def without_access_log(sources: list[Source], choice: Choice) -> None:
    """Says which journals cannot answer what is asked; an error where none can."""
    missing = [source for source in sources if not source.access]
    if choice.needs_access_log and missing:
        said = f"{missing[0].name}: it has no access log, and a journal does not have what came of a request"
        if len(missing) == len(sources):
            raise UserError(MISSING, said)
        tell(f"{said}; so for {len(missing)} of {len(sources)} runs")


def tell(text: str) -> None:
    print(f"aclproxyctl: {text}", file=sys.stderr)


def tell_odd(odd: Odd) -> None:
    if odd.count:
        tell(f"1 line is none of an access log: {odd.first}" if odd.count == 1 else f"{odd.count:,} lines are none of an access log, the first in {odd.first}")


def lines_of(sources: list[Source], choice: Choice, rule: bool, cuts: list[UserError]) -> Iterator[tuple[int, str]]:
    """The lines of journals that follow one another, each with its moment; where one is cut, its error is put to the others."""
    odd = Odd()
    yield from in_turn(sources, lambda source: lines_of_source(source, choice, rule, cuts, odd))
    tell_odd(odd)


def in_turn(sources: list[Source], lines: Callable[[Source], Iterator[tuple[int, str]]]) -> Iterator[tuple[int, str]]:
    """The lines of runs by their moments: a run may begin before the one before it has ended. One is opened once its beginning is reached."""
    waiting = sources[::-1]
    # The next line of each run that is open, with the run's place, so that lines are compared by no more than that.
    open_: list[tuple[int, int, str, Iterator[tuple[int, str]]]] = []
    while waiting or open_:
        if waiting and (not open_ or waiting[-1].begun is None or waiting[-1].begun <= open_[0][0]):
            place, found = len(sources) - len(waiting), lines(waiting.pop())
            line = next(found, None)
            if line is not None:
                heapq.heappush(open_, (line[0], place, line[1], found))
            continue
        moment, place, text, found = open_[0]
        yield moment, text
        line = next(found, None)
        if line is None:
            heapq.heappop(open_)
        else:
            heapq.heapreplace(open_, (line[0], place, line[1], found))


def lines_of_source(source: Source, choice: Choice, rule: bool, cuts: list[UserError], odd: Odd) -> Iterator[tuple[int, str]]:
    """The lines of one journal."""
    tail = Tail()
    if source.access:
        decisions = Decisions(source.name, lines_of_files(source.pieces, tail), source.first) if rule else None
        for access in accesses(source.access, odd):
            if choice.has_access(access):
                yield access.moment, text_of_access(access, decisions)
            elif decisions is not None and "check" in access.fields:
                # Its decision is not kept, however few lines are chosen.
                decisions.take(access.fields["check"])
        return
    if choice.needs_access_log:
        return
    rules = Rules(source.first) if rule else None
    for request in chosen(source, choice, rules, tail):
        yield request.taken, text_of(request, rules)
    if tail.cut:
        cuts.append(cut_error(source.name, tail.cut))


def log(out: TextIO, named: list[str], choice: Choice, rule: bool, conf: Optional[str]) -> int:
    """The command without --follow: several journals, as of a site's processes, are merged by their moments."""
    cuts: list[UserError] = []
    found = [sources_of(it, conf, choice.since) for it in named]
    without_access_log([source for sources in found for source in sources], choice)
    journals = [lines_of(sources, choice, rule, cuts) for sources in found]
    for _, line in heapq.merge(*journals, key=lambda it: it[0]):
        out.write(line)
    if cuts:
        out.flush()
        raise cuts[0]
    return DONE


def follow(out: TextIO, names: list[str], choice: Choice, rule: bool, conf: Optional[str]) -> int:
    """The command with --follow: from the last run on, for as long as it is let."""
    if len(names) != 1:
        raise UserError(USAGE, "log --follow: it follows one journal or folder")
    named = names[0]
    given = read(conf) if conf is not None else None
    path = Path(named)
    if not path.exists():
        raise UserError(MISSING, f"{named}: there is no such file or folder")
    has_access = access_files(runs_at(named)[-1]) if path.is_dir() else is_access_log(path)
    if has_access:
        return follow_accesses(out, path, choice, rule, given)
    if choice.needs_access_log:
        raise UserError(MISSING, f"{named}: it has no access log, and a journal does not have what came of a request")
    if path.is_dir():
        lines = lines_following(lambda: runs_of(path))
    else:
        lines = lines_of_growing(path)
    known: dict[Path, tuple[Reader, Requests, Optional[Rules]]] = {}
    for run, line in lines:
        if line is None:
            out.flush()
            continue
        if run not in known:
            first = Rules(given if given is not None else kept_conf(run)) if rule else None
            known[run] = (Reader(str(run), OF_REQUESTS), Requests(str(run)), first)
        reader, requests, rules = known[run]
        entry = reader.entry(line)
        if entry is None:
            continue
        request = requests.entry(entry)
        if requests.configured is not None and rules is not None:
            rules.add(requests.epoch, unescape(requests.configured))
        if request is not None and choice.has(request):
            out.write(text_of(request, rules))
    return DONE


def follow_accesses(out: TextIO, path: Path, choice: Choice, rule: bool, given: Optional[bytes]) -> int:
    """The same over an access log."""
    known: dict[Path, Decisions] = {}
    lines = lines_following(lambda: runs_of(path), files=access_files) if path.is_dir() else lines_of_growing(path)
    for run, line in lines:
        if line is None:
            out.flush()
            continue
        folder = run if path.is_dir() else path.absolute().parent
        if run not in known and rule:
            # Without a journal beside it there is nothing to wait for.
            journal = lines_so_far(folder) if pieces_of(folder) else iter(())
            known[run] = Decisions(str(run), journal, given if given is not None else kept_conf(folder))
        access = parse(line.decode("latin-1"))
        if access is not None and choice.has_access(access):
            out.write(text_of_access(access, known.get(run)))
        elif access is not None and rule and "check" in access.fields:
            known[run].take(access.fields["check"])
    return DONE


def lines_so_far(run: Path) -> Iterator[bytes]:
    """The lines of a run that grows, and an empty one, which is no entry, where nothing came for a moment."""
    for line in lines_of_run(run, lambda: False, JOURNAL_PAUSE):
        yield line or b""


def lines_of_growing(path: Path) -> Iterator[tuple[Path, Optional[bytes]]]:
    """The lines of one file, for as long as they come."""
    rest = b""
    with open(path, "rb") as file:
        while True:
            line = file.readline()
            if not line:
                yield (path, None)
                time.sleep(0.2)
                continue
            rest += line
            if rest.endswith(b"\n"):
                yield (path, rest[:-1])
                rest = b""
