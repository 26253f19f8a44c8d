"""status: how a run stands, by the counters that the service keeps of it, or else by its journal."""

from datetime import datetime, timezone
from pathlib import Path
from typing import Optional, TextIO

from aclproxyctl import counters, words
from aclproxyctl.access import access_files, lines_of_access
from aclproxyctl.counts import Counted, Counts, count_access
from aclproxyctl.disk import size_in_words
from aclproxyctl.errors import DONE, MISSING, UserError
from aclproxyctl.journal import Tail, lines_of_files, runs_at, whole_pieces
from aclproxyctl.service import service_of
from aclproxyctl.sockets import clients_of
from aclproxyctl.state import state_of

Rows = tuple[tuple[str, str], ...]


def moment(milliseconds: int) -> str:
    try:
        return datetime.fromtimestamp(milliseconds // 1000, timezone.utc).strftime("%Y-%m-%d %H:%M:%S UTC")
    except (OverflowError, ValueError):
        return "beyond the year 9999"


def rows_of_service(run: Path) -> Rows:
    """What is known of a server that serves now, beside its journal."""
    service = service_of(run)
    if service is None:
        return ()
    clients = clients_of(service.port, service.process)
    if clients is None:
        return (("workers", f"{service.workers:,}"),)
    waiting = clients.waiting(service.workers)
    wait = f"{waiting:,} wait for a worker, of these {clients.queued:,} in the accept queue" if waiting else "none waits for a worker"
    return (
        ("workers", f"{service.workers:,}, of these {clients.workers_in_use(service.workers):,} in use"),
        ("clients", f"{clients.connected:,} connected at port {service.port}; {wait}"),
    )


def rows_of_others(named: Path, run: Path) -> Rows:
    """The runs before this one whose connections go on."""
    others = [one.name for one in runs_at(str(named)) if one != run and service_of(one) is not None] if named.is_dir() else []
    return (("before it", f"connections of {words.plural(len(others), 'run')} go on: {', '.join(others)}"),) if others else ()


def rows_of_access_log(counts: Counts) -> Rows:
    """What came of the requests and tunnels that have ended."""
    failed = f"{counts.failed:,}"
    if counts.causes:
        failed += ": " + ", ".join(f"{count:,} {cause}" for cause, count in sorted(counts.causes.items(), key=lambda it: (-it[1], it[0])))
    silent = f"; {words.plural(counts.silent, 'connection')} without a request" if counts.silent else ""
    rows = [
        ("ended", f"{words.plural(counts.logged, 'request or tunnel', 'requests and tunnels')}, {counts.denied:,} of them denied{silent}"),
        ("failed", failed),
        ("bytes", f"{size_in_words(counts.sent)} to clients, {size_in_words(counts.received)} from them"),
    ]
    if counts.lost or counts.odd:
        rows.append(("access log", f"{words.plural(counts.lost, 'line')} could not be written, {words.plural(counts.odd, 'line')} cannot be read"))
    return tuple(rows)


def tell(out: TextIO, name: str, counted: Counted, counted_at: Optional[int], more: Rows) -> None:
    standing = counted.standing
    alive = ", ".join(f"{count} of {name}" for name, count in sorted(standing.helpers.items()))
    rest = f", and {words.plural(counted.cut, 'byte')} of a line that has no end" if counted.cut else ""
    rows: Rows = (
        ("run", name),
        ("journal", f"{words.plural(counted.bytes, 'byte')} in {words.plural(counted.pieces, 'piece')}: {words.plural(standing.entries, 'entry', 'entries')}{rest}"),
        ("since", moment(standing.begun)),
        ("last entry", moment(standing.last)),
        ("configuration", f"number {standing.epoch}, since {moment(standing.since)}"),
        ("requests", f"{standing.requests:,}: {standing.allowed:,} allowed, {standing.denied:,} denied, of these {standing.faults:,} by a fault of a helper"),
        ("connections", f"{standing.connections:,} open"),
        ("checks", f"{standing.checks:,} open, of these {standing.waiting:,} wait for a helper"),
        ("helpers", f"{sum(standing.helpers.values()):,} alive{f' ({alive})' if alive else ''}, {standing.ended:,} ended"),
    )
    if standing.entries == 0:
        rows = rows[:2]
    if counted.has_access:
        rows += rows_of_access_log(counted.counts)
    if counted_at is not None:
        rows += (("counted", f"up to {moment(counted_at)}, by the service"),)
    for label, text in (*rows, *more):
        out.write(f"{label + ':':<15}{text}\n")


def read_whole(run: Path, pieces: list[Path], access: list[Path]) -> Counted:
    """What a run comes to that is read from its beginning to its end."""
    tail, counts = Tail(), Counts()
    state = state_of(str(run), lines_of_files(pieces, tail))
    for line in lines_of_access(access):
        count_access(counts, line)
    return Counted(counts, state.standing(), tail.bytes, len(pieces), len(tail.cut), bool(access))


def status(out: TextIO, named: str) -> int:
    """The command: the last run of a folder, or a journal's file."""
    path = Path(named)
    if path.is_dir():
        run = runs_at(named)[-1]
        kept = counters.read(run)
        more = (*rows_of_service(run), *rows_of_others(path, run))
        if kept is not None:
            tell(out, str(run), kept.counted, None if kept.whole else kept.moment, more)
        else:
            tell(out, str(run), read_whole(run, whole_pieces(run), access_files(run)), None, more)
    elif path.exists():
        tell(out, named, read_whole(path, [path], []), None, ())
    else:
        raise UserError(MISSING, f"{named}: there is no such file or folder")
    return DONE
