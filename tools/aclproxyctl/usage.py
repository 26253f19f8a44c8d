"""usage: who used how much."""

from dataclasses import dataclass
from typing import Iterator, Optional, TextIO

from aclproxyctl import words
from aclproxyctl.access import Odd, host_of
from aclproxyctl.disk import size_in_words
from aclproxyctl.errors import DONE, MISSING, NO, UserError
from aclproxyctl.journal import Tail, shown
from aclproxyctl.log import Choice, Source, chosen, chosen_accesses, sources_of, tell, tell_odd, without_access_log


@dataclass
class Sum:
    """The totals of one kind of requests. Bytes and failures are known of those of an access log."""

    requests: int = 0
    denied: int = 0
    failed: int = 0
    bytes: int = 0
    # What came from clients, where the log says that.
    uploaded: int = 0


def add_accesses(sums: dict[str, Sum], source: Source, choice: Choice, by: str, odd: Odd) -> None:
    for access in chosen_accesses(source, choice, odd):
        key = access.client if by == "client" else access.host if by == "host" else access.fields.get("tag", "-")
        if access.silent:
            # Nobody asked for anything.
            continue
        found = sums.setdefault(key, Sum())
        found.requests += 1
        found.denied += access.denied
        found.failed += access.failed
        found.bytes += access.bytes
        found.uploaded += access.number("in")


def add_requests(sums: dict[str, Sum], source: Source, choice: Choice, by: str) -> None:
    """Those of a run without an access log."""
    for request in chosen(source, choice, None, Tail()):
        found = sums.setdefault(request.client if by == "client" else host_of(shown(request.target)), Sum())
        found.requests += 1
        found.denied += request.denied


def rows_of(sums: dict[str, Sum], by: str, has_bytes: bool) -> Iterator[list[str]]:
    """The table, with those first that used most."""
    has_uploads = any(found.uploaded for found in sums.values())
    yield [by, "requests", "denied", *(["failed", "bytes", ""] if has_bytes else []), *(["uploaded"] if has_uploads else [])]
    total = Sum()

    def row(key: str, found: Sum) -> list[str]:
        with_bytes = [f"{found.failed:,}", f"{found.bytes:,}", size_in_words(found.bytes)] if has_bytes else []
        return [key, f"{found.requests:,}", f"{found.denied:,}", *with_bytes, *([size_in_words(found.uploaded)] if has_uploads else [])]

    for key, found in sorted(sums.items(), key=lambda it: (-it[1].bytes, -it[1].requests, it[0])):
        yield row(key, found)
        for name in vars(total):
            setattr(total, name, getattr(total, name) + getattr(found, name))
    yield row("all", total)


def usage(out: TextIO, named: list[str], choice: Choice, by: str) -> int:
    """The command."""
    sources = [source for it in named for source in sources_of(it, None, choice.since)]
    with_log = [source for source in sources if source.access]
    without_access_log(sources, choice)
    if by == "tag" and not with_log:
        raise UserError(MISSING, f"{named[0]}: it has no access log, and the tag of a request stands nowhere else")
    sums: dict[str, Sum] = {}
    odd = Odd()
    for source in with_log:
        add_accesses(sums, source, choice, by, odd)
    rest: Optional[list[Source]] = None
    if by != "tag" and not choice.needs_access_log:
        rest = [source for source in sources if not source.access]
        for source in rest:
            add_requests(sums, source, choice, by)
    tell_odd(odd)
    if not sums:
        raise UserError(NO, f"{named[0]}: no request is chosen")
    rows = list(rows_of(sums, by, bool(with_log)))
    widths = [max(len(row[column]) for row in rows) for column in range(len(rows[0]))]
    for row in rows:
        line = "  ".join(text.ljust(width) if place == 0 else text.rjust(width) for place, (text, width) in enumerate(zip(row, widths)))
        out.write(line.rstrip() + "\n")
    if with_log and len(with_log) < len(sources):
        tell(f"{words.plural(len(sources) - len(with_log), 'run')} of {len(sources)} have no access log: bytes and failures of their requests are not known")
    return DONE
