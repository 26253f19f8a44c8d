"""The command line."""

import argparse
import io
import ipaddress
import os
import signal
import sys
import time
from typing import NoReturn, Optional, Sequence

from aclproxyctl import check, explain, explained, lists, log, metrics, report, retention, run, squid, status, usage, verify
from aclproxyctl.errors import INTERRUPTED, SYSTEM, USAGE, UserError, of_system
from aclproxyctl.program import find
from aclproxyctl.running import say
from aclproxyctl.warnings import WORKERS, zone_offset


class Parser(argparse.ArgumentParser):
    """One whose errors have the tool's status."""

    def error(self, message: str) -> NoReturn:
        self.print_usage(sys.stderr)
        self.exit(USAGE, f"{self.prog}: {message}\n")


def whole(least: int, most: int) -> "type[int]":
    """The type of a number within bounds."""

    def read(text: str) -> int:
        number = int(text)
        if not least <= number <= most:
            raise ValueError
        return number

    read.__name__ = f"number from {least} to {most}"
    return read  # type: ignore[return-value]


def seconds(text: str) -> float:
    number = float(text)
    if not 0 <= number <= 1e9:
        raise ValueError
    return number


def place_of(text: str) -> tuple[str, int]:
    """The address and port of ADDRESS:PORT."""
    address, port = metrics.address_of(text)
    return str(ipaddress.ip_address(address)), port


def linger(text: str) -> int:
    """A span up to a day, in whole seconds."""
    span = int(text) if text.isdecimal() else int(retention.span(text))
    if not 1 <= span <= 86400:
        raise ValueError
    return span


def add_limits(one: argparse.ArgumentParser) -> None:
    one.add_argument("--keep", type=retention.span, metavar="TIME", help="how long runs are kept, as 90d or 12h; else until somebody removes them")
    one.add_argument("--keep-bytes", type=retention.size, metavar="SIZE", help="how much all runs may have together, as 20G, or a share of the disk, as 20%%")
    one.add_argument("--no-compress", action="store_true", help="leave finished runs as they are")


def limits_of(words: argparse.Namespace) -> retention.Limits:
    size = words.keep_bytes or retention.Limits()
    return retention.Limits(words.keep, size.bytes, size.percent)


def add_choices(one: argparse.ArgumentParser) -> None:
    one.add_argument("--denied", action="store_true", help="denied requests alone")
    one.add_argument("--failed", action="store_true", help="allowed requests that came to no good end alone; needs an access log")
    one.add_argument("--slow", type=seconds, metavar="S", help="requests, but tunnels, that took so many seconds alone; needs an access log")
    one.add_argument("--client", metavar="ADDRESS", help="requests of this address or block alone")
    one.add_argument("--host", metavar="HOST", help="requests for this host alone, or for a domain, as .example.com")
    one.add_argument("--since", metavar="TIME", help="2026-11-29, 2026-11-29T08:30, seconds since 1970, or 30m, 12h, 7d before now")


def parser() -> Parser:
    top = Parser(prog="aclproxyctl", description="What operators and administrators of aclproxy hold in their hands.")
    top.add_argument("--program", metavar="PATH", help="the program aclproxy; else that of the variable ACLPROXY, or the installed one")
    commands = top.add_subparsers(dest="command", metavar="COMMAND", required=True)

    one = commands.add_parser("check", help="judge a configuration, in words")
    one.add_argument("conf", metavar="CONF")
    one.add_argument("--utc-offset", type=whole(-840, 840), metavar="M", help="the offset that serve will be started with")
    one.add_argument("--quiet", "-q", action="store_true", help="say nothing of a file that is accepted")
    one.add_argument("--squid", action="store_true", help="CONF is Squid's: convert it, or say what would change by that")
    one.add_argument("--accept", action="append", default=[], metavar="NAME", help="with --squid: go on without what lines of this directive do, as a stop says")
    one.add_argument("--output", "-o", metavar="FILE", help="with --squid: where the converted file is written; else on standard output")
    one.add_argument("--workers", type=whole(1, 4096), metavar="W", help="the workers that serve will be started with")

    one = commands.add_parser("explain", help="what comes of one request, and by which lines")
    one.add_argument("conf", metavar="CONF", help="the configuration; with --check, a journal's folder, a run of it, or an access log")
    one.add_argument("client", metavar="CLIENT", nargs="?", help="its address")
    one.add_argument("method", metavar="METHOD", nargs="?")
    one.add_argument("url", metavar="URL", nargs="?", help="http://HOST/PATH; of CONNECT, HOST:PORT")
    one.add_argument("--check", type=whole(1, (1 << 63) - 1), metavar="N", help="the request that was judged as this check, as the access log names it")
    one.add_argument("--at", metavar="TIME", help="when it is asked; now, if it is not stated")
    one.add_argument("--header", action="append", default=[], metavar="'NAME: VALUE'", help="a header field; may be repeated")
    one.add_argument("--connections", type=whole(1, 1000), default=1, metavar="N", help="how many connections the client has open, this one counted (1)")
    one.add_argument("--ask", action="store_true", help="run the helpers of the configuration")
    zone = one.add_mutually_exclusive_group()
    zone.add_argument("--utc-offset", type=whole(-840, 840), default=0, metavar="M", help="as of serve: minutes by which local time is ahead of UTC")
    zone.add_argument("--offset-from-zone", action="store_true", help="the offset of the machine's zone")

    one = commands.add_parser("run", help="run the proxy as a service: signals, systemd, and its journal")
    one.add_argument("conf", metavar="CONF")
    place = one.add_mutually_exclusive_group()
    place.add_argument("--port", type=whole(1, 65535), metavar="P", help="as of serve: the port, at all addresses")
    place.add_argument("--listen", type=place_of, metavar="ADDRESS:PORT", help="listen at this address alone, as 10.1.2.3:3128 or [fd00::1]:3128")
    one.add_argument("--workers", type=whole(1, 4096), default=WORKERS, metavar="W", help=f"as of serve: connections that are served at a time ({WORKERS})")
    zone = one.add_mutually_exclusive_group()
    zone.add_argument("--utc-offset", type=whole(-840, 840), metavar="M", help="as of serve: minutes by which local time is ahead of UTC")
    zone.add_argument("--offset-from-zone", action="store_true", help="the offset of the machine's zone; a new run begins when it changes")
    one.add_argument("--journal", metavar="DIR", help="the folder of journals; else LOGS_DIRECTORY, STATE_DIRECTORY, or ./journal")
    one.add_argument("--grace", type=seconds, default=30.0, metavar="S", help="seconds that open connections have when it ends (30)")
    one.add_argument("--linger", type=linger, default=run.LINGER, metavar="TIME", help="how long connections go on once a new run has begun, as 600s or 1h (1h)")
    one.add_argument("--run-bytes", type=whole(1, 1 << 30), default=run.RUN_BYTES, metavar="N", help="size at which a new run begins (768 MiB)")
    one.add_argument("--piece-lines", type=whole(1, 1 << 40), default=run.PIECE_LINES, metavar="N", help="lines of a piece (1000000)")
    one.add_argument("--no-access-log", action="store_true", help="have the program write no access log, where it can")
    one.add_argument("--access-log-bytes", type=whole(1, 1 << 40), default=run.ACCESS_BYTES, metavar="N", help="size at which a further file of it begins (256 MiB)")
    one.add_argument("--metrics", type=metrics.address_of, metavar="HOST:PORT", help="serve metrics there in the text format of Prometheus, as 127.0.0.1:9312")
    add_limits(one)

    one = commands.add_parser("prune", help="compress finished runs of a folder, and remove old ones")
    one.add_argument("journal", metavar="DIR")
    add_limits(one)

    one = commands.add_parser("log", help="one line a request, in the native format of Squid's access.log")
    one.add_argument("journal", metavar="JOURNAL-OR-DIR", nargs="+", help="several are merged by their moments")
    one.add_argument("--follow", "-f", action="store_true", help="go on with what comes")
    one.add_argument("--rule", action="store_true", help="add the rule that decided, with its text")
    one.add_argument("--conf", metavar="CONF", help="the configuration of the start, for --rule; a run of a folder has its own")
    add_choices(one)

    one = commands.add_parser("report", help="a page in HTML of what was asked for, made by goaccess")
    one.add_argument("journal", metavar="JOURNAL-OR-DIR")
    one.add_argument("--output", "-o", required=True, metavar="FILE.html", help="where it is written")
    add_choices(one)

    one = commands.add_parser("metrics", help="counts of the last run in the text format of Prometheus, once")
    one.add_argument("journal", metavar="DIR")

    one = commands.add_parser("usage", help="who used how much")
    one.add_argument("journal", metavar="JOURNAL-OR-DIR", nargs="+")
    one.add_argument("--by", choices=("client", "host", "tag"), default="client", help="what is summed up (client)")
    add_choices(one)

    one = commands.add_parser("verify", help="whether the journals of a folder are the machine's, in words")
    one.add_argument("journal", metavar="DIR-OR-JOURNAL")
    one.add_argument("--conf", metavar="CONF", help="the configuration of the start; a run of a folder has its own")

    one = commands.add_parser("lists", help="make the files of the helper aclproxy-domains, or ask one")
    one.add_argument("action", choices=("update", "ask"), help="update FOLDER SOURCE ..; ask FOLDER NAME HOST")
    one.add_argument("folder", metavar="FOLDER", help="where the files are, one for each list")
    one.add_argument("words", metavar="WORD", nargs="+", help="of update NAME=FILE, or a folder with NAME/domains in it; of ask a list's name and a host")
    one.add_argument("--with-subdomains", action="store_true", help="update: each name stands for all below it, too, as with a dot in front")
    one.add_argument("--smaller", action="store_true", help="update: a list may lose more than half of its names")

    one = commands.add_parser("status", help="how the last run of a folder stands, by its journal")
    one.add_argument("journal", metavar="DIR-OR-JOURNAL")
    return top


def journal_folder() -> str:
    """Where systemd gives a folder, a `journal` there. It is said, since nobody named it."""
    for name in ("LOGS_DIRECTORY", "STATE_DIRECTORY"):
        folder = os.environ.get(name, "").split(":")[0]
        if folder:
            say(f"--journal is not stated: the journals are in {folder}/journal, by {name}")
            return os.path.join(folder, "journal")
    say(f"--journal is not stated: the journals are in {os.path.abspath('journal')}, a folder of the current one")
    return "journal"


def asked_of(words: argparse.Namespace) -> explain.Asked:
    try:
        client = str(ipaddress.ip_address(words.client))
    except ValueError:
        raise UserError(USAGE, f"{words.client} is no address of a client, as 10.1.2.3 or 2001:db8::1") from None
    fields = []
    for header in words.header:
        name, colon, value = header.partition(":")
        if not colon:
            raise UserError(USAGE, f"--header {header!r}: it is NAME: VALUE")
        fields.append(f"{name}:{value.strip()}")
    moment = log.moment_of(words.at) if words.at else int(time.time() * 1000)
    if moment < 0:
        raise UserError(USAGE, f"--at {words.at}: before 1970 there was no request")
    offset = zone_offset() if words.offset_from_zone else words.utc_offset
    return explain.Asked(client, words.method, words.url, fields, moment, offset, words.connections)


def choice_of(words: argparse.Namespace) -> log.Choice:
    return log.Choice(
        denied=words.denied,
        client=log.client_of(words.client) if words.client else None,
        since=log.moment_of(words.since) if words.since else None,
        failed=words.failed,
        slow=int(words.slow * 1000) if words.slow is not None else None,
        host=words.host,
    )


def run_command(words: argparse.Namespace) -> int:
    out = sys.stdout
    if words.command == "check" and words.squid:
        told = out if words.output else sys.stderr
        return squid.convert(told, None if words.output else out, find(words.program), words.conf, words.output, words.utc_offset, words.accept)
    if words.command == "check":
        if words.output or words.accept:
            raise UserError(USAGE, f"--{'output' if words.output else 'accept'} goes with --squid")
        return check.check(out, find(words.program), words.conf, words.utc_offset, words.workers, words.quiet)
    if words.command == "explain":
        if words.check is not None:
            if words.client or words.at or words.header or words.ask:
                raise UserError(USAGE, "explain --check N JOURNAL-OR-DIR has no further words: the journal has the request")
            return explained.explain_check(out, find(words.program), words.conf, words.check)
        if words.url is None:
            raise UserError(USAGE, "explain wants CONF CLIENT METHOD URL, or --check N JOURNAL-OR-DIR")
        return explain.explain(out, find(words.program), words.conf, asked_of(words), words.ask)
    if words.command == "run":
        return run.run(
            run.Options(
                program=find(words.program),
                conf=words.conf,
                journal=words.journal or journal_folder(),
                port=words.port,
                workers=words.workers,
                offset=words.utc_offset,
                from_zone=words.offset_from_zone,
                grace=words.grace,
                run_bytes=words.run_bytes,
                piece_lines=words.piece_lines,
                limits=limits_of(words),
                packing=not words.no_compress,
                access_log=not words.no_access_log,
                access_bytes=words.access_log_bytes,
                metrics=words.metrics,
                listen=words.listen,
                linger=words.linger,
            )
        )
    if words.command == "prune":
        return retention.prune(out, words.journal, limits_of(words), not words.no_compress)
    if words.command == "log":
        command = log.follow if words.follow else log.log
        return command(out, words.journal, choice_of(words), words.rule, words.conf)
    if words.command == "report":
        return report.report(out, words.journal, choice_of(words), words.output)
    if words.command == "metrics":
        return metrics.metrics(out, words.journal)
    if words.command == "usage":
        return usage.usage(out, words.journal, choice_of(words), words.by)
    if words.command == "verify":
        return verify.verify(out, find(words.program), words.journal, words.conf)
    if words.command == "lists" and words.action == "update":
        return lists.update(out, words.folder, words.words, words.with_subdomains, words.smaller)
    if words.command == "lists":
        if len(words.words) != 2 or words.with_subdomains or words.smaller:
            raise UserError(USAGE, "lists ask FOLDER NAME HOST has no more words")
        return lists.ask(out, words.folder, *words.words)
    if words.command == "status":
        return status.status(out, words.journal)
    raise AssertionError(words.command)


def main(argv: Optional[Sequence[str]] = None) -> int:
    # Names of files and words may hold bytes that are no text: they are shown, and stop nothing.
    for stream in (sys.stdout, sys.stderr):
        if isinstance(stream, io.TextIOWrapper):
            stream.reconfigure(errors="backslashreplace")
    words = parser().parse_args(argv)
    try:
        ended = run_command(words)
        sys.stdout.flush()
        return ended
    except UserError as fault:
        try:
            sys.stdout.flush()
        except OSError:
            pass
        print(f"aclproxyctl: {fault.text}", file=sys.stderr)
        return fault.status
    except KeyboardInterrupt:
        return INTERRUPTED
    except BrokenPipeError:
        # The reader went away, as `head` does. What is still in the buffer has nowhere to go.
        os.dup2(os.open(os.devnull, os.O_WRONLY), sys.stdout.fileno())
        return 128 + signal.SIGPIPE
    except OSError as fault:
        error = of_system(fault, fault.filename or "the system")
        print(f"aclproxyctl: {error.text}", file=sys.stderr)
        return error.status
    except RecursionError:
        print("aclproxyctl: this nests too deep", file=sys.stderr)
        return SYSTEM
