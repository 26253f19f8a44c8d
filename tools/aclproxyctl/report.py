"""report: a page of what was asked for, made by goaccess of the log."""

import os
import shutil
import subprocess
from typing import TextIO

from aclproxyctl import words
from aclproxyctl.access import Odd
from aclproxyctl.disk import size_in_words
from aclproxyctl.errors import DONE, NEEDS, NO, SYSTEM, UserError, of_system
from aclproxyctl.journal import Tail
from aclproxyctl.log import Choice, chosen, chosen_accesses, line_of, sources_of, tell_odd, without_access_log

# Squid's native format, which goaccess does not know by a name that fits. An allowed request has no status in a journal, and
# is one of status 000.
FORMAT = [
    "--log-format=%x.%^ %~%L %h %^/%s %b %m %U %^",
    "--date-format=%s",
    "--time-format=%s",
    "--no-strict-status",
    "--4xx-to-unique-count",
    "--no-global-config",
    "--no-progress",
    "--html-report-title=aclproxy",
    '--html-prefs={"layout":"vertical","perPage":10}',
    # What the log has nothing of.
    *(f"--ignore-panel={panel}" for panel in ("NOT_FOUND", "OS", "BROWSERS", "REFERRERS", "REFERRING_SITES", "KEYPHRASES")),
]


def report(out: TextIO, named: str, choice: Choice, to: str) -> int:
    """The command."""
    sources = sources_of(named, None, choice.since)
    without_access_log(sources, choice)
    goaccess = shutil.which("goaccess")
    if goaccess is None:
        raise UserError(NEEDS, "the program goaccess is not found; Debian has it in the package goaccess: apt-get install goaccess")
    if not os.path.isdir(os.path.dirname(os.path.abspath(to))):
        raise UserError(SYSTEM, f"{to}: its folder is not there")
    try:
        process = subprocess.Popen(
            [goaccess, "-", *FORMAT, "-o", to], stdin=subprocess.PIPE, stdout=subprocess.PIPE, stderr=subprocess.STDOUT, text=True,
            # The page has all targets: it is for its owner alone.
            umask=0o077,
        )
    except OSError as fault:
        raise of_system(fault, goaccess) from None
    assert process.stdin is not None and process.stdout is not None
    count = denied = failed = size = 0
    odd = Odd()
    try:
        try:
            for source in sources:
                for access in chosen_accesses(source, choice, odd) if source.access else ():
                    if access.silent:
                        continue
                    process.stdin.write(access.text + "\n")
                    count += 1
                    denied += access.denied
                    failed += access.failed
                    size += access.bytes
                for request in chosen(source, choice, None, Tail()) if not source.access and not choice.needs_access_log else ():
                    process.stdin.write(line_of(request) + "\n")
                    count += 1
                    denied += request.denied
            process.stdin.close()
        except BrokenPipeError:
            pass
        if count == 0:
            raise UserError(NO, f"{named}: no request is chosen, so there is nothing to report")
        said = process.stdout.read().strip()
        if process.wait() != 0 or not os.path.exists(to):
            raise UserError(SYSTEM, f"goaccess ended with status {process.returncode}: {said[-300:]}")
    finally:
        if process.poll() is None:
            process.kill()
            process.wait()
        process.stdout.close()
    tell_odd(odd)
    more = f", {failed:,} failed; {size_in_words(size)} went to clients" if any(source.access for source in sources) else ""
    out.write(f"{to}: {words.plural(count, 'request')}, {denied:,} of them denied{more}\n")
    return DONE
