#!/usr/bin/env python3
"""What the gate costs, crate by crate.

    tests/costs.py run LOG COMMAND ..    runs the command, as `rt ci`, and writes to LOG what the prover's processes below it took
    tests/costs.py table LOG.. [--into FILE]
                                         prints the table of that; with FILE, puts it between its two comment lines `costs` there
    tests/costs.py functions CRATE       prints what each function of a crate took in `rt check` or `rt test`, if nothing was kept
                                         before (`rm -r crates/CRATE/out/incremental`): seconds, and megabytes to be proved

The toolchain's own log has no times. So this looks at the processes every second: the time of a processor that each check took, with
the processes that it began, and when it was first and last seen. A check is of a crate's proof, of its tests, or of an edit, which is tried in
a folder of its own. `./test` measures the gate by it, and `COSTS=LOG ./test` keeps the log. The numbers are those of a run from nothing, where nothing was kept.
A second of one machine is not one of another, and one of a processor that shares its core not one of a processor that has it alone:
so it times, every half minute, how long counting to a million takes. Where a run was stopped and gone on with, as `rt ci` does
with what it kept, all logs are given, in their order: what a later one has takes the place of what an earlier one had, and edits of
crates that have none any more are left out."""

import glob
import json
import math
import os
import re
import subprocess
import sys
import textwrap
import time

TOP = os.path.dirname(os.path.dirname(os.path.abspath(__file__)))
TICKS = os.sysconf("SC_CLK_TCK")
KINDS = ("proof", "tests", "edits")
# How often the log is written and the machine's speed is looked at, in seconds.
EVERY = 30
# The seconds that counting to a million takes where the processor has its core alone, on the machine on which this was first run.
QUIET = 0.02


def processes():
    """All processes by their number: the parent, and the ticks that it and its children that have ended took."""
    found = {}
    for name in os.listdir("/proc"):
        if name.isdigit():
            try:
                with open(f"/proc/{name}/stat", encoding="utf-8", errors="replace") as it:
                    words = it.read().rpartition(")")[2].split()
                found[int(name)] = int(words[1]), sum(map(int, words[11:15]))
            except (OSError, ValueError, IndexError):
                pass
    return found


def check_of(pid):
    """The crate and the kind of a check, of a process that is one."""
    try:
        with open(f"/proc/{pid}/cmdline", encoding="utf-8", errors="replace") as it:
            words = it.read().split("\0")
        folder = os.readlink(f"/proc/{pid}/cwd")
    except OSError:
        return None
    if os.path.basename(words[0]) != "rattle" or "--crate-name" not in words[:-1]:
        return None
    kind = "edits" if os.path.basename(folder).startswith("rt-edit") else "tests" if "--test" in words else "proof"
    return words[words.index("--crate-name") + 1], kind


def keep(log, now, status, checks, counts):
    """Writes what is known so far, so that a run that is stopped is not lost."""
    with open(f"{log}.new", "w", encoding="utf-8") as it:
        json.dump({"seconds": round(now, 1), "status": status, "counts": [round(it, 4) for it in counts], "checks": [
            {"crate": c["crate"], "kind": c["kind"], "first": round(c["first"], 1), "last": round(c["last"], 1), "seconds": round(c["ticks"] / TICKS, 1)}
            for c in checks.values()]}, it, indent=0)
    os.replace(f"{log}.new", log)


def yardstick():
    """The seconds of a processor that counting to a million takes just now: what a second on this machine is worth."""
    begun = time.thread_time()
    for _ in range(1_000_000):
        pass
    return time.thread_time() - begun


def run(log, command):
    begun = time.time()
    ran = subprocess.Popen(command)
    checks, counts, kept = {}, [], 0
    while ran.poll() is None:
        time.sleep(1)
        now = time.time() - begun
        if now - kept >= EVERY:
            kept = now
            counts.append(yardstick())
            keep(log, now, None, checks, counts)
        every = processes()
        # The check that a process belongs to: the uppermost one above it, below the command.
        of = {ran.pid: None}
        said = {}

        def top(pid):
            way = []
            while pid in every and pid not in of:
                way.append(pid)
                pid = every[pid][0]
            known = of.get(pid, "other")
            for it in reversed(way):
                if known is None:
                    said[it] = check_of(it)
                    known = it if said[it] else None
                of[it] = known
            return known

        ticks = {}
        for pid, (_, took) in every.items():
            above = top(pid)
            if above not in (None, "other"):
                ticks[above] = ticks.get(above, 0) + took
        for pid, took in ticks.items():
            crate, kind = said.get(pid) or check_of(pid) or (None, None)
            if crate:
                check = checks.setdefault(f"{pid} {crate} {kind}", {"crate": crate, "kind": kind, "first": now, "ticks": 0})
                check["ticks"], check["last"] = max(check["ticks"], took), now
    keep(log, time.time() - begun, ran.returncode, checks, counts)
    return ran.returncode


def crates():
    """Each crate with those that it stands on at once, as crates.txt has them."""
    found = {}
    with open(f"{TOP}/crates.txt", encoding="utf-8") as it:
        for line in it:
            named = re.match(r"([a-z]\w*)[^:#]*:([^#]*)", line)
            if named:
                found[named[1]] = named[2].split()
    return {name: [it for it in below if it in found] for name, below in found.items()}


def has_edits(name):
    return bool(glob.glob(f"{TOP}/crates/{name}/must-fail/*.edit"))


class Costs:
    """What the checks of some logs took, by crate and kind: the seconds of a processor, those of one on which counting to a million
    takes `QUIET`, and when the crate's proof began and ended."""

    def __init__(self, logs):
        self.took, self.quiet, self.began, self.ended = {}, {}, {}, {}
        self.counts, self.seconds, self.is_whole = [], 0, True
        for log in logs:
            with open(log, encoding="utf-8") as it:
                self.add(json.load(it))

    def add(self, run_of):
        """A later run: what it checked takes the place of what an earlier one did."""
        counts, seconds, fresh = run_of["counts"], run_of["seconds"], set()
        for check in run_of["checks"]:
            of = check["crate"], check["kind"]
            if of[1] == "edits" and not has_edits(of[0]):
                continue
            if of not in fresh:
                fresh.add(of)
                self.took[of] = self.quiet[of] = 0
                if of[1] == "proof":
                    self.began[of[0]], self.ended[of[0]] = math.inf, 0
            first, last = (min(int(check[it] / seconds * len(counts)), len(counts) - 1) for it in ("first", "last"))
            meanwhile = counts[first : last + 1] or [QUIET]
            self.took[of] += check["seconds"]
            self.quiet[of] += check["seconds"] * QUIET * len(meanwhile) / sum(meanwhile)
            if of[1] == "proof":
                self.began[of[0]] = min(self.began[of[0]], self.seconds + check["first"])
                self.ended[of[0]] = max(self.ended[of[0]], self.seconds + check["last"])
        self.counts += counts
        self.seconds += seconds
        self.is_whole = run_of["status"] is not None

    def chain(self, below, of):
        """The longest chain of proofs by the seconds of each, and the crates in it."""
        found = {}

        def longest(name):
            if name not in found:
                before = max((longest(it) for it in below[name]), default=(0, []))
                found[name] = before[0] + of.get(name, 0), [*before[1], name]
            return found[name]

        return max(longest(it) for it in below)


def table(logs):
    costs, below = Costs(logs), crates()
    rows = []
    for name in below:
        parts = [costs.took.get((name, it), 0) for it in KINDS]
        ready = max((costs.ended.get(it, 0) for it in below[name]), default=0)
        if sum(parts):
            rows.append([sum(parts), name, parts, ready, costs.ended.get(name, 0)])
    lines = ["| Crate | Proof | Tests | Edits | Sum | Ready | Proved |", "|---|---|---|---|---|---|---|"]
    for whole, name, parts, ready, end in sorted(rows, reverse=True):
        lines.append("| " + " | ".join([f"`{name}`", *[f"{it:.0f}" for it in parts], f"{whole:.0f}", f"{ready:.0f}", f"{end:.0f}"]) + " |")
    sums = [sum(row[2][it] for row in rows) for it in range(len(KINDS))]
    lines.append("| all | " + " | ".join(f"{it:.0f}" for it in sums) + f" | {sum(sums):.0f} | | {costs.seconds:.0f} |")
    chain, names = costs.chain(below, {it: costs.ended[it] - costs.began[it] for it in costs.began})
    alone, _ = costs.chain(below, {name: took for (name, kind), took in costs.quiet.items() if kind == "proof"})
    counts = sorted(costs.counts) or [QUIET]
    said = [
        f"In all {sum(sums) / 60:.0f} processor minutes, in {costs.seconds / 60:.0f} minutes; {len(rows)} of the {len(below)} crates were proved.",
        f"The longest chain of proofs took {chain / 60:.0f} minutes: " + ", ".join(f"`{it}`" for it in names if it in costs.began) + ".",
        f"Meanwhile counting to a million in Python took {sum(counts) / len(counts):.3f} seconds of a processor, from {counts[0]:.3f} to {counts[-1]:.3f}.",
        f"On one where it always takes {QUIET}, as where it has its core alone, it would be {sum(costs.quiet.values()) / 60:.0f} "
        f"processor minutes, and the longest chain {alone / 60:.0f} minutes.",
    ]
    said += [] if costs.is_whole else ["The run was stopped before its end."]
    return "\n".join([*lines, "", *textwrap.wrap(" ".join(said), 120, break_long_words=False)])


def functions(crate):
    """The functions of a crate by the seconds between the files that the prover wrote: it goes through them one by one."""
    files = []
    for path in glob.glob(f"{TOP}/crates/{crate}/out/incremental/*/Rattle-{crate}-proofs.*.oantt"):
        *function, kind, _ = os.path.basename(path).partition("-proofs.")[2].split(".")
        if function and kind not in ("Mir", "Code", "TheLink", "Symbol", "Key"):
            it = os.stat(path)
            files.append((it.st_mtime, ".".join(function), it.st_size if kind == "Lts" else 0))
    files.sort()
    took, size = {}, {}
    for (before, _, _), (now, name, much) in zip(files, files[1:]):
        took[name] = took.get(name, 0) + now - before
        size[name] = size.get(name, 0) + much
    return "\n".join(f"{took[it]:7.1f} s {size[it] / 1e6:7.2f} MB  {it}" for it in sorted(took, key=took.get, reverse=True))


def put(text, file):
    with open(file, encoding="utf-8") as it:
        whole = it.read()
    new, count = re.subn(r"(<!-- costs -->\n).*?(\n<!-- end of costs -->)", lambda it: it[1] + text + it[2], whole, flags=re.S)
    if count != 1:
        sys.exit(f"costs: {file} does not have the two lines <!-- costs --> and <!-- end of costs --> once")
    with open(file, "w", encoding="utf-8") as it:
        it.write(new)


def main(words):
    if words[:1] == ["run"] and len(words) > 2:
        return run(words[1], words[2:])
    if words[:1] == ["table"] and len(words) > 1:
        logs, _, file = " ".join(words[1:]).partition(" --into ")
        text = table(logs.split())
        put(text, file) if file else print(text)
        return 0
    if words[:1] == ["functions"] and len(words) == 2:
        print(functions(words[1]))
        return 0
    sys.exit(__doc__)


if __name__ == "__main__":
    sys.exit(main(sys.argv[1:]))
