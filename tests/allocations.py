#!/usr/bin/env python3
"""What ends takes as many allocations, however much ends: tests/allocations.py [--program PROGRAM]

The calls of the machine by which something ends (a death, a start that failed, the close of a connection, the outcome of a check) are
said to take no memory. No clause says so of a call that has room of its own to grow. So this counts: `replay` runs a script once with
and once without its last line, and what that line cost is the difference of the calls of malloc and its kin. It has to be the same
whether nothing ends with the event or much does: a list that grows on the way would be seen.

What a script has to show by docs/FORMATS.md is compared, so that what is counted is the event that is meant: how many checks wait, and
what the last line comes to. The calls are counted by the library of tests/memory.py, which `cc` builds: without one all is left out.
"""

import argparse
import shutil
import subprocess
import sys
import tempfile
from collections.abc import Iterator
from dataclasses import dataclass
from pathlib import Path

sys.dont_write_bytecode = True

from memory import LIBRARY, TOP, Control  # noqa: E402

CONF = """external_acl_type names ttl=60 children-max=1 concurrency=200 %PATH /bin/names
acl asked external names
http_access allow asked
"""
# The same with a start that is open from the beginning on.
STARTS = CONF.replace("children-max=1", "children-max=1 children-startup=1")
# A check that asks one class after the other, until one says no.
CLASSES = 4
EACH = "".join(
    [f"external_acl_type class{it} ttl=60 children-max=1 %PATH /bin/names\nacl asked{it} external class{it}\n" for it in range(1, CLASSES + 1)]
    + ["http_access allow " + " ".join(f"asked{it}" for it in range(1, CLASSES + 1)) + "\n"]
)
# A connection of its own, whose check was answered and taken: so a process lives, and owes nothing.
FIRST = ["open 1 10.0.0.1 4001", "ask 1 GET http://a.example/0", "step 1", "started 1 names", "line 1 0%20OK", "step 1", "take 1"]
MANY = 60


@dataclass
class Case:
    """An event, after which so much ends in each of these scripts: its last line is the event."""

    what: str
    scripts: dict[int, list[str]]
    # What the event comes to.
    says: str
    # So many steps wait in each script, beside those by which it is told from the others.
    before: int = 0
    conf: str = CONF


def waiting(count: int, first: int) -> list[str]:
    """So many connections from this number on, each with a check that waits for an answer."""
    return [
        line
        for it in range(first, first + count)
        for line in (f"open {it} 10.0.0.1 {4000 + it}", f"ask {it} GET http://a.example/{it}", f"step {it}")
    ]


def asking(count: int) -> list[str]:
    """A connection with a check that is done once so many classes have answered it, the last of them by a no."""
    lines = ["open 1 10.0.0.1 4001", "ask 1 GET http://a.example/0"]
    for it in range(1, count + 1):
        lines += ["step 1", f"started 1 class{it}", f"line {it} {'OK' if it < count else 'ERR'}"]
    return [*lines, "step 1"]


def cases() -> Iterator[Case]:
    yield Case("a death, by the questions that are lost with it", {n: [*FIRST, *waiting(n, 2), "died 1"] for n in (0, 1, 2, MANY)}, "ok", 1)
    yield Case(
        "a start that failed, by the questions that are lost with it",
        {n: [*waiting(n, 1), "startfail 1 names"] for n in (0, 1, 2, MANY)},
        "ok",
        conf=STARTS,
    )
    yield Case(
        "the close of a connection with a check that waits, by those that wait beside it",
        {n: [*FIRST, *waiting(n, 2), "close 2"] for n in (1, 2, MANY)},
        "ok",
        1,
    )
    yield Case(
        "the close of a connection, without and with an open check",
        {n: [*FIRST, *(waiting(1, 2) if n else ["open 2 10.0.0.1 4002"]), "close 2"] for n in (0, 1)},
        "ok",
        1,
    )
    yield Case(
        "an outcome that is taken, by the checks that are open beside it",
        {n: [*FIRST[:-1], *waiting(n, 2), "take 1"] for n in (0, 1, MANY)},
        "epoch 1 allowed rule 1",
        1,
    )
    yield Case(
        "an outcome that is taken, by the answers that it came of",
        {n: [*asking(n), "take 1"] for n in range(1, CLASSES + 1)},
        "epoch 1 denied default",
        conf=EACH,
    )


class Count:
    """Counts the calls of a run."""

    def __init__(self, program: str, folder: Path) -> None:
        self.program, self.folder = program, folder
        self.library = folder / "counting.so"
        source = folder / "counting.c"
        source.write_text(LIBRARY)
        subprocess.run(["cc", "-O1", "-shared", "-fPIC", "-o", self.library, source, "-ldl"], check=True)

    def calls(self, conf: str, lines: list[str]) -> tuple[int, list[str]]:
        """How many calls a run took, and the lines that it wrote."""
        (self.folder / "squid.conf").write_text(conf)
        (self.folder / "script").write_text("".join(f"0 {line}\n" for line in lines))
        control = Control(self.folder / "control", 0, counts=True)
        more = {"LD_PRELOAD": str(self.library), "REFUSING": str(control.path)}
        ran = subprocess.run(
            [self.program, "replay", "squid.conf", "script"], cwd=self.folder, env=more, capture_output=True, timeout=20, check=False
        )
        last = ran.stdout.splitlines()[-1] if ran.stdout else b""
        if ran.returncode or not control.calls:
            sys.exit(f"allocations: status {ran.returncode}, {last!r}, {ran.stderr!r}")
        return control.calls, ran.stdout.decode("ascii").splitlines()

    def cost(self, case: Case, number: int) -> int:
        """What the last line costs: the least of some runs with other lines before, since a buffer may just then have grown."""
        costs, lines = [], case.scripts[number]
        for more in range(4):
            before = [f"open {900 + it} 10.0.0.2 {5000 + it}" for it in range(5 * more)]
            with_it, said = self.calls(case.conf, [*before, *lines])
            without_it, _ = self.calls(case.conf, [*before, *lines[:-1]])
            check(case, number, said)
            costs.append(with_it - without_it)
        return min(costs)


def check(case: Case, number: int, said: list[str]) -> None:
    """Ends it all where a run did not show what it has to."""
    waits = sum(" => waits " in line for line in said)
    if waits != case.before + number:
        sys.exit(f"allocations, {case.what}, {number}: {waits} steps wait, and not {case.before + number}")
    last = [line for line in said if not line.startswith("0 act => ")][-1]
    wanted = f"0 {case.scripts[number][-1]} => {case.says}"
    if last != wanted:
        sys.exit(f"allocations, {case.what}, {number}: {last!r}, and not {wanted!r}")


def main() -> int:
    words = argparse.ArgumentParser(usage=__doc__)
    words.add_argument("--program", default=str(TOP / "dist" / "aclproxy-x86_64-linux"))
    program = words.parse_args().program
    if not shutil.which("cc"):
        print("allocations: left out, since there is no C compiler")
        return 0
    faults = 0
    with tempfile.TemporaryDirectory() as folder:
        count = Count(str(Path(program).resolve()), Path(folder))
        for case in cases():
            costs = {n: count.cost(case, n) for n in case.scripts}
            same = len(set(costs.values())) == 1
            faults += not same
            told = ", ".join(f"{cost} with {n}" for n, cost in costs.items())
            print(f"allocations, {case.what}: {told}{'' if same else ': NOT THE SAME'}")
    return 1 if faults else 0


if __name__ == "__main__":
    sys.exit(main())
