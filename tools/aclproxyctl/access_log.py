"""The access log of a run that is written: a further file of it begins at a size, and each day.

`serve` appends to the file that it has open, and opens its name again at `reconfigure`. So the file is renamed, and nothing is lost:
until `serve` opens the name again its lines go to the file with the new name.
"""

import os
import re
import time
from pathlib import Path
from typing import Callable

from aclproxyctl.access import FILE, NAME

# Where `serve` did not open the name again, it is ordered to once more after so many seconds.
PATIENCE = 60.0
# How `serve` says how many lines could not be written since it said so last.
DROPPED = re.compile(r"access log: ([0-9,]+) lines? (?:was|were) dropped")


def dropped_in(line: str) -> int:
    """How many lines of the access log could not be written, where a line of `serve` says that."""
    found = DROPPED.search(line)
    return int(found[1].replace(",", "")) if found else 0


def today() -> int:
    return time.localtime().tm_yday


class AccessLog:
    """The file, and whether `serve` is to open its name again. A program that writes no access log makes no file."""

    def __init__(self, run: Path, most: int, day: Callable[[], int] = today, clock: Callable[[], float] = time.monotonic) -> None:
        self.path = run / NAME
        self.most = most
        self.day = day
        self.clock = clock
        self.of_day = day()
        # Whether a file was renamed, and `serve` has not opened the name again.
        self.renamed = False
        self.ordered = float("-inf")
        self.private = False

    def make_private(self) -> None:
        """Lets nobody but its owner read the file, once there is one."""
        if not self.private and self.path.exists():
            self.path.chmod(0o600)
            self.private = True

    def turn(self) -> None:
        """Renames the file where it is due."""
        day = self.day()
        try:
            size = self.path.stat().st_size
        except OSError:
            # There is none, or none yet.
            return
        self.make_private()
        if self.renamed or size == 0:
            return
        if size >= self.most or day != self.of_day:
            os.rename(self.path, self.path.with_name(f"{NAME}.{self.next_number():06}"))
            self.renamed = True
            self.private = False
            self.of_day = day

    def next_number(self) -> int:
        found = [FILE.fullmatch(name) for name in os.listdir(self.path.parent)]
        return max((int(match[1]) + 1 for match in found if match is not None and match[1]), default=0)

    def wants_order(self) -> bool:
        """Whether `serve` is to be ordered now to open the name again."""
        if not self.renamed or self.clock() - self.ordered < PATIENCE:
            return False
        self.ordered = self.clock()
        return True

    def opened(self) -> None:
        """`serve` has read its configuration again, and with it opened the name."""
        self.renamed = False
        self.ordered = float("-inf")
        self.make_private()
