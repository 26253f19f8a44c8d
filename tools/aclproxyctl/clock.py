"""A clock that is set while a run lasts. A run has the clock of its begin: later its moments come from a clock that nobody sets and
that stands still while the machine is suspended. So a run is renewed when the two differ.
"""

import time
from typing import Callable, Optional

# From this difference on, in seconds, a new run begins.
DIFFERENCE = 2.0
# Corrections within this span count as one. Where they go on, the span is doubled up to the greatest, so that a clock that is
# set again and again begins few runs.
PAUSE = 60.0
GREATEST_PAUSE = 3600.0
# The clocks are read one after another; where that takes longer, the reading does not count.
SLOW = 0.1


def since_boot() -> float:
    """The time since the machine began, with the time for which it was suspended."""
    return time.clock_gettime(time.CLOCK_BOOTTIME)


class ClockWatch:
    """Compares the wall clock with a run's begin plus the time since then."""

    def __init__(
        self, wall: Callable[[], float] = time.time, steady: Callable[[], float] = time.monotonic, boot: Callable[[], float] = since_boot
    ) -> None:
        self.wall = wall
        self.steady = steady
        self.boot = boot
        self.pause = PAUSE
        self.renewed: Optional[float] = None
        self.begin()

    def begin(self) -> None:
        """A run begins."""
        self.ahead = self.wall() - self.steady()
        self.suspended = self.boot() - self.steady()

    def news(self) -> Optional[str]:
        """Why a new run is to begin, if the clock is the reason. It is asked about once a second."""
        before = self.steady()
        ahead, suspended = self.wall() - before, self.boot() - before
        if self.steady() - before > SLOW:
            return None
        difference, slept = ahead - self.ahead, suspended - self.suspended
        if abs(difference) < DIFFERENCE:
            return None
        if self.renewed is not None:
            if before - self.renewed < self.pause:
                return None
            self.pause = min(self.pause * 2, GREATEST_PAUSE) if before - self.renewed < self.pause * 2 else PAUSE
        self.renewed = before
        said = []
        if slept >= DIFFERENCE / 2:
            said.append(f"the machine was suspended for {slept:,.0f} seconds")
        step = difference - max(slept, 0.0)
        if abs(step) >= DIFFERENCE / 2:
            said.append(f"the clock was set {'forward' if step > 0 else 'back'} by {abs(step):,.1f} seconds")
        return " and ".join(said) or f"the clock is {difference:+,.1f} seconds from that of the run"
