"""What a service counts of its runs. Each run's counts are kept in a file beside its journal, and those of all runs add up."""

import threading
import time
from pathlib import Path
from typing import Callable, Optional

from aclproxyctl import counters
from aclproxyctl.counts import Counted, Counts, Watched

# So often journals and access logs are read on, and the files of counters are written.
PAUSE = 1.0
LEAST_PAUSE = 0.01
# Who waits for the counts waits so long at most for what is still to be read of a run; a service with more than that is counted later.
SPAN = 0.5
# At its end the service counts so long at most.
LAST_SPAN = 5.0


class Ledger:
    """The runs that are read on, and the counts of those that have ended."""

    def __init__(self, say: Callable[[str], object] = lambda text: None, keep: bool = True) -> None:
        self.say = say
        # Whether files of counters are written.
        self.keep = keep
        self.since = int(time.time() * 1000)
        self.over = Counts()
        # The one that began last, and runs that began before it and have not ended.
        self.watched: Optional[Watched] = None
        self.before: list[Watched] = []
        self.complaint = ""
        self.lock = threading.Lock()
        self.ended_all = threading.Event()

    def all(self) -> list[Watched]:
        return [*self.before, *([self.watched] if self.watched is not None else [])]

    def watch(self, run: Path) -> None:
        """A run begins; the one before is read on until it ends."""
        with self.lock:
            self.before = self.all()
            self.watched = Watched(run)

    def ended(self, run: Path, whole: bool = True) -> None:
        """A run has ended, and nothing more comes where that is whole. What is left of it is counted now or soon."""
        with self.lock:
            for one in self.all():
                if one.run == run:
                    one.over = True
                    one.whole = whole
                    self.count(one)

    def settle(self, one: Watched) -> None:
        """All of a run is counted. Where it is the last one to have begun, the one before is the last from now on."""
        one.close()
        if one is not self.watched:
            self.before.remove(one)
            self.over.join(one.counts)
            return
        going = [other for other in self.before if not other.over]
        if going:
            self.watched = going[-1]
            self.before.remove(going[-1])
            self.over.join(one.counts)

    def lost(self, run: Path, lines: int) -> None:
        """So many lines of a run's access log could not be written in all."""
        with self.lock:
            for one in self.all():
                if one.run == run and one.counts.lost != lines:
                    one.counts.lost = lines
                    one.changed = True

    def update(self) -> bool:
        """Reads all runs on, and says whether that was all of them."""
        with self.lock:
            return all([self.count(one) for one in self.all()])

    def count(self, one: Watched) -> bool:
        """Reads a run on, and says whether that was all. Its counts are kept where they have changed, once a second at most, or are whole now."""
        if one.closed:
            return True
        done = one.update(SPAN)
        over = done and one.over
        if self.keep and (over or (one.changed and time.monotonic() - one.kept_at >= PAUSE)) and one.run.is_dir():
            self.keep_counts(one, over and one.whole)
        if over:
            self.settle(one)
        return done

    def keep_counts(self, one: Watched, whole: bool) -> None:
        one.kept_at = time.monotonic()
        try:
            counters.write(one.run, one.counted(), whole)
            one.changed = False
            self.complaint = ""
        except OSError as fault:
            # Once, and not each second.
            if str(fault) != self.complaint:
                self.complaint = str(fault)
                self.say(f"the counters cannot be kept: {fault}")

    def found(self) -> tuple[Optional[Path], list[Counted], Counts]:
        """What is counted by now: the run that began last, each run that has not ended, that one as the last, and the counts of all."""
        with self.lock:
            for one in self.all():
                one.update(SPAN if self.keep else float("inf"))
            total = Counts()
            total.join(self.over)
            for one in self.all():
                total.join(one.counts)
            return self.watched.run if self.watched is not None else None, [one.counted() for one in self.all()], total

    def work(self) -> None:
        """Counts, until the service ends."""
        pause = PAUSE
        while not self.ended_all.wait(pause):
            # Where more comes than is read in its span, it reads on at once.
            pause = PAUSE if self.update() else LEAST_PAUSE

    def start(self) -> None:
        threading.Thread(target=self.work, name="counts", daemon=True).start()

    def stop(self) -> None:
        """The service ends. What is not counted by then is read by who asks for it."""
        self.ended_all.set()
        until = time.monotonic() + LAST_SPAN
        while not self.update() and time.monotonic() < until:
            pass

    def close(self) -> None:
        with self.lock:
            for one in self.all():
                one.close()
