"""Retention: finished runs are compressed, and old ones are removed, oldest first, but never a run that is still written."""

import os
import re
import shutil
import threading
import time
from dataclasses import dataclass, field
from pathlib import Path
from typing import Callable, Optional, TextIO

from aclproxyctl import words
from aclproxyctl.disk import size_in_words
from aclproxyctl.errors import DONE, UserError
from aclproxyctl.journal import is_written, runs_at, started
from aclproxyctl.packed import UNFINISHED, never, pack

# What is compressed of a run.
PLAIN = re.compile(r"(journal\.[0-9]+|access\.log(\.[0-9]+)?)")
REMOVED = ".removed-"
# So often the supervisor looks.
PAUSE = 60.0
DAY = 86400.0


@dataclass(frozen=True)
class Limits:
    """For how long runs are kept, and how many bytes of them: a number, or a share of their disk."""

    seconds: Optional[float] = None
    bytes: Optional[int] = None
    percent: Optional[float] = None

    def most_bytes(self, folder: Path) -> Optional[int]:
        if self.percent is None:
            return self.bytes
        disk = os.statvfs(folder)
        return int(disk.f_blocks * disk.f_frsize * self.percent / 100)

    def said(self, folder: Path) -> str:
        """The limits in words."""
        parts = []
        if self.seconds is not None:
            parts.append(f"for {span_in_words(self.seconds)}")
        most = self.most_bytes(folder)
        if most is not None:
            share = f" ({self.percent:g}% of the disk)" if self.percent is not None else ""
            parts.append(f"up to {size_in_words(most)}{share}")
        return f"runs are kept {', and '.join(parts)}" if parts else "runs are kept until somebody removes them: see --keep and --keep-bytes"


def span_in_words(seconds: float) -> str:
    for unit, length in (("day", DAY), ("hour", 3600.0), ("minute", 60.0)):
        if seconds >= length and seconds % length == 0:
            return words.plural(int(seconds // length), unit)
    return words.plural(int(seconds), "second")


def span(text: str) -> float:
    """The seconds of a span as 90d, 12h, 30m or 600s."""
    found = re.fullmatch(r"([0-9]{1,9})([smhd])", text)
    if found is None or int(found[1]) == 0:
        raise ValueError
    return int(found[1]) * {"s": 1.0, "m": 60.0, "h": 3600.0, "d": DAY}[found[2]]


def size(text: str) -> Limits:
    """A limit of bytes as 500M, 20G or 20%."""
    found = re.fullmatch(r"([0-9]{1,15})([KMGT]?)", text)
    if found is not None and int(found[1]) > 0:
        return Limits(bytes=int(found[1]) * 1024 ** " KMGT".index(found[2] or " "))
    found = re.fullmatch(r"([0-9]{1,2}(?:\.[0-9]{1,3})?)%", text)
    if found is not None and float(found[1]) > 0:
        return Limits(percent=float(found[1]))
    raise ValueError


@dataclass
class Found:
    """A run that a folder has: its size, and when something was written to it last."""

    folder: Path
    size: int
    last: float
    current: bool


@dataclass
class Swept:
    """What was done, and what is left."""

    removed: list[str] = field(default_factory=list)
    packed: int = 0
    kept: int = 0
    bytes: int = 0


def runs_found(folder: Path) -> list[Found]:
    """The runs that `run` has made in a folder, oldest first. The newest counts as current, since an older supervisor locks none."""
    found = []
    names = sorted(name for name in os.listdir(folder) if started(Path(name)) is not None)
    for name in names:
        run = folder / name
        if run.is_symlink() or not run.is_dir():
            continue
        size = 0
        moments = []
        for entry in os.scandir(run):
            try:
                state = entry.stat(follow_symlinks=False)
            except OSError:
                continue
            size += state.st_size
            if PLAIN.match(entry.name):
                moments.append(state.st_mtime)
        # When the folder itself changed does not matter: files are put into it when they are compressed.
        last = max(moments, default=run.stat().st_mtime)
        found.append(Found(run, size, last, is_written(run)))
    if found:
        found[-1].current = True
    return found


def remove(run: Path) -> None:
    """Removes a run. It is renamed before, so that no part of one is taken for a run."""
    away = run.with_name(REMOVED + run.name)
    os.rename(run, away)
    shutil.rmtree(away, ignore_errors=True)


def clean(folder: Path) -> None:
    """Removes what an earlier removal left."""
    for name in os.listdir(folder):
        if name.startswith(REMOVED) and started(Path(name[len(REMOVED) :])) is not None:
            shutil.rmtree(folder / name, ignore_errors=True)


def pack_run(run: Path, cancelled: Callable[[], bool]) -> int:
    """Compresses the files of a finished run, and says how many."""
    count = 0
    for name in sorted(os.listdir(run)):
        if name.endswith(UNFINISHED) and PLAIN.match(name):
            (run / name).unlink(missing_ok=True)
        elif PLAIN.fullmatch(name) and not cancelled():
            count += pack(run / name, cancelled) is not None
    return count


def sweep(
    folder: Path, limits: Limits, packing: bool, say: Callable[[str], None], cancelled: Callable[[], bool] = never, now: Optional[float] = None
) -> Swept:
    """Removes and compresses what is due."""
    done = Swept()
    if not folder.is_dir():
        return done
    moment = time.time() if now is None else now
    clean(folder)

    def take_away(run: Found, why: str) -> None:
        remove(run.folder)
        done.removed.append(run.folder.name)
        say(f"the run {run.folder.name} was removed, of {size_in_words(run.size)}: {why}")

    for run in runs_found(folder):
        age = moment - run.last
        if limits.seconds is not None and not run.current and age > limits.seconds:
            take_away(run, f"it ended {span_in_words(age // DAY * DAY if age >= DAY else age)} ago, and runs are kept for {span_in_words(limits.seconds)}")
    if packing:
        for run in runs_found(folder):
            if not run.current and not cancelled():
                count = pack_run(run.folder, cancelled)
                done.packed += count
                if count:
                    after = sum(entry.stat().st_size for entry in os.scandir(run.folder))
                    say(f"the run {run.folder.name} was compressed, from {size_in_words(run.size)} to {size_in_words(after)}")
    runs = runs_found(folder)
    total = sum(run.size for run in runs)
    most = limits.most_bytes(folder)
    for run in runs:
        if most is None or total <= most or cancelled():
            break
        if not run.current:
            take_away(run, f"all runs together have {size_in_words(total)}, and they may have {size_in_words(most)}")
            total -= run.size
    done.bytes = total
    done.kept = len(runs_found(folder))
    return done


class Housekeeper:
    """Does this beside a service, in a thread of low priority."""

    def __init__(self, folder: Path, limits: Limits, packing: bool, say: Callable[[str], None]) -> None:
        self.folder = folder
        self.limits = limits
        self.packing = packing
        self.say = say
        self.ended = threading.Event()
        self.wanted = threading.Event()
        self.complaint = ""
        self.thread = threading.Thread(target=self.work, name="housekeeper", daemon=True)

    def poke(self) -> None:
        """Has it look now, since a run has begun and another one may have ended."""
        self.wanted.set()
        if self.thread.ident is None and (self.packing or self.limits != Limits()):
            self.thread.start()

    def stop(self) -> None:
        self.ended.set()
        self.wanted.set()
        if self.thread.is_alive():
            self.thread.join(1.0)

    def work(self) -> None:
        try:
            # Of this thread alone, and of the programs that it starts.
            os.setpriority(os.PRIO_PROCESS, threading.get_native_id(), 10)
        except OSError:
            pass
        while not self.ended.is_set():
            self.wanted.clear()
            try:
                sweep(self.folder, self.limits, self.packing, self.say, self.ended.is_set)
                self.complaint = ""
            except (OSError, UserError) as fault:
                # Once, and not each minute.
                if str(fault) != self.complaint:
                    self.complaint = str(fault)
                    self.say(f"old runs cannot be compressed or removed: {fault}")
            self.wanted.wait(PAUSE)


def prune(out: TextIO, named: str, limits: Limits, packing: bool) -> int:
    """The command."""
    folder = Path(named)
    runs_at(named)

    def say(text: str) -> None:
        out.write(text + "\n")

    done = sweep(folder, limits, packing, say)
    say(
        f"{named}: {words.plural(len(done.removed), 'run')} removed, {words.plural(done.packed, 'file')} compressed; "
        f"{words.plural(done.kept, 'run')} left, of {size_in_words(done.bytes)}"
    )
    return DONE
