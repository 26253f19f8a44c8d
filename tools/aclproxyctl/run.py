"""run: the supervisor of a service. It begins runs, each before the one that serves ends, and turns signals into orders for `serve`."""

import os
import selectors
import signal
import time
from pathlib import Path
from types import FrameType
from typing import Optional

from aclproxyctl import words
from aclproxyctl.appended import Left
from aclproxyctl.clock import ClockWatch
from aclproxyctl.confs import Conf, read
from aclproxyctl.disk import Disk
from aclproxyctl.errors import UserError, of_system
from aclproxyctl.listening import Port, Wanted, port_for
from aclproxyctl.ledger import Ledger
from aclproxyctl.metrics import Collector, Told
from aclproxyctl.metrics import serve as serve_metrics
from aclproxyctl.notify import Notifier
from aclproxyctl.retention import Housekeeper, span_in_words
from aclproxyctl.running import (
    ACCESS_BYTES,
    CURRENT_CONF,
    LINGER,
    NOT_STARTED,
    PIECE_LINES,
    RUN_BYTES,
    Options,
    Run,
    is_anybody_connected,
    say,
    write_new,
)
from aclproxyctl.warnings import zone_offset

# So often a file is emptied to which more is written than is read.
FLOOD_PAUSE = 0.1
LEAST_RUN_BYTES = 1024 * 1024
# Where a new run did not come to listen, the next one is begun after so many seconds.
PAUSE_OF_RENEWALS = 60.0
# A run whose connections went on ends by itself in time. One that does not is ended after so many seconds more.
SLACK = 60.0
# A new run that does not listen by then is ended. The one before it goes on.
PATIENCE = 60.0
DEFAULT_PORT = 3128

__all__ = ["ACCESS_BYTES", "LINGER", "PIECE_LINES", "RUN_BYTES", "Options", "Run", "Supervisor", "run", "say"]


class Supervisor:
    """Begins runs, one after the other, and does what signals ask for. While a new run begins the one before it serves; then that one's
    connections go on beside it.
    """

    def __init__(self, options: Options, source: bytes, port: Port, notifier: Optional[Notifier] = None) -> None:
        self.options = options
        self.notifier = notifier or Notifier()
        self.port = port
        # How the server ended, in words.
        self.why = ""
        self.watch = ClockWatch()
        self.disk = Disk(Path(options.journal))
        self.housekeeper = Housekeeper(Path(options.journal), options.limits, options.packing, say)
        self.left = Left(say)
        self.told = Told()
        self.ledger = Ledger(say)
        self.dropped_before = 0
        self.run_bytes = options.run_bytes
        self.selector = selectors.DefaultSelector()
        self.caught: list[int] = []
        self.wake_out, self.wake_in = os.pipe()
        for end in (self.wake_out, self.wake_in):
            os.set_blocking(end, False)
        self.source = source
        # The run that serves, the one that begins and does not listen yet, and those whose connections go on.
        self.current: Optional[Run] = None
        self.coming: Optional[Run] = None
        # The clocks of the run that serves, while another one begins.
        self.clocks = (self.watch.ahead, self.watch.suspended)
        self.lingering: list[Run] = []
        self.status = 0
        self.reload_wanted = False
        self.renewal_wanted = False
        # Before this moment no further run is begun, since one did not come to listen.
        self.not_before = 0.0
        self.reading: Optional[bytes] = None
        # Whether that is the current configuration once more, so that a further file of the access log begins.
        self.reopening = False
        self.stopping = False
        self.stopped_at: Optional[float] = None
        self.shut = False

    def catch(self, number: int, frame: Optional[FrameType]) -> None:
        self.caught.append(number)

    def runs(self) -> list[Run]:
        """All runs that have not ended, the oldest first."""
        return [*self.lingering, *(run for run in (self.current, self.coming) if run is not None)]

    def serve(self) -> int:
        """Runs until the service ends, and has the status to end with."""
        signal.set_wakeup_fd(self.wake_in, warn_on_full_buffer=False)
        for number in (signal.SIGHUP, signal.SIGUSR1, signal.SIGTERM, signal.SIGINT):
            signal.signal(number, self.catch)
        self.selector.register(self.wake_out, selectors.EVENT_READ)
        if self.options.metrics is not None:
            serve_metrics(self.options.metrics, Collector(Path(self.options.journal), self.told, self.ledger))
        try:
            self.current = self.begin()
            self.ledger.start()
            self.tick = time.monotonic() + 1
            while self.runs():
                self.turn()
        finally:
            self.left.close()
            self.housekeeper.stop()
            self.ledger.stop()
        return self.status

    def begin(self) -> Run:
        """A further run, by the configuration that is current."""
        try:
            run = Run(self.options, self.source, self.port)
        except OSError as fault:
            raise of_system(fault, self.options.journal) from None
        say(f"the journal is in {run.folder}; {self.options.limits.said(run.folder)}")
        self.ledger.watch(run.folder)
        self.housekeeper.poke()
        most = self.options.limits.most_bytes(run.folder)
        if most is not None:
            # The current run is never removed, so it may have half of what is kept.
            self.run_bytes = min(self.options.run_bytes, max(most // 2, LEAST_RUN_BYTES))
        self.selector.register(run.output, selectors.EVENT_READ)
        return run

    def turn(self) -> None:
        """Waits until something is to be done, a second at most, and does it."""
        flooded = any(run.is_flooded() for run in self.runs()) or any(file.flooded for file in self.left.files)
        self.selector.select(min(FLOOD_PAUSE if flooded else 1.0, max(0.0, self.tick - time.monotonic())))
        self.drain()
        for run in self.runs():
            for line in run.lines():
                self.heard(run, line)
            if run.ended:
                self.ended(run)
        self.signals()
        if flooded:
            for run in self.runs():
                run.follow()
            self.left.look()
        if time.monotonic() >= self.tick:
            self.tick = time.monotonic() + 1
            self.each_second()

    def drain(self) -> None:
        try:
            while os.read(self.wake_out, 512):
                pass
        except BlockingIOError:
            pass

    def signals(self) -> None:
        while self.caught:
            number = self.caught.pop(0)
            if number == signal.SIGHUP:
                self.reload_wanted = True
            elif number == signal.SIGUSR1:
                self.renewal_wanted = True
            elif self.stopping:
                say("a second signal: it ends at once")
                for run in self.runs():
                    run.kill()
            else:
                self.stopping = True
                self.notifier.stopping()
                self.stop()
        run = self.current
        if run is None or not run.listening or self.reading is not None or self.stopped_at is not None or self.coming is not None:
            return
        if self.reload_wanted:
            self.reload_wanted = False
            self.reload(run)
        elif self.renewal_wanted and time.monotonic() >= self.not_before:
            self.renewal_wanted = False
            self.renew("it was asked for")

    def stop(self) -> None:
        """All runs end, and their connections within half a minute."""
        if self.stopped_at is None:
            self.stopped_at = time.monotonic()
        for run in self.runs():
            run.leave()

    def turn_access_log(self, run: Run) -> None:
        """Has a further file of the access log begin where it is due: the configuration that is current is read once more."""
        if run.access is None or not run.listening or self.reading is not None or self.stopped_at is not None:
            return
        try:
            run.access.turn()
            if not self.reload_wanted and run.access.wants_order():
                write_new(run.folder / CURRENT_CONF, self.source)
                self.reading = self.source
                self.reopening = True
                run.order(b"reconfigure")
        except OSError as fault:
            say(f"no further file of the access log can be begun: {of_system(fault, str(run.folder)).text}")

    def reload(self, run: Run) -> None:
        self.notifier.reloading()
        try:
            self.reading = read(self.options.conf)
            write_new(run.folder / CURRENT_CONF, self.reading)
        except UserError as fault:
            self.kept(f"{fault.text}")
            return
        except OSError as fault:
            self.kept(of_system(fault, str(run.folder)).text)
            return
        run.order(b"reconfigure")

    def kept(self, why: str) -> None:
        self.reading = None
        self.told.refused += 1
        say(f"the configuration stays as it was: {why}")
        self.notifier.ready("the configuration stays as it was")

    def heard(self, run: Run, line: str) -> None:
        """A line of `serve`, in words."""
        said = line.split(" ")
        if said[0] == "listening":
            run.listens(self.port.port)
            say(f"listening at port {self.port.port}")
            if self.stopped_at is not None:
                # It has been told to end already.
                return
            if run is self.coming:
                self.change()
            self.notifier.ready(f"listening at port {self.port.port}")
        elif run is not self.current:
            # What it says of its end is told at its end.
            return
        elif said[0] == "reconfigured" and self.reopening:
            self.reopening = False
            self.reading = None
            if run.access is not None:
                run.access.opened()
            say("a further file of the access log begins")
        elif said[:2] == ["kept", "old"] and self.reopening:
            # It is ordered again later. Until then its lines go to the file that was renamed.
            self.reopening = False
            self.reading = None
        elif said[0] == "reconfigured":
            if run.access is not None:
                run.access.opened()
            if self.reading is not None:
                self.source = self.reading
                self.reading = None
            say(f"the configuration was read again, and is number {said[1]} of this run")
            self.notifier.ready(f"configuration {said[1]} of this run")
        elif said[:2] == ["kept", "old"]:
            self.kept(self.refused(self.reading, said[2:]))

    def renew(self, why: str) -> None:
        """A new run begins. The one that serves is ordered to end once the new one listens."""
        say(f"{why}: a new run begins")
        self.notifier.status("a new run begins")
        try:
            self.coming = self.begin()
        except UserError as fault:
            self.not_begun(fault.text)
            return
        self.clocks = (self.watch.ahead, self.watch.suspended)
        self.watch.begin()

    def change(self) -> None:
        """The new run listens, so the one before lets nobody in any more."""
        before, self.current, self.coming = self.current, self.coming, None
        assert before is not None
        self.lingering.append(before)
        before.shut_down()
        say(f"the open connections of {before.folder.name} go on for {span_in_words(self.options.linger)} at most")

    def not_begun(self, why: str) -> None:
        """No new run has come to listen. It is tried again later."""
        self.not_before = time.monotonic() + PAUSE_OF_RENEWALS
        say(f"the new run has not begun, and the one before it goes on: {why}")
        self.notifier.ready("a new run has not begun; the one before it goes on")

    def refused(self, source: Optional[bytes], said: list[str]) -> str:
        """Why a configuration was not taken."""
        if len(said) == 2 and source is not None:
            conf = Conf(source)
            line = conf.line(int(said[0]))
            shown = f": {line.shown()}" if line is not None else ""
            return f"{self.options.conf}:{said[0]}: {words.of_fault(conf, int(said[0]), int(said[1]))}{shown}"
        return words.KEPT.get(said[0], " ".join(said))

    def each_second(self) -> None:
        for run in self.runs():
            run.order(b"")
            run.follow()
        self.left.look()
        for run in self.runs():
            self.ledger.lost(run.folder, run.lost)
        self.told.dropped = self.dropped_before + sum(run.errors.dropped_in_all for run in self.runs())
        self.notifier.alive()
        news = self.disk.news()
        if news is not None:
            say(news)
        if self.stopped_at is not None:
            self.end_in_time(self.stopped_at)
            return
        for run in self.lingering:
            self.look_after(run)
        if self.coming is not None and (self.coming.killed_at is not None or time.monotonic() - self.coming.begun_at >= PATIENCE):
            self.coming.kill()
        run = self.current
        if run is None:
            return
        self.turn_access_log(run)
        if run.split.poll() is not None:
            say("the journal is not written any more: the server ends")
            self.stopping = True
            self.stopped_at = time.monotonic()
            run.order(b"")
            for other in self.runs():
                if other is not run:
                    other.leave()
        elif run.listening and self.coming is None and self.reading is None and time.monotonic() >= self.not_before:
            why = self.renewal(run)
            if why is not None:
                self.renew(why)

    def end_in_time(self, stopped_at: float) -> None:
        """What is done each second while all ends."""
        passed = time.monotonic() - stopped_at
        if passed >= 1 and not self.shut:
            # By now no run waits at the socket. Who comes is refused, and does not wait for nothing.
            self.shut = True
            self.port.shut()
        runs = self.runs()
        if passed >= self.options.grace or any(run.killed_at is not None for run in runs):
            if all(run.killed_at is None for run in runs):
                say(f"connections are still open after {self.options.grace:g} seconds: it ends at once")
            for run in runs:
                run.kill()

    def look_after(self, run: Run) -> None:
        """What is done each second for a run whose connections go on."""
        if run.split.poll() is not None and run.killed_at is None:
            say(f"the journal of {run.folder.name} is not written any more: its connections end")
            run.kill()
        elif run.killed_at is not None:
            run.kill()
        elif run.asked_at is not None and time.monotonic() - run.asked_at >= self.options.linger + SLACK:
            say(f"the run {run.folder.name} has not ended in its time: it ends at once")
            run.kill()

    def renewal(self, run: Run) -> Optional[str]:
        """Why a new run is to begin, if one is."""
        size = run.bytes()
        if size >= self.run_bytes:
            return f"the journal has {size:,} bytes"
        if size >= self.run_bytes // 2 and not is_anybody_connected(run.port, run.serve.pid):
            return f"the journal has {size:,} bytes, and nobody is connected"
        if self.options.from_zone and zone_offset() != run.offset:
            return f"local time is {zone_offset():+d} minutes from UTC now"
        return self.watch.news()

    def ended(self, run: Run) -> None:
        """A run has ended. With the one that serves all others end, too."""
        self.selector.unregister(run.output)
        status = run.close(self.left)
        self.dropped_before += run.errors.dropped_in_all
        self.ledger.lost(run.folder, run.lost)
        # Where somebody holds the pipe of its journal, more may come.
        self.ledger.ended(run.folder, run.split.poll() is not None)
        if run is self.coming:
            self.coming = None
            self.watch.ahead, self.watch.suspended = self.clocks
            if self.stopped_at is None:
                self.not_begun(self.why_of(run, status))
            return
        if run in self.lingering:
            self.lingering.remove(run)
            self.housekeeper.poke()
            if status != 0 and run.killed_at is None:
                say(f"the run {run.folder.name}, which had been ordered to end, has ended otherwise: {self.why_of(run, status)}")
            return
        self.current = None
        self.status = 128 - status if status < 0 else status
        self.why = self.why_of(run, status)
        say(self.why)
        if self.stopping is False:
            self.notifier.stopping(self.why)
        self.stop()

    def why_of(self, run: Run, status: int) -> str:
        """How a run has ended, in words."""
        if status < 0:
            return f"the server was ended by signal {-status}"
        said = run.last.split(" ")
        if said[:2] == ["error", "config"] and len(said) == 4:
            why = self.refused(run.source, said[2:])
        elif status == 9 and not run.listening:
            why = f"{self.port.wanted.said()} is taken or may not be opened"
            if self.port.fault or run.refusal:
                why += f": {self.port.fault or run.refusal}"
        elif status in NOT_STARTED and not run.listening:
            why = f"{self.options.program} cannot be run"
        else:
            why = words.STATUSES.get(status, f"its last line is {run.last!r}")
        return f"the server has ended with status {status}: {why}"


def run(options: Options) -> int:
    """The command."""
    notifier = Notifier()
    try:
        source = read(options.conf)
        return Supervisor(options, source, port_for(wanted_by(options, source), notifier), notifier).serve()
    except UserError as fault:
        notifier.stopping(fault.text)
        raise


def wanted_by(options: Options, source: bytes) -> Wanted:
    """Where clients are to come, by the options or else by the configuration. It stays so, whatever is read later."""
    if options.listen is not None:
        return Wanted(options.listen[1], options.listen[0])
    if options.port is not None:
        return Wanted(options.port)
    stated = Conf(source).port()
    # A port that is none is a fault, which the program names.
    return Wanted(int(stated) if stated.isdecimal() and 0 < int(stated) < 65536 else DEFAULT_PORT)
