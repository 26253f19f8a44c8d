"""The clock: when a new run is to begin because the clock was set, and how often at most."""

import unittest
from pathlib import Path
from typing import Optional, cast
from unittest import mock

from aclproxyctl.clock import ClockWatch
from aclproxyctl.listening import Port
from aclproxyctl.run import Options, Run, Supervisor
from tests.common import TOP, InFolder


class Machine:
    """Three clocks that can be set."""

    def __init__(self) -> None:
        self.wall = 1_800_000_000.0
        self.steady = 500.0
        self.boot = 600.0
        self.watch = ClockWatch(lambda: self.wall, lambda: self.steady, lambda: self.boot)

    def passes(self, seconds: float) -> None:
        self.wall += seconds
        self.steady += seconds
        self.boot += seconds

    def sleeps(self, seconds: float) -> None:
        """Is suspended."""
        self.wall += seconds
        self.boot += seconds

    def news(self) -> Optional[str]:
        """What is said, after which a new run begins."""
        said = self.watch.news()
        if said is not None:
            self.watch.begin()
        return said


class Watch(unittest.TestCase):
    def test_a_clock_that_goes_on(self) -> None:
        machine = Machine()
        for _ in range(1000):
            machine.passes(60)
            machine.wall += 0.0015
            self.assertIsNone(machine.news())

    def test_steps(self) -> None:
        for step, said in (
            (1.9, None), (-1.9, None), (2.0, "the clock was set forward by 2.0 seconds"), (-2.0, "the clock was set back by 2.0 seconds"),
            (3600.0, "the clock was set forward by 3,600.0 seconds"),
        ):
            machine = Machine()
            machine.passes(10)
            machine.wall += step
            self.assertEqual(machine.news(), said)
            machine.passes(200)
            self.assertIsNone(machine.news())

    def test_small_steps_add_up(self) -> None:
        machine = Machine()
        machine.wall += 1.5
        self.assertIsNone(machine.news())
        machine.passes(3600)
        machine.wall += 1.5
        self.assertEqual(machine.news(), "the clock was set forward by 3.0 seconds")

    def test_suspension(self) -> None:
        machine = Machine()
        machine.sleeps(7200)
        self.assertEqual(machine.news(), "the machine was suspended for 7,200 seconds")
        machine.passes(500)
        machine.sleeps(100)
        machine.wall -= 50
        self.assertEqual(machine.news(), "the machine was suspended for 100 seconds and the clock was set back by 50.0 seconds")

    def test_corrections_within_a_minute_count_as_one(self) -> None:
        machine = Machine()
        machine.wall += 10
        self.assertIsNotNone(machine.news())
        machine.passes(30)
        machine.wall -= 10
        self.assertIsNone(machine.news())
        machine.passes(29)
        self.assertIsNone(machine.news())
        machine.passes(1)
        self.assertEqual(machine.news(), "the clock was set back by 10.0 seconds")

    def test_a_clock_that_is_set_again_and_again(self) -> None:
        """In a day of steps each second there are a new run after 60, 120, 240 seconds and so on, and then one an hour."""
        machine = Machine()
        moments = []
        for second in range(86_400):
            machine.passes(1)
            machine.wall += 5
            if machine.news() is not None:
                moments.append(second)
        spans = [later - earlier for earlier, later in zip(moments, moments[1:])]
        self.assertEqual(spans[:7], [60, 120, 240, 480, 960, 1920, 3600])
        self.assertEqual(set(spans[7:]), {3600})
        # A clock that was calm for long is trusted as before.
        machine.watch.begin()
        machine.passes(10_000)
        machine.wall += 5
        self.assertIsNotNone(machine.news())
        machine.passes(60)
        machine.wall += 5
        self.assertIsNotNone(machine.news())

    def test_clocks_that_are_read_slowly(self) -> None:
        """Where the machine was busy elsewhere between two readings, nothing follows."""
        machine = Machine()
        steady = iter([500.0, 503.0])
        machine.watch.steady = lambda: next(steady)
        machine.wall += 3
        machine.boot += 3
        self.assertIsNone(machine.watch.news())


class Renewal(InFolder):
    def test_a_new_run_begins(self) -> None:
        conf = self.file("conf", "http_access deny all\n")
        options = Options("none", conf, str(self.folder), None, None, None, False, 1.0)
        supervisor = Supervisor(options, b"http_access deny all\n", cast(Port, mock.Mock()))
        run = cast(Run, mock.Mock(port=1, bytes=lambda: 100))
        self.assertIsNone(supervisor.renewal(run))
        supervisor.watch.ahead -= 5.0
        self.assertEqual(supervisor.renewal(run), "the clock was set forward by 5.0 seconds")

    def test_the_unit_waits_for_the_time(self) -> None:
        unit = (TOP / "packaging" / "aclproxy.service").read_text() if Path(TOP / "packaging").is_dir() else "After=time-sync.target"
        self.assertRegex(unit, r"(?m)^After=.*\btime-sync\.target\b")


if __name__ == "__main__":
    unittest.main()
