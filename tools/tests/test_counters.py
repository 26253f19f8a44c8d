"""Counters of a run: the file that the service keeps of them, and what status and metrics make of it."""

import json
import signal
import time
import unittest
from pathlib import Path
from unittest import mock

from aclproxyctl import counters
from aclproxyctl.access_log import dropped_in
from aclproxyctl.counts import Counted, Counts, Histogram, Watched
from aclproxyctl.ledger import Ledger
from aclproxyctl.state import Standing
from tests.common import InFolder, ctl, needs_program
from tests.loopback import Service, wait_for
from tests.test_access import JOURNAL, LINES

RUN = "runs/20251129T004321.000Z"
# Of the fifth line of LINES, the tunnel; and of the second one.
SILENT = "1764377093.000   2100 10.9.9.9 NONE/000 0 NONE error:transaction-end-before-headers - HIER_NONE/- - conn=6 cause=gave_way in=0"
BYTES = ["in=700 up=650 down=299000", "in=300 up=310 down=1900"]


class Kept(InFolder):
    def run_folder(self) -> Path:
        self.file(f"{RUN}/journal.000000", JOURNAL)
        lines = [f"{line} {BYTES[0] if 'CONNECT' in line else BYTES[1] if 'www.a.' in line else ''}".rstrip() for line in LINES]
        self.file(f"{RUN}/access.log", [*lines, SILENT, "hello"])
        return self.folder / RUN

    def counted(self, run: Path) -> Counted:
        watched = Watched(run)
        watched.update()
        watched.close()
        return watched.counted()

    def test_what_is_counted(self) -> None:
        """By hand from the lines: a denial, a refused connection and a client that went away among seven, a connection without a request that
        had to give way, and a line that is none.
        """
        counts = self.counted(self.run_folder()).counts
        self.assertEqual((counts.logged, counts.silent, counts.odd, counts.denied, counts.failed), (7, 1, 1, 1, 3))
        self.assertEqual(counts.causes, {"refused": 1, "client_gone": 1, "gave_way": 1})
        self.assertEqual(counts.sent, 150 + 2048 + 1_000_000 + 120 + 300_000 + 500 + 110)
        self.assertEqual((counts.received, counts.sent_on, counts.fetched), (1000, 960, 300_900))

    def test_read_as_written(self) -> None:
        run = self.run_folder()
        counted = self.counted(run)
        counted.counts.lost = 17
        counted.counts.waits["a b"] = Histogram()
        counted.counts.waits["a b"].add(0.02)
        counted.standing.helpers = {"a b": 2}
        counters.write(run, counted, True)
        kept = counters.read(run)
        assert kept is not None
        self.assertEqual(kept.counted, counted)
        self.assertEqual(((run / "counters.json").stat().st_mode & 0o777, sorted(path.name for path in run.glob("counters*"))), (0o600, ["counters.json"]))

    def test_what_is_no_file_of_counters(self) -> None:
        """Then the run is read."""
        run = self.run_folder()
        self.assertIsNone(counters.read(run))
        counters.write(run, self.counted(run), True)
        whole = json.loads((run / "counters.json").read_text())
        for text in ("", "[]", "{}", json.dumps({**whole, "version": 2}), json.dumps({**whole, "counts": {}}), json.dumps({**whole, "standing": []}),
                     json.dumps({**whole, "journal": {**whole["journal"], "fault": "broken"}})):
            (run / "counters.json").write_text(text)
            self.assertIsNone(counters.read(run), text)
            self.assertIn("requests:      5: 4 allowed, 1 denied", ctl("status", str(run)).out)

    def test_service_that_was_killed(self) -> None:
        """Its counters may lack the last moments, so they count only while it holds the run."""
        run = self.run_folder()
        counters.write(run, self.counted(run), False)
        self.assertIsNone(counters.read(run))
        with mock.patch.object(counters, "is_written", return_value=True):
            kept = counters.read(run)
            assert kept is not None
            self.assertLess(abs(kept.moment - time.time() * 1000), 10_000)

    def test_status(self) -> None:
        """It reads nothing of the run but the counters: the journal, which is spoilt here, is not looked at."""
        run = self.run_folder()
        said = ctl("status", str(run)).out
        counted = self.counted(run)
        counted.counts.lost = 17
        counters.write(run, counted, True)
        self.file(f"{RUN}/journal.000000", b"x" * len(JOURNAL))
        ended = ctl("status", str(self.folder / "runs"))
        self.assertEqual((ended.status, ended.err), (0, ""))
        self.assertEqual(ended.out.replace("17 lines could not be written", "0 lines could not be written"), said)
        for row in (
            f"journal:       {len(JOURNAL):,} bytes in 1 piece: 20 entries",
            "requests:      5: 4 allowed, 1 denied, of these 0 by a fault of a helper",
            "connections:   3 open",
            "ended:         7 requests and tunnels, 1 of them denied; 1 connection without a request",
            "failed:        3: 1 client_gone, 1 gave_way, 1 refused",
            "bytes:         1.2 MiB to clients, 1000 bytes from them",
            "access log:    17 lines could not be written, 1 line cannot be read",
        ):
            self.assertIn(row + "\n", ended.out)

    def test_usage(self) -> None:
        """A connection without a request is nobody's request."""
        rows = ctl("usage", str(self.run_folder().parent)).out.splitlines()
        self.assertEqual([row.split()[:4] for row in rows[-2:]], [["10.9.9.9", "1", "0", "0"], ["all", "7", "1", "2"]])

    def test_sums(self) -> None:
        """Counts of two runs add up, and neither is changed by it."""
        run = self.run_folder()
        one, two = self.counted(run).counts, self.counted(run).counts
        total = Counts()
        total.join(one)
        total.join(two)
        self.assertEqual((total.logged, total.sent, total.outcomes[("allowed", "rule", "2")], total.causes["refused"]), (14, 2_605_856, 4, 2))
        self.assertEqual((sum(total.durations.counts), round(total.durations.sum, 3)), (12, 8.196))
        self.assertEqual(one, two)


class Books(InFolder):
    """The ledger of a service."""

    def test_over_runs(self) -> None:
        for name in ("a", "b"):
            self.file(f"{name}/journal.000000", JOURNAL)
        ledger = Ledger()
        ledger.watch(self.folder / "a")
        ledger.update()
        ledger.watch(self.folder / "b")
        ledger.lost(self.folder / "a", 3)
        with mock.patch("aclproxyctl.ledger.PAUSE", 0.0):
            ledger.update()
        run, found, counts = ledger.found()
        self.assertEqual((run, len(found), counts.runs, counts.entries, counts.lost), (self.folder / "b", 2, 2, 40, 3))
        self.assertEqual([json.loads((self.folder / name / "counters.json").read_text())["whole"] for name in ("a", "b")], [False, False])
        ledger.ended(self.folder / "a")
        run, found, counts = ledger.found()
        self.assertEqual((run, len(found), counts.runs, counts.entries, counts.lost), (self.folder / "b", 1, 2, 40, 3))
        kept = counters.read(self.folder / "a")
        assert kept is not None
        self.assertEqual((kept.whole, kept.counted.counts.lost, kept.counted.counts.entries), (True, 3, 20))
        ledger.close()

    def test_one_that_grows_faster_than_it_is_read(self) -> None:
        """It is read piece by piece, and what was read stands in the file."""
        for number in range(3):
            self.file(f"a/journal.{number:06}", "".join(JOURNAL.splitlines(True)[number * 7 : number * 7 + 7]))
        ledger = Ledger()
        ledger.watch(self.folder / "a")
        found = []
        with mock.patch("aclproxyctl.ledger.SPAN", 0.0), mock.patch("aclproxyctl.ledger.PAUSE", 0.0):
            for done in (False, False, False, True):
                self.assertIs(ledger.update(), done)
                found.append(json.loads((self.folder / "a" / "counters.json").read_text())["standing"]["entries"])
        # The first line of the journal is no entry.
        self.assertEqual(found, [6, 13, 20, 20])
        # Once a second at most.
        self.file("a/journal.000003", "21 2 1764377099000 close 3 => ok\n")
        ledger.update()
        self.assertEqual(json.loads((self.folder / "a" / "counters.json").read_text())["standing"]["entries"], 20)
        self.assertEqual(ledger.found()[2].entries, 21)
        ledger.close()

    def test_one_that_ends_with_much_left(self) -> None:
        """Who says that it has ended does not wait until all of it is counted, and its counters are whole only then."""
        for number in range(3):
            self.file(f"a/journal.{number:06}", "".join(JOURNAL.splitlines(True)[number * 7 : number * 7 + 7]))
        self.file("b/journal.000000", "journal 2\n")
        ledger = Ledger()
        ledger.watch(self.folder / "a")
        ledger.watch(self.folder / "b")
        with mock.patch("aclproxyctl.ledger.SPAN", 0.0):
            ledger.ended(self.folder / "a")
            self.assertEqual((len(ledger.found()[1]), counters.read(self.folder / "a")), (2, None))
            ledger.ended(self.folder / "b")
            ledger.stop()
        run, found, counts = ledger.found()
        self.assertEqual((run, len(found), counts.entries), (self.folder / "b", 1, 20))
        for name, entries in (("a", 20), ("b", 0)):
            kept = counters.read(self.folder / name)
            assert kept is not None
            self.assertEqual((kept.whole, kept.counted.counts.entries), (True, entries))
        ledger.close()

    def test_one_that_cannot_be_written(self) -> None:
        """That is said once."""
        self.file("a/journal.000000", JOURNAL)
        said: list[str] = []
        ledger = Ledger(said.append)
        ledger.watch(self.folder / "a")
        full = OSError(28, "No space left on device")
        with mock.patch.object(counters, "write", side_effect=full), mock.patch("aclproxyctl.ledger.PAUSE", 0.0):
            ledger.update()
            ledger.update()
        self.assertEqual(said, ["the counters cannot be kept: [Errno 28] No space left on device"])
        ledger.close()

    def test_lines_that_were_dropped(self) -> None:
        for line, number in (("access log: 17 lines were dropped", 17), ("access log: 1 line was dropped", 1), ("access log: 1,234 lines were dropped", 1234),
                             ("all 8 workers are in use, and 3 clients wait", 0), ("access log: no such file", 0)):
            self.assertEqual(dropped_in(line), number)


@needs_program
class Served(InFolder):
    def test_a_service(self) -> None:
        conf = self.file("conf", ["http_access deny all"])
        with Service(self.folder, conf) as service:
            service.told("READY")
            (run,) = service.runs()
            for _ in range(3):
                service.get("http://a.example/")
            wait_for(lambda: (kept := counters.read(run)) is not None and kept.counted.standing.denied == 3)
            said = ctl("status", str(service.journal)).out
            self.assertIn("requests:      3: 0 allowed, 3 denied, of these 0 by a fault of a helper\n", said)
            self.assertRegex(said, r"(?m)^counted:       up to 20[0-9-]+ [0-9:]+ UTC, by the service$")
            with open(run / "messages", "a") as messages:
                messages.write("access log: 5 lines were dropped\n")
            wait_for(lambda: (kept := counters.read(run)) is not None and kept.counted.counts.lost == 5)
            service.process.send_signal(signal.SIGTERM)
            self.assertEqual(service.ended(), 0)
        kept = counters.read(run)
        assert kept is not None
        # The begin, and five entries for each request with a connection of its own.
        self.assertEqual((kept.whole, kept.counted.standing.entries, kept.counted.standing.connections), (True, 16, 0))
        self.assertIn("aclproxyctl: access log: 5 lines were dropped\n", service.said())
        self.assertNotIn("counted:", ctl("status", str(service.journal)).out)

    def test_a_service_that_is_killed(self) -> None:
        """Then status reads the run."""
        conf = self.file("conf", ["http_access deny all"])
        with Service(self.folder, conf) as service:
            service.told("READY")
            (run,) = service.runs()
            wait_for(lambda: counters.read(run) is not None)
            service.process.kill()
            service.process.wait()
            wait_for(lambda: counters.read(run) is None)
            self.assertTrue((run / "counters.json").exists())
            self.assertRegex(ctl("status", str(service.journal)).out, r"(?m)^requests: +0: 0 allowed, 0 denied")


class Plain(unittest.TestCase):
    def test_an_empty_one(self) -> None:
        self.assertEqual(Counts.of_plain(json.loads(json.dumps(Counts().plain()))), Counts())
        self.assertEqual(Standing().helpers, {})


if __name__ == "__main__":
    unittest.main()
