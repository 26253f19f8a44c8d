"""Retention: which runs are removed, which are compressed, and that they are read afterwards."""

import fcntl
import gzip
import os
import shutil
import signal
import subprocess
import time
import unittest
from pathlib import Path
from typing import Optional
from unittest import mock

from aclproxyctl.journal import runs_of
from aclproxyctl.packed import pack
from aclproxyctl.retention import Housekeeper, Limits, size, span, span_in_words, sweep
from tests.common import InFolder, ctl, needs_program
from tests.test_log import CONF, JOURNAL, LINES
from tests.loopback import Service, wait_for

# 2026-12-01 12:00:00 UTC.
NOW = 1796126400.0
DAY = 86400
HAS_ZSTD = shutil.which("zstd") is not None


def without_zstd(folder: Path) -> "mock._patch_dict":
    """An environment in which only cat and false are found."""
    return mock.patch.dict(os.environ, {"PATH": str(folder)})


class Words(unittest.TestCase):
    def test_spans(self) -> None:
        for text, seconds, said in (("90d", 7_776_000, "90 days"), ("1d", 86_400, "1 day"), ("36h", 129_600, "36 hours"), ("30m", 1800, "30 minutes"), ("45s", 45, "45 seconds")):
            self.assertEqual((span(text), span_in_words(span(text))), (seconds, said))
        for text in ("", "90", "0d", "-1d", "1w", "1.5d", "d"):
            self.assertRaises(ValueError, span, text)

    def test_sizes(self) -> None:
        for text, limits in (
            ("1000", Limits(bytes=1000)), ("500M", Limits(bytes=524_288_000)), ("20G", Limits(bytes=21_474_836_480)),
            ("20%", Limits(percent=20.0)), ("0.5%", Limits(percent=0.5)),
        ):
            self.assertEqual(size(text), limits)
        for text in ("", "0", "0%", "100%", "-1G", "20GB", "1.5G", "G"):
            self.assertRaises(ValueError, size, text)


class Runs(InFolder):
    def run_of(self, day: int, length: int = 1000, ended: Optional[float] = None) -> Path:
        """A run that began and ended on this day of November, with a journal of so many bytes."""
        name = f"202611{day:02}T000000.000Z"
        self.file(f"{name}/journal.000000", b"x" * length)
        self.file(f"{name}/squid.conf", b"")
        moment = ended if ended is not None else NOW - (31 - day) * DAY
        os.utime(self.folder / name / "journal.000000", (moment, moment))
        return self.folder / name

    def names(self) -> list[str]:
        return sorted(entry.name[6:8] if entry.name.startswith("202611") else entry.name for entry in self.folder.iterdir())

    def sweep(self, limits: Limits, packing: bool = False) -> list[str]:
        said: list[str] = []
        sweep(self.folder, limits, packing, said.append, now=NOW)
        return said


class Removed(Runs):
    def test_by_age(self) -> None:
        """A run of the 10th ended 21 days before the 1st of December, one of the 24th 7 days before."""
        for day in (10, 23, 24, 25):
            self.run_of(day)
        self.assertEqual(self.sweep(Limits(seconds=7 * DAY)), [
            "the run 20261110T000000.000Z was removed, of 1000 bytes: it ended 21 days ago, and runs are kept for 7 days",
            "the run 20261123T000000.000Z was removed, of 1000 bytes: it ended 8 days ago, and runs are kept for 7 days",
        ])
        self.assertEqual(self.names(), ["24", "25"])

    def test_by_bytes(self) -> None:
        for day in (10, 11, 12, 13):
            self.run_of(day, 1000)
        said = self.sweep(Limits(bytes=2500))
        self.assertEqual(said, [
            "the run 20261110T000000.000Z was removed, of 1000 bytes: all runs together have 3.9 KiB, and they may have 2.4 KiB",
            "the run 20261111T000000.000Z was removed, of 1000 bytes: all runs together have 2.9 KiB, and they may have 2.4 KiB",
        ])
        self.assertEqual(self.names(), ["12", "13"])

    def test_the_newest_run_and_one_that_is_written_stay(self) -> None:
        for day in (10, 11, 12):
            self.run_of(day)
        held = os.open(self.folder / "20261110T000000.000Z", os.O_RDONLY)
        fcntl.flock(held, fcntl.LOCK_EX)
        self.sweep(Limits(seconds=DAY, bytes=1), packing=True)
        self.assertEqual(self.names(), ["10", "12"])
        self.assertEqual([run.name[6:8] for run in runs_of(self.folder) if (run / "journal.000000").exists()], ["10", "12"])
        os.close(held)
        self.sweep(Limits(seconds=DAY))
        self.assertEqual(self.names(), ["12"])

    def test_what_is_no_run_stays(self) -> None:
        self.file("notes/journal.000000", b"mine")
        self.file("20261101T000000.000Z.saved/journal.000000", b"mine")
        self.file("file", b"mine")
        os.symlink(self.folder / "notes", self.folder / "20261102T000000.000Z")
        self.run_of(29)
        self.run_of(30)
        self.sweep(Limits(seconds=1, bytes=1), packing=True)
        self.assertEqual(self.names(), ["01", "02", "30", "file", "notes"])
        self.assertEqual((self.folder / "notes" / "journal.000000").read_bytes(), b"mine")

    def test_a_removal_that_was_cut_off(self) -> None:
        """What is left of it is no run, and is removed the next time."""
        self.run_of(30)
        self.file(".removed-20261110T000000.000Z/journal.000001", b"x")
        self.assertEqual([run.name for run in runs_of(self.folder)], ["20261130T000000.000Z"])
        self.sweep(Limits())
        self.assertEqual(self.names(), ["30"])

    def test_a_share_of_the_disk(self) -> None:
        """Ten blocks of 1,000 bytes, of which a fifth are 2,000."""
        for day in (10, 11, 12):
            self.run_of(day)
        with mock.patch("os.statvfs", return_value=os.statvfs_result((1000, 1000, 10, 5, 5, 9, 9, 9, 0, 255))):
            self.assertEqual(Limits(30 * DAY, percent=20.0).said(self.folder), "runs are kept for 30 days, and up to 2.0 KiB (20% of the disk)")
            self.sweep(Limits(percent=20.0))
        self.assertEqual(self.names(), ["11", "12"])
        self.assertEqual(Limits().said(self.folder), "runs are kept until somebody removes them: see --keep and --keep-bytes")


class Compressed(Runs):
    def run_folder(self) -> Path:
        """Two runs with the same journal, in three pieces."""
        lines = JOURNAL.splitlines(True)
        for day in (29, 30):
            name = f"202611{day}T000000.000Z"
            for number, first in enumerate(range(0, len(lines), 10)):
                self.file(f"runs/{name}/journal.{number:06}", "".join(lines[first:first + 10]))
            self.file(f"runs/{name}/squid.conf", CONF)
        return self.folder / "runs"

    def check_packed(self, suffix: str) -> None:
        runs = self.run_folder()
        first, second = sorted(runs.iterdir())
        os.utime(first / "journal.000001", (NOW - 5, NOW - 5))
        ended = ctl("prune", str(runs))
        self.assertEqual((ended.status, ended.err), (0, ""))
        self.assertRegex(ended.out, r"\Athe run 20261129T000000.000Z was compressed, from 1\.[0-9] KiB to [0-9.]+ (KiB|bytes)\n"
                         r".*/runs: 0 runs removed, 3 files compressed; 2 runs left, of [0-9.]+ KiB\n\Z")
        self.assertEqual(sorted(entry.name for entry in first.iterdir()), [*(f"journal.{n:06}{suffix}" for n in range(3)), "squid.conf"])
        self.assertEqual(sorted(entry.name for entry in second.iterdir()), [*(f"journal.{n:06}" for n in range(3)), "squid.conf"])
        packed = first / f"journal.000001{suffix}"
        self.assertEqual((packed.stat().st_mode & 0o777, packed.stat().st_mtime), (0o600, NOW - 5))
        self.assertEqual(ctl("log", str(first)).out.splitlines(), LINES)
        self.assertEqual(ctl("log", "--rule", str(runs)).out.count("rule 1: http_access deny a\n"), 2)
        self.assertRegex(ctl("status", str(first)).out, r"(?m)^journal: +1,[0-9]{3} bytes in 3 pieces: 24 entries$")
        # What is packed already stays as it is.
        self.assertIn("0 files compressed", ctl("prune", str(runs)).out)

    @unittest.skipUnless(HAS_ZSTD, "there is no zstd")
    def test_by_zstd(self) -> None:
        self.check_packed(".zst")

    def test_by_gzip(self) -> None:
        """Where there is no zstd."""
        with without_zstd(self.folder):
            self.check_packed(".gz")

    @needs_program
    def test_verified(self) -> None:
        """With as many bytes as before."""
        conf = self.file("conf", ["http_access deny all"])
        lines = ["journal 2\n", "1 1 0 begin 0 => epoch 1\n", "2 1 5 open 1 10.1.2.3 4000 => ok\n", "3 1 9 close 1 => ok\n"]
        for name, packed in (("20261129T000000.000Z", True), ("20261130T000000.000Z", False)):
            run = self.folder / "runs" / name
            self.file(f"runs/{name}/journal.000000", lines[:2])
            (run / "journal.000000").write_text("".join(lines[:2]))
            (run / "journal.000001").write_text("".join(lines[2:]))
            shutil.copy(conf, run / "squid.conf")
        ctl("prune", str(self.folder / "runs"))
        ended = ctl("verify", str(self.folder / "runs"))
        self.assertEqual(ended.status, 0, ended.out)
        self.assertEqual(ended.out.count(": verified: each of its 3 entries is the machine's (88 bytes in 2 pieces)\n"), 2)

    @unittest.skipUnless(HAS_ZSTD, "there is no zstd")
    def test_spoilt(self) -> None:
        runs = self.run_folder()
        ctl("prune", str(runs))
        first = sorted(runs.iterdir())[0]
        piece = first / "journal.000001.zst"
        piece.write_bytes(piece.read_bytes()[:-20])
        ended = ctl("log", str(first))
        self.assertEqual(ended.status, 68)
        self.assertIn("journal.000001.zst: it is compressed, and cut off or spoilt", ended.err)
        with without_zstd(self.folder):
            self.no_traceback(ctl("log", str(first)), 69, "the program zstd is not found")

    def test_spoilt_gzip(self) -> None:
        path = self.folder / "run" / "journal.000000.gz"
        self.file("run/journal.000000.gz", gzip.compress(JOURNAL.encode())[:-20])
        self.no_traceback(ctl("status", str(path.parent)), 68, "it is compressed, and cut off")

    def test_a_piece_that_is_compressed_while_it_is_read(self) -> None:
        """Who has its old name finds it under the new one."""
        from aclproxyctl.journal import open_piece

        path = Path(self.file("journal.000000", JOURNAL))
        packed = pack(path)
        assert packed is not None
        self.assertFalse(path.exists())
        with open_piece(path) as file:
            self.assertEqual(file.read(), JOURNAL.encode())

    def test_cancelled(self) -> None:
        """Nothing of it is left, and the file is as it was."""
        path = Path(self.file("journal.000000", os.urandom(8_000_000)))
        before = path.read_bytes()
        for env in ({}, {"PATH": str(self.folder)}):
            with mock.patch.dict(os.environ, env):
                self.assertIsNone(pack(path, lambda: True))
        self.assertEqual((sorted(entry.name for entry in self.folder.iterdir()), path.read_bytes() == before), (["journal.000000"], True))

    def test_unfinished_files_are_removed(self) -> None:
        run = self.run_of(29)
        self.run_of(30)
        self.file(f"{run.name}/journal.000000.zst.new", b"half")
        self.sweep(Limits(), packing=True)
        self.assertEqual([entry.name for entry in run.iterdir() if entry.name.endswith(".new")], [])

    def test_bad_input(self) -> None:
        self.no_traceback(ctl("prune", str(self.folder / "none")), 66, "there is no such folder")
        self.no_traceback(ctl("prune", str(self.folder)), 67, "there is no run in this folder")
        for words in (("--keep", "90"), ("--keep-bytes", "x")):
            self.assertEqual(ctl("prune", *words, str(self.folder)).status, 64)

    def test_a_complaint_is_made_once(self) -> None:
        said: list[str] = []
        with mock.patch("aclproxyctl.retention.sweep", side_effect=PermissionError(13, "Permission denied", "x")):
            keeper = Housekeeper(self.folder, Limits(), True, said.append)
            for _ in range(3):
                keeper.poke()
                time.sleep(0.1)
            keeper.stop()
        self.assertEqual(said, ["old runs cannot be compressed or removed: [Errno 13] Permission denied: 'x'"])
        self.assertFalse(keeper.thread.is_alive())


@needs_program
class Running(InFolder):
    def test_runs_that_end_are_compressed_and_removed(self) -> None:
        """A service compresses a run that has ended, removes the one before, and says both; its own stays."""
        conf = self.file("conf", ["http_access deny all"])
        self.file("journal/20201129T000000.000Z/journal.000000", "journal 2\n")
        os.utime(self.folder / "journal/20201129T000000.000Z/journal.000000", (NOW - 1e9, NOW - 1e9))
        with Service(self.folder, conf, "--keep", "1d", "--keep-bytes", "100M", "--run-bytes", "1500", "--grace", "1") as service:
            service.told("READY")
            wait_for(lambda: not (service.journal / "20201129T000000.000Z").exists())
            self.assertIn("; runs are kept for 1 day, and up to 100.0 MiB\n", service.said())
            first = service.runs()[0]
            for number in range(10):
                service.get(f"http://a.example/{'x' * 200}")
            service.told("READY")
            wait_for(lambda: not (first / "journal.000000").exists())
            wait_for(lambda: f"the run {first.name} was compressed" in service.said())
            second = service.runs()[1]
            # What is asked of a folder while its service runs leaves the run alone that is written.
            self.assertIn("0 files compressed; 2 runs left", ctl("prune", "--keep", "1d", "--keep-bytes", "1", str(service.journal)).out.replace("1 run left", "2 runs left"))
            self.assertTrue((second / "journal.000000").exists())
            service.process.send_signal(signal.SIGTERM)
            self.assertEqual(service.ended(), 0)
        self.assertRegex(service.said(), "the run 20201129T000000.000Z was removed, of 10 bytes: it ended [0-9,]+ days ago, and runs are kept for 1 day")
        self.assertEqual(ctl("verify", str(service.journal)).status, 0)

    def test_a_clock_that_was_set_back(self) -> None:
        """A run is named later than all before it, whatever the clock says."""
        conf = self.file("conf", ["http_access deny all"])
        self.file("journal/20991129T235959.999Z/journal.000000", "journal 2\n")
        with Service(self.folder, conf) as service:
            service.told("READY")
            self.assertEqual([run.name for run in service.runs()], ["20991129T235959.999Z", "20991130T000000.000Z"])
            held = subprocess.run(["flock", "--nonblock", "--shared", str(service.runs()[1]), "true"]) if shutil.which("flock") else None
            if held is not None:
                self.assertEqual(held.returncode, 1)


if __name__ == "__main__":
    unittest.main()
