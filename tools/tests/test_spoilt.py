"""Spoilt files, by a fixed sequence of changes: whatever is in them, there is a status and no traceback."""

import gzip
import io
import json
import os
import random
import re
from pathlib import Path
from unittest import mock

from aclproxyctl import check, domains, errors
from aclproxyctl.access import GREATEST_LINE
from aclproxyctl.counts import Watched
from tests.common import TOP, Ended, InFolder, ctl, needs_program
from tests.spoiling import spoilt, write_spoilt
from tests.test_verify import CONF, JOURNAL

KNOWN = {value for name, value in vars(errors).items() if name.isupper() and isinstance(value, int)}
ACCESS = (
    "1764377001.012      2 10.1.2.3 TCP_DENIED/403 95 GET http://www.a.example/ - HIER_NONE/- text/plain conn=1 check=1 rule=1 in=60\n"
    "1764377002.000    970 2001:db8::1 TCP_DENIED/403 97 GET http://b.example/ - HIER_NONE/- text/plain conn=2 check=2 rule=2 in=52\n"
    "1764377003.000      1 2001:db8::1 TCP_MISS/502 105 GET http://b.example/ - HIER_DIRECT/192.0.2.8 text/plain "
    "conn=2 check=3 rule=1 cause=refused in=52 up=0 down=0\n"
)
LIST = "a.example\n.b.example\n0.0.0.0 c.example # c\nx y z\n"


class Spoilt(InFolder):
    def ended(self, *words: str) -> Ended:
        ended = ctl(*words)
        self.assertIn(ended.status, KNOWN - {errors.INTERNAL}, (words, ended.err))
        self.assertNotIn("Traceback", ended.err)
        return ended

    def run_of(self, journal: bytes = JOURNAL.encode(), access: bytes = ACCESS.encode(), suffix: str = "") -> Path:
        """A folder with one run; its path."""
        run = "runs/20251129T004320.000Z"
        pack = gzip.compress if suffix else bytes
        self.file(f"{run}/journal.000000{suffix}", pack(journal))
        self.file(f"{run}/access.log", access)
        self.file(f"{run}/squid.conf", CONF)
        return self.folder / "runs"

    # By chance.

    def test_journals(self) -> None:
        chance = random.Random(7)
        for _ in range(60):
            journal = self.file("j", spoilt(JOURNAL.encode(), chance))
            self.ended("log", "--rule", "--conf", self.file("c", CONF), journal)
            self.ended("status", journal)
            self.ended("usage", journal)

    def test_runs(self) -> None:
        chance = random.Random(8)
        for number in range(40):
            run = self.folder / str(number) / "20251129T004320.000Z"
            write_spoilt(run / "journal.000000", JOURNAL.encode(), chance.choice(["", ".gz"]), chance)
            write_spoilt(run / "access.log", ACCESS.encode(), chance.choice(["", ".gz"]), chance)
            self.file(f"{run}/squid.conf", CONF)
            self.ended("log", "--rule", str(run.parent))
            self.ended("usage", "--by", chance.choice(["client", "host", "tag"]), str(run.parent))
            self.ended("status", str(run.parent))
            watched = Watched(run)
            self.assertTrue(watched.update())
            watched.close()

    def test_lists(self) -> None:
        chance = random.Random(9)
        self.ended("lists", "update", str(self.folder), "one=" + self.file("text", LIST))
        made = (self.folder / "one").read_bytes()
        for _ in range(40):
            self.ended("lists", "update", str(self.folder), "two=" + self.file("text", spoilt(LIST.encode(), chance)))
            self.file("three", spoilt(made, chance))
            self.ended("lists", "ask", str(self.folder), "three", "a.example")
            with mock.patch("sys.stderr", io.StringIO()):
                reply = domains.answer(domains.Lists(str(self.folder)), spoilt(b"7 www.b.example three one", chance))
            self.assertRegex(reply, rb"\A[0-9]+ (OK message=|ERR\Z|BH message=)")

    @needs_program
    def test_configurations(self) -> None:
        chance = random.Random(7)
        cases = sorted(Path(__file__).resolve().parent.glob("cases/*/*.conf")) + sorted(TOP.glob("examples/*/squid.conf"))
        for number in range(12):
            conf = self.file("c", spoilt(chance.choice(cases).read_bytes(), chance))
            self.ended("check", conf)
            self.ended("explain", conf, "10.20.1.1", "GET", "http://a.example/x")
            self.ended("verify", "--conf", conf, self.file("j", spoilt(JOURNAL.encode(), chance)))
            out = str(self.folder / f"out{number}")
            if self.ended("check", "--squid", conf, "-o", out).status == 0:
                self.assertEqual(self.ended("check", out).status, 0)
            else:
                self.assertFalse(os.path.exists(out))

    # One by one.

    def test_numbers(self) -> None:
        """No number that is larger than the program's is one of an access log, and none stops the others."""
        first, second, third = ACCESS.splitlines()
        first = first.replace(" 95 ", f" {'9' * 5000} ")
        second = second.replace("   970 ", f" {'9' * 20} ")
        third = third.replace("in=52", f"in={'9' * 4400}")
        run = self.run_of(access=f"{first}\n{second}\n{third}\n".encode())
        ended = self.ended("usage", str(run))
        self.assertEqual(ended.status, 0)
        self.assertRegex(ended.out, r"2001:db8::1 +1 +0 +1 +105 ")
        self.assertIn("2 lines are none of an access log", ended.err)
        self.assertEqual(self.ended("log", str(run)).out.count("\n"), 1)

    def test_moments(self) -> None:
        for moment in ("9223372036854775807", "9" * 40):
            ended = self.ended("status", self.file("j", JOURNAL.replace("1764377004000", moment)))
            self.assertEqual(ended.status, 0)
            self.assertIn("last entry:    beyond the year 9999\n", ended.out)

    def test_rules(self) -> None:
        """A rule's number is as long as one of the program's at most."""
        journal = JOURNAL.replace("denied rule 1", f"denied rule {'1' * 5000}")
        run = self.run_of(journal.encode())
        for words in (("log", "--rule", str(run)), ("log", self.file("j", journal))):
            self.assertEqual(self.ended(*words).status, errors.VERSION)

    @needs_program
    def test_explained_entries(self) -> None:
        """An entry without the words of its kind is no entry, whichever it is."""
        for number, (old, new) in enumerate((
            ("begin 0", "begin x"),
            ("open 1 10.1.2.3 4000", "open 1"),
            ("open 1 10.1.2.3", "open 1 \xe4"),
            ("ask 1 GET http://www.a.example/ Host:www.a.example", "ask 1 GET"),
            ("ask 1 GET", "ask 9 GET"),
            ("epoch 1 denied rule 1", "epoch 1 denied rule"),
            ("take 1 => epoch 1", "take 1 => epoch x"),
            ("denied rule 1", "denied"),
        )):
            with self.subTest(new):
                run = self.run_of(JOURNAL.replace(old, new, 1).encode("latin-1"))
                ended = self.ended("explain", "--check", "1", str(run))
                self.assertEqual(ended.status, errors.VERSION, (number, ended.out))
                self.assertIn("has not the words of one", ended.err)

    def test_compressed(self) -> None:
        """Reports a spoilt compressed file, wherever the spoilt bytes stand."""
        packed = gzip.compress(JOURNAL.encode() * 50, mtime=0)
        half = len(packed) // 2
        changed = packed[:half] + bytes(40) + packed[half + 40 :]
        for text in (packed[:half], changed, packed[:-8] + bytes(8), b"\x1f\x8b" + bytes(30), packed + b"x", b"no gzip\n"):
            run = self.run_of()
            piece = run / "20251129T004320.000Z" / "journal.000000"
            piece.unlink()
            self.file(f"{piece}.gz", text)
            (run / "20251129T004320.000Z" / "access.log").unlink()
            for words in (("log", str(run)), ("status", str(run)), ("usage", str(run)), ("log", f"{piece}.gz")):
                ended = self.ended(*words)
                self.assertEqual(ended.status, errors.CUT, (words, ended.err))
                self.assertIn("it is compressed, and cut off or spoilt", ended.err)
            watched = Watched(piece.parent)
            self.assertTrue(watched.update())
            self.assertIn("cut off or spoilt", watched.counted().fault)
            watched.close()
            Path(f"{piece}.gz").unlink()

    def test_counters(self) -> None:
        """Where the counters are none, the run is read."""
        run = self.run_of()
        whole = self.ended("status", str(run)).out
        watched = Watched(run / "20251129T004320.000Z")
        watched.update()
        counted = json.dumps({"version": 1, "moment": 1, "whole": True, "journal": {}, "standing": {}, "counts": watched.counts.plain()})
        watched.close()
        changed = (counted.replace('"moment": 1', '"moment": 1e999'), counted.replace("0.0", "null"))
        for text in ("[" * 100_000, '{"version": 1}', "[]", "{", counted, *changed):
            self.file("runs/20251129T004320.000Z/counters.json", text)
            self.assertEqual(self.ended("status", str(run)).out, whole)

    def test_long_lines(self) -> None:
        """A line that is too long for what it is to be is none, and is not held in memory."""
        long = b"x" * (3 * GREATEST_LINE)
        run = self.run_of(access=long + b"\n" + ACCESS.encode())
        self.assertEqual(self.ended("log", str(run)).out.count("\n"), 3)
        text = self.file("text", LIST.encode() + long + b"\nlast.example\n")
        ended = self.ended("lists", "update", str(self.folder / "made"), f"one={text}")
        self.assertEqual(ended.out, "one: 4 names; 2 lines that are no names were passed over\n")
        ended = self.ended("lists", "update", str(self.folder / "made"), "two=" + self.file("text", long))
        self.assertEqual(ended.out, "two: 0 names; 1 line that is no name was passed over\n")

    def test_heads_of_lists(self) -> None:
        for bits in ("33", "99", "9" * 40, "-1", ""):
            self.file("one", f"aclproxy-domains 1 {bits} 1".encode().ljust(domains.HEAD - 1)[: domains.HEAD - 1] + b"\n" + bytes(4096))
            self.assertEqual(self.ended("lists", "ask", str(self.folder), "one", "a.example").status, errors.NO)

    @needs_program
    def test_many_faults(self) -> None:
        """Reports the first faults of a file with more than are judged, and that there may be more."""
        conf = self.file("c", [f"acl a src x{number}" for number in range(80)])
        for most, told in ((check.MOST_TEXT, 80), (1, check.MOST)):
            with mock.patch("aclproxyctl.check.MOST_TEXT", most):
                ended = self.ended("check", "--squid", conf)
            self.assertEqual(ended.status, errors.NO)
            self.assertEqual(len(set(re.findall(r"\bx[0-9]+\b", ended.err))), told, ended.err[-400:])
            self.assertEqual("there may be more that is refused" in ended.err, told < 80)

    @needs_program
    def test_files_that_include_one_another(self) -> None:
        for name in "abcd":
            self.file(f"inner/{name}", "include *\n")
        ended = self.ended("check", "--squid", str(self.folder / "inner" / "a"))
        self.assertEqual(ended.status, errors.NO)
        self.assertIn("files are included more than 16 deep", ended.err)
        self.assertIn("more than 1,000 files, or 64 MiB, are included in all", ended.err)
