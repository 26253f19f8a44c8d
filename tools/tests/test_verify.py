"""verify and status: what is found of runs, whole ones and spoilt ones."""

import gzip
from pathlib import Path

from tests.common import InFolder, ctl, needs_program

CONF = "acl a dstdomain .a.example\nexternal_acl_type v children-max=1 %DST /bin/h\nacl x external v\nhttp_access deny a\nhttp_access allow x\n"
# Written by hand after docs/FORMATS.md.
JOURNAL = """journal 2
1 1 1764377000000 begin 0 => epoch 1
2 1 1764377001000 open 1 10.1.2.3 4000 => ok
3 1 1764377001010 ask 1 GET http://www.a.example/ Host:www.a.example => check 1
4 1 1764377001011 step 1 => done
5 1 1764377001012 take 1 => epoch 1 denied rule 1
6 1 1764377001020 open 2 2001:db8::1 4001 => ok
7 1 1764377001030 ask 2 GET http://b.example/ => check 2
8 1 1764377001030 step 2 => waits 1
9 1 1764377001030 act => start 1 v
10 1 1764377001031 started 1 v => proc 1
11 1 1764377001031 act => send 1 1 - b.example%20-
12 1 1764377002000 line 1 what? => bad
13 1 1764377002000 act => stop 1
14 1 1764377002000 step 2 => done
15 1 1764377002000 take 2 => epoch 1 denied fault 2 x BadReply
16 2 1764377003000 reconfigure http_access%20allow%20all%0A => epoch 2
17 2 1764377003000 ask 2 GET http://b.example/ => check 3
18 2 1764377003000 step 3 => done
19 2 1764377003000 take 3 => epoch 2 allowed rule 1
20 2 1764377004000 close 1 => ok
"""


class Runs(InFolder):
    def run_folder(self, journal: str, conf: str = CONF, lines: int = 8) -> Path:
        """A run of this journal, in pieces of so many lines."""
        run = self.folder / "runs" / "20251129T004320.000Z"
        parts = journal.splitlines(True)
        for number, first in enumerate(range(0, len(parts), lines)):
            self.file(f"runs/20251129T004320.000Z/journal.{number:06}", "".join(parts[first:first + lines]))
        self.file("runs/20251129T004320.000Z/squid.conf", conf)
        return run


@needs_program
class Verify(Runs):
    def test_verified(self) -> None:
        run = self.run_folder(JOURNAL)
        for named in (run, run.parent):
            ended = ctl("verify", str(named))
            self.assertEqual((ended.status, ended.err), (0, ""))
            self.assertEqual(ended.out, f"{run}: verified: each of its 20 entries is the machine's ({len(JOURNAL):,} bytes in 3 pieces)\n")
        # A piece that was packed is a piece still.
        first = run / "journal.000000"
        with gzip.open(run / "journal.000000.gz", "wb") as file:
            file.write(first.read_bytes())
        first.unlink()
        self.assertEqual(ctl("verify", str(run)).status, 0)
        self.assertEqual(len(ctl("log", str(run)).out.splitlines()), 3)

    def test_file(self) -> None:
        journal = self.file("j", JOURNAL)
        self.assertEqual(ctl("verify", journal, "--conf", self.file("c", CONF)).status, 0)
        self.no_traceback(ctl("verify", journal), 64, "name the configuration that the proxy was started with, by --conf")

    def test_changed(self) -> None:
        run = self.run_folder(JOURNAL.replace("denied rule 1", "denied rule 2"))
        ended = ctl("verify", str(run))
        self.assertEqual(ended.status, 1)
        self.assertEqual(ended.out.splitlines(), [
            f"{run}: line 6 is not the machine's; the 5 lines before it are",
            "    machine: 5 1 1764377001012 take 1 => epoch 1 denied rule 1",
            "    journal: 5 1 1764377001012 take 1 => epoch 1 denied rule 2",
            "  it was changed, or the configuration is not that of the start",
        ])

    def test_line_that_is_missing(self) -> None:
        run = self.run_folder(JOURNAL.replace("6 1 1764377001020 open 2 2001:db8::1 4001 => ok\n", ""))
        ended = ctl("verify", str(run))
        self.assertEqual(ended.status, 1)
        self.assertIn("line 7 is no line of a journal, or no machine could have had its event there; the 6 lines before it are the machine's\n"
                      "    7 1 1764377001030 ask 2 GET http://b.example/ => check 2\n", ended.out)

    def test_cut(self) -> None:
        run = self.run_folder(JOURNAL[:-9])
        ended = ctl("verify", str(run))
        self.assertEqual(ended.status, 68)
        self.assertIn("its last line, 21, has no end", ended.out)
        self.assertIn("; the 20 lines before it are the machine's\n", ended.out)

    def test_bad_input(self) -> None:
        run = self.run_folder(JOURNAL)
        (run / "journal.000001").unlink()
        self.no_traceback(ctl("verify", str(run)), 66, "the piece journal.000001 is missing")
        run = self.run_folder("hello\n")
        for piece in run.glob("journal.00000[12]"):
            piece.unlink()
        self.no_traceback(ctl("verify", str(run)), 72, "this is no journal of version 1 or 2")
        run = self.run_folder("")
        self.file("runs/20251129T004320.000Z/journal.000000", "")
        ended = ctl("verify", str(run))
        self.assertEqual((ended.status, ended.err), (1, ""))
        self.assertIn("it has no entry", ended.out)
        run = self.run_folder(JOURNAL, "acl a src x\n")
        self.assertEqual(ctl("verify", str(run)).status, 65)
        (run / "squid.conf").unlink()
        self.no_traceback(ctl("verify", str(run)), 66, "squid.conf: there is no such file")
        self.no_traceback(ctl("verify", str(self.folder / "none")), 66, "there is no such file or folder")
        self.no_traceback(ctl("verify", str(self.folder)), 67, "there is no run in this folder")


class Status(Runs):
    def rows(self, journal: str) -> dict[str, str]:
        ended = ctl("status", str(self.run_folder(journal)))
        self.assertEqual((ended.status, ended.err), (0, ""))
        return {line.split(":", 1)[0]: line.split(":", 1)[1].strip() for line in ended.out.splitlines()}

    def test_rows(self) -> None:
        rows = self.rows(JOURNAL)
        self.assertEqual(rows["since"], "2025-11-29 00:43:20 UTC")
        self.assertEqual(rows["last entry"], "2025-11-29 00:43:24 UTC")
        self.assertEqual(rows["configuration"], "number 2, since 2025-11-29 00:43:23 UTC")
        self.assertEqual(rows["requests"], "3: 1 allowed, 2 denied, of these 1 by a fault of a helper")
        self.assertEqual(rows["connections"], "1 open")
        self.assertEqual(rows["checks"], "0 open, of these 0 wait for a helper")
        self.assertEqual(rows["helpers"], "0 alive, 1 ended")
        self.assertEqual(rows["journal"], f"{len(JOURNAL):,} bytes in 3 pieces: 20 entries")

    def test_in_the_middle(self) -> None:
        rows = self.rows("".join(JOURNAL.splitlines(True)[:12]) + "12 1 17")
        self.assertEqual(rows["requests"], "2: 0 allowed, 1 denied, of these 0 by a fault of a helper")
        self.assertEqual(rows["connections"], "2 open")
        self.assertEqual(rows["checks"], "1 open, of these 1 wait for a helper")
        self.assertEqual(rows["helpers"], "1 alive (1 of v), 0 ended")
        self.assertTrue(rows["journal"].endswith("11 entries, and 7 bytes of a line that has no end"))

    def test_bad_input(self) -> None:
        self.no_traceback(ctl("status", str(self.folder)), 67, "there is no run in this folder")
        self.no_traceback(ctl("status", str(self.folder / "none")), 66, "there is no such file or folder")
        self.no_traceback(ctl("status", self.file("j", JOURNAL.replace("=> proc 1", "=>"))), 72, "line 11 is no entry")
        self.no_traceback(ctl("status", self.file("j", JOURNAL.replace("=> check 1", "=> check"))), 72, "line 4 is no entry")


