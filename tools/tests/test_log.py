"""log: one line a request, in the native format of Squid's access.log."""

import os
import subprocess
import sys
import threading
import time
import unittest

from aclproxyctl.errors import UserError
from aclproxyctl.journal import escape, unescape
from aclproxyctl.log import moment_of
from tests.common import LAUNCHER, InFolder, ctl, other_user

# A run: a denied GET, an allowed one that a helper decided, an allowed tunnel, a denial by a fault after a reconfiguration,
# and a request whose connection closed before its outcome.
JOURNAL = """journal 2
1 1 1764377000000 begin 0 => epoch 1
2 1 1764377001000 open 1 10.1.2.3 4000 => ok
3 1 1764377001010 ask 1 GET http://a.example/x?y%2520z Host:a.example => check 1
4 1 1764377001011 step 1 => done
5 1 1764377001012 take 1 => epoch 1 denied rule 1
6 1 1764377001020 open 2 2001:db8::1 4001 => ok
7 1 1764377001030 ask 2 HEAD http://b.example/ => check 2
8 1 1764377001030 step 2 => waits 1
9 1 1764377001030 act => start 1 v
10 1 1764377001031 started 1 v => proc 1
11 1 1764377001031 act => send 1 1 - b.example%20-
12 2 1764377001040 reconfigure acl%20x%20src%2010.1.2.3%0Ahttp_access%20deny%20x%0A => epoch 2
13 2 1764377003029 line 1 OK => reply 1 ok
14 2 1764377003030 step 2 => done
15 2 1764377003030 take 2 => epoch 1 allowed rule 2
16 2 1764377004000 ask 1 CONNECT c.example:443 => check 3
17 2 1764377004000 step 3 => done
18 2 1764377004000 take 3 => epoch 2 allowed default
19 2 1764377004500 ask 2 GET http://d.example/ => check 4
20 2 1764377004501 step 4 => done
21 2 1764377004502 take 4 => epoch 2 denied fault 1 x Died
22 2 1764377005000 ask 2 GET http://e.example/ => check 5
23 2 1764377005007 close 2 => ok
24 2 1764377005008 ask 1 GET http://f.example/ => check 6
"""
CONF = "acl a dstdomain a.example\nhttp_access deny a\nhttp_access  allow   y # a comment\n"
LINES = [
    "1764377001.012      2 10.1.2.3 TCP_DENIED/403 0 GET http://a.example/x?y%20z - HIER_NONE/- text/plain",
    "1764377003.030   2000 2001:db8::1 TCP_MISS/000 0 HEAD http://b.example/ - HIER_DIRECT/- -",
    "1764377004.000      0 10.1.2.3 TCP_TUNNEL/000 0 CONNECT c.example:443 - HIER_DIRECT/- -",
    "1764377004.502      2 2001:db8::1 TCP_DENIED/403 0 GET http://d.example/ - HIER_NONE/- text/plain",
    "1764377005.007      7 2001:db8::1 NONE_ABORTED/000 0 GET http://e.example/ - HIER_NONE/- -",
]


class Texts(unittest.TestCase):
    def test_escaped_words(self) -> None:
        for text, word in ((b"a b", "a%20b"), (b"100%", "100%25"), (b"", "-"), (b"-", "%2D"), (b"a>b", "a%3Eb"), (b"\xff", "%FF")):
            self.assertEqual((escape(text), unescape(word)), (word, text))

    def test_moments(self) -> None:
        self.assertEqual(moment_of("1764377000.5"), 1764377000500)
        self.assertEqual(moment_of("2025-11-29T00:43:20+00:00"), 1764377000000)
        self.assertEqual(moment_of("2025-11-29T00:43:20Z"), 1764377000000)
        self.assertEqual(moment_of("30m", now=10000.0), 8200000)
        with self.assertRaises(UserError):
            moment_of("yesterday")


class Log(InFolder):
    def test_lines(self) -> None:
        ended = ctl("log", self.file("j", JOURNAL))
        self.assertEqual((ended.status, ended.err, ended.out.splitlines()), (0, "", LINES))

    def test_several_journals(self) -> None:
        """Those of processes beside one another are merged by their moments; one that is missing is told before any line."""
        other = """journal 2
1 1 1764377000500 begin 0 => epoch 1
2 1 1764377001900 open 1 10.9.9.9 4000 => ok
3 1 1764377002000 ask 1 GET http://z.example/ => check 1
4 1 1764377002000 step 1 => done
5 1 1764377002001 take 1 => epoch 1 denied default
6 1 1764377006000 ask 1 GET http://z.example/ => check 2
7 1 1764377006000 step 2 => done
8 1 1764377006000 take 2 => epoch 1 denied default
"""
        between = "1764377002.001      1 10.9.9.9 TCP_DENIED/403 0 GET http://z.example/ - HIER_NONE/- text/plain"
        last = "1764377006.000      0 10.9.9.9 TCP_DENIED/403 0 GET http://z.example/ - HIER_NONE/- text/plain"
        one, two = self.file("one", JOURNAL), self.file("two", other)
        for names in ((one, two), (two, one)):
            ended = ctl("log", *names)
            self.assertEqual((ended.status, ended.out.splitlines()), (0, [LINES[0], between, *LINES[1:], last]))
        ended = ctl("log", one, str(self.folder / "none"))
        self.assertEqual((ended.out, "no such file" in ended.err), ("", True))
        self.assertEqual(ctl("log", "--follow", one, two).status, 64)

    def test_version_1(self) -> None:
        old = "".join(line.split(" ", 2)[2] for line in JOURNAL.splitlines(True)[1:])
        self.assertEqual(ctl("log", self.file("j", old)).out.splitlines(), LINES)

    def test_rules(self) -> None:
        """Each rule has the text of its request's epoch."""
        said = ["rule 1: http_access deny a", "rule 2: http_access allow y # a comment", "default", "rule 1 fault x Died: http_access deny x", "undecided"]
        ended = ctl("log", "--rule", "--conf", self.file("c", CONF), self.file("j", JOURNAL))
        self.assertEqual(ended.out.splitlines(), [f"{line} {rule}" for line, rule in zip(LINES, said)])
        # Without the configuration of the start its rules have no text.
        self.assertIn(" rule 1: -\n", ctl("log", "--rule", str(self.folder / "j")).out)

    def test_choices(self) -> None:
        path = self.file("j", JOURNAL)
        self.assertEqual(ctl("log", "--denied", path).out.splitlines(), [LINES[0], LINES[3]])
        self.assertEqual(ctl("log", "--client", "10.0.0.0/8", path).out.splitlines(), [LINES[0], LINES[2]])
        self.assertEqual(ctl("log", "--client", "2001:db8::1", "--denied", path).out.splitlines(), [LINES[3]])
        self.assertEqual(ctl("log", "--since", "1764377004.1", path).out.splitlines(), LINES[3:])
        self.no_traceback(ctl("log", "--client", "x", path), 64, "--client x: it is no address")
        self.no_traceback(ctl("log", "--since", "x", path), 64, "x is no time")

    def run_folder(self) -> str:
        """The journal in pieces, as a run, behind an older run."""
        lines = JOURNAL.splitlines(True)
        self.file("runs/20251128T000000.000Z/journal.000000", "".join(lines[:6]))
        for number, first in enumerate(range(0, len(lines), 10)):
            self.file(f"runs/20251129T000000.000Z/journal.{number:06}", "".join(lines[first:first + 10]))
        self.file("runs/20251129T000000.000Z/squid.conf", CONF)
        return str(self.folder / "runs")

    def test_folder(self) -> None:
        folder = self.run_folder()
        self.assertEqual(ctl("log", folder).out.splitlines(), [LINES[0], *LINES])
        self.assertEqual(ctl("log", folder + "/20251129T000000.000Z").out.splitlines(), LINES)
        self.assertIn(" rule 1: http_access deny a\n", ctl("log", "--rule", folder).out)

    def test_runs_that_had_ended(self) -> None:
        """A run is passed over where the next one began before the moment, and nothing was written to it since."""
        folder = self.run_folder()
        old = self.file("runs/20251128T000000.000Z/journal.000000", "no journal\n")
        os.utime(old, (1764374390, 1764374390))
        # 1764374400 is 2025-11-29 00:00:00 UTC, when the second run began.
        self.assertEqual(ctl("log", "--since", "1764374400", folder).out.splitlines(), LINES)
        self.assertEqual(ctl("log", "--since", "1764374399", folder).status, 72)
        os.utime(old, (1764374460, 1764374460))
        self.assertEqual(ctl("log", "--since", "1764374460", folder).status, 72)
        self.assertEqual(ctl("log", "--since", "1764374461", folder).out.splitlines(), LINES)

    def test_runs_that_overlap(self) -> None:
        """Their lines stand in the order of their moments, and each keeps the rules of its own run."""
        folder = self.folder / "runs"
        for name, moments in (("20251129T000000.000Z", (1764374400100, 1764374403000)), ("20251129T000002.000Z", (1764374402500, 1764374404000))):
            events = ["begin 0 => epoch 1"]
            for one in (1, 2):
                events += [f"open {one} 10.0.0.{one} 1 => ok", f"ask {one} GET http://a/{one} => check {one}", f"step {one} => done"]
                events += [f"take {one} => epoch 1 denied rule 1"]
            lines = ["journal 2", *(f"{at} 1 {moments[at > 5]} {event}" for at, event in enumerate(events, 1))]
            self.file(f"runs/{name}/journal.000000", "\n".join([*lines, ""]))
            self.file(f"runs/{name}/squid.conf", f"http_access deny all # {name}\n")
        said = [line.split()[0] for line in ctl("log", str(folder)).out.splitlines()]
        self.assertEqual(said, ["1764374400.100", "1764374402.500", "1764374403.000", "1764374404.000"])

    def test_bad_input(self) -> None:
        self.no_traceback(ctl("log", str(self.folder / "none")), 66, "there is no such file or folder")
        self.no_traceback(ctl("log", str(self.folder)), 67, "there is no run in this folder")
        self.no_traceback(ctl("log", self.file("a", "journal 3\n1 x\n")), 72, "a journal of version 3")
        self.no_traceback(ctl("log", self.file("b", "hello\n")), 72, "this is no journal")
        self.no_traceback(ctl("log", self.file("d", b"\xff\x00\n")), 72, "this is no journal")
        self.no_traceback(ctl("log", "--conf", str(self.folder / "none"), self.file("j", JOURNAL)), 66, "there is no such file")
        middle = ctl("log", self.file("e", JOURNAL.replace("7 1 1764377001030 ask", "7 1 ask")))
        self.assertEqual((middle.status, middle.out.splitlines()), (72, LINES[:1]))
        self.assertIn("line 8 is no entry", middle.err)

    def test_cut(self) -> None:
        """What stands before a cut last line is written."""
        ended = ctl("log", self.file("j", JOURNAL[:-20]))
        self.assertEqual((ended.status, ended.out.splitlines()), (68, LINES))
        self.assertIn("its last line, of 38 bytes, has no end", ended.err)
        self.assertNotIn("Traceback", ended.err)

    def test_no_permission(self) -> None:
        path = self.file("j", JOURNAL)
        os.chmod(path, 0)
        with other_user(self.folder):
            self.no_traceback(ctl("log", path), 77, "no permission")

    def test_reader_that_goes_away(self) -> None:
        path = self.file("j", JOURNAL + "".join(
            f"{n} 2 1764377006000 open {n} 10.0.0.1 1 => ok\n{n + 1} 2 1764377006000 ask {n} GET http://a/ => check {n}\n"
            f"{n + 2} 2 1764377006000 take {n} => epoch 2 denied rule 1\n" for n in range(25, 30000, 3)))
        ran = subprocess.run(f"{sys.executable} {LAUNCHER} log {path} | head -n 1", shell=True, capture_output=True, text=True, timeout=60)
        self.assertEqual((ran.stdout.splitlines(), ran.stderr), (LINES[:1], ""))

    def test_follow(self) -> None:
        """What comes later is written: in the piece, in a further piece, and in a further run."""
        lines = JOURNAL.splitlines(True)
        first = self.folder / "runs" / "1" / "journal.000000"
        self.file("runs/1/journal.000000", "".join(lines[:4]))
        with subprocess.Popen(
            [sys.executable, str(LAUNCHER), "log", "--follow", str(self.folder / "runs")], stdout=subprocess.PIPE, stderr=subprocess.PIPE
        ) as process:
            # What does not come within half a minute does not come.
            patience = threading.Timer(30, process.kill)
            patience.start()
            try:
                assert process.stdout is not None and process.stderr is not None
                with open(first, "a") as file:
                    file.write(lines[4][:10])
                    file.flush()
                    time.sleep(0.3)
                    file.write(lines[4][10:] + "".join(lines[5:7]))
                self.assertEqual(process.stdout.readline().decode(), LINES[0] + "\n")
                self.file("runs/1/journal.000001", "".join(lines[7:16]))
                self.assertEqual(process.stdout.readline().decode(), LINES[1] + "\n")
                self.file("runs/2/journal.000000", "".join(lines[:6]))
                self.assertEqual(process.stdout.readline().decode(), LINES[0] + "\n")
            finally:
                patience.cancel()
                process.terminate()
            self.assertEqual(process.stderr.read(), b"")
