"""explain --check: a request of a journal, with what its access log says of it."""

import unittest

from tests.common import InFolder, ctl, needs_program

CONF = "external_acl_type v %SRC /bin/none\nacl v external v\nacl b dstdomain b.example\nhttp_access deny !v\nhttp_access allow b\nhttp_access deny all\n"
LATER = "acl%20c%20maxconn%201%0Ahttp_access%20deny%20c%0Ahttp_access%20allow%20all%0A"
# The helper allows the first client and not the second, whose second connection the later configuration denies. Check 4 goes away, a fifth
# is denied since the helper's process ended, and the sixth is not judged yet.
JOURNAL = f"""journal 2
1 1 1764377001000 begin 0 => epoch 1
2 1 1764377001000 open 1 10.1.2.3 4000 => ok
3 1 1764377001010 ask 1 GET http://b.example/ Host:b.example => check 1
4 1 1764377001011 step 1 => waits 1
5 1 1764377001011 act => start 1 v
6 1 1764377001012 started 1 v => proc 1
7 1 1764377001012 act => send 1 1 - 10.1.2.3%20-
8 1 1764377001020 line 1 OK => reply 1 ok
9 1 1764377001021 step 1 => done
10 1 1764377001022 take 1 => epoch 1 allowed rule 2
11 1 1764377002000 open 2 10.1.2.4 4001 => ok
12 1 1764377002010 ask 2 GET http://b.example/x => check 2
13 1 1764377002011 step 2 => waits 2
14 1 1764377002011 act => send 1 2 - 10.1.2.4%20-
15 1 1764377002020 line 1 ERR => reply 2 err
16 1 1764377002021 step 2 => done
17 1 1764377002022 take 2 => epoch 1 denied rule 1
18 1 1764377002500 open 4 10.1.2.5 4004 => ok
19 1 1764377002501 ask 4 GET http://b.example/y => check 3
20 1 1764377002502 step 3 => waits 3
21 1 1764377002502 act => send 1 3 - 10.1.2.5%20-
22 1 1764377002600 died 1 => ok
23 1 1764377002601 step 3 => done
24 1 1764377002602 take 3 => epoch 1 denied fault 1 v Died
25 2 1764377003000 reconfigure {LATER} => epoch 2
26 2 1764377003001 open 3 10.1.2.4 4002 => ok
27 2 1764377003002 ask 3 POST http://c.example/ => check 4
28 2 1764377003003 step 4 => done
29 2 1764377003004 take 4 => epoch 2 denied rule 1
30 2 1764377004000 ask 1 GET http://d.example/ => check 5
31 2 1764377004001 close 1 => ok
32 2 1764377004002 ask 2 GET http://e.example/ => check 6
"""
ACCESS = [
    "1764377001.500    490 10.1.2.3 TCP_MISS/502 1100 GET http://b.example/ - HIER_NONE/- text/plain conn=1 check=1 rule=2 cause=timed_out",
    "1764377003.004      2 10.1.2.4 TCP_DENIED/403 150 POST http://c.example/ - HIER_NONE/- text/plain conn=3 check=4 rule=1",
]


@needs_program
class Explained(InFolder):
    def setUp(self) -> None:
        super().setUp()
        self.run_folder = "runs/20251129T004321.000Z"
        self.file(f"{self.run_folder}/squid.conf", CONF)
        self.file(f"{self.run_folder}/journal.000000", JOURNAL)
        self.log = self.file(f"{self.run_folder}/access.log", ACCESS)
        self.conf = f"{self.folder}/{self.run_folder}/squid.conf"

    def explained(self, check: int, status: int, named: str = "runs") -> str:
        ended = ctl("explain", "--check", str(check), str(self.folder / named))
        self.assertEqual((ended.status, ended.err), (status, ""), ended.out)
        return ended.out

    def test_one_that_failed(self) -> None:
        """Its rules, with what the helper had said, and its line of the access log."""
        wanted = f"""check 1 of the run 20251129T004321.000Z, asked 2025-11-29 00:43:21 UTC by 10.1.2.3 over connection 1
  GET http://b.example/
  what came of it: TCP_MISS/502, 1.1 KiB to the client in 0.490 s, which failed: timed_out
allowed by rule 2
  {self.conf}:5: http_access allow b
the rules, up to the one that decided:
  rule 1, {self.conf}:4: http_access deny !v: does not match
    !v: does not hold
  rule 2, {self.conf}:5: http_access allow b: decides
    b: holds
"""
        for named in ("runs", self.run_folder, f"{self.run_folder}/access.log", f"{self.run_folder}/journal.000000"):
            self.assertEqual(self.explained(1, 0, named), wanted)

    def test_by_a_helper(self) -> None:
        said = self.explained(2, 1)
        self.assertNotIn("what came of it", said)
        self.assertIn(f"denied by rule 1\n  {self.conf}:4: http_access deny !v\n", said)
        self.assertIn("http_access deny !v: decides\n    !v: holds\n", said)

    def test_a_fault(self) -> None:
        said = self.explained(3, 1)
        self.assertIn("denied by a fault of the list v in rule 1: its program ended\n", said)
        self.assertNotIn("asked by itself now", said)

    def test_a_later_configuration(self) -> None:
        """By its second connection, of which the configuration of the start says nothing."""
        said = self.explained(4, 1)
        self.assertIn("  POST http://c.example/\n  what came of it: TCP_DENIED/403, 150 bytes to the client in 0.002 s\n", said)
        self.assertIn("denied by rule 1\n  configuration 2:2: http_access deny c\n", said)
        self.assertIn("    c: holds\n", said)

    def test_those_that_were_not_judged(self) -> None:
        self.assertTrue(self.explained(5, 2).endswith("its connection closed before it was judged\n"))
        self.assertTrue(self.explained(6, 2).endswith("it is not judged yet\n"))

    def test_the_last_run_that_has_it(self) -> None:
        self.file("runs/20251130T004321.000Z/journal.000000", "journal 2\n1 1 1764463401000 begin 0 => epoch 1\n")
        self.assertIn("check 1 of the run 20251129T004321.000Z", self.explained(1, 0))
        self.no_traceback(ctl("explain", "--check", "7", str(self.folder / "runs")), 66, "no check has the number 7 there")

    def test_words(self) -> None:
        self.no_traceback(ctl("explain", "--check", "1", str(self.folder / "runs"), "10.1.2.3"), 64, "has no further words")
        self.no_traceback(ctl("explain", self.conf, "10.1.2.3"), 64, "wants CONF CLIENT METHOD URL, or --check N JOURNAL-OR-DIR")
        self.assertEqual(ctl("explain", "--check", "0", str(self.folder / "runs")).status, 64)

    def test_rules_of_a_file(self) -> None:
        """An access log finds the journal beside it."""
        ended = ctl("log", "--rule", self.log)
        self.assertEqual(ended.out.splitlines(), [f"{ACCESS[0]} rule 2: http_access allow b", f"{ACCESS[1]} rule 1: http_access deny c"])
        ended = ctl("log", "--rule", "--denied", self.log)
        self.assertEqual(ended.out.splitlines(), [f"{ACCESS[1]} rule 1: http_access deny c"])
        alone = self.file("alone/access.log", ACCESS)
        self.assertEqual(ctl("log", "--rule", alone).out.splitlines(), [f"{line} -" for line in ACCESS])


if __name__ == "__main__":
    unittest.main()
