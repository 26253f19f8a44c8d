"""An access log: its lines, what is chosen of them, who used how much, real tools over it, and how the service keeps one."""

import os
import re
import shutil
import signal
import stat
import subprocess
import sys
import threading
import time
import unittest
import unittest.mock

from aclproxyctl.access import access_files, host_of, is_host, parse
from aclproxyctl.access_log import PATIENCE, AccessLog
from tests.common import HAS_LOG, LAUNCHER, InFolder, ctl, needs_log, needs_program
from tests.test_log import JOURNAL as OTHER_JOURNAL
from tests.test_log import LINES as OTHER_LINES
from tests.loopback import Service, wait_for

# A denied request, a page, a slow page, a refused connection, a tunnel with a tag, a client that went away, and a request that
# was refused before it was judged. Written by hand.
LINES = [
    "1764377001.012      2 10.1.2.3 TCP_DENIED/403 150 GET http://games.example/x?y%20z - HIER_NONE/- text/plain conn=1 check=1 rule=1",
    "1764377002.000     95 10.1.2.3 TCP_MISS/200 2048 GET http://www.a.example/ - HIER_DIRECT/192.0.2.7 text/html conn=1 check=2 rule=2",
    "1764377003.000   2500 2001:db8::1 TCP_MISS/200 1000000 GET http://a.example:8080/big - HIER_DIRECT/192.0.2.7 - conn=2 check=3 rule=2",
    "1764377003.100      1 2001:db8::1 TCP_MISS/502 120 GET http://b.example/ - HIER_NONE/- text/plain conn=2 check=4 rule=3 cause=refused",
    "1764377090.000  80000 10.1.2.4 TCP_TUNNEL/200 300000 CONNECT c.example:443 - HIER_DIRECT/192.0.2.9 - conn=3 check=5 rule=3 tag=staff",
    "1764377091.000   1500 10.1.2.4 TCP_MISS_ABORTED/200 500 GET http://a.example/ - HIER_DIRECT/192.0.2.7 - conn=4 check=6 rule=2 cause=client_gone tag=staff",
    "1764377092.000      0 10.9.9.9 NONE/400 110 GET error:invalid-request - HIER_NONE/- text/plain conn=5",
]
CONF = "acl games dstdomain .games.example\nacl a dstdomain .a.example\nhttp_access deny games\nhttp_access allow a\nhttp_access allow all\n"
# The same requests. Check 5 is judged by a second configuration, whose third rule is another.
JOURNAL = """journal 2
1 1 1764377001000 begin 0 => epoch 1
2 1 1764377001000 open 1 10.1.2.3 4000 => ok
3 1 1764377001010 ask 1 GET http://games.example/x?y%2520z => check 1
4 1 1764377001011 step 1 => done
5 1 1764377001012 take 1 => epoch 1 denied rule 1
6 1 1764377001900 ask 1 GET http://www.a.example/ => check 2
7 1 1764377001900 step 2 => done
8 1 1764377001900 take 2 => epoch 1 allowed rule 2
9 1 1764377002000 open 2 2001:db8::1 4001 => ok
10 1 1764377002000 ask 2 GET http://a.example:8080/big => check 3
11 1 1764377002000 step 3 => done
12 1 1764377002000 take 3 => epoch 1 allowed rule 2
13 1 1764377003099 ask 2 GET http://b.example/ => check 4
14 1 1764377003099 step 4 => done
15 1 1764377003099 take 4 => epoch 1 allowed rule 3
16 2 1764377005000 reconfigure http_access%20deny%20none%0Ahttp_access%20deny%20none%0Ahttp_access%20allow%20CONNECT%0A => epoch 2
17 2 1764377010000 open 3 10.1.2.4 4002 => ok
18 2 1764377010000 ask 3 CONNECT c.example:443 => check 5
19 2 1764377010000 step 5 => done
20 2 1764377010000 take 5 => epoch 2 allowed rule 3
"""


class Lines(unittest.TestCase):
    def test_a_line(self) -> None:
        access = parse(LINES[3])
        assert access is not None
        self.assertEqual(
            (access.moment, access.elapsed, access.client, access.code, access.status, access.bytes, access.method, access.url, access.host),
            (1764377003100, 1, "2001:db8::1", "TCP_MISS", 502, 120, "GET", "http://b.example/", "b.example"),
        )
        self.assertEqual(access.fields, {"conn": "2", "check": "4", "rule": "3", "cause": "refused"})
        found = [parse(line) for line in LINES]
        self.assertEqual([access is not None and access.denied for access in found], [True, False, False, False, False, False, False])
        self.assertEqual([access is not None and access.failed for access in found], [False, False, False, True, False, True, False])

    def test_lines_of_squid(self) -> None:
        """Without fields of our own."""
        access = parse("1764377001.012      2 10.1.2.3 TCP_MISS/200 313 GET http://a.example/ user HIER_DIRECT/192.0.2.7 text/html")
        assert access is not None
        self.assertEqual(access.fields, {})

    def test_what_is_no_line(self) -> None:
        good = LINES[0]
        for bad in ("", "x", OTHER_JOURNAL.splitlines()[3], good.replace("1764377001.012", "1764377001"), good.replace("TCP_DENIED/403", "TCP_DENIED"),
                    good.replace(" 150 ", " - "), good.replace("      2 ", "     -2 "), " ".join(good.split()[:9])):
            self.assertIsNone(parse(bad), bad)

    def test_hosts(self) -> None:
        for url, host in (("http://A.example:80/x@y", "a.example"), ("c.example:443", "c.example"), ("http://[2001:DB8::1]:80/", "2001:db8::1"),
                          ("[2001:db8::1]:443", "2001:db8::1"), ("http://a.example?x", "a.example"), ("http://u@a.example/", "a.example")):
            self.assertEqual(host_of(url), host)
        for host, wanted, holds in (("a.example", "a.example", True), ("www.a.example", "a.example", False), ("www.a.example", ".a.example", True),
                                    ("a.example", ".a.example", True), ("ba.example", ".a.example", False), ("a.example", "A.Example", True)):
            self.assertIs(is_host(host, wanted), holds)


class Logged(InFolder):
    def run_folder(self) -> str:
        """A run with an access log in three files, the first one compressed."""
        run = "runs/20251129T004321.000Z"
        if (self.folder / run).exists():
            return str(self.folder / "runs")
        self.file(f"{run}/squid.conf", CONF)
        self.file(f"{run}/journal.000000", JOURNAL)
        self.file(f"{run}/access.log.000000", LINES[:2])
        subprocess.run(["gzip", str(self.folder / run / "access.log.000000")], check=True)
        self.file(f"{run}/access.log.000001", LINES[2:5])
        self.file(f"{run}/access.log", [*LINES[5:], ""][:-1])
        return str(self.folder / "runs")

    def log(self, *words: str) -> list[int]:
        """The numbers of the lines that are chosen."""
        ended = ctl("log", *words, self.run_folder())
        self.assertEqual((ended.status, ended.err), (0, ""))
        return [LINES.index(line) for line in ended.out.splitlines()]

    def test_as_it_is(self) -> None:
        self.assertEqual(self.log(), list(range(7)))

    def test_choices(self) -> None:
        for words, chosen in (
            (("--denied",), [0]),
            (("--failed",), [3, 5]),
            # A tunnel is not slow because it was open for long.
            (("--slow", "1.5"), [2, 5]),
            (("--client", "10.1.2.0/24"), [0, 1, 4, 5]),
            (("--host", "a.example"), [2, 5]),
            (("--host", ".a.example"), [1, 2, 5]),
            (("--since", "1764377090"), [4, 5, 6]),
            (("--failed", "--client", "2001:db8::1"), [3]),
        ):
            self.assertEqual(self.log(*words), chosen, words)

    def test_rules(self) -> None:
        """The journal says by which configuration each was decided. It does not have check 6."""
        ended = ctl("log", "--rule", self.run_folder())
        said = [
            "rule 1: http_access deny games", "rule 2: http_access allow a", "rule 2: http_access allow a", "rule 3: http_access allow all",
            "rule 3: http_access allow CONNECT", "-", "unjudged",
        ]
        self.assertEqual(ended.out.splitlines(), [f"{line} {rule}" for line, rule in zip(LINES, said)])
        ended = ctl("log", "--rule", "--failed", self.run_folder())
        self.assertEqual(ended.out.splitlines(), [f"{LINES[3]} rule 3: http_access allow all", f"{LINES[5]} -"])

    def test_a_file(self) -> None:
        self.assertEqual(ctl("log", "--denied", self.file("access.log", LINES)).out.splitlines(), LINES[:1])

    def test_lines_that_are_none(self) -> None:
        """They are counted. The last line without its end may still be written."""
        ended = ctl("log", self.file("access.log", "\n".join([LINES[0], "hello", LINES[1], LINES[2]])))
        self.assertEqual((ended.status, ended.out.splitlines()), (0, LINES[:2]))
        self.assertRegex(ended.err, r"^aclproxyctl: 1 line is none of an access log: .*access\.log: b'hello'\n$")

    def test_runs_without_an_access_log(self) -> None:
        """Their lines come from the journal, which cannot say what failed."""
        self.file("runs/20251128T004321.000Z/journal.000000", OTHER_JOURNAL)
        ended = ctl("log", self.run_folder())
        self.assertEqual(ended.out.splitlines(), sorted(OTHER_LINES + LINES, key=lambda line: float(line.split()[0])))
        ended = ctl("log", "--failed", str(self.folder / "runs"))
        self.assertEqual((ended.status, ended.out.splitlines()), (0, [LINES[3], LINES[5]]))
        self.assertIn("it has no access log, and a journal does not have what came of a request; so for 1 of 2 runs", ended.err)
        for words in (("--failed",), ("--slow", "1")):
            self.no_traceback(ctl("log", *words, str(self.folder / "runs/20251128T004321.000Z")), 66, "it has no access log")
        self.assertEqual(ctl("log", "--host", "d.example", str(self.folder / "runs")).out.splitlines(), [OTHER_LINES[3]])

    def test_usage(self) -> None:
        ended = ctl("usage", self.run_folder())
        self.assertEqual((ended.status, ended.err), (0, ""))
        self.assertEqual(ended.out.splitlines(), [
            "client       requests  denied  failed      bytes",
            "2001:db8::1         2       0       1  1,000,120  976.7 KiB",
            "10.1.2.4            2       0       1    300,500  293.5 KiB",
            "10.1.2.3            2       1       0      2,198    2.1 KiB",
            "10.9.9.9            1       0       0        110  110 bytes",
            "all                 7       1       2  1,302,928    1.2 MiB",
        ])
        by_host = ctl("usage", "--by", "host", "--since", "1764377003.05", self.run_folder()).out.splitlines()
        self.assertEqual([line.split()[:2] for line in by_host], [["host", "requests"], ["c.example", "1"], ["a.example", "1"], ["b.example", "1"], ["error", "1"], ["all", "4"]])
        by_tag = ctl("usage", "--by", "tag", self.run_folder()).out.splitlines()
        self.assertEqual([line.split()[:5] for line in by_tag[1:3]], [["-", "5", "1", "1", "1,002,428"], ["staff", "2", "0", "1", "300,500"]])

    def test_uploads(self) -> None:
        """A column of its own, where lines say what came from clients."""
        path = self.file("access.log", [f"{line} in={number}" for number, line in zip((200, 300, 400, 2048, 1000), LINES)])
        self.assertEqual(ctl("usage", path).out.splitlines(), [
            "client       requests  denied  failed      bytes               uploaded",
            "2001:db8::1         2       0       1  1,000,120  976.7 KiB     2.4 KiB",
            "10.1.2.4            1       0       0    300,000  293.0 KiB  1000 bytes",
            "10.1.2.3            2       1       0      2,198    2.1 KiB   500 bytes",
            "all                 5       1       1  1,302,318    1.2 MiB     3.9 KiB",
        ])

    def test_usage_by_a_journal(self) -> None:
        path = self.file("j", OTHER_JOURNAL)
        self.assertEqual(ctl("usage", path).out.splitlines(), [
            "client       requests  denied", "2001:db8::1         3       1", "10.1.2.3            2       1", "all                 5       2",
        ])
        self.no_traceback(ctl("usage", "--by", "tag", path), 66, "it has no access log")
        self.no_traceback(ctl("usage", "--host", "none.example", path), 1, "no request is chosen")

    def test_follow(self) -> None:
        """Over further files and runs, with the rule of each."""
        run = self.folder / "runs" / "20251129T004321.000Z"
        self.file("runs/20251129T004321.000Z/squid.conf", CONF)
        self.file("runs/20251129T004321.000Z/journal.000000", JOURNAL)
        self.file("runs/20251129T004321.000Z/access.log", LINES[:1])
        with subprocess.Popen(
            [sys.executable, str(LAUNCHER), "log", "--follow", "--rule", str(self.folder / "runs")], stdout=subprocess.PIPE, stderr=subprocess.PIPE
        ) as process:
            patience = threading.Timer(30, process.kill)
            patience.start()
            try:
                assert process.stdout is not None and process.stderr is not None
                self.assertEqual(process.stdout.readline().decode(), f"{LINES[0]} rule 1: http_access deny games\n")
                os.rename(run / "access.log", run / "access.log.000000")
                with open(run / "access.log.000000", "a") as file:
                    file.write(LINES[1] + "\n")
                self.assertEqual(process.stdout.readline().decode(), f"{LINES[1]} rule 2: http_access allow a\n")
                self.file("runs/20251129T004321.000Z/access.log", LINES[4:5])
                self.assertEqual(process.stdout.readline().decode(), f"{LINES[4]} rule 3: http_access allow CONNECT\n")
                self.file("runs/20251130T004321.000Z/access.log", LINES[6:7])
                self.file("runs/20251130T004321.000Z/journal.000000", "journal 2\n")
                self.assertEqual(process.stdout.readline().decode(), f"{LINES[6]} unjudged\n")
            finally:
                patience.cancel()
                process.terminate()
            self.assertEqual(process.stderr.read(), b"")


class Tools(InFolder):
    """Programs that read logs of Squid's, over our own lines: those of an access log, and those that come from a journal."""

    def logs(self) -> list[tuple[str, int]]:
        derived = ctl("log", self.file("j", OTHER_JOURNAL)).out
        return [(self.file("access.log", LINES), 7), (self.file("derived.log", derived), 5)]

    @unittest.skipUnless(shutil.which("sarg"), "there is no sarg")
    def test_sarg(self) -> None:
        for path, count in self.logs():
            to = self.folder / "sarg"
            to.mkdir()
            ran = subprocess.run(["sarg", "-x", "-l", path, "-o", str(to), "-d", "28/11/2025-30/11/2025"], capture_output=True, text=True, timeout=60)
            self.assertIn(f"squid log format: {count} entries\n", ran.stderr + ran.stdout)
            # Its own configuration leaves out requests of status 400, of which there is one.
            self.assertIn(f"Records read: {count}, written: {min(count, 6)}, ", ran.stderr + ran.stdout)
            shutil.rmtree(to)

    @unittest.skipUnless(shutil.which("calamaris"), "there is no calamaris")
    def test_calamaris(self) -> None:
        for path, count in self.logs():
            with open(path) as text:
                said = subprocess.run(["calamaris"], stdin=text, capture_output=True, text=True, timeout=60).stdout
            rows = {line[:40].strip(): line.split()[-1] for line in said.splitlines() if line.strip()}
            self.assertEqual((rows["lines parsed:"], rows["invalid lines:"], rows["Total amount:"]), (str(count), "0", str(count)))

    @unittest.skipUnless(shutil.which("goaccess"), "there is no goaccess")
    def test_goaccess(self) -> None:
        """By way of report, which says what there is."""
        page = self.folder / "report.html"
        ended = ctl("report", self.logs()[0][0], "-o", str(page))
        self.assertEqual((ended.status, ended.out), (0, f"{page}: 7 requests, 1 of them denied, 2 failed; 1.2 MiB went to clients\n"), ended.err)
        text = page.read_text()
        for name, value in (("total_requests", 7), ("valid_requests", 7), ("failed_requests", 0), ("bandwidth", 1_302_928)):
            self.assertRegex(text, rf'"{name}": *{value}\b')


class Turning(InFolder):
    """When a further file of an access log begins."""

    def setUp(self) -> None:
        super().setUp()
        self.day, self.now = 5, 100.0
        self.log = AccessLog(self.folder, 1000, lambda: self.day, lambda: self.now)

    def names(self) -> list[str]:
        return [path.name for path in access_files(self.folder)]

    def test_a_program_that_writes_none(self) -> None:
        self.day = 6
        self.log.turn()
        self.assertEqual((self.names(), self.log.wants_order()), ([], False))

    def test_by_size(self) -> None:
        self.file("access.log", b"x" * 999)
        self.log.turn()
        self.assertEqual((self.names(), self.log.wants_order()), (["access.log"], False))
        self.assertEqual((self.folder / "access.log").stat().st_mode & 0o777, 0o600)
        self.file("access.log", b"x" * 1000)
        self.log.turn()
        self.assertEqual((self.names(), self.log.wants_order()), (["access.log.000000"], True))
        # It is ordered once, and once more a minute later where the program has not done it.
        self.assertFalse(self.log.wants_order())
        self.now += PATIENCE
        self.assertTrue(self.log.wants_order())
        self.file("access.log", b"x" * 2000)
        self.log.opened()
        self.assertFalse(self.log.wants_order())
        self.log.turn()
        self.assertEqual(self.names(), ["access.log.000000", "access.log.000001"])

    def test_by_day(self) -> None:
        self.file("access.log", b"x")
        self.log.turn()
        self.assertEqual(self.names(), ["access.log"])
        self.day = 6
        self.log.turn()
        self.assertEqual((self.names(), self.log.wants_order()), (["access.log.000000"], True))
        self.log.opened()
        self.file("access.log", b"")
        self.day = 7
        # One with nothing in it goes on.
        self.log.turn()
        self.assertEqual(self.names(), ["access.log.000000", "access.log"])


# A program that writes an access log: a line each tenth of a second, to the file that it opens at its start and at each reconfiguration.
FAKE = """#!{python}
import os, select, sys, time
path = os.environ.get("ACLPROXY_ACCESS_LOG", "")
def opened():
    return os.open(path, os.O_WRONLY | os.O_APPEND | os.O_CREAT, 0o644) if path else None
log, epoch, number = opened(), 1, 0
os.write(2, b"journal 2\\n1 1 0 begin 0 => epoch 1\\n")
print("listening", sys.argv[sys.argv.index("--port") + 1], flush=True)
while True:
    if select.select([0], [], [], 0.1)[0]:
        orders = os.read(0, 65536)
        if not orders or b"shutdown" in orders:
            print("stopped", flush=True)
            break
        if b"reconfigure" in orders:
            epoch += 1
            if log is not None:
                os.close(log)
            log = opened()
            print("reconfigured", epoch, flush=True)
    number += 1
    if log is not None:
        os.write(log, f"1764377001.012      2 10.1.2.3 TCP_MISS/200 313 GET http://a.example/{{number}} - HIER_DIRECT/- -\\n".encode())
"""


class Kept(InFolder):
    """The access log that `run` keeps, with a program that stands for one that writes it."""

    def program(self) -> str:
        path = self.file("aclproxy", FAKE.format(python=sys.executable))
        os.chmod(path, os.stat(path).st_mode | stat.S_IXUSR)
        return path

    def test_further_files(self) -> None:
        """No line is lost, and the service's log has no word of a configuration that was read again."""
        conf = self.file("conf", ["http_access deny all"])
        with mock_program(self.program()), Service(self.folder, conf, "--access-log-bytes", "1000") as service:
            service.told("READY")
            (run,) = service.runs()
            wait_for(lambda: len(access_files(run)) >= 3)
            # A file that is not asked for does not become current.
            self.file("conf", ["nothing"])
            service.process.send_signal(signal.SIGTERM)
            self.assertEqual(service.ended(), 0)
        self.assertEqual([path.name for path in access_files(run)][:2], ["access.log.000000", "access.log.000001"])
        numbers = [int(number) for path in access_files(run) for number in re.findall(r"a\.example/([0-9]+) ", path.read_text())]
        self.assertEqual(numbers, list(range(1, len(numbers) + 1)))
        self.assertIn("a further file of the access log begins\n", service.said())
        self.assertNotIn("was read again", service.said())
        self.assertEqual((run / "current.conf").read_text(), "http_access deny all\n")
        # The program made them with 0644.
        self.assertEqual({oct(path.stat().st_mode & 0o777) for path in access_files(run)}, {"0o600"})

    def test_none_is_wanted(self) -> None:
        conf = self.file("conf", ["http_access deny all"])
        elsewhere = self.folder / "elsewhere"
        with mock_program(self.program()), unittest.mock.patch.dict(os.environ, {"ACLPROXY_ACCESS_LOG": str(elsewhere)}), Service(
            self.folder, conf, "--no-access-log"
        ) as service:
            service.told("READY")
            time.sleep(0.3)
            service.process.send_signal(signal.SIGTERM)
            self.assertEqual(service.ended(), 0)
            self.assertEqual((access_files(service.runs()[0]), elsewhere.exists()), ([], False))

    @needs_program
    def test_a_program_that_writes_none(self) -> None:
        """Then no file is made, and nothing is said of one."""
        if HAS_LOG:
            self.skipTest("this program writes one")
        conf = self.file("conf", ["http_access deny all"])
        with Service(self.folder, conf, "--access-log-bytes", "1") as service:
            service.told("READY")
            service.get("http://a.example/")
            time.sleep(1.2)
            service.process.send_signal(signal.SIGTERM)
            self.assertEqual(service.ended(), 0)
            self.assertEqual(access_files(service.runs()[0]), [])
        self.assertNotIn("access log", service.said())


@needs_log
class Written(InFolder):
    """The access log of the program itself, by way of the service."""

    def test_files(self) -> None:
        """No line is lost over further files, of which one begins by size; each is for its owner alone, and names its rule and its check."""
        conf = self.file("conf", ["acl a dstdomain a.example", "http_access deny a", "http_access deny all"])
        with Service(self.folder, conf, "--access-log-bytes", "400") as service:
            service.told("READY")
            (run,) = service.runs()
            for number in range(12):
                service.get(f"http://{'ab'[number % 2]}.example/{number}")
            wait_for(lambda: len(access_files(run)) >= 2)
            service.get("http://b.example/12")
            service.get("http://b.example/13")
            service.process.send_signal(signal.SIGTERM)
            self.assertEqual(service.ended(), 0)
        ended = ctl("log", "--rule", str(service.journal))
        self.assertEqual((ended.status, ended.err), (0, ""))
        found = [(access.url, access.fields["check"], access.fields["rule"], access.text.partition(" rule ")[2]) for access in map(parse, ended.out.splitlines()) if access]
        # A client may have its reply, and another one ask, before the line of the first is written.
        self.assertEqual(sorted(found, key=lambda it: int(it[1])), [
            (f"http://{'a' if number % 2 == 0 and number < 12 else 'b'}.example/{number}", str(number + 1), *(
                ("1", "1: http_access deny a") if number % 2 == 0 and number < 12 else ("2", "2: http_access deny all")
            ))
            for number in range(14)
        ])
        self.assertEqual({oct(path.stat().st_mode & 0o777) for path in access_files(run)}, {"0o600"})

    def test_followed(self) -> None:
        """A line comes with its rule while the service runs."""
        conf = self.file("conf", ["http_access deny all"])
        with Service(self.folder, conf) as service:
            service.told("READY")
            service.get("http://a.example/")
            wait_for(lambda: ctl("log", str(service.journal)).out.count("\n") == 1)
            with subprocess.Popen([sys.executable, str(LAUNCHER), "log", "-f", "--rule", str(service.journal)], stdout=subprocess.PIPE) as process:
                patience = threading.Timer(30, process.kill)
                patience.start()
                try:
                    assert process.stdout is not None
                    for path in ("", "b"):
                        line = process.stdout.readline().decode()
                        self.assertIn(" TCP_DENIED/403 ", line)
                        self.assertIn(f" GET http://a.example/{path} - HIER_NONE/- text/plain conn=", line)
                        self.assertTrue(line.endswith(" rule 1: http_access deny all\n"), line)
                        service.get("http://a.example/b")
                finally:
                    patience.cancel()
                    process.terminate()
            service.process.send_signal(signal.SIGTERM)
            self.assertEqual(service.ended(), 0)


def mock_program(path: str) -> "unittest.mock._patch_dict":
    return unittest.mock.patch.dict(os.environ, {"ACLPROXY": path})


if __name__ == "__main__":
    unittest.main()
