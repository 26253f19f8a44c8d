"""explain: which rule decides, what held before it, and what helpers are asked."""

import stat
import sys
from pathlib import Path

from aclproxyctl.check import judge_source
from tests.common import PROGRAM, TOP, InFolder, ctl, needs_program

SHELL = """#!/bin/sh
while read -r client rest; do
    if [ "$client" = 10.0.0.1 ]; then echo OK; else echo 'ERR message="not listed"'; fi
done
"""
PYTHON = f"""#!{sys.executable}
import sys
for line in sys.stdin:
    channel, host, data = line.split()
    print(channel, "OK" if host.endswith(data) else "ERR", flush=True)
"""


@needs_program
class Explain(InFolder):
    def helper(self, name: str, text: str) -> str:
        path = self.file(name, text)
        Path(path).chmod(stat.S_IRWXU)
        return path

    def test_school(self) -> None:
        """The requests of the school's page: Monday 2026-11-30 at nine is a lesson, Saturday the 28th is weekend."""
        conf = str(TOP / "examples" / "school" / "squid.conf")
        for client, url, at, status, said in (
            ("10.20.1.1", "http://a.wiki.example/", "2026-11-30T09:00Z", 0, "allowed by rule 4"),
            ("10.20.1.1", "http://a.example/", "2026-11-30T09:00Z", 1, "denied by rule 5"),
            ("10.20.1.1", "http://a.example/", "2026-11-28T09:00Z", 1, "denied by rule 6"),
            ("2001:db8:20::1", "http://a.example/x.ISO", "2026-11-30T20:00Z", 1, "denied by rule 3"),
            ("10.10.0.7", "http://a.example/", "2026-11-30T09:00Z", 0, "allowed by rule 9"),
            ("10.10.0.7", "http://a.example:81/", "2026-11-30T09:00Z", 1, "denied by rule 1"),
        ):
            ended = ctl("explain", conf, client, "GET", url, "--at", at)
            self.assertEqual((ended.status, ended.out.splitlines()[0]), (status, said))
        # At nine of a clock that is an hour ahead, the lessons end at 11:30 UTC.
        for offset, said in (("0", "denied by rule 5"), ("60", "allowed by rule 8")):
            ended = ctl("explain", conf, "10.20.1.1", "GET", "http://a.example/", "--at", "2026-11-30T12:00Z", "--utc-offset", offset)
            self.assertEqual(ended.out.splitlines()[0], said)

    def test_terms(self) -> None:
        conf = self.file("c", [
            "acl lan src 10.0.0.0/8",
            "acl web port 80",
            "acl both all-of lan web",
            "http_access deny !lan web",
            "http_access deny web !both lan",
            "http_access allow both # the rest",
            "http_access deny all",
        ])
        ended = ctl("explain", conf, "10.0.0.1", "GET", "http://a.example/")
        self.assertEqual(ended.status, 0)
        self.assertEqual(ended.out, f"""allowed by rule 3
  {conf}:6: http_access allow both # the rest
the rules, up to the one that decided:
  rule 1, {conf}:4: http_access deny !lan web: does not match
    !lan: does not hold, web: not looked at
  rule 2, {conf}:5: http_access deny web !both lan: does not match
    web: holds, !both: does not hold, lan: not looked at
  rule 3, {conf}:6: http_access allow both # the rest: decides
    both: holds
""")

    def test_default_and_empty(self) -> None:
        conf = self.file("c", ["acl a dstdomain a.example", "http_access deny a"])
        ended = ctl("explain", conf, "10.0.0.1", "GET", "http://b.example/")
        self.assertEqual((ended.status, ended.out.splitlines()[:2]), (0, [
            "allowed by default: no rule matched, and the last one is the opposite", "the rules, of which none matched:"]))
        ended = ctl("explain", self.file("c", []), "10.0.0.1", "GET", "http://b.example/")
        self.assertEqual((ended.status, ended.out.splitlines()[0]), (1, "denied: there is no rule"))

    def test_connections_and_pools(self) -> None:
        conf = self.file("c", ["acl many maxconn 2", "http_access deny many", "http_access allow all", "delay_pools 2", "delay_class 1 1",
                               "delay_parameters 1 none", "delay_class 2 1", "delay_parameters 2 100/100", "delay_access 2 allow all"])
        for count, said in (("2", "allowed by rule 2"), ("3", "denied by rule 1")):
            ended = ctl("explain", conf, "10.0.0.1", "GET", "http://b.example/", "--connections", count)
            self.assertEqual(ended.out.splitlines()[0], said)
        ended = ctl("explain", conf, "10.0.0.1", "GET", "http://b.example/")
        self.assertIn("\n  its bytes go by delay pool 2\n", ended.out)

    def test_question(self) -> None:
        conf = self.file("c", ["external_acl_type v %SRC %>{Accept} /bin/none", "external_acl_type w concurrency=2 %DST /bin/none",
                               "acl x external v it%help", "acl y external w", "http_access deny !x", "http_access allow y"])
        ended = ctl("explain", conf, "10.0.0.1", "GET", "http://b.example/", "--header", "accept:  a b ")
        self.assertEqual(ended.status, 2)
        self.assertEqual(ended.out.splitlines()[:10], [
            "undecided: a helper decides; --ask asks it",
            "the helper v is asked `10.0.0.1 a%20b it%25help`",
            "  OK:",
            "    the helper w is asked `b.example -`, on channel 0",
            "      OK: allowed by rule 2",
            "      ERR: denied by default: no rule matched, and the last one is the opposite",
            "      BH: denied by a fault of the list y in rule 2: it said BH: it could not find out",
            "  ERR: denied by rule 1",
            "  BH: denied by a fault of the list x in rule 1: it said BH: it could not find out",
            "the rules, as far as one can say:",
        ])
        self.assertIn("http_access deny !x: cannot be told\n    !x: the helper v decides\n", ended.out)

    def test_ask(self) -> None:
        listed, suffix = self.helper("listed", SHELL), self.helper("suffix", PYTHON)
        conf = self.file("c", [f"external_acl_type v ttl=60 %SRC {listed} -x", f"external_acl_type w concurrency=2 ipv4 %DST %DATA {suffix}",
                               "acl x external v", "acl y external w .example", "http_access deny !x", "http_access allow y"])
        ended = ctl("explain", conf, "10.0.0.1", "GET", "http://b.example/", "--ask")
        self.assertEqual(ended.status, 0)
        self.assertEqual(ended.out.splitlines()[:6], [
            "the helper v is asked `10.0.0.1 -`", "  it said `OK`", "the helper w is asked `b.example .example`, on channel 0", "  it said `OK`",
            "allowed by rule 2", f"  {conf}:6: http_access allow y"])
        self.assertIn("    !x: does not hold\n", ended.out)
        self.assertIn("    y: holds\n", ended.out)
        ended = ctl("explain", conf, "10.0.0.2", "GET", "http://b.example/", "--ask")
        self.assertEqual((ended.status, ended.out.splitlines()[1:3]), (1, ['  it said `ERR message="not listed"`', "denied by rule 1"]))

    def test_ask_of_bad_helpers(self) -> None:
        for program, said, outcome in (
            ("/bin/none", "/bin/none cannot be started: No such file or directory", "NoHelper"), ("/bin/true", "nothing, and ended", "Died"), (self.helper("l", "#!/bin/sh\necho hello\n"), "`hello`", "BadReply"),
        ):
            conf = self.file("c", [f"external_acl_type v %SRC {program}", "acl x external v", "http_access allow x"])
            ended = ctl("explain", conf, "10.0.0.1", "GET", "http://b.example/", "--ask")
            self.assertEqual(ended.status, 1)
            self.assertIn(said, ended.out)
            cause = {"NoHelper": "its program could not be started", "Died": "its program ended", "BadReply": "it wrote a line that is no reply, and was stopped"}[outcome]
            self.assertIn(f"denied by a fault of the list x in rule 1: {cause}\n", ended.out)

    def test_names_that_are_looked_up(self) -> None:
        first = judge_source(PROGRAM, b"dst_lookup on\n")
        if first.fault is not None or first.notices:
            self.skipTest("this program does not look names up")
        conf = self.file("c", ["dst_lookup on", "acl lo dst 127.0.0.0/8 ::1", "http_access deny lo", "http_access allow all"])
        ended = ctl("explain", conf, "10.0.0.1", "GET", "http://localhost/")
        self.assertEqual((ended.status, ended.out.splitlines()[0]), (2, "undecided: the addresses of the host's name decide; --ask looks them up"))
        ended = ctl("explain", conf, "10.0.0.1", "GET", "http://localhost/", "--ask")
        self.assertEqual(ended.status, 1, ended.out)
        self.assertIn("denied by rule 1\n", ended.out)

    def test_bad_input(self) -> None:
        conf = self.file("c", ["http_access allow all"])
        for words, status, part in (
            ((conf, "10.0.0", "GET", "http://a/"), 64, "10.0.0 is no address"),
            ((conf, "10.0.0.1", "GET", "/x"), 64, "`GET /x` is no request that a proxy is asked"),
            ((conf, "10.0.0.1", "CONNECT", "http://a/"), 64, "CONNECT wants HOST:PORT"),
            ((conf, "10.0.0.1", "GET", "http://a/", "--header", "x"), 64, "it is NAME: VALUE"),
            ((conf, "10.0.0.1", "GET", "http://a/\udcff"), 64, "is no request"),
            ((conf, "10.0.0.1", "GET", "http://a/", "--at", "soon"), 64, "soon is no time"),
            ((conf + "x", "10.0.0.1", "GET", "http://a/"), 66, "there is no such file"),
        ):
            self.no_traceback(ctl("explain", *words), status, part)
        ended = ctl("explain", self.file("d", ["acl a src x"]), "10.0.0.1", "GET", "http://a/")
        self.assertEqual(ended.status, 65)
        self.assertIn(":1: `x` is no address", ended.out)
        self.assertEqual(ctl("explain", self.file("d", b"# \xe9\n"), "10.0.0.1", "GET", "http://a/").status, 78)
