"""check: what is accepted, what is refused, and what is passed in a way that surprises."""

import unittest

from aclproxyctl.confs import Conf
from aclproxyctl.warnings import of_conf
from aclproxyctl.words import KINDS, NOTICES, STATUSES, plural
from tests.common import TOP, InFolder, ctl, needs_program


class Tables(unittest.TestCase):
    def test_kinds(self) -> None:
        """Each kind of docs/CONFIGURATION.md has its name and its words."""
        page = (TOP / "docs" / "CONFIGURATION.md").read_text()
        table = page[page.index("| KIND | Name |"):].split("\n\n")[0].splitlines()[2:]
        names = {int(row.split("|")[1]): row.split("|")[2].strip() for row in table}
        self.assertEqual(sorted(names), list(range(1, 21)))
        self.assertEqual({number: kind.name for number, kind in KINDS.items()}, names)

    def test_notices(self) -> None:
        """Each directive without effect has a sentence on what follows."""
        page = (TOP / "docs" / "CONFIGURATION.md").read_text()
        listed = page[page.index("Read without effect are"):page.index("whatever stands behind them")]
        names = listed.split("`")[1::2]
        self.assertIn("refresh_pattern", names)
        self.assertEqual([name for name in names if name not in NOTICES], [])

    def test_statuses(self) -> None:
        page = (TOP / "docs" / "OPERATING.md")
        self.assertTrue(page.is_file())
        self.assertEqual(sorted(STATUSES), [0, 1, 2, 4, 5, 6, 7, 9, 10])

    def test_plural(self) -> None:
        self.assertEqual([plural(1, "rule"), plural(2, "rule"), plural(10000, "rule")], ["1 rule", "2 rules", "10,000 rules"])


@needs_program
class Check(InFolder):
    def test_accepted(self) -> None:
        conf = self.file("c", ["acl lan src 10.0.0.0/8", "http_access allow lan", "http_port 127.0.0.1:8080", "cache_dir ufs /c 1 2 3"])
        ended = ctl("check", conf)
        self.assertEqual(ended.status, 0, ended.err)
        self.assertIn("accepted: 7 lists (6 of them there from the start), 1 rule, 0 classes of helpers and 0 delay pools", ended.out)
        self.assertIn(f"{conf}:3: no effect: the address 127.0.0.1 has no effect: port 8080 is open at all addresses", ended.out)
        self.assertIn(f"{conf}:4: no effect: there is no cache, so its folder is not needed\n    cache_dir ufs /c 1 2 3\n", ended.out)

    def test_refused(self) -> None:
        conf = self.file("c", ["acl web port 80x", "http_access allow web", "http_access deny nosuch", "cache_peer a parent 1 0"])
        ended = ctl("check", conf)
        self.assertEqual(ended.status, 1)
        self.assertIn(f"{conf}:1: `80x` is no port\n    acl web port 80x\n  form:    acl NAME port VALUE", ended.out)
        self.assertIn(f"{conf}:2: this names a list that does not stand before it: `web` (follows from line 1, which was left out)\n", ended.out)
        self.assertIn(f"{conf}:3: this names a list that does not stand before it: `nosuch` (further fault, found with", ended.out)
        self.assertIn(f"{conf}:4: this directive is not known here: `cache_peer` (further fault", ended.out)
        self.assertIn("is refused: 4 faults\n", ended.out)

    def test_said_once(self) -> None:
        """What is alike of several faults stands with the first; a directive that may go is told so."""
        ended = ctl("check", self.file("c", ["icp_port 0", "https_port 1", "htcp_port 0", "mystery 1"]))
        self.assertEqual(ended.out.count("  Squid:   Squid may know it"), 1)
        self.assertEqual(ended.out.count("  instead: take the line out: it changes no verdict (there is no dialogue with other proxies)\n"), 1)
        self.assertEqual(ended.out.count("  instead: take the line out where it changes no verdict; `aclproxyctl check --squid`"), 1)
        self.assertIn("is refused: 4 faults\n", ended.out)

    def test_directives_of_squid(self) -> None:
        """What is to be done about a directive that is not known here depends on what it does at Squid's."""
        ended = ctl("check", self.file("c", ["cache_peer a parent 3128 0", "via off", "refresh_all_ims on"]))
        for part in (
            "  instead: take the line out if this may be: requests go to their origins directly, and not by that proxy: what it filtered is not filtered; or let the network",
            "  instead: what `aclproxyctl check --squid` writes in its place: request_header_access Via deny all",
            "  instead: take the line out: it changes no verdict (there is no cache)\n",
        ):
            self.assertIn(part, ended.out)

    def test_at_most_fifty(self) -> None:
        ended = ctl("check", self.file("c", ["nothing"] * 60))
        self.assertEqual(ended.status, 1)
        self.assertIn("is refused: 50 faults, and there may be more\n", ended.out)

    def test_whole_file(self) -> None:
        conf = self.file("c", ["delay_pools 1"])
        ended = ctl("check", conf)
        self.assertEqual(ended.status, 1)
        self.assertIn(f"{conf}:0: a pool of delay_pools has no delay_class", ended.out)
        self.assertIn("is refused: 1 fault\n", ended.out)

    def test_not_utf8(self) -> None:
        conf = self.file("c", b"http_access deny all\n# caf\xe9\n")
        ended = ctl("check", conf)
        self.assertEqual(ended.status, 78)
        self.assertIn(f"{conf}:2: the line is not UTF-8\n    # caf\\xe9\n", ended.out)

    def test_each_kind(self) -> None:
        """A file for each kind that has a short one, with what has to be said of it."""
        for lines, number, part in (
            (["acl a src " + "10.0.0.1 " * 8000], 1, "has over 65,536 bytes"),
            (["acl web port"], 1, "ends where a word is needed"),
            (["http_port 65536"], 1, "out of its range"),
            (["acl a ident bob"], 1, "this type of list is not known here: type `ident`"),
            (["acl all port 80"], 1, "`all` is there from the start, with type src"),
            (["acl a port 80", "acl a src all"], 2, "`a` is of type port by line 1"),
            (["http_access allow nosuch"], 1, "does not stand before it: `nosuch`"),
            (['acl a dstdomain "/etc/list"'], 1, 'values are not read from a file: write those of "/etc/list"'),
            (["acl a src host.example"], 1, "`host.example` is no address"),
            (["http_port 3128 intercept"], 1, "`intercept`: clients name this proxy"),
            (["acl x external nosuch"], 1, "no external_acl_type before it states: `nosuch`"),
            (["external_acl_type v /bin/h", "external_acl_type v /bin/h"], 2, "of this name stands before"),
            (["external_acl_type v cash=1 /bin/h"], 1, "an option is not known here: `cash=1`"),
            (["external_acl_type v %LOGIN /bin/h"], 1, "a token of the format is not known here"),
            (["external_acl_type v /bin/h", "acl x external v", "delay_pools 1", "delay_class 1 1", "delay_parameters 1 none",
              "delay_access 1 allow x"], 6, "asks a helper"),
            (["acl a url_regex ("], 1, "not in the syntax of Rust's regex"),
            (["delay_class 1 1"], 1, "above the number of delay_pools"),
            (["delay_pools 65"], 1, "the file passes a limit"),
            (["acl g any-of all"] + [f"acl g{i} any-of g{i - 1}" if i else "acl g0 any-of g" for i in range(40)], 33, "more than 32 deep"),
            (["acl t time 9:00-8:00"], 1, "a word of a time list is outside its form"),
        ):
            conf = self.file("c", lines)
            ended = ctl("check", conf)
            first = ended.out.splitlines()[0]
            self.assertEqual((ended.status, first.startswith(f"{conf}:{number}: ")), (1, True), first)
            self.assertIn(part, first)

    def test_warnings(self) -> None:
        conf = self.file(
            "c",
            [
                'acl bad url_regex -i "/etc/squid/bad"',
                "acl names dstdomain .games.example",
                "acl case url_regex ^http://games",
                "acl lessons time D 08:00-12:30",
                "acl dots url_regex -i [.]a\\. cheat.sheet",
                "acl fine url_regex -i [.]a\\.b (?s-u)c.d",
                "http_access deny dots",
                "http_access deny fine",
                "http_access deny to_localhost",
                "http_access deny names",
                "http_access deny case",
                "http_access deny bad",
                "http_access deny lessons",
                "http_access allow all",
            ],
        )
        ended = ctl("check", conf, env={"TZ": "XXX-2"})
        self.assertEqual(ended.status, 0)
        warned = [line for line in ended.out.splitlines() if ": warning: " in line]
        for number, part in (
            (1, "is a pattern here, and not the name of a file"),
            (3, "put -i in front"),
            (4, "this machine is +120 minutes from it"),
            (5, "%0A or %FF in that place passes"),
            (9, "Put `dst_lookup on` first"),
            (10, "of https only the name that the client gives"),
        ):
            self.assertTrue(any(line.startswith(f"{conf}:{number}: ") and part in line for line in warned), (part, warned))
        self.assertFalse(any(line.startswith(f"{conf}:6: ") for line in warned), warned)
        quiet = ctl("check", conf, "--utc-offset", "120", env={"TZ": "XXX-2"})
        self.assertNotIn("minutes from it", quiet.out)
        # Who is let in by a list is not kept out by it.
        ended = ctl("check", self.file("d", ["acl names dstdomain .games.example", "http_access allow names"]))
        self.assertNotIn("warning", ended.out)

    def test_quiet(self) -> None:
        """Of a file that is accepted nothing is said; one that is refused is told as ever."""
        self.assertEqual(ctl("check", "--quiet", self.file("c", ["http_access deny to_localhost"])).out, "")
        ended = ctl("check", "-q", self.file("c", ["acl a port x"]))
        self.assertEqual((ended.status, "`x` is no port" in ended.out), (1, True))

    def test_maxconn(self) -> None:
        """A process has at most one connection for each worker."""
        for number, workers, warned in ((1023, 0, False), (1024, 0, True), (64, 64, True), (63, 64, False), (2000, 4096, False)):
            conf = self.file("c", [f"acl many maxconn {number}", "http_access deny many"])
            ended = ctl("check", conf, "--workers", str(workers)) if workers else ctl("check", conf)
            self.assertEqual((ended.status, "so this list never holds" in ended.out), (0, warned), (number, workers))

    def test_lookups(self) -> None:
        """What the number of look-ups means is said where the file leaves it as it is."""
        said = "8 names are looked up at once and 16 wait; a request for one name more is denied (QueueFull)"
        self.assertIn(said, ctl("check", self.file("c", ["dst_lookup on", "http_access deny to_localhost"])).out)
        self.assertNotIn("QueueFull", ctl("check", self.file("c", ["dst_lookup off", "http_access deny to_localhost"])).out)
        for options, text in ((" children-max=20", "20 names are looked up at once and 40 wait"), (" queue-size=5", ""), (" children-max=64 queue-size=4096", "")):
            told = [warned.text for warned in of_conf(Conf(f"dst_lookup on{options}\n".encode()), 0, True)]
            self.assertEqual([one.startswith(text) for one in told], [True] if text else [], options)

    def test_bad_input(self) -> None:
        self.no_traceback(ctl("check", str(self.folder / "none")), 66, "there is no such file")
        self.no_traceback(ctl("check", str(self.folder)), 74, "it is a folder")
        self.no_traceback(ctl("--program", "/none", "check", "c"), 69, "/none, named by --program, is no program")

    def test_no_words(self) -> None:
        ended = ctl("check")
        self.assertEqual((ended.status, ended.out), (64, ""))
