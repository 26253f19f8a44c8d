"""aclproxy-domains and lists: what the files hold of, how the helper answers, and that it sees a file that takes another's place."""

import contextlib
import os
import subprocess
import sys
import time
from typing import Iterator

from aclproxyctl import domains
from aclproxyctl.domains import DomainFile, Unreadable
from tests.common import TOOLS, InFolder, ctl, needs_program

HELPER = TOOLS / "bin" / "aclproxy-domains"


class Helper:
    """The helper as a process."""

    def __init__(self, folder: str) -> None:
        self.process = subprocess.Popen(
            [sys.executable, str(HELPER), folder], stdin=subprocess.PIPE, stdout=subprocess.PIPE, stderr=subprocess.PIPE, text=True
        )

    def ask(self, *lines: str) -> list[str]:
        assert self.process.stdin is not None and self.process.stdout is not None
        self.process.stdin.write("".join(line + "\n" for line in lines))
        self.process.stdin.flush()
        return [self.process.stdout.readline().rstrip("\n") for _ in lines]


@contextlib.contextmanager
def helper(folder: str) -> Iterator[Helper]:
    one = Helper(folder)
    try:
        yield one
    finally:
        one.process.communicate(timeout=20)


class Domains(InFolder):
    def update(self, *words: str, status: int = 0) -> str:
        ended = ctl("lists", "update", str(self.folder / "lists"), *words)
        self.assertEqual((ended.status, ended.err), (status, ""), ended.out)
        return ended.out

    def test_semantics(self) -> None:
        """As a list of type dstdomain: with a dot in front below it too, without only itself."""
        source = self.file("s", ["# games", "", ".games.example", "Play.Example", "0.0.0.0 tracker.example # as a hosts file", "dotted.example.", "a b c", "b\u00fcro.example", "10.0.0.7"])
        self.assertEqual(self.update(f"games={source}"), "games: 5 names; 2 lines that are no names were passed over\n")
        found = DomainFile(str(self.folder / "lists" / "games"))
        for host, holds in (
            ("games.example", True), ("www.games.example", True), ("a.b.games.example", True), ("mygames.example", False), ("example", False),
            ("play.example", True), ("www.play.example", False), ("tracker.example", True), ("0.0.0.0", False), ("dotted.example", True), ("10.0.0.7", True),
            ("", False), (".", False), ("ames.example", False), ("games.example.net", False),
        ):
            self.assertEqual(found.has(host.encode()), holds, host)

    def test_with_subdomains(self) -> None:
        source = self.file("s", ["one.example", ".two.example"])
        self.assertEqual(self.update("--with-subdomains", f"all={source}", f"all={source}"), "all: 2 names\n")
        found = DomainFile(str(self.folder / "lists" / "all"))
        self.assertEqual([found.has(host) for host in (b"www.one.example", b"one.example", b"www.two.example", b"xone.example")], [True, True, True, False])

    def test_many(self) -> None:
        """Each of 20,000 names is found, and none that is like one."""
        names = [f"n{number}.d{number % 7}.example" for number in range(20000)]
        self.assertEqual(self.update(f"many={self.file('s', names)}"), "many: 20,000 names\n")
        found = DomainFile(str(self.folder / "lists" / "many"))
        self.assertTrue(all(found.has(name.encode()) for name in names))
        self.assertFalse(any(found.has(name.encode()) for number in range(20000) for name in (f"n{number}.d{(number + 1) % 7}.example", f"x.n{number}.d{number % 7}.example")))

    def test_same_file(self) -> None:
        """The order of the lines and their repetition do not matter: one set of names, one file."""
        self.update(f"one={self.file('s', ['b.example', 'a.example', 'b.example'])}", f"two={self.file('t', ['a.example', 'b.example'])}")
        self.assertEqual((self.folder / "lists" / "one").read_bytes().split(b"\n", 1)[1:], (self.folder / "lists" / "two").read_bytes().split(b"\n", 1)[1:])

    def test_folder(self) -> None:
        """As UT1 has them: a folder for each list, with a file `domains`."""
        self.file("ut1/adult/domains", ["a.example"])
        self.file("ut1/games/domains", ["b.example"])
        self.file("ut1/games/urls", ["b.example/x"])
        self.assertEqual(self.update(str(self.folder / "ut1")), "adult: 1 name\ngames: 1 name\n")

    def test_smaller(self) -> None:
        """A list that loses more than half of its names is a download that failed."""
        many, few = self.file("s", [f"n{number}.example" for number in range(9)]), self.file("t", ["a.example"])
        self.update(f"l={many}")
        self.assertIn("l would have 1 names and has 9: it stays as it was", self.update(f"l={few}", status=1))
        self.assertEqual(DomainFile(str(self.folder / "lists" / "l")).count, 9)
        self.update("--smaller", f"l={few}")
        self.assertEqual(DomainFile(str(self.folder / "lists" / "l")).count, 1)
        self.assertEqual([path.name for path in (self.folder / "lists").iterdir()], ["l"])

    def test_helper(self) -> None:
        self.update(f"games={self.file('s', ['.games.example'])}", f"news={self.file('t', ['news.example'])}")
        with helper(str(self.folder / "lists")) as one:
            self.assertEqual(
                one.ask("0 www.games.example games", "7 news.example games news", "1 a.example games news", "2 NEWS.example news", "3 a.example other", "4 a.example -"),
                ["0 OK message=games", "7 OK message=news", "1 ERR", "2 OK message=news", "3 BH message=there%20is%20no%20list%20of%20this%20name",
                 "4 BH message=the%20question%20is%20CHANNEL%20HOST%20LIST"],
            )
            self.assertEqual(one.ask("5 a.example ../games", "6 a.example .hidden")[0], "5 BH message=there%20is%20no%20list%20of%20this%20name")

    def test_replaced(self) -> None:
        """A file that takes the place of another is seen within a second or so; one that is no list is passed over."""
        self.update(f"l={self.file('s', ['one.example'])}")
        with helper(str(self.folder / "lists")) as one:
            self.assertEqual(one.ask("0 one.example l", "0 two.example l"), ["0 OK message=l", "0 ERR"])
            self.update(f"l={self.file('s', ['two.example'])}")
            deadline = time.monotonic() + 10
            while one.ask("0 two.example l") != ["0 OK message=l"]:
                self.assertLess(time.monotonic(), deadline)
                time.sleep(0.05)
            self.assertEqual(one.ask("0 one.example l"), ["0 ERR"])
            beside = self.file("lists/other", ["this is no list"])
            os.replace(beside, self.folder / "lists" / "l")
            time.sleep(domains.LOOKED_AT + 0.2)
            self.assertEqual(one.ask("0 two.example l"), ["0 OK message=l"])

    def test_cut_off(self) -> None:
        self.update(f"l={self.file('s', ['one.example', 'two.example'])}")
        path = self.folder / "lists" / "l"
        whole = path.read_bytes()
        for size in (0, 63, 64, len(whole) - 1):
            path.write_bytes(whole[:size])
            with self.assertRaises(Unreadable):
                DomainFile(str(path))

    def test_ask(self) -> None:
        self.update(f"l={self.file('s', ['.one.example'])}")
        folder = str(self.folder / "lists")
        for host, status, text in (("WWW.one.example", 0, "l has WWW.one.example\n"), ("two.example", 1, "l does not have two.example\n")):
            ended = ctl("lists", "ask", folder, "l", host)
            self.assertEqual((ended.status, ended.out), (status, text))

    def test_bad_input(self) -> None:
        folder = str(self.folder / "lists")
        self.no_traceback(ctl("lists", "update", folder, str(self.folder / "none")), 66, "it is NAME=FILE, or a folder")
        self.no_traceback(ctl("lists", "update", folder, "../x=y"), 64, "is no name of a list")
        self.no_traceback(ctl("lists", "ask", folder, "l"), 64, "lists ask FOLDER NAME HOST")
        self.no_traceback(ctl("lists", "ask", folder, "l", "a"), 66, "there is no such file")
        self.assertIn("there is no such file", self.update(f"l={folder}/none", status=1))

    @needs_program
    def test_configuration(self) -> None:
        """The lines of the documents are read as they stand."""
        conf = self.file("c", ["external_acl_type domains ttl=60 negative_ttl=60 children-max=2 concurrency=1000 %DST %DATA /usr/bin/aclproxy-domains /var/lib/aclproxy-lists",
                               "acl blocked external domains adult gambling", "http_access deny blocked", "http_access allow all"])
        self.assertEqual(ctl("check", conf).status, 0)
