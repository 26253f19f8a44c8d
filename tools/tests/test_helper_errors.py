"""What helpers write to their standard error: it goes to the log, line by line, within a limit, and never into the journal."""

import http.client
import os
import signal
import socket
import subprocess
import time
from pathlib import Path
from unittest import mock

from aclproxyctl.appended import LONGEST, MOST_BYTES, MOST_LINES, Appended, Left
from aclproxyctl.helper_errors import SystemLog
from aclproxyctl.journal import pieces_of
from aclproxyctl.listening import Port
from aclproxyctl.run import Options, Run
from tests.common import PROGRAM, InFolder, needs_program
from tests.loopback import TIME, Service, free_port, wait_for


class Lines(InFolder):
    """A file to whose end others write, with a clock of its own."""

    def setUp(self) -> None:
        super().setUp()
        self.now = 100.0
        self.logged: list[str] = []
        self.path = self.folder / "errors"
        self.lines = Appended(self.path, self.logged.append, "helpers", lambda: self.now)

    def test_lines_are_logged_once_they_are_whole(self) -> None:
        self.assertEqual(self.path.stat().st_mode & 0o777, 0o600)
        with open(self.path, "ab", buffering=0) as helper:
            helper.write(b"one\ntw")
            self.lines.forward()
            self.assertEqual(self.logged, ["one"])
            helper.write(b"o\n\xff\x1b[1m\n" + b"x" * (LONGEST + 1) + b"\nrest")
            self.lines.forward()
            self.assertEqual(self.logged[1:], ["two", "\\xff\\x1b[1m", "x" * LONGEST, "x"])
            self.lines.close()
        self.assertEqual(self.logged[5:], ["rest"])
        self.assertFalse(self.path.exists())

    def test_what_comes_beyond_the_limit_is_dropped(self) -> None:
        """One line says how much, a second later; then lines are logged again, and the file is short all along."""
        line = b"y" * 63 + b"\n"
        with open(self.path, "ab", buffering=0) as helper:
            # 65,536 bytes are 1,024 lines of 64 bytes. 100 more lines come at once, and 50 after them.
            helper.write(line * 1124)
            self.lines.forward()
            self.assertEqual((len(self.logged), self.path.stat().st_size), (1024, 0))
            helper.write(line * 50)
            self.now += 0.5
            self.lines.forward()
            self.assertEqual((len(self.logged), self.path.stat().st_size), (1024, 0))
            self.assertTrue(self.lines.flooded)
            helper.write(b"last\n")
            self.now += 0.6
            self.lines.forward()
            # 150 lines of 64 bytes.
            self.assertEqual(
                self.logged[1024:],
                ["at least 9,600 bytes that helpers wrote were dropped: at most 65,536 bytes and 2,000 lines a second are kept", "last"],
            )
            self.assertFalse(self.lines.flooded)
            self.now += 1
            self.lines.forward()
            self.lines.close()
        self.assertEqual(len(self.logged), 1026)

    def test_a_line_whose_beginning_was_dropped(self) -> None:
        with open(self.path, "ab", buffering=0) as helper:
            helper.write(b"z" * (MOST_BYTES + 10))
            self.lines.forward()
            self.assertEqual(self.logged, ["z" * LONGEST] * 8)
            helper.write(b"end of it\nnext\n")
            self.now += 1
            self.lines.forward()
            # Ten bytes, and later the rest of the line with its LF.
            self.assertEqual(self.logged[8:], ["at least 10 bytes that helpers wrote were dropped: at most 65,536 bytes and 2,000 lines a second are kept", "next"])
            self.lines.close()
        self.assertIn("at least 10 bytes", self.logged[-1])

    def test_many_short_lines(self) -> None:
        with open(self.path, "ab", buffering=0) as helper:
            helper.write(b"\n" * (MOST_LINES + 5))
            self.lines.forward()
            self.assertEqual(self.logged, [""] * MOST_LINES)
            self.lines.close()
        self.assertIn("at least 5 bytes", self.logged[-1])

    def test_a_calm_file_begins_anew(self) -> None:
        """Nothing of it is dropped."""
        with open(self.path, "ab", buffering=0) as helper:
            for _ in range(5):
                helper.write((b"y" * 99 + b"\n") * 300)
                self.lines.forward()
                self.assertLessEqual(self.path.stat().st_size, 90_000)
                self.now += 1
        self.assertEqual(self.logged, ["y" * 99] * 1500)

    def test_a_file_that_was_emptied_by_others(self) -> None:
        self.path.write_bytes(b"first\nsecond\n")
        self.lines.forward()
        self.path.write_bytes(b"third\n")
        self.lines.forward()
        self.assertEqual(self.logged, ["first", "second", "third"])

    def test_a_file_that_is_still_open(self) -> None:
        """After its run it is read on until nobody has it open."""
        said: list[str] = []
        left = Left(said.append)
        with subprocess.Popen(["/bin/sh", "-c", f"exec 2>>{self.path}; read -r go; echo later >&2; read -r go"], stdin=subprocess.PIPE) as helper:
            assert helper.stdin is not None
            wait_for(self.lines.is_open_elsewhere)
            left.add(self.lines)
            self.assertEqual((left.files, self.lines.held_by()), ([self.lines], [helper.pid]))
            helper.stdin.write(b"go\n")
            helper.stdin.flush()
            wait_for(lambda: left.look() is None and self.logged == ["later"])
            self.assertEqual(left.files, [self.lines])
        left.look()
        self.assertEqual((left.files, said, self.path.exists()), ([], [], False))

    def test_the_system_log(self) -> None:
        """A log that is full makes nobody wait, and its lines count as dropped."""
        with socket.socket(socket.AF_UNIX, socket.SOCK_DGRAM) as log:
            log.bind(str(self.folder / "log"))
            log.settimeout(TIME)
            to = SystemLog(str(self.folder / "log"))
            self.assertIs(to("hello"), True)
            # Daemon (3) and warning (4): 3 * 8 + 4.
            self.assertRegex(log.recv(1000).decode(), r"^<28>[A-Z][a-z]{2} [ 0-9][0-9] [0-9:]{8} aclproxy-helper: hello$")
            began = time.monotonic()
            full = [number for number in range(100_000) if to("x" * 1000) is False]
            self.assertTrue(full)
            self.assertLess(time.monotonic() - began, TIME)
            self.lines.log = to
            self.path.write_bytes(b"12345\n")
            self.lines.forward()
            self.assertEqual(self.lines.dropped, 6)
        (self.folder / "log").unlink()
        self.assertIs(to("nobody is there"), True)


@needs_program
class Helpers(InFolder):
    def test_a_helper_that_complains(self) -> None:
        helper = self.folder / "helper"
        helper.write_text("while read -r key; do echo \"asked $key\" >&2; echo OK; done\n")
        conf = self.folder / "conf"
        conf.write_text(f"external_acl_type known %SRC /bin/sh {helper}\nacl known external known\nhttp_access deny known\n")
        options = Options(PROGRAM, str(conf), str(self.folder / "journal"), free_port(), 2, None, False, 5)
        # The program opens the port by itself: the process that is named is none of its own.
        none = open(os.devnull)
        self.addCleanup(none.close)
        port = mock.Mock(spec=Port, port=options.port, descriptor=none.fileno(), command=lambda words: words)
        run = Run(options, conf.read_bytes(), port)
        logged: list[str] = []
        run.errors.log = logged.append
        try:
            wait_for(lambda: "listening" in " ".join(run.lines()))
            link = http.client.HTTPConnection("127.0.0.1", options.port or 0, timeout=TIME)
            link.request("GET", "http://a.example/", headers={"Connection": "close"})
            self.assertEqual(link.getresponse().status, 403)
            link.close()
            def is_logged() -> bool:
                run.errors.forward()
                return logged != []

            wait_for(is_logged)
        finally:
            run.shut_down()
            deadline = time.monotonic() + TIME
            while not run.ended and time.monotonic() < deadline:
                run.lines()
                time.sleep(0.02)
            run.close()
        self.assertEqual(logged, ["asked 127.0.0.1 -"])
        journal = b"".join(Path(piece).read_bytes() for piece in pieces_of(run.folder))
        self.assertNotIn(b"asked", journal)
        self.assertIn(b" send 1 1 - 127.0.0.1%20-", journal)

    def flood(self) -> str:
        """A configuration whose helper leaves a process behind that floods its standard error: 1 MB each tenth of a second, 40 MB in all."""
        flood = self.file("flood", "for i in $(seq 40); do yes 'a line of forty bytes, again and again' | head -c 1000000; sleep 0.1; done >&2\n")
        helper = self.file("helper", f"/bin/sh {flood} &\nwhile read -r key; do echo OK; done\n")
        return self.file("conf", [f"external_acl_type known %SRC /bin/sh {helper}", "acl known external known", "http_access deny known"])

    def test_a_helper_that_floods(self) -> None:
        """Signals are obeyed within a second, the file stays short, and what floods it does not outlive the service."""
        with Service(self.folder, self.flood(), "--grace", "5") as service:
            service.told("READY")
            self.assertEqual(service.get("http://a.example/"), (403, b"denied rule 1\n"))
            (run,) = service.runs()
            time.sleep(1.5)
            # What comes in some tenths of a second, and not in all.
            self.assertLess((run / "helpers.err").stat().st_size, 15_000_000)
            writers = processes_with(str(run / "helpers.err"))
            self.assertTrue(writers)
            for number, key in ((signal.SIGHUP, "RELOADING"), (signal.SIGTERM, "STOPPING")):
                began = time.monotonic()
                service.process.send_signal(number)
                service.told(key)
                self.assertLess(time.monotonic() - began, 1.0, key)
            self.assertEqual(service.ended(), 0)
        self.assertFalse((run / "helpers.err").exists())
        self.assertRegex(service.said(), r"helpers have left processes behind that write to standard error without end: [0-9, ]+; they were ended\n")
        wait_for(lambda: processes_with(str(run / "helpers.err")) == [])


def processes_with(path: str) -> list[int]:
    """The processes of the flood that have this file open, or had it before it was removed."""
    found = []
    for folder in Path("/proc").glob("[0-9]*"):
        try:
            if (folder / "comm").read_text().strip() in ("sh", "dash", "yes", "head", "sleep") and any(os.readlink(entry) in (path, path + " (deleted)") for entry in (folder / "fd").iterdir()):
                found.append(int(folder.name))
        except OSError:
            continue
    return found


if __name__ == "__main__":
    import unittest

    unittest.main()
