"""The socket for clients: where it is opened, and which of those is taken that systemd hands over."""

import contextlib
import os
import socket
import subprocess
import sys
import unittest
from typing import Iterator
from unittest import mock

from aclproxyctl.cli import parser
from aclproxyctl.errors import UserError
from aclproxyctl.listening import Wanted, bound, handed_over, is_listening, is_there, opened, port_for
from aclproxyctl.notify import Notifier
from tests.common import TOOLS, ctl


def notifier() -> Notifier:
    with mock.patch.dict(os.environ, {"NOTIFY_SOCKET": ""}):
        return Notifier()


@contextlib.contextmanager
def handing(*sockets: "tuple[str, socket.socket]") -> Iterator[None]:
    """As if systemd had handed these over. The numbers from 3 to 9 may be taken in a process with tests."""
    with mock.patch("aclproxyctl.listening.handed_over", lambda: list(sockets)), mock.patch("aclproxyctl.listening.lowered", lambda number: number):
        yield


class Opened(unittest.TestCase):
    def test_all_addresses(self) -> None:
        with opened(Wanted(0)) as one:
            port = one.getsockname()[1]
            self.assertTrue(is_there(one, Wanted(port)))
            self.assertFalse(is_there(one, Wanted(port, "127.0.0.1")))
            socket.create_connection(("127.0.0.1", port), 5).close()
            with self.assertRaises(OSError):
                opened(Wanted(port))

    def test_one_address(self) -> None:
        with opened(Wanted(0, "127.0.0.1")) as one:
            port = one.getsockname()[1]
            self.assertTrue(is_there(one, Wanted(port, "127.0.0.1")))
            self.assertFalse(is_there(one, Wanted(port)))
            with self.assertRaises(ConnectionRefusedError):
                socket.create_connection(("127.0.0.2", port), 5)

    def test_what_is_taken(self) -> None:
        """A port that cannot be had is said, and runs get a file that is no socket."""
        with opened(Wanted(0)) as one:
            with handing():
                port = port_for(Wanted(one.getsockname()[1]), notifier())
            self.assertEqual((port.fault, port.socket), ("Address already in use", None))
            os.close(port.descriptor)

    def test_words(self) -> None:
        self.assertEqual(parser().parse_args(["run", "c", "--listen", "10.1.2.3:80"]).listen, ("10.1.2.3", 80))
        self.assertEqual(parser().parse_args(["run", "c", "--listen", "[fd00::0:1]:3128"]).listen, ("fd00::1", 3128))
        for text, seconds in (("90", 90), ("10m", 600), ("1h", 3600), ("1d", 86400)):
            self.assertEqual(parser().parse_args(["run", "c", "--linger", text]).linger, seconds)
        for words in (
            ["--listen", "host:80"], ["--listen", "10.1.2.3"], ["--listen", "10.1.2.3:80", "--port", "80"], ["--linger", "0"], ["--linger", "2d"]
        ):
            self.assertEqual(ctl("run", "c", *words).status, 64, words)


class Handed(unittest.TestCase):
    def test_none(self) -> None:
        for process in ("", str(os.getpid() + 1)):
            with mock.patch.dict(os.environ, {"LISTEN_FDS": "1", "LISTEN_PID": process}):
                self.assertEqual(handed_over(), [])
                self.assertNotIn("LISTEN_FDS", os.environ)

    def test_a_unit(self) -> None:
        """The socket of the unit counts, wherever it listens."""
        with opened(Wanted(0, "127.0.0.1")) as unit, opened(Wanted(0)) as stored, handing(("aclproxy.socket", unit), ("port", stored)):
            number = unit.getsockname()[1]
            port = port_for(Wanted(3128), notifier())
            self.assertEqual((port.port, port.kept, stored.fileno()), (number, True, -1))
            # Systemd has it, too.
            port.shut()
            assert port.socket is not None
            self.assertTrue(is_listening(port.socket))
            port.socket.close()

    def test_one_that_was_kept(self) -> None:
        with opened(Wanted(0)) as stored:
            number = stored.getsockname()[1]
            with handing(("port", stored)):
                port = port_for(Wanted(number), notifier())
            assert port.socket is not None
            self.assertEqual((port.port, port.kept), (number, True))
            with handing(("port", port.socket)):
                other = port_for(Wanted(0, "127.0.0.1"), notifier())
            self.assertNotEqual(other.port, number)
            self.assertFalse(other.kept)
            assert other.socket is not None
            other.shut()
            self.assertFalse(is_listening(other.socket))
            other.socket.close()

    def test_what_is_refused(self) -> None:
        with bound(socket.AF_INET, "127.0.0.1", 0) as one, bound(socket.AF_INET, "127.0.0.1", 0) as other:
            with handing(("a.socket", one), ("b.socket", other)), self.assertRaisesRegex(UserError, "hands over 2 sockets"):
                port_for(Wanted(3128), notifier())
        with socket.socket(socket.AF_INET, socket.SOCK_DGRAM) as one, handing(("a.socket", one)):
            with self.assertRaisesRegex(UserError, "a socket to which no client comes"):
                port_for(Wanted(3128), notifier())


LOOK = """
import os, socket
it = socket.socket(fileno=3)
print(it.getsockname()[1], os.environ["LISTEN_PID"] == str(os.getpid()), sorted(map(int, os.listdir("/proc/self/fd")))[:4])
"""
STARTS = """
import subprocess, sys
from aclproxyctl.listening import Port, Wanted, opened
taken = [open("/dev/null") for _ in range(int(sys.argv[2]))]
one = opened(Wanted(0, "127.0.0.1"))
print(one.getsockname()[1], flush=True)
port = Port(one, Wanted(0, "127.0.0.1"))
subprocess.run(port.command([sys.executable, "-c", sys.argv[1]]), pass_fds=(port.descriptor,))
"""


class Command(unittest.TestCase):
    """In a process of its own, since the numbers from 3 to 9 may be taken in one with tests."""

    def starts(self, taken: int) -> "subprocess.CompletedProcess[str]":
        return subprocess.run([sys.executable, "-c", STARTS, LOOK, str(taken)], cwd=TOOLS, capture_output=True, text=True, timeout=60)

    def test_a_program_has_the_socket(self) -> None:
        """It is file 3 there, and the variables name that very process."""
        for taken in (0, 4):
            ran = self.starts(taken)
            number = ran.stdout.split()[0]
            self.assertEqual((ran.stdout, ran.stderr), (f"{number}\n{number} True [0, 1, 2, 3]\n", ""))

    def test_numbers_that_are_taken(self) -> None:
        self.assertIn("the files 3 to 9 are open already", self.starts(7).stderr)


if __name__ == "__main__":
    unittest.main()
