"""The socket at which clients come. It is opened here, or handed over by systemd, and handed on to each run: while a new run
begins both have it, so that no client is refused between two of them.
"""

import errno
import os
import socket
from dataclasses import dataclass
from typing import Optional

from aclproxyctl.errors import SYSTEM, USAGE, UserError
from aclproxyctl.notify import Notifier

# As sd_listen_fds(3) has it: files are handed from this number on.
FIRST = 3
# The socket has one of these numbers here, since a shell redirects numbers of one digit alone.
NUMBERS = range(3, 10)
# So many connections may wait for their run, if the system's own limit is not less. The program sets the same.
BACKLOG = 1024
# Under this name systemd keeps the socket while the service starts anew.
STORED = "port"


@dataclass(frozen=True)
class Wanted:
    """Where clients are to come: at a port of all addresses, or of one."""

    port: int
    address: Optional[str] = None

    def said(self) -> str:
        return f"port {self.port} of {'all addresses (0.0.0.0 and ::)' if self.address is None else self.address}"


def bound(family: int, address: str, port: int) -> socket.socket:
    """A socket that listens at an address; one of IPv6 for all addresses does for those of IPv4, too."""
    one = socket.socket(family, socket.SOCK_STREAM)
    try:
        one.setsockopt(socket.SOL_SOCKET, socket.SO_REUSEADDR, 1)
        if family == socket.AF_INET6:
            one.setsockopt(socket.IPPROTO_IPV6, socket.IPV6_V6ONLY, 0)
        one.bind((address, port))
        one.listen(BACKLOG)
    except OSError:
        one.close()
        raise
    return one


def opened(wanted: Wanted) -> socket.socket:
    """A socket that listens there. Where the machine has no IPv6, all addresses are those of IPv4."""
    if wanted.address is not None:
        return bound(socket.AF_INET6 if ":" in wanted.address else socket.AF_INET, wanted.address, wanted.port)
    try:
        return bound(socket.AF_INET6, "::", wanted.port)
    except OSError as fault:
        if fault.errno == errno.EADDRINUSE:
            raise
        return bound(socket.AF_INET, "0.0.0.0", wanted.port)


def is_listening(one: socket.socket) -> bool:
    """Whether it is a socket of TCP to which clients come."""
    try:
        return one.family in (socket.AF_INET, socket.AF_INET6) and one.getsockopt(socket.SOL_SOCKET, socket.SO_ACCEPTCONN) == 1
    except OSError:
        return False


def is_there(one: socket.socket, wanted: Wanted) -> bool:
    """Whether a socket listens where it is wanted."""
    if not is_listening(one):
        return False
    address, port = one.getsockname()[:2]
    return port == wanted.port and (address in ("::", "0.0.0.0") if wanted.address is None else address == wanted.address)


def handed_over() -> list[tuple[str, socket.socket]]:
    """The sockets that systemd hands to this process, each with its name. The variables are taken away, since they are not for others."""
    count, process, names = (os.environ.pop(name, "") for name in ("LISTEN_FDS", "LISTEN_PID", "LISTEN_FDNAMES"))
    if process != str(os.getpid()) or not count.isdigit():
        return []
    named = names.split(":")
    found = []
    for place in range(int(count)):
        number = FIRST + place
        try:
            os.set_inheritable(number, False)
            found.append((named[place] if place < len(named) else "", socket.socket(fileno=number)))
        except OSError as fault:
            raise UserError(USAGE, f"LISTEN_FDS is {count}, and file {number} is no socket: {fault.strerror}") from None
    return found


def lowered(descriptor: int) -> int:
    """The same file under a number that a shell can redirect from."""
    if descriptor in NUMBERS:
        return descriptor
    for number in NUMBERS:
        try:
            os.fstat(number)
        except OSError:
            os.dup2(descriptor, number, inheritable=False)
            os.close(descriptor)
            return number
    raise UserError(SYSTEM, "the files 3 to 9 are open already, and the socket for clients has to be one of them")


class Port:
    """A socket that listens, or why there is none. Then runs get a file in its place that is no socket, so that each still says first what
    it has to say of its configuration.
    """

    def __init__(self, one: Optional[socket.socket], wanted: Wanted, kept: bool = False, fault: str = "") -> None:
        self.fault = fault
        self.wanted = wanted
        self.kept = kept
        # How many connections wait there is seen by this number.
        self.port = wanted.port
        if one is None:
            self.descriptor = lowered(os.open(os.devnull, os.O_RDWR | os.O_CLOEXEC))
            self.socket: Optional[socket.socket] = None
            return
        self.port = int(one.getsockname()[1])
        self.descriptor = lowered(one.detach())
        self.socket = socket.socket(fileno=self.descriptor)

    def command(self, words: list[str]) -> list[str]:
        """The words that start a program with the socket. Only the process that becomes the program knows its own number, which the shell
        tells it; between a fork and that, nothing of this process runs, which has several threads.
        """
        moved = "" if self.descriptor == FIRST else f" {FIRST}<&{self.descriptor} {self.descriptor}<&-"
        return ["/bin/sh", "-c", f'LISTEN_PID=$$; export LISTEN_PID; exec "$@"{moved}', "sh", *words]

    def shut(self) -> None:
        """Nobody is let in any more, unless systemd has the socket, too: then those who come wait for the next start."""
        if self.socket is not None and not self.kept:
            try:
                self.socket.shutdown(socket.SHUT_RDWR)
            except OSError:
                pass


def port_for(wanted: Wanted, notifier: Notifier) -> Port:
    """The socket of systemd's unit; else the one that systemd has kept since the service was started before, if it listens there still;
    else a new one, which systemd is asked to keep.
    """
    units, stored = [], []
    for name, one in handed_over():
        (stored if name == STORED else units).append(one)
    if len(units) > 1:
        raise UserError(USAGE, f"systemd hands over {len(units)} sockets, and a run listens at one: state one ListenStream= in the unit")
    chosen = units[0] if units else next((one for one in stored if is_there(one, wanted)), None)
    for one in stored:
        if one is not chosen:
            notifier.forget(STORED)
            one.close()
    if chosen is not None:
        if not is_listening(chosen):
            raise UserError(USAGE, "systemd hands over a socket to which no client comes: the unit needs ListenStream= with a port, and Accept=no")
        return Port(chosen, wanted, kept=True)
    try:
        one = opened(wanted)
    except OSError as fault:
        return Port(None, wanted, fault=fault.strerror or str(fault))
    return Port(one, wanted, kept=notifier.keep(one.fileno(), STORED))
