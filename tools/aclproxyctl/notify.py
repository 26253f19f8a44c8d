"""What systemd is told of a service, over the socket that NOTIFY_SOCKET names."""

import array
import os
import socket
import time


class Notifier:
    """Tells systemd; nothing where it does not listen. A message that does not arrive stops nobody."""

    def __init__(self) -> None:
        # Helpers are not to speak for the service.
        name = os.environ.pop("NOTIFY_SOCKET", "")
        self.address = "\0" + name[1:] if name.startswith("@") else name
        watched, process = os.environ.pop("WATCHDOG_USEC", ""), os.environ.pop("WATCHDOG_PID", "")
        self.watched = watched != "" and process in ("", str(os.getpid()))

    def tell(self, *lines: str) -> None:
        if not self.address:
            return
        try:
            with socket.socket(socket.AF_UNIX, socket.SOCK_DGRAM | socket.SOCK_CLOEXEC) as to:
                to.sendto("\n".join(lines).encode(), self.address)
        except OSError:
            pass

    def keep(self, descriptor: int, name: str) -> bool:
        """Asks systemd to keep a file while the service starts anew, under a name. Whether it was asked; it does so as far as its unit says."""
        if not self.address:
            return False
        try:
            with socket.socket(socket.AF_UNIX, socket.SOCK_DGRAM | socket.SOCK_CLOEXEC) as to:
                files = [(socket.SOL_SOCKET, socket.SCM_RIGHTS, array.array("i", [descriptor]))]
                to.sendmsg([f"FDSTORE=1\nFDNAME={name}".encode()], files, 0, self.address)
            return True
        except OSError:
            return False

    def forget(self, name: str) -> None:
        """Systemd keeps the file of this name no longer."""
        self.tell("FDSTOREREMOVE=1", f"FDNAME={name}")

    def ready(self, status: str) -> None:
        self.tell("READY=1", f"STATUS={status}", f"MAINPID={os.getpid()}")

    def status(self, status: str) -> None:
        self.tell(f"STATUS={status}")

    def reloading(self) -> None:
        self.tell("RELOADING=1", f"MONOTONIC_USEC={time.clock_gettime_ns(time.CLOCK_MONOTONIC) // 1000}", "STATUS=reading the configuration again")

    def stopping(self, why: str = "ending; open connections go on to their end") -> None:
        """It ends; the text stays as the service's status, on one line."""
        self.tell("STOPPING=1", "STATUS=" + " ".join(why.split()))

    def alive(self) -> None:
        if self.watched:
            self.tell("WATCHDOG=1")
