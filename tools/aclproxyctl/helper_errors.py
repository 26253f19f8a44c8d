"""What helper programs write to their standard error: `serve` appends it to a file, and from there it goes to the system's log,
line by line. The journal never has any of it.
"""

import socket
import syslog
import time
from pathlib import Path
from typing import Callable

from aclproxyctl.appended import Appended

# The variable that names the file to `serve`.
VARIABLE = "ACLPROXY_HELPER_ERRORS"
SYSTEM_LOG = "/dev/log"
NAME = "aclproxy-helper"


class SystemLog:
    """The system's log. A line that it does not take at once is not written, so that nobody waits for it."""

    def __init__(self, address: str = SYSTEM_LOG) -> None:
        self.address = address

    def __call__(self, line: str) -> bool:
        moment = time.strftime("%b %e %H:%M:%S")
        text = f"<{syslog.LOG_DAEMON | syslog.LOG_WARNING}>{moment} {NAME}: {line}".encode("utf-8", "backslashreplace")
        try:
            with socket.socket(socket.AF_UNIX, socket.SOCK_DGRAM | socket.SOCK_CLOEXEC | socket.SOCK_NONBLOCK) as to:
                to.sendto(text, self.address)
            return True
        except BlockingIOError:
            return False
        except OSError:
            # There is no such log.
            return True


def helper_errors(path: Path, log: Callable[[str], object] = SystemLog()) -> Appended:
    """The file of a run to which its helpers' standard error is appended."""
    return Appended(path, log, "helpers")
