"""The clients at a port, as the system's table of connections has them."""

import os
import re
from dataclasses import dataclass
from typing import Optional

# States of a connection in that table: it is open, or open on this side.
OPEN_STATES = ("01", "08")
LISTENING = "0A"
# The inode of a connection that nobody has accepted yet.
NOBODYS = "0"


@dataclass
class Clients:
    """How many connections a port has, and how many of these nobody has accepted yet."""

    connected: int = 0
    queued: int = 0
    listening: bool = False

    def workers_in_use(self, workers: int) -> int:
        return min(workers, self.connected - self.queued)

    def waiting(self, workers: int) -> int:
        """How many connections have no worker."""
        return self.connected - self.workers_in_use(workers)


def add_table(clients: Clients, text: str, port: int, own: Optional[set[str]] = None) -> None:
    """Adds a table, of IPv4 or of IPv6. Its columns: number, address:port of this side, of the other side, state, queues, three more,
    inode. Where the inodes of a process are known, connections of others do not count.
    """
    ending = f":{port:04X}"
    for line in text.splitlines()[1:]:
        words = line.split(None, 10)
        if len(words) < 5 or not words[1].endswith(ending):
            continue
        if words[3] == LISTENING:
            # What waits to be read of a listening socket are connections.
            clients.listening = True
            clients.queued += int(words[4].partition(":")[2], 16)
        elif words[3] in OPEN_STATES and (own is None or len(words) < 10 or words[9] == NOBODYS or words[9] in own):
            clients.connected += 1


def sockets_of(process: "int | str") -> Optional[set[str]]:
    """The inodes of the sockets that a process has open. None where the system does not tell."""
    try:
        numbers = os.listdir(f"/proc/{process}/fd")
    except OSError:
        return None
    found = set()
    for number in numbers:
        try:
            name = re.fullmatch(r"socket:\[([0-9]+)\]", os.readlink(f"/proc/{process}/fd/{number}"))
        except OSError:
            continue
        if name is not None:
            found.add(name[1])
    return found


def clients_of(port: int, process: "int | str" = "self") -> Optional[Clients]:
    """The clients of a process at a port, and those that nobody has accepted yet; where the system does not tell whose a connection is, all
    at the port. None where it tells nothing.
    """
    clients = Clients()
    told = False
    own = sockets_of(process) if process != "self" else None
    for table in ("tcp", "tcp6"):
        try:
            with open(f"/proc/{process}/net/{table}", encoding="ascii") as file:
                add_table(clients, file.read(), port, own)
                told = True
        except (OSError, ValueError):
            continue
    if not told:
        return None
    # The table is no picture of one moment.
    clients.queued = min(clients.queued, clients.connected)
    return clients
