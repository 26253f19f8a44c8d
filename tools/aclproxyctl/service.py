"""What a run's folder has of the service while it lasts: its process, its port and its workers."""

import json
from dataclasses import asdict, dataclass
from pathlib import Path
from typing import Optional

SERVICE = "service.json"
# How many workers `serve` has where nobody says.
DEFAULT_WORKERS = 8


@dataclass(frozen=True)
class Service:
    """A server that serves."""

    process: int
    port: int
    workers: int

    def text(self) -> bytes:
        return json.dumps(asdict(self)).encode() + b"\n"


def service_of(run: Path) -> Optional[Service]:
    """The server of a run, where it is alive."""
    try:
        found = json.loads((run / SERVICE).read_text())
        service = Service(int(found["process"]), int(found["port"]), int(found["workers"]))
        command = Path(f"/proc/{service.process}/cmdline").read_bytes().split(b"\0")
    except (OSError, ValueError, LookupError, TypeError, OverflowError, RecursionError):
        return None
    # The number may be that of another process by now.
    named = f"{run.name}/current.conf".encode()
    return service if any(word.endswith(named) for word in command) else None
