"""The counters of a run, in a file beside its journal: the service writes it, so that nobody has to read the whole run to know them."""

import json
import os
import time
from dataclasses import asdict, dataclass, fields
from pathlib import Path
from typing import Any, Optional

from aclproxyctl.counts import Counted, Counts, whole
from aclproxyctl.journal import is_written
from aclproxyctl.state import Standing

NAME = "counters.json"
VERSION = 1


@dataclass
class Counters:
    """What stands in the file: the counts, the moment up to which they count in milliseconds, and whether the run had ended by then."""

    counted: Counted
    moment: int
    whole: bool


def write(run: Path, counted: Counted, whole: bool) -> None:
    """Puts a file in the place of the one before, so that who reads it finds it whole. Nothing is brought to the disk by force."""
    found = {
        "version": VERSION,
        "moment": int(time.time() * 1000),
        "whole": whole,
        "journal": {name: getattr(counted, name) for name in ("bytes", "pieces", "cut", "has_access", "fault")},
        "standing": asdict(counted.standing),
        "counts": counted.counts.plain(),
    }
    beside = run / (NAME + ".new")
    descriptor = os.open(beside, os.O_WRONLY | os.O_CREAT | os.O_TRUNC | os.O_CLOEXEC, 0o600)
    with open(descriptor, "w", encoding="utf-8") as file:
        file.write(json.dumps(found, separators=(",", ":")) + "\n")
    os.replace(beside, run / NAME)


def read(run: Path) -> Optional[Counters]:
    """The counters of a run. None where there are none, and where the service was killed and they may lack its last moments."""
    try:
        found = json.loads((run / NAME).read_text(encoding="utf-8"))
        if found["version"] != VERSION:
            return None
        counters = Counters(counted_of(found), whole(found["moment"]), bool(found["whole"]))
    except (OSError, ValueError, LookupError, TypeError, AttributeError, OverflowError, RecursionError):
        return None
    if counters.counted.fault or not (counters.whole or is_written(run)):
        return None
    return counters


def counted_of(found: dict[str, Any]) -> Counted:
    standing = Standing()
    for one in fields(standing):
        value = found["standing"][one.name]
        setattr(standing, one.name, {str(name): whole(count) for name, count in value.items()} if one.name == "helpers" else whole(value))
    journal = found["journal"]
    return Counted(
        Counts.of_plain(found["counts"]),
        standing,
        whole(journal["bytes"]),
        whole(journal["pieces"]),
        whole(journal["cut"]),
        bool(journal["has_access"]),
        str(journal["fault"]),
    )
