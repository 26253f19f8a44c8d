"""How much room the disk of the journals has, in words."""

import os
import time
from pathlib import Path
from typing import Callable, Optional

# The disk is looked at once a minute, and what was said is repeated after an hour, or when half of the rest is gone.
PAUSE = 60.0
REPEATED = 3600.0
# It counts as nearly full below this share, and below this number of bytes.
SHARE = 0.05
FEW_BYTES = 4 * 1024**3
FEW_FILES = 1000


def size_in_words(count: float) -> str:
    """A number of bytes with a unit: 512 bytes, 1.5 KiB, 20.0 GiB."""
    if count < 1024:
        return f"{count:.0f} bytes"
    for unit in ("KiB", "MiB", "GiB"):
        count /= 1024
        if count < 1024:
            return f"{count:.1f} {unit}"
    return f"{count / 1024:.1f} TiB"


class Disk:
    """The disk of a folder: says when it becomes nearly full, and when it has room again."""

    def __init__(
        self, folder: Path, clock: Callable[[], float] = time.monotonic, look: Callable[[Path], os.statvfs_result] = os.statvfs
    ) -> None:
        self.folder = folder
        self.clock = clock
        self.look = look
        self.looked: Optional[float] = None
        self.said: Optional[float] = None
        self.free_then = 0

    def news(self) -> Optional[str]:
        """What there is to say now, if anything."""
        now = self.clock()
        if self.looked is not None and now - self.looked < PAUSE:
            return None
        self.looked = now
        try:
            found = self.look(self.folder)
        except OSError:
            return None
        free, size = found.f_bavail * found.f_frsize, found.f_blocks * found.f_frsize
        few_files = 0 < found.f_files and found.f_favail < FEW_FILES
        if not few_files and free >= min(size * SHARE, FEW_BYTES):
            was, self.said = self.said, None
            return None if was is None else f"the disk of {self.folder} has room again: {size_in_words(free)} of {size_in_words(size)} are free"
        if self.said is not None and now - self.said < REPEATED and free * 2 > self.free_then:
            return None
        self.said = now
        self.free_then = free
        left = f"{size_in_words(free)} of {size_in_words(size)} are free"
        if few_files:
            left += f", and {found.f_favail:,} files can be made"
        return f"the disk of {self.folder} is nearly full: {left}; the server ends when its journal cannot be written"
