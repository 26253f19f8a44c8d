"""Files that are compressed once nobody writes to them: by zstd where that is installed, otherwise by gzip."""

import gzip
import io
import os
import shutil
import subprocess
import time
import zlib
from pathlib import Path
from typing import BinaryIO, Callable, Optional

from aclproxyctl.errors import CUT, NEEDS, SYSTEM, UserError, of_system

# The forms in which a file is read. Where a file is there in several, as while it is compressed, the first counts.
SUFFIXES = ("", ".gz", ".zst")
# A file that is not whole yet.
UNFINISHED = ".new"
BLOCK = 1 << 20
LOOK_AGAIN = 0.05


def never() -> bool:
    return False


def spoilt(path: Path) -> UserError:
    return UserError(CUT, f"{path}: it is compressed, and cut off or spoilt")


class Gunzipped(io.RawIOBase):
    """The text of a file that gzip compressed."""

    def __init__(self, path: Path) -> None:
        super().__init__()
        self.path = path
        self.file = gzip.open(path)

    def readable(self) -> bool:
        return True

    def readinto(self, buffer: "bytearray | memoryview") -> int:  # type: ignore[override]
        try:
            block = self.file.read(len(buffer))
        except (EOFError, zlib.error, gzip.BadGzipFile):
            raise spoilt(self.path) from None
        buffer[: len(block)] = block
        return len(block)

    def close(self) -> None:
        self.file.close()
        super().close()


class Unpacked(io.RawIOBase):
    """The text of a file that zstd compressed."""

    def __init__(self, path: Path) -> None:
        super().__init__()
        self.path = path
        zstd = shutil.which("zstd")
        if zstd is None:
            raise UserError(NEEDS, f"{path}: the program zstd is not found, which compressed it; Debian has it in the package zstd")
        self.process = subprocess.Popen([zstd, "-dcq", "--", str(path)], stdin=subprocess.DEVNULL, stdout=subprocess.PIPE, stderr=subprocess.DEVNULL)

    def readable(self) -> bool:
        return True

    def readinto(self, buffer: "bytearray | memoryview") -> int:  # type: ignore[override]
        assert self.process.stdout is not None
        block = os.read(self.process.stdout.fileno(), len(buffer))
        if not block and self.process.wait() != 0:
            raise spoilt(self.path)
        buffer[: len(block)] = block
        return len(block)

    def close(self) -> None:
        if not self.closed:
            self.process.kill()
            self.process.wait()
            if self.process.stdout is not None:
                self.process.stdout.close()
        super().close()


def open_plain_or_packed(path: Path) -> BinaryIO:
    """Opens a file in the form that it has, or that it got meanwhile."""
    plain = path.with_suffix("") if path.suffix in SUFFIXES[1:] else path
    for form in (path, *(plain.with_name(plain.name + suffix) for suffix in SUFFIXES)):
        try:
            if form.suffix == ".gz":
                return io.BufferedReader(Gunzipped(form), BLOCK)
            file = open(form, "rb")
        except FileNotFoundError:
            continue
        except OSError as fault:
            raise of_system(fault, str(form)) from None
        if form.suffix != ".zst":
            return file
        file.close()
        return io.BufferedReader(Unpacked(form), BLOCK)
    raise of_system(FileNotFoundError(), str(path))


def pack(path: Path, cancelled: Callable[[], bool] = never) -> Optional[Path]:
    """Compresses a file, which keeps its moment. None where that was cancelled: then the file is as it was."""
    zstd = shutil.which("zstd")
    to = path.with_name(path.name + (".zst" if zstd is not None else ".gz"))
    beside = to.with_name(to.name + UNFINISHED)
    found = path.stat()
    descriptor = os.open(beside, os.O_WRONLY | os.O_CREAT | os.O_TRUNC | os.O_CLOEXEC, 0o600)
    try:
        with open(path, "rb") as plain, open(descriptor, "wb") as packed:
            if zstd is not None:
                done = by_zstd(zstd, plain, packed, cancelled)
            else:
                done = by_gzip(plain, packed, found.st_mtime, cancelled)
            os.fsync(packed.fileno())
        if not done:
            return None
        os.utime(beside, ns=(found.st_atime_ns, found.st_mtime_ns))
        os.replace(beside, to)
    finally:
        beside.unlink(missing_ok=True)
    path.unlink()
    return to


def by_zstd(zstd: str, plain: BinaryIO, packed: BinaryIO, cancelled: Callable[[], bool]) -> bool:
    with subprocess.Popen([zstd, "-qc", "--no-progress"], stdin=plain, stdout=packed, stderr=subprocess.PIPE) as process:
        while process.poll() is None:
            if cancelled():
                process.kill()
                process.wait()
                return False
            time.sleep(LOOK_AGAIN)
        said = process.stderr.read().decode("utf-8", "replace").strip() if process.stderr is not None else ""
    if process.returncode != 0:
        raise UserError(SYSTEM, f"zstd ended with status {process.returncode}: {said[:300]}")
    return True


def by_gzip(plain: BinaryIO, packed: BinaryIO, moment: float, cancelled: Callable[[], bool]) -> bool:
    with gzip.GzipFile(filename="", mode="wb", fileobj=packed, mtime=moment) as to:
        while block := plain.read(BLOCK):
            if cancelled():
                return False
            to.write(block)
    return True
