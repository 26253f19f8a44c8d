"""Lists of many domains: a file that is mapped into memory, and the helper `aclproxy-domains` that answers by such files.

A file has a head of 64 bytes, `aclproxy-domains 1 BITS COUNT` and a line feed, filled up by spaces in front of that. Then come 2 ** BITS + 1
numbers of four bytes, the least first: where each bucket begins, from the start of the file. A bucket is a line feed, and the names of it in
their order, each with a line feed behind it. A name is in the bucket that the first BITS bits of its CRC-32 say.
"""

import mmap
import os
import re
import struct
import sys
import time
import zlib
from pathlib import Path
from typing import Optional
from urllib.parse import unquote_to_bytes

HEAD = 64
HEAD_FORM = re.compile(rb"aclproxy-domains 1 ([12]?[0-9]|3[012]) ([0-9]{1,10}) *\n")
NAME_FORM = re.compile(r"[A-Za-z0-9_-][A-Za-z0-9_.-]*")
# How long a file is taken for the one that it was.
LOOKED_AT = 1.0
PIECE = 65536


class Unreadable(Exception):
    """Why a file is no list."""


class DomainFile:
    """A list that is mapped: pages of it are in memory where they were looked at, and the system may take them away again."""

    def __init__(self, path: str) -> None:
        with open(path, "rb") as file:
            self.identity = identity(os.fstat(file.fileno()))
            head = HEAD_FORM.fullmatch(file.read(HEAD))
            if head is None:
                raise Unreadable(f"{path}: it is no list of `aclproxyctl lists update`")
            self.shift = 32 - int(head[1])
            self.count = int(head[2])
            size = os.fstat(file.fileno()).st_size
            if size < HEAD + 4 * ((1 << int(head[1])) + 1):
                raise Unreadable(f"{path}: it is cut off")
            self.map = mmap.mmap(file.fileno(), 0, access=mmap.ACCESS_READ)
        if struct.unpack_from("<I", self.map, HEAD + 4 * (1 << int(head[1])))[0] != size:
            raise Unreadable(f"{path}: it is cut off")

    def is_listed(self, name: bytes) -> bool:
        """Whether it has this name as it stands."""
        start, end = struct.unpack_from("<II", self.map, HEAD + 4 * (zlib.crc32(name) >> self.shift))
        return self.map.find(b"\n%b\n" % name, start, end) >= 0

    def has(self, host: bytes) -> bool:
        """Whether it holds of a host, as a list of type dstdomain would: `a.example` for itself, `.example` for it and all below it."""
        if self.is_listed(host) or self.is_listed(b"." + host):
            return True
        dot = host.find(b".")
        while dot >= 0:
            if self.is_listed(host[dot:]):
                return True
            dot = host.find(b".", dot + 1)
        return False


def identity(stat: os.stat_result) -> tuple[int, int, int]:
    """What changes where another file takes the place of one."""
    return stat.st_ino, stat.st_mtime_ns, stat.st_size


class Lists:
    """The lists of a folder by name. A file that takes the place of another is seen within a second; one that cannot be read is passed over."""

    def __init__(self, folder: str) -> None:
        self.folder = folder
        self.open: dict[bytes, DomainFile] = {}
        self.looked: dict[bytes, float] = {}
        self.refused: dict[bytes, tuple[int, int, int]] = {}

    def get(self, name: bytes) -> Optional[DomainFile]:
        now = time.monotonic()
        if now - self.looked.get(name, -LOOKED_AT) >= LOOKED_AT:
            self.look(name)
            self.looked[name] = now
        return self.open.get(name)

    def look(self, name: bytes) -> None:
        text = name.decode("ascii", "replace")
        if not NAME_FORM.fullmatch(text):
            return
        path = os.path.join(self.folder, text)
        try:
            found = identity(os.stat(path))
            old = self.open.get(name)
            if (old is None or old.identity != found) and self.refused.get(name) != found:
                self.refused[name] = found
                self.open[name] = DomainFile(path)
                del self.refused[name]
        except (OSError, Unreadable) as fault:
            print(f"aclproxy-domains: {fault}", file=sys.stderr, flush=True)


def answer(lists: Lists, line: bytes) -> bytes:
    """The reply to a question `CHANNEL HOST LIST ..`, without its line feed."""
    channel, *words = line.split(b" ")
    if b"%" in line:
        words = [unquote_to_bytes(word) for word in words]
    if not channel.isdigit() or len(words) < 2 or words[1] == b"-":
        return b"%b BH message=%b" % (channel if channel.isdigit() else b"0", b"the%20question%20is%20CHANNEL%20HOST%20LIST")
    host = words[0].lower()
    for name in words[1:]:
        found = lists.get(name)
        if found is None:
            return b"%b BH message=%b" % (channel, b"there%20is%20no%20list%20of%20this%20name")
        if found.has(host):
            return b"%b OK message=%b" % (channel, name)
    return channel + b" ERR"


def serve(folder: str, questions: int, replies: int) -> None:
    """Answers until the questions end. What came at once is answered at once."""
    lists = Lists(folder)
    rest = b""
    while True:
        read = os.read(questions, PIECE)
        if not read:
            return
        *lines, rest = (rest + read).split(b"\n")
        out = memoryview(b"".join([answer(lists, line) + b"\n" for line in lines]))
        while out:
            out = out[os.write(replies, out) :]


def main(words: list[str]) -> int:
    if len(words) != 1 or words[0].startswith("-"):
        print("usage: aclproxy-domains FOLDER, as a helper: external_acl_type NAME concurrency=100 %DST %DATA /usr/bin/aclproxy-domains FOLDER", file=sys.stderr)
        return 64
    if not Path(words[0]).is_dir():
        print(f"aclproxy-domains: {words[0]}: there is no such folder", file=sys.stderr)
        return 66
    try:
        serve(words[0], sys.stdin.fileno(), sys.stdout.fileno())
    except (BrokenPipeError, ConnectionResetError, KeyboardInterrupt):
        pass
    return 0
