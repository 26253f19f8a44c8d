"""An access log in the native format of Squid's, with fields of our own at the end of a line:

    MOMENT MILLISECONDS CLIENT CODE/STATUS BYTES METHOD URL - WAY/ADDRESS TYPE conn=8 check=17 rule=3 cause=refused

Fields that are not known here are passed over.
"""

import os
import re
from dataclasses import dataclass, field
from pathlib import Path
from typing import Iterator, NamedTuple, Optional

from aclproxyctl.errors import of_system
from aclproxyctl.packed import open_plain_or_packed

NAME = "access.log"
# The variable that names the file to `serve`.
VARIABLE = "ACLPROXY_ACCESS_LOG"
FILE = re.compile(r"access\.log(?:\.([0-9]+)(?:\.gz|\.zst)?|\.gz|\.zst)?")
MOMENT = re.compile(r"([0-9]{1,12})\.([0-9]{3})")
STATUS = re.compile(r"[0-9]{3}|-")
# A number as the program writes it, below 10 ** 19.
NUMBER = re.compile(r"[0-9]{1,19}")
# A line has fewer bytes than this: its longest words are a method and a target, of a head of 65,536 bytes, where a byte may be `%XX`.
GREATEST_LINE = 1 << 20
TUNNEL = "TCP_TUNNEL"
# What stands for the target of a connection that ended without a request.
SILENT = "error:transaction-end-before-headers"
# Words of a code that say that a request came to no good end.
FAILURES = ("ABORTED", "TIMEDOUT")


class Access(NamedTuple):
    """A request, or a tunnel, that has ended, or a connection that ended without one."""

    moment: int
    elapsed: int
    client: str
    code: str
    status: int
    bytes: int
    method: str
    url: str
    fields: dict[str, str]
    text: str

    @property
    def denied(self) -> bool:
        return "DENIED" in self.code

    @property
    def silent(self) -> bool:
        """Nothing was asked for."""
        return self.url == SILENT

    @property
    def failed(self) -> bool:
        """It was allowed, and came to no good end: the line says why, or the client got an error of a server."""
        if self.denied:
            return False
        return "cause" in self.fields or self.status >= 500 or any(word in self.code for word in FAILURES)

    @property
    def host(self) -> str:
        return host_of(self.url)

    def number(self, name: str) -> int:
        """The number of a field; 0 where there is none."""
        value = self.fields.get(name, "")
        return int(value) if NUMBER.fullmatch(value) else 0


def host_of(url: str) -> str:
    """The host of a target, in lower case: of http://HOST:PORT/PATH, or of HOST:PORT."""
    rest = url.partition("://")[2] or url
    authority = re.split(r"[/?#]", rest, maxsplit=1)[0].rpartition("@")[2]
    if authority.startswith("["):
        return authority.partition("]")[0].lstrip("[").lower()
    return authority.partition(":")[0].lower()


def is_host(host: str, wanted: str) -> bool:
    """Whether a host is the one that is wanted, or with `.` in front of it, that domain's."""
    wanted = wanted.lower()
    return host == wanted.lstrip(".") or (wanted.startswith(".") and host.endswith(wanted))


def parse(text: str) -> Optional[Access]:
    """A line of an access log. None where it is none."""
    words = text.split()
    if len(words) < 10:
        return None
    moment = MOMENT.fullmatch(words[0])
    code, slash, status = words[3].partition("/")
    if moment is None or not slash or STATUS.fullmatch(status) is None:
        return None
    if not (NUMBER.fullmatch(words[1]) and NUMBER.fullmatch(words[4])):
        return None
    fields = dict(word.split("=", 1) for word in words[10:] if "=" in word)
    return Access(
        int(moment[1]) * 1000 + int(moment[2]), int(words[1]), words[2], code, int(status) if status != "-" else 0, int(words[4]), words[5], words[6], fields, text
    )


def access_files(run: Path) -> list[Path]:
    """The access log of a run: its files, oldest first. None where the program writes no such log."""
    found: dict[float, Path] = {}
    try:
        names = sorted(os.listdir(run))
    except OSError as fault:
        raise of_system(fault, str(run)) from None
    for name in names:
        match = FILE.fullmatch(name)
        if match:
            found.setdefault(float(match[1]) if match[1] else float("inf"), run / name)
    return [found[number] for number in sorted(found)]


@dataclass
class Odd:
    """Lines that are none of an access log."""

    count: int = 0
    first: str = ""
    names: list[str] = field(default_factory=list)


def lines_of_access(files: list[Path]) -> Iterator[bytes]:
    """The lines of these files, without their LF. A last line without its end is not read: it is still written, or was cut off. Of a line
    that is too long to be one of an access log the beginning stands for it.
    """
    for path in files:
        with open_plain_or_packed(path) as file:
            while line := file.readline(GREATEST_LINE):
                if line.endswith(b"\n"):
                    yield line[:-1]
                elif len(line) == GREATEST_LINE:
                    yield line[:10]
                    while len(line) == GREATEST_LINE and not line.endswith(b"\n"):
                        line = file.readline(GREATEST_LINE)
                else:
                    break


def accesses(files: list[Path], odd: Odd) -> Iterator[Access]:
    """The lines of these files that are lines of an access log."""
    for path in files:
        for line in lines_of_access([path]):
            access = parse(line.decode("latin-1"))
            if access is None:
                odd.count += 1
                odd.first = odd.first or f"{path}: {line[:100]!r}"
            else:
                yield access


def is_access_log(path: Path) -> bool:
    """Whether the first line of a file is one of an access log."""
    with open_plain_or_packed(path) as file:
        return parse(file.readline(GREATEST_LINE).rstrip(b"\n").decode("latin-1")) is not None
