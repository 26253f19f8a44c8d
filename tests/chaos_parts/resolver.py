"""A name server of the test's own, at 127.0.0.1 in a namespace, and what may be known by its answers.

What it says of a name follows from the name's first word, `WORD-N.test`: some names have other addresses from the second answer on, and for
some it lies, is slow, or says nothing. It writes each answer into the file `names.log` before it gives it.
"""

import json
import os
import shutil
import socket
import struct
import subprocess
import sys
import threading
import time
from collections import defaultdict
from pathlib import Path

from names import Names, raise_loopback

from .model import in_range

# The addresses of a name by the first word: at its first look-up, and later. At each of these an origin listens. Without one it is no name.
HAS: dict[str, tuple[tuple[str, ...], ...]] = {
    "one": (("127.0.0.1",),),
    "inner": (("127.1.0.9",),),
    "both": (("127.0.0.9", "127.1.0.9"),),
    "six": (("127.0.0.9", "::1"),),
    "flip": (("127.0.0.1",), ("127.1.0.9",)),
    "flop": (("127.1.0.9",), ("127.0.0.1",)),
    "part": (("127.0.0.1", "127.0.0.9"), ("127.0.0.9", "127.1.0.9")),
    "late": ((), ("127.0.0.1",)),
    "slow": (("127.0.0.1",),),
    "liar": (("127.0.0.1",),),
    "alias": (("127.0.0.9",),),
}
# Why a name has none, as a reply says it: there is no such name, the server has failed, there are no records. `dead` gets no reply.
FAILS = {"none": 3, "broken": 2, "empty": 0, "dead": -1}
WORDS = ("one", "inner", "both", "six", "flip", "flop", "part", "late", "liar", "alias", "none", "broken", "empty")
SLACK = 0.1  # seconds between two clocks
STATIC = {"localhost": ("127.0.0.1", "::1")}
LIE = "127.1.0.9"


class Resolver(Names):
    """The name server."""

    def __init__(self, log: str) -> None:
        self.log = open(log, "a", buffering=1)
        self.turns: defaultdict[str, int] = defaultdict(int)
        self.lock = threading.Lock()
        super().__init__()

    def tell(self, name: str, has: tuple[str, ...]) -> None:
        with self.lock:
            self.log.write(json.dumps({"name": name, "at": time.time(), "has": has}) + "\n")

    def answer(self, number: bytes, name: str, kind: int, question: bytes, peer: object) -> None:
        word = name.split("-")[0]
        turns = HAS.get(word) if name.endswith(".test") else None
        if turns is None:
            code = FAILS.get(word, 3) if name.endswith(".test") else 3
            self.tell(name, ())
            if code >= 0:
                self.send(number, code, question, b"", 0, peer)
            return
        with self.lock:
            turn = self.turns[name]
            self.turns[name] += kind == 1
        has = turns[min(turn, len(turns) - 1)]
        family, mark = (socket.AF_INET6, ":") if kind == 28 else (socket.AF_INET, ".")
        found = [socket.inet_pton(family, address) for address in has if mark in address] if kind in (1, 28) else []
        if word == "slow":
            time.sleep(0.3)
        if word == "liar" and kind == 1:
            # Replies to what nobody asked: of another number, and of another name.
            false = self.record(b"\xc0\x0c", 1, socket.inet_aton(LIE))
            self.send(bytes([number[0] ^ 1, number[1]]), 0, question, false, 1, peer)
            self.send(number, 0, b"\x05other\x04test\x00\x00\x01\x00\x01", false, 1, peer)
        if kind == 1:
            self.tell(name, has)
        owner, records, count = b"\xc0\x0c", b"", len(found)
        if word == "alias" and found:
            alias = b"\x04real\x04test\x00"
            records += self.record(owner, 5, alias)
            owner = alias
            count += 1
        records += b"".join(self.record(owner, kind, address) for address in found)
        self.send(number, 0 if has else 3, question, records, count, peer)

    def record(self, owner: bytes, kind: int, data: bytes) -> bytes:
        return owner + struct.pack(">HHIH", kind, 1, 0, len(data)) + data

    def send(self, number: bytes, code: int, question: bytes, records: bytes, count: int, peer: object) -> None:
        self.socket.sendto(number + struct.pack(">HHHHH", 0x8180 | code, 1, count, 0, 0) + question + records, peer)


def run(log: str) -> None:
    Resolver(log)
    parent = os.getppid()
    while os.getppid() == parent and not os.path.exists("origins.end"):
        time.sleep(0.2)


class Answers:
    """What the name server said, and what a look-up may come to by that."""

    def __init__(self, log: str) -> None:
        self.of: defaultdict[str, list[tuple[float, frozenset[str]]]] = defaultdict(list)
        with open(log) as file:
            for line in file:
                told = json.loads(line)
                self.of[told["name"]].append((told["at"], frozenset(told["has"])))

    def before(self, name: str, moment: float) -> list[frozenset[str]]:
        """What was said of a name up to a moment. Where rules ask one after the other, an answer counts for minutes."""
        if name in STATIC:
            return [frozenset(STATIC[name])]
        return [has for at, has in self.of[name] if at <= moment + SLACK]

    def shown(self, name: str, values: list[str], moment: float) -> set[str]:
        """What a list of type `dst` may answer for a name: `OK`, `ERR`, or `BH` where the look-up failed."""
        said = self.before(name, moment)
        may = {"BH"} if self.may_fail(name, moment) else set()
        # Where answers differ, a rule is shown one of them, or what they have in common with an earlier one.
        full = {has for has in said if has}
        for has in {one & other for one in full for other in full}:
            may.add("OK" if any(in_range(value, address) for value in values for address in has) else "ERR")
        return may

    def may_fail(self, name: str, moment: float) -> bool:
        """Whether an answer has no address, or two have none in common."""
        said = set(self.before(name, moment))
        return any(not one & other for one in said for other in said)

    def changed(self) -> int:
        """How many names had another answer the second time."""
        return sum(len({has for _, has in all_}) > 1 for all_ in self.of.values())

    def addresses(self, name: str, moment: float) -> set[str]:
        """Where a name may be dialled."""
        return {address for has in self.before(name, moment) for address in has}


def enter(script: str, words: list[str]) -> None:
    """Runs the test anew in namespaces of its own, where this machine gives them. It returns where it does not."""
    spaces = ["unshare", "--user", "--map-root-user", "--net", "--mount"] if os.getuid() else ["unshare", "--net", "--mount"]
    probe = [*spaces, "mount", "--bind", "/etc/hosts", "/etc/hosts"]
    if shutil.which("unshare") is None or subprocess.run(probe, capture_output=True).returncode:
        return
    sys.stdout.flush()
    os.execvp(spaces[0], [*spaces, sys.executable, script, "--inside", *words])


def settle(folder: str) -> None:
    """Has this namespace look names up at the test's own server."""
    raise_loopback()
    for name, text in (("resolv.conf", "nameserver 127.0.0.1\n"), ("hosts", "127.0.0.1 localhost\n::1 localhost\n")):
        (Path(folder) / name).write_text(text)
        subprocess.run(["mount", "--bind", str(Path(folder) / name), f"/etc/{name}"], check=True)
