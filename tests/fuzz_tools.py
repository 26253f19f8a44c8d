#!/usr/bin/env python3
"""Spoilt files for the tools: tests/fuzz_tools.py [--program PROGRAM] [--seconds S] [--seed N] [--only N]

Each round makes a folder of files of one kind, spoilt by the seed and the round's number: the journal and the access log of a real run,
plain and compressed, with the counters beside them; a squid.conf, with what it includes; lists of domains, and the files that are made of
them. Then the tools are called over it: `aclproxyctl log`, `usage`, `status`, `report`, `metrics`, `verify`, `explain`,
`prune`, `check`, `check --squid`, `lists`, and the helper `aclproxy-domains`, as docs/man has them.

Whatever is in the files, each call ends within CPU_SECONDS of a processor and WALL_SECONDS, takes no more than MEMORY bytes, has a status
that its manual names, and writes no traceback. The status 70 says that the program answered what it is not to, so it is none of these. A
call that ends otherwise is reported with its words, its round and what it wrote, and its files are kept: `--only N` makes that round alone. The
run at the beginning is one of `serve` on the loopback. Python 3.11 is what it needs; zstd is used where it is installed."""

import argparse
import os
import random
import resource
import select
import shutil
import signal
import socket
import sys
import tempfile
import time
from collections import Counter
from dataclasses import dataclass, field
from pathlib import Path
from typing import Callable

sys.dont_write_bytecode = True
HERE = Path(__file__).resolve().parent
TOP = HERE.parent
sys.path[:0] = [str(HERE), str(TOP / "tools")]

from aclproxyctl import counters, counts, domains, errors  # noqa: E402
from aclproxyctl.cli import main as aclproxyctl  # noqa: E402
from chaos_parts.server import Server, free_port  # noqa: E402
from tests.spoiling import PACKERS, spoilt, write_spoilt  # noqa: E402

CPU_SECONDS = 20
WALL_SECONDS = 60
MEMORY = 1 << 30  # of address space, beyond what this process has
OUTPUT = 64 << 20
STATUSES = {value for name, value in vars(errors).items() if name.isupper() and isinstance(value, int)}
STATUSES -= {errors.INTERNAL, errors.INTERRUPTED}
RUN = "20251129T004320.000Z"
CONF = (
    "external_acl_type known ttl=60 children-max=2 %>rp /bin/sh ./helper\n"
    "acl no url_regex /denied\nacl asked url_regex /ask\nacl is_known external known\n"
    "acl lan src 127.0.0.0/8\nacl names dstdomain .a.example\nacl hours time 00:00-24:00\nhttp_access deny no\nhttp_access deny names\n"
    "http_access deny asked !is_known\nhttp_access allow lan hours\n"
)
HELPER = "while read -r path rest; do case $path in *bad*) echo what ;; *no*) echo ERR ;; *) echo OK ;; esac; done\n"
LIST = b"# a list\na.example\n.b.example\n0.0.0.0 c.example\nC.D.example.\n\nx y z\nwww.a.example # one\n"
LIST += b"".join(b"n%d.example\n" % n for n in range(300))


@dataclass
class Sources:
    """What is spoilt: the files of a real run, and the configurations of this repository."""

    journal: bytes
    access: bytes
    counters: bytes
    confs: list[Path] = field(default_factory=list)
    squid_confs: list[Path] = field(default_factory=list)


@dataclass
class Ended:
    """What a call came to."""

    status: int | None
    signal: int
    seconds: float
    err: bytes


def real_run(program: str, folder: Path) -> tuple[bytes, bytes]:
    """The journal and the access log of a run of `serve`."""
    (folder / "squid.conf").write_text(CONF)
    (folder / "helper").write_text(HELPER)
    os.chdir(folder)
    port = free_port()
    more = {"ACLPROXY_ACCESS_LOG": str(folder / "access.log")}
    server = Server(program, ["squid.conf", "--port", str(port), "--workers", "8"], "journal", more=more)
    try:
        if server.hear(20) != f"listening {port}":
            raise SystemExit("fuzz_tools: the program does not begin to listen")
        for turn in range(2):
            for target in ("/denied", "/", "/ask/a", "/ask/no", "/ask/bad", "/a%20b?c=d", "/ask/a"):
                ask(port, f"GET http://127.0.0.1:1{target} HTTP/1.1\r\nHost: x\r\nCookie: a=b; c=d\r\nConnection: close\r\n\r\n")
            ask(port, "GET http://www.a.example/ HTTP/1.1\r\nHost: x\r\nConnection: close\r\n\r\n")
            ask(port, "CONNECT 127.0.0.1:1 HTTP/1.1\r\nHost: x\r\n\r\n")
            ask(port, "POST http://127.1/ HTTP/1.1\r\nHost: x\r\nContent-Length: 2\r\nConnection: close\r\n\r\nhi")
            ask(port, "BAD\r\n\r\n")
            server.order("reconfigure\n")
            server.hear(20)
        server.order("shutdown\n")
        server.ends(40)
    finally:
        server.kill()
    return (folder / "journal").read_bytes(), (folder / "access.log").read_bytes()


def ask(port: int, text: str) -> None:
    with socket.create_connection(("127.0.0.1", port), timeout=20) as link:
        link.sendall(text.encode())
        while link.recv(65536):
            pass


def address_space() -> int:
    """The bytes of address space that this process has."""
    return int(Path("/proc/self/statm").read_text().split()[0]) * resource.getpagesize()


def called(command: Callable[[], int], given: bytes, folder: Path) -> Ended:
    """Calls a tool in a process of its own, with this input, within the limits."""
    (folder / "input").write_bytes(given)
    begun = time.monotonic()
    space = address_space() + MEMORY
    pid = os.fork()
    if pid == 0:
        try:
            os.setsid()
            for number, name in enumerate(("input", "out", "err")):
                os.dup2(os.open(folder / name, os.O_WRONLY | os.O_CREAT | os.O_TRUNC if number else os.O_RDONLY, 0o600), number)
            sys.stdin, sys.stdout, sys.stderr = os.fdopen(0), os.fdopen(1, "w"), os.fdopen(2, "w")
            signal.signal(signal.SIGXFSZ, signal.SIG_DFL)
            resource.setrlimit(resource.RLIMIT_CPU, (CPU_SECONDS, CPU_SECONDS))
            resource.setrlimit(resource.RLIMIT_AS, (space, space))
            resource.setrlimit(resource.RLIMIT_FSIZE, (OUTPUT, OUTPUT))
            resource.setrlimit(resource.RLIMIT_CORE, (0, 0))
            status = 255
            try:
                status = command()
            except SystemExit as end:
                status = int(end.code or 0)
            except BaseException:
                sys.excepthook(*sys.exc_info())
            sys.stdout.flush()
            sys.stderr.flush()
            os._exit(status)
        finally:
            os._exit(255)
    ended = os.pidfd_open(pid)
    try:
        if not select.select([ended], [], [], WALL_SECONDS)[0]:
            os.killpg(pid, signal.SIGKILL)
        _, status = os.waitpid(pid, 0)
    finally:
        os.close(ended)
    err = (folder / "err").read_bytes() if (folder / "err").exists() else b""
    code = os.WEXITSTATUS(status) if os.WIFEXITED(status) else None
    return Ended(code, os.WTERMSIG(status) if os.WIFSIGNALED(status) else 0, time.monotonic() - begun, err)


@dataclass
class Round:
    """A folder of files, and the calls over it."""

    folder: Path
    chance: random.Random
    sources: Sources
    program: str
    calls: list[tuple[str, Callable[[], int], bytes, set[int]]] = field(default_factory=list)

    def ctl(self, *words: str) -> None:
        self.calls.append((f"aclproxyctl {' '.join(words)}", lambda: aclproxyctl(["--program", self.program, *words]), b"", STATUSES))

    def suffix(self) -> str:
        return self.chance.choice([suffix for suffix in PACKERS if suffix != ".zst" or shutil.which("zstd")])

    def some(self, source: bytes, first: int = 0) -> bytes:
        """A text, or some of its lines, those that it begins with among them, so that what is spoilt is more often what counts."""
        lines = source.splitlines(keepends=True)
        if self.chance.randrange(2):
            return source
        at = self.chance.randrange(first, len(lines))
        return b"".join([*lines[:first], *lines[at : at + self.chance.randint(1, 8)]])

    def start_conf(self, path: Path) -> Path:
        """The configuration of the run's start, spoilt now and then."""
        text = CONF.encode()
        return write_plain(path, text if self.chance.randrange(4) else spoilt(text, self.chance))

    def choice(self) -> list[str]:
        """Words by which requests are chosen."""
        choices = ["", "--denied", "--failed", "--slow 0", "--since 2025-11-29", "--client 127.0.0.0/8", "--host .a.example", "--rule"]
        return self.chance.choice(choices).split()

    def requests(self) -> list[str]:
        """The same for commands that tell no rules."""
        return [word for word in self.choice() if word != "--rule"]

    # The kinds of rounds.

    def runs(self) -> None:
        """A folder with a run: pieces of a journal, an access log, counters, and the configuration of its start."""
        run = self.folder / "runs" / RUN
        lines = self.some(self.sources.journal, 1).splitlines(keepends=True)
        cut = self.chance.randrange(len(lines))
        pieces = [b"".join(lines[:cut]), b"".join(lines[cut:])]
        for number, piece in enumerate(pieces):
            write_spoilt(run / f"journal.{number:06}", piece, self.suffix() if number == 0 else "", self.chance)
        if self.chance.randrange(4):
            write_spoilt(run / "access.log.000000", self.some(self.sources.access), self.suffix(), self.chance)
            write_spoilt(run / "access.log", self.some(self.sources.access), "", self.chance)
        if self.chance.randrange(2):
            write_spoilt(run / "counters.json", self.sources.counters, "", self.chance)
        self.start_conf(run / "squid.conf")
        named = str(run.parent)
        self.ctl("log", *self.choice(), named)
        self.ctl("log", "--rule", *self.choice(), named)
        self.ctl("usage", "--by", self.chance.choice(["client", "host", "tag"]), *self.requests(), named)
        self.ctl("status", named)
        self.ctl("metrics", named)
        self.ctl("verify", named)
        self.ctl("explain", "--check", str(self.chance.randrange(1, 24)), named)
        if not self.chance.randrange(4):
            self.ctl("report", *self.requests(), named, "-o", str(self.folder / "page.html"))
        self.calls.append((f"counting {named}", lambda: counted(run), b"", {0}))
        self.ctl("prune", "--keep", "36500d", "--keep-bytes", "1G", named)

    def files(self) -> None:
        """A journal and an access log as files of their own."""
        journal = write_spoilt(self.folder / "j", self.some(self.sources.journal, 1), self.suffix(), self.chance)
        access = write_spoilt(self.folder / "a", self.some(self.sources.access), self.suffix(), self.chance)
        conf = self.start_conf(self.folder / "conf")
        for file in (journal, access):
            self.ctl("log", *self.choice(), str(file))
            self.ctl("log", "--rule", "--conf", str(conf), str(file))
            self.ctl("usage", str(file))
            self.ctl("status", str(file))
            self.ctl("verify", "--conf", str(conf), str(file))
        self.ctl("log", str(journal), str(access))
        self.ctl("explain", "--check", "3", str(access))

    def confs(self) -> None:
        """A configuration of this program's."""
        conf = write_spoilt(self.folder / "conf", self.chance.choice(self.sources.confs).read_bytes(), "", self.chance)
        self.ctl("check", str(conf))
        self.ctl("explain", str(conf), "10.20.1.1", "GET", "http://a.example/x")

    def squid_confs(self) -> None:
        """A configuration of Squid's, with the files beside it, each of which may be spoilt, and may include itself."""
        source = self.chance.choice(self.sources.squid_confs)
        shutil.copytree(source.parent, self.folder / "squid")
        names = [path for path in (self.folder / "squid").rglob("*") if path.is_file()]
        for path in [self.folder / "squid" / source.name, self.chance.choice(names)]:
            text = path.read_bytes()
            if not self.chance.randrange(8):
                text += b"include %s\n" % self.chance.choice([b"*", b"*.conf", source.name.encode(), b"/dev/null", b"nowhere", b"."])
            if not self.chance.randrange(8):
                kind = self.chance.choice([b"dstdomain", b"src", b"url_regex", b"dstdom_regex -i"])
                text += b"acl more %s \"%s\"\n" % (kind, str(path).encode())
            path.write_bytes(spoilt(text, self.chance))
        self.ctl("check", "--squid", str(self.folder / "squid" / source.name), "-o", str(self.folder / "converted"))
        self.ctl("check", "--squid", str(self.folder / "squid" / source.name), "--accept", "local-names")

    def lists(self) -> None:
        """Lists of domains: their texts, and the files that are made of them."""
        text = write_spoilt(self.folder / "text", LIST, "", self.chance)
        made = self.folder / "made"
        self.ctl("lists", "update", *self.chance.choice([[], ["--with-subdomains"], ["--smaller"]]), str(made), f"one={text}")
        self.ctl("lists", "ask", str(made), "one", "www.a.example")
        kept = self.folder / "kept"
        kept.mkdir()
        aclproxyctl_quietly(["lists", "update", str(kept), f"one={write_plain(self.folder / 'plain', LIST)}"])
        write_spoilt(kept / "two", (kept / "one").read_bytes(), "", self.chance)
        self.ctl("lists", "ask", str(kept), "two", "n7.example")
        hosts, names = [b"a.example", b"n7.example", b"z.b.example", b"-"], [b"one", b"two", b"two one", b"..", b"-"]
        questions = b"".join(b"%d %s %s\n" % (n, self.chance.choice(hosts), self.chance.choice(names)) for n in range(40))
        self.calls.append(("aclproxy-domains kept", lambda: domains.main([str(kept)]), spoilt(questions, self.chance), {0}))
        self.ctl("lists", "update", str(kept), f"two={text}")


def write_plain(path: Path, text: bytes) -> Path:
    path.write_bytes(text)
    return path


def aclproxyctl_quietly(words: list[str]) -> None:
    """Makes what a round needs, without a word on standard output."""
    out, sys.stdout = sys.stdout, open(os.devnull, "w")
    try:
        aclproxyctl(words)
    finally:
        sys.stdout.close()
        sys.stdout = out


KINDS = [Round.runs, Round.files, Round.confs, Round.squid_confs, Round.lists]


def wrong_with(ended: Ended, statuses: set[int]) -> str:
    """What is wrong with the end of a call; empty where nothing is."""
    if ended.status is None:
        return f"signal {ended.signal} after {ended.seconds:.0f} seconds"
    if b"Traceback" in ended.err:
        return "a traceback"
    return "" if ended.status in statuses else f"status {ended.status}"


def counted(run: Path) -> int:
    """Counts a run as the service does, for its metrics."""
    watched = counts.Watched(run)
    watched.update()
    watched.counted()
    watched.close()
    return 0


def counters_of(folder: Path) -> bytes:
    """The counters of a run, as the service keeps them."""
    watched = counts.Watched(folder)
    watched.update()
    counters.write(folder, watched.counted(), True)
    watched.close()
    return (folder / counters.NAME).read_bytes()


def main() -> int:
    parser = argparse.ArgumentParser(description=__doc__, formatter_class=argparse.RawDescriptionHelpFormatter)
    parser.add_argument("--program", default=str(TOP / "dist/aclproxy-x86_64-linux"))
    parser.add_argument("--seconds", type=float, default=60.0)
    parser.add_argument("--seed", type=int, default=1)
    parser.add_argument("--only", type=int, help="make this round alone")
    options = parser.parse_args()
    program = os.path.abspath(options.program)
    if not os.access(program, os.X_OK):
        parser.error(f"{program} is no program: name one by --program")
    os.environ["TZ"] = "UTC"
    top = Path(tempfile.mkdtemp(prefix="fuzz_tools."))
    (top / "real" / RUN).mkdir(parents=True)
    journal, access = real_run(program, top / "real")
    for name, text in (("journal.000000", journal), ("access.log", access)):
        (top / "real" / RUN / name).write_bytes(text)
    cases = sorted((TOP / "tools/tests/cases").glob("*/*.conf"))
    sources = Sources(journal, access, counters_of(top / "real" / RUN), cases + sorted(TOP.glob("examples/*/squid.conf")), cases)
    ends: Counter[str] = Counter()
    failed = calls = 0
    slowest = (0.0, "")
    limit = time.monotonic() + options.seconds
    number = options.only if options.only is not None else 0
    while time.monotonic() < limit:
        folder = top / f"{number}"
        folder.mkdir()
        made = Round(folder, random.Random(f"{options.seed} {number}"), sources, program)
        kind = KINDS[number % len(KINDS)]
        kind(made)
        is_wrong = False
        for words, command, given, statuses in made.calls:
            ended = called(command, given, folder)
            calls += 1
            ends[f"{words.removeprefix('aclproxyctl ').split()[0]} {ended.status}"] += 1
            slowest = max(slowest, (ended.seconds, f"round {number}, {words}"))
            if wrong := wrong_with(ended, statuses):
                failed += 1
                is_wrong = True
                said = ended.err.decode("utf-8", "replace").strip().splitlines()
                print(f"fuzz_tools, seed {options.seed}, round {number}: {words}: {wrong}: {' | '.join(said[-3:])[:600]}", flush=True)
        if not is_wrong:
            shutil.rmtree(folder)
        number += 1
        if options.only is not None:
            break
    print(f"fuzz_tools: ends: {', '.join(f'{end}: {count}' for end, count in sorted(ends.items()))}")
    print(f"fuzz_tools: the slowest call took {slowest[0]:.1f} seconds: {slowest[1]}")
    if failed:
        print(f"fuzz_tools: the files of those that failed stand in {top}")
    else:
        os.chdir("/")
        shutil.rmtree(top)
    print(f"fuzz_tools: {calls} calls in {number - (options.only or 0)} rounds, {failed} failed")
    return 1 if failed else 0


if __name__ == "__main__":
    sys.exit(main())
