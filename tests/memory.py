#!/usr/bin/env python3
"""Each allocation refused once: tests/memory.py [--program PROGRAM] [--seconds S] [--only PART:N]

It shows what docs/FORMATS.md and docs/OPERATING.md say of want of memory, by runs in which the N-th call of malloc, calloc, realloc
or one of their kin answers NULL, once, for each N from 1 until none is refused.

A command (`parse`, `replay`, `verify`, `migrate` over examples/ and cases/, `rehearse 8`) then writes what it writes else, with its
status; or it ends with status 10 and has written a front of its run's lines, and no last line. A `serve` with two workers
either does not start, by status 10 and nothing written, or it gives each client its reply, or what names the want: a 500 `out of memory`, a
502, a fault of the helper, a cut. No reply contradicts its journal, which is verified; what is asked behind the refusal gets its reply;
and it ends by `shutdown`. What is known not to hold is told as KNOWN, with the reason.

The calls are counted by a library that is put before the program by LD_PRELOAD, and that is built by `cc`: without one all is left out.
It counts from its own beginning on, which is behind the loader's; all of the program's calls, and those that the C library makes for it
(getaddrinfo, posix_spawn, pthread_create). It counts no stacks, which are mapped, and nothing in helpers. Calls of several threads are
numbered as they come, so that a number is not the same call in each run of `serve`. Run it on Linux with the GNU C library, with Python
3.11; it takes S seconds at most, 600 if none are named, and takes every k-th number where there is no time for all.
"""

import argparse
import hashlib
import math
import mmap
import os
import re
import shutil
import signal
import socket
import struct
import subprocess
import sys
import tempfile
import threading
import time
from collections import Counter
from collections.abc import Callable, Iterator
from concurrent.futures import ThreadPoolExecutor
from dataclasses import dataclass, field
from pathlib import Path

sys.dont_write_bytecode = True

from chaos_parts.server import Server  # noqa: E402

HERE = Path(__file__).resolve().parent
TOP = HERE.parent
PATIENCE = 20.0  # the seconds after which a wait has failed

LIBRARY = r"""
#define _GNU_SOURCE
#include <dlfcn.h>
#include <elf.h>
#include <errno.h>
#include <fcntl.h>
#include <link.h>
#include <netdb.h>
#include <pthread.h>
#include <stddef.h>
#include <stdint.h>
#include <stdlib.h>
#include <sys/auxv.h>
#include <sys/mman.h>
#include <unistd.h>

/* A file, which the test reads and writes while the program runs. */
static struct control {
    uint64_t counts; /* whether calls are counted */
    uint64_t nth;    /* the call that is refused */
    uint64_t calls;
    uint64_t refused; /* 1 by a call of the program's own, 2 by one of a library, 3 by one of getaddrinfo */
    uint64_t place;   /* where the program goes on behind that call, from its beginning */
    uint64_t threads; /* how many were made */
} *control;
static uintptr_t program, program_end;
static __thread int looks_up;
static int (*look_up)(const char *, const char *, const struct addrinfo *, struct addrinfo **);
static int (*make_thread)(pthread_t *, const pthread_attr_t *, void *(*)(void *), void *);

void *__libc_malloc(size_t);
void *__libc_calloc(size_t, size_t);
void *__libc_realloc(void *, size_t);
void *__libc_memalign(size_t, size_t);

__attribute__((constructor)) static void begin(void) {
    const char *name = getenv("REFUSING");
    const ElfW(Phdr) *part = (const ElfW(Phdr) *)getauxval(AT_PHDR);
    uintptr_t most = 0;
    for (unsigned long n = 0; n < getauxval(AT_PHNUM); n++, part++) {
        if (part->p_type == PT_PHDR) program = getauxval(AT_PHDR) - part->p_vaddr;
        if (part->p_type == PT_LOAD) most = part->p_vaddr + part->p_memsz;
    }
    program_end = program + most;
    make_thread = dlsym(RTLD_NEXT, "pthread_create");
    look_up = dlsym(RTLD_NEXT, "getaddrinfo");
    int file = name ? open(name, O_RDWR | O_CLOEXEC) : -1;
    void *at = file < 0 ? MAP_FAILED : mmap(NULL, 4096, PROT_READ | PROT_WRITE, MAP_SHARED, file, 0);
    if (at == MAP_FAILED) _exit(125);
    close(file);
    unsetenv("LD_PRELOAD"); /* helpers run as they are */
    unsetenv("REFUSING");
    control = at;
}

static int refuses(void *caller) {
    if (!control || !__atomic_load_n(&control->counts, __ATOMIC_SEQ_CST)) return 0;
    if (__atomic_add_fetch(&control->calls, 1, __ATOMIC_SEQ_CST) != control->nth) return 0;
    uintptr_t at = (uintptr_t)caller;
    int own = program <= at && at < program_end;
    control->place = own ? at - program : 0;
    __atomic_store_n(&control->refused, own ? 1 : looks_up ? 3 : 2, __ATOMIC_SEQ_CST);
    errno = ENOMEM;
    return 1;
}

int getaddrinfo(const char *name, const char *service, const struct addrinfo *how, struct addrinfo **to) {
    looks_up = 1;
    int fault = look_up(name, service, how, to);
    looks_up = 0;
    return fault;
}

int pthread_create(pthread_t *thread, const pthread_attr_t *how, void *(*runs)(void *), void *with) {
    int fault = make_thread(thread, how, runs, with);
    if (!fault && control) __atomic_add_fetch(&control->threads, 1, __ATOMIC_SEQ_CST);
    return fault;
}

#define REFUSES refuses(__builtin_return_address(0))
void *malloc(size_t size) { return REFUSES ? NULL : __libc_malloc(size); }
void *calloc(size_t count, size_t size) { return REFUSES ? NULL : __libc_calloc(count, size); }
void *realloc(void *old, size_t size) { return REFUSES ? NULL : __libc_realloc(old, size); }
void *memalign(size_t by, size_t size) { return REFUSES ? NULL : __libc_memalign(by, size); }
void *aligned_alloc(size_t by, size_t size) { return REFUSES ? NULL : __libc_memalign(by, size); }
int posix_memalign(void **to, size_t by, size_t size) {
    void *at = REFUSES ? NULL : __libc_memalign(by, size);
    if (!at) return ENOMEM;
    *to = at;
    return 0;
}
"""


class Control:
    """What the library and the test share: which call is refused, and how many there were."""

    FORM = "=QQQQQQ"

    def __init__(self, path: Path, nth: int, counts: bool) -> None:
        path.write_bytes(struct.pack(self.FORM, counts, nth, 0, 0, 0, 0).ljust(4096, b"\0"))
        self.path = path
        with path.open("r+b") as file:
            self.map = mmap.mmap(file.fileno(), 4096)

    def word(self, at: int) -> int:
        return int(struct.unpack_from("=Q", self.map, 8 * at)[0])

    def begin(self) -> None:
        struct.pack_into("=Q", self.map, 0, 1)

    def refuse(self, nth: int) -> None:
        """Begins to count anew, and has this call refused."""
        self.end()
        struct.pack_into("=QQQQ", self.map, 8, nth, 0, 0, 0)
        self.begin()

    def end(self) -> None:
        """Counts no more."""
        struct.pack_into("=Q", self.map, 0, 0)

    @property
    def calls(self) -> int:
        return self.word(2)

    @property
    def refused(self) -> int:
        return self.word(3)

    @property
    def threads(self) -> int:
        return self.word(5)

    def place(self) -> str:
        by = {0: "none", 1: f"at {self.word(4):#x} of the program", 2: "in a library", 3: "in a library, for a look-up"}
        return by[self.refused]


@dataclass
class Bench:
    """What all runs share, and what they came to."""

    program: str
    folder: Path
    library: Path
    limit: float
    runs: int = 0
    inside: int = 0  # how many refused calls were a library's
    ends: Counter[str] = field(default_factory=Counter)
    known: Counter[str] = field(default_factory=Counter)
    faults: int = 0
    lock: threading.Lock = field(default_factory=threading.Lock)

    def environment(self, control: Control) -> dict[str, str]:
        return {"LD_PRELOAD": str(self.library), "REFUSING": str(control.path)}

    def ended(self, how: str, control: Control) -> None:
        with self.lock:
            self.runs += 1
            self.inside += control.refused > 1
            self.ends[how] += 1

    def fault(self, part: str, nth: int, what: str) -> None:
        with self.lock:
            self.faults += 1
            print(f'memory, {part}: {what}; again by --only "{part}:{nth}"', flush=True)

    def knows(self, part: str, nth: int, name: str) -> None:
        with self.lock:
            self.known[name] += 1
            if self.known[name] == 1:
                print(f'memory, {part}: KNOWN: {name}: {KNOWN[name]}; again by --only "{part}:{nth}"', flush=True)

    def left(self) -> float:
        return self.limit - time.monotonic()


KNOWN: dict[str, str] = {
    "a thread was not made": "a worker, or the thread that asks helpers, is left out without a word where it could not be made, as "
    "docs/OPERATING.md says under Memory",
    "a look-up crashes": "getaddrinfo of the GNU C library 2.36 ends the process by a signal where some of the allocations of its first call are "
    "refused, in any program; its later calls fail as they should (docs/OPERATING.md, Memory)",
    "a tunnel has one thread": "where the second one could not be made, though one was there before the dial, the bytes of the origin go "
    "first, and those of the client once that has ended, so that two sides that wait for one another wait, and an end of the server waits for them (docs/OPERATING.md, Memory)",
    "the port was not opened": "want of memory in the opening of the port is told as `error net`, with status 9 (docs/DECISIONS.md)",
}


def stride(count: int, each: float, seconds: float) -> int:
    """1, or a greater one where that many runs, at so many seconds each, take longer than there is."""
    return max(1, math.ceil(count * each / max(1.0, seconds)))


# Commands.


@dataclass
class Job:
    """A command, with what it writes and its status; `lines` is what of it are lines of the run, which may be there with status 10."""

    name: str
    words: list[str]
    output: bytes
    status: int
    lines: bytes
    first: bool = False  # whether it comes before others
    last: int = 0  # how many calls it makes


def job(name: str, words: list[str], output: bytes, status: int) -> Job:
    if words[0] in ("replay", "migrate"):
        lines = output if status == 0 else output[: output.rstrip(b"\n").rfind(b"\n") + 1]
    elif words[0] == "parse":
        lines = b"".join(line for line in output.splitlines(keepends=True) if line.startswith(b"notice "))
    else:
        lines = b""
    return Job(name, words, output, status, lines, name.startswith(FIRST))


def migrated(journal: bytes) -> bytes:
    """A journal of version 1 as one of version 2: each entry with its number and its epoch, which a reconfiguration raises."""
    out = b"journal 2\n"
    epoch = 1
    for number, line in enumerate(journal.splitlines(keepends=True), 1):
        epoch += line.split(b" ")[1] == b"reconfigure"
        out += b"%d %d " % (number, epoch) + line
    return out


# These take three quarters of the time that there is for commands, if they need it.
FIRST = (
    "rehearse",
    "cases/helpers.txt",
    "cases/epochs.txt, an empty file is a configuration",
    "cases/epochs.txt, a process is gone with the last check of its epoch",
    "cases/journals.txt, helpers, 014.01",
    "cases/journals.txt, epochs, 016.01",
    "cases/journals.txt, a journal of version 2, 018.02",
    "examples/first",
    "examples/provider, migrate",
)
# Of the files of cases these, by what they show: helpers that answer, break down, die and are written to by channels; epochs; journals.
CASES = {
    "helpers.txt": (
        "a rule with a group that reaches a helper asks it",
        "one that asks a helper, which dies",
        "a start that fails, where no process lives",
        "a line that nobody asked for ends its process",
        "a line for a channel that there is not",
        "a process that died",
    ),
    "epochs.txt": ("an empty file is a configuration", "one check that is over makes room", "a process is gone with the last check of its epoch"),
    "journals.txt": ("helpers", "epochs", "pools", "a journal of version 2", "an answer that is not the machine's"),
    "grants.txt": (),
}


def number_of(path: Path) -> int:
    return int(path.read_text()) if path.exists() else 0


def jobs(folder: Path) -> Iterator[Job]:
    yield job("rehearse 8", ["rehearse", "8"], b"asks 8 allowed 4 denied 4 faults 0 sends 8\n", 0)
    for file, shown in CASES.items():
        to = folder / file
        to.mkdir()
        subprocess.run(["awk", "-v", f"to={to}", "-f", "cases/split.awk", f"cases/{file}"], check=True, cwd=TOP, env=os.environ | {"LC_ALL": "C"})
        for wanted in sorted(to.glob("*.wanted"), key=lambda path: [int(part) for part in path.stem.split(".")]):
            run, block = wanted.with_suffix(""), wanted.name.split(".")[0]
            shows = (to / f"{block}.shows").read_text().strip()
            if shown and shows not in shown:
                continue
            output, status = re.fullmatch(rb"(?s)(.*?)status (\d+)\n", wanted.read_bytes()).groups()  # type: ignore[union-attr]
            words = [str(to / f"{block}.conf")]
            for kind, suffix in (("replay", ".script"), ("verify", ".journal")):
                if run.with_suffix(run.suffix + suffix).exists():
                    words = [kind, *words, str(run.with_suffix(run.suffix + suffix))]
            yield job(f"cases/{file}, {shows}, {run.name}", words if len(words) > 1 else ["parse", *words], output, int(status))
    for example in sorted((TOP / "examples").iterdir()):
        name = f"examples/{example.name}"
        conf, expected = f"{name}/squid.conf", (example / "expected").read_bytes()
        yield job(f"{name}, parse", ["parse", conf], (example / "parsed").read_bytes(), number_of(example / "parsed-status"))
        yield job(f"{name}, replay", ["replay", conf, f"{name}/script"], expected, number_of(example / "status"))
        if not (example / "status").exists():
            yield job(f"{name}, verify", ["verify", conf, f"{name}/expected"], b"verified %d\n" % expected.count(b"\n"), 0)
            yield job(f"{name}, migrate", ["migrate", f"{name}/expected"], migrated(expected), 0)


def run_command(bench: Bench, one: Job, nth: int, cwd: Path = TOP) -> Control:
    control = Control(bench.folder / f"control.{threading.get_ident()}", nth, True)
    try:
        more = bench.environment(control)
        words = [bench.program, *one.words]
        ran = subprocess.run(words, stdin=subprocess.DEVNULL, capture_output=True, timeout=PATIENCE, cwd=cwd, env=os.environ | more)
    except subprocess.TimeoutExpired:
        bench.ended("command, no end", control)
        bench.fault(one.name, nth, f"it has not ended in {PATIENCE:.0f} seconds, refused {control.place()}")
        return control
    got = ran.stdout
    if ran.stderr:
        bench.fault(one.name, nth, f"standard error has {ran.stderr[:200]!r}")
    if (got, ran.returncode) == (one.output, one.status):
        bench.ended("command, as without" if control.refused else "command, nothing refused", control)
    elif control.refused and ran.returncode == 10 and one.lines.startswith(got):
        bench.ended("command, status 10" if not got or got.endswith(b"\n") else "command, status 10, cut within a line", control)
    else:
        bench.ended(f"command, other, status {ran.returncode}", control)
        bench.fault(one.name, nth, f"status {ran.returncode} and {got[-300:]!r}, refused {control.place()}")
    return control


def commands(bench: Bench, seconds: float) -> None:
    until = time.monotonic() + seconds
    all_ = list(jobs(bench.folder))
    for one in all_:
        one.last = run_command(bench, one, 0).calls
    numbers = [(one, nth) for one in all_ for nth in range(1, one.last + 1)]
    spread(bench, "commands first", [it for it in numbers if it[0].first], until - seconds / 4)
    spread(bench, "other commands", [it for it in numbers if not it[0].first], until)


def spread(bench: Bench, what: str, numbers: list[tuple[Job, int]], until: float) -> None:
    """All of these, or every k-th where a sample says that there is no time for all."""
    begun = time.monotonic()
    sample = numbers[:: max(1, len(numbers) // 100)]
    refuse(bench, f"{what}, a sample", sample, until)
    k = stride(len(numbers), (time.monotonic() - begun) / len(sample), (until - time.monotonic()) * 0.9)
    refuse(bench, f"{what}, {'each call' if k == 1 else f'every {k}-th call'} of {len(numbers)}", numbers[k // 2 :: k], until)


def refuse(bench: Bench, what: str, numbers: list[tuple[Job, int]], until: float) -> None:
    with ThreadPoolExecutor(2) as pool:
        done = sum(pool.map(lambda it: time.monotonic() < until and bool(run_command(bench, *it)), numbers))
    left = "" if done == len(numbers) else f"; the time is up, and {len(numbers) - done} were left out, from {numbers[done][0].name} on"
    print(f"memory, {what}: {done} runs{left}", flush=True)


# A server.

CONF = """external_acl_type names ttl=60 children-max=2 %PATH /bin/sh {helper}
acl no method DELETE
acl asked url_regex /ask
acl known external names
acl late method OPTIONS
http_access deny no
http_access deny asked !known
{late}http_access allow localhost
delay_pools 1
delay_class 1 2
delay_parameters 1 100000000/100000000 100000000/100000000
delay_access 1 allow all
"""
HELPER = """while read -r path rest; do
    case $path in
    */ask/no*) echo ERR ;;
    *) echo OK ;;
    esac
done
"""


def verdict(target: str, epoch: int) -> str:
    """What the rules above come to: those of epoch 2 have one more, the third."""
    if "/deny" in target:
        return "denied rule 1"
    if "/ask/no" in target:
        return "denied rule 2"
    if "/late" in target and epoch > 1:
        return "denied rule 3"
    return f"allowed rule {2 + epoch}"


def method_of(path: str, body: bytes) -> str:
    return "DELETE" if path.startswith("/deny") else "OPTIONS" if path.startswith("/late") else "POST" if body else "GET"


def own(status: str, body: str) -> bytes:
    """A reply of the proxy's own."""
    lines = [f"HTTP/1.1 {status}", "Content-Type: text/plain", f"Content-Length: {len(body) + 1}", "Connection: close"]
    return "\r\n".join([*lines, "", body + "\n"]).encode()


WANTS = {own("500 Internal Server Error", "out of memory"): "500", own("502 Bad Gateway", "bad gateway"): "502"}
FAULTS = {own("403 Forbidden", f"denied fault 2 known {cause}"): "fault" for cause in ("NoHelper", "Died")}
LARGE = 200_000  # bytes of a large body


def body_of(path: str, sent: bytes) -> bytes:
    """What the origin has to say: which path it was asked for, and what it was sent."""
    text = f"{path} {len(sent)} {hashlib.sha256(sent).hexdigest()}\n".encode()
    return text * (LARGE // len(text)) if "/large" in path else text


class Origin:
    """It answers each request by what it was asked, and keeps the paths; and an echo for tunnels."""

    def __init__(self) -> None:
        self.paths: list[str] = []
        self.port = self.listen(self.answer)
        self.echo = self.listen(self.answer_echo)

    def listen(self, serve: Callable[[socket.socket], None]) -> int:
        listener = socket.create_server(("127.0.0.1", 0), backlog=512)

        def one(link: socket.socket) -> None:
            with link:
                try:
                    link.settimeout(60)
                    serve(link)
                except (OSError, ValueError, IndexError):
                    pass

        def accept() -> None:
            while True:
                link, _ = listener.accept()
                threading.Thread(target=one, args=(link,), daemon=True).start()

        threading.Thread(target=accept, daemon=True).start()
        return int(listener.getsockname()[1])

    def answer_echo(self, link: socket.socket) -> None:
        while more := link.recv(65536):
            link.sendall(more)

    def answer(self, link: socket.socket) -> None:
        with link.makefile("rb") as file:
            path = file.readline().split(b" ")[1].decode()
            self.paths.append(path)
            fields = {}
            while (line := file.readline()).strip():
                name, value = line.split(b":", 1)
                fields[name.lower()] = value.strip()
            sent = b""
            if b"transfer-encoding" in fields:
                while size := int(file.readline(), 16):
                    sent += file.read(size)
                    file.readline()
                file.readline()
            else:
                sent = file.read(int(fields.get(b"content-length", b"0")))
            text = body_of(path, sent)
            link.sendall(b"HTTP/1.1 200 OK\r\nContent-Length: %d\r\n\r\n" % len(text) + text)
            link.shutdown(socket.SHUT_WR)
            file.read()


class Trial:
    """A run of a server in which one call is refused: from its start on, or from its first answers on."""

    def __init__(self, bench: Bench, origin: Origin, part: str, nth: int) -> None:
        self.bench, self.origin, self.part, self.nth = bench, origin, part, nth
        self.folder = Path(tempfile.mkdtemp(dir=bench.folder))
        self.conf = self.folder / "squid.conf"
        self.helper = self.folder / "helper"
        self.helper.write_text(HELPER)
        self.conf.write_text(CONF.format(helper=self.helper, late=""))
        shutil.copy(self.conf, self.folder / "first.conf")
        self.control = Control(self.folder / "control", nth, part == "start")
        self.replies: dict[str, str] = {}  # what a target got: a 200 that began, a denial's text, or nothing that tells
        self.port = 0
        self.found: list[str] = []
        self.crashed = False  # whether a look-up ended it
        self.ordered = False  # whether there was an order
        self.unanswered: list[str] = []  # who got nothing behind that, though what was refused was refused before
        self.effects: Counter[str] = Counter()
        self.threads = 0  # how many it has made once it has answered

    def miss(self, what: str) -> None:
        self.found.append(what)

    @property
    def fewer(self) -> bool:
        """Whether a thread that a server begins with was not made."""
        return self.part == "start" and bool(self.control.refused) and self.control.threads < THREADS[0]

    # Clients.

    def exchange(self, sent: bytes) -> bytes:
        """What comes up to the end, or a mark where it does not come in time."""
        out = b""
        try:
            with socket.create_connection(("127.0.0.1", self.port), timeout=PATIENCE) as link:
                link.settimeout((1 if self.effects["no reply"] else 5) if self.fewer else PATIENCE)
                link.sendall(sent)
                while more := link.recv(65536):
                    out += more
        except TimeoutError:
            return out + b"<too slow>"
        except OSError:
            pass
        return out

    def target(self, path: str, host: str = "127.0.0.1") -> str:
        return f"http://{host}:{self.origin.port}/{self.folder.name}{path}"

    def head(self, method: str, target: str, *fields: str, closes: bool = True) -> bytes:
        lines = [f"{method} {target} HTTP/1.1", "Host: a", *fields, *(["Connection: close"] if closes else []), "", ""]
        return "\r\n".join(lines).encode()

    def granted(self, target: str, sent: bytes = b"", closes: bool = True) -> bytes:
        """The origin's reply as it is passed on."""
        text = body_of(target.split(str(self.origin.port), 1)[1], sent)
        more = b"Connection: close\r\n" if closes else b""
        return b"HTTP/1.1 200 OK\r\nContent-Length: %d\r\nVia: 1.1 aclproxy\r\n" % len(text) + more + b"\r\n" + text

    def judge(self, target: str, got: bytes, right: bytes, allowed: bytes, before: int) -> None:
        """A reply; `allowed` is the reply of the origin, and nothing is forgiven where nothing was refused, or all was over by then."""
        word = "right" if got == right else WANTS.get(got) or FAULTS.get(got) if got else "cut"
        if not word and allowed.startswith(got):
            word = "cut"
        if got and allowed.startswith(got):
            self.replies[target] = "allowed"
        elif found := re.search(rb"^HTTP/1.1 403 .*\r\n\r\n(.*)\n$", got, re.DOTALL):
            self.replies[target] = found[1].decode()
        elif word == "502":
            self.replies[target] = "allowed"
        if word == "right":
            return
        if got == b"<too slow>" and self.fewer:
            self.effects["no reply"] += 1
            return self.bench.knows(self.part, self.nth, "a thread was not made")
        if not word:
            self.miss(f"{target} got {got[:300]!r}")
        elif word == "fault" and "/ask" not in target:
            self.miss(f"{target} got {got!r}, and asks no helper")
        elif not self.control.refused:
            self.miss(f"{target} got {got[:300]!r}, and nothing was refused")
        elif before and not got and self.ordered:
            self.unanswered.append(target)
        elif before:
            self.miss(f"{target} got {got[:300]!r}, behind the refusal")
        self.effects[word or "other"] += 1

    def ask(self, path: str, *fields: str, body: bytes = b"", chunked: bool = False, host: str = "127.0.0.1", epoch: int = 1) -> None:
        before = self.control.refused
        target = self.target(path, host)
        text = body
        if chunked:
            fields += ("Transfer-Encoding: chunked",)
            text = b"".join(b"%x\r\n%b\r\n" % (len(body[at : at + 5000]), body[at : at + 5000]) for at in range(0, len(body), 5000)) + b"0\r\n\r\n"
        elif body:
            fields += (f"Content-Length: {len(body)}",)
        got = self.exchange(self.head(method_of(path, body), target, *fields) + text)
        comes = verdict(target, epoch)
        allowed = self.granted(target, body)
        right = allowed if comes.startswith("allowed") else own("403 Forbidden", comes)
        self.judge(target, got, right, b"" if right != allowed else allowed, before)

    def two(self, first: str, second: str) -> None:
        """Two requests on one connection, the second one sent with the first."""
        before = self.control.refused
        targets = [self.target(first), self.target(second)]
        got = self.exchange(self.head("GET", targets[0], closes=False) + self.head("GET", targets[1]))
        one = self.granted(targets[0], closes=False)
        if got.startswith(one):
            self.replies[targets[0]] = "allowed"
            self.judge(targets[1], got[len(one) :], self.granted(targets[1]), self.granted(targets[1]), before)
        else:
            self.judge(targets[0], got, one, one, before)

    def tunnel(self) -> None:
        before, threads = self.control.refused, self.control.threads
        limit = time.monotonic() + PATIENCE
        target = f"127.0.0.1:{self.origin.echo}"
        line = b"HTTP/1.1 200 Connection established\r\n\r\n"
        wanted, got = line, b""
        try:
            with socket.create_connection(("127.0.0.1", self.port), timeout=PATIENCE) as link:
                link.settimeout(1)
                link.sendall(f"CONNECT {target} HTTP/1.1\r\nHost: {target}\r\n\r\n".encode())
                for size in (0, 10, 3000, 40_000):
                    piece = f"{self.folder.name} {size};".encode() * (size // 10)
                    link.sendall(piece)
                    wanted += piece
                    while len(got) < len(wanted):
                        try:
                            more = link.recv(65536)
                        except TimeoutError:
                            # Nobody makes a thread meanwhile but this tunnel, for which its dialer made one that has ended: the helpers
                            # that there are were started before.
                            alone = got == line and self.control.refused and self.control.threads == threads + 1
                            if alone:
                                self.bench.knows(self.part, self.nth, "a tunnel has one thread")
                                self.effects["tunnel that waits"] += 1
                                self.replies[target] = "allowed"
                                return
                            if time.monotonic() > limit:
                                raise
                            continue
                        if not more:
                            raise ConnectionResetError
                        got += more
                link.shutdown(socket.SHUT_WR)
                link.settimeout(PATIENCE)
                while more := link.recv(65536):
                    got += more
        except TimeoutError:
            got += b"<too slow>"
        except OSError:
            pass
        # A tunnel that was cut has a front of what was sent, which may be more than the pieces that came back.
        self.judge(target, got, wanted, wanted, before)

    def both(self, *calls: Callable[[], None]) -> None:
        clients = [threading.Thread(target=one) for one in calls]
        for one in clients:
            one.start()
        for one in clients:
            one.join()

    def probe(self, name: str, epoch: int = 1) -> None:
        """What each kind of request gets, one after the other."""
        for kind in ("/plain", "/deny", "/ask/yes", "/ask/no"):
            self.ask(f"{kind}/{name}", epoch=epoch)

    # The run.

    def listen(self) -> bool:
        """Whether it listens; else it has ended as it may."""
        self.port = free_port()
        with ENVIRONMENT:
            self.server = Server(
                self.bench.program,
                [str(self.conf), "--port", str(self.port), "--workers", "2"],
                str(self.folder / "journal"),
                more=self.bench.environment(self.control),
            )
        said = self.server.hear(PATIENCE)
        if said == f"listening {self.port}":
            return True
        status = self.server.ends(PATIENCE)
        journal = (self.folder / "journal").read_bytes()
        if (said, status) == ("error net", 9) and self.control.refused:
            self.bench.knows(self.part, self.nth, "the port was not opened")
        elif (said, status) != ("its end", 10) or not self.control.refused:
            self.miss(f"it says {said!r}, status {status}")
        if journal and not b"journal 2\n1 1 ".startswith(journal[:14]):
            self.miss(f"its journal is {journal[:200]!r}")
        self.bench.ended(f"{self.part}, status {status}", self.control)
        return False

    def run(self) -> None:
        try:
            if self.listen():
                self.serve()
        except Exception as what:  # a run that cannot be judged is one that failed
            self.miss(f"{type(what).__name__}: {what}")
        finally:
            self.server.kill()
        for found in self.found:
            self.bench.fault(self.part, self.nth, f"{found}, refused {self.control.place()}")
        if not self.found:
            shutil.rmtree(self.folder)

    def serve(self) -> None:
        if self.part == "start":
            self.ask("/plain/first")
            self.threads = self.control.threads
            self.probe("next")
        else:
            self.ask("/plain/first")
            self.control.begin()
        epoch = 1
        if self.part == "serve":
            self.all_kinds()
            epoch = self.reconfigure()
            self.ask("/late", epoch=epoch)
        self.probe("last", epoch)
        if self.part == "serve":
            self.tunnel()
        self.server.order("shutdown\n")
        said = []
        waits = bool({"no reply", "tunnel that waits"} & set(self.effects))
        while (line := self.server.hear(3 if waits else PATIENCE)) != "its end" and not line.startswith("nothing in"):
            said.append(line)
        status = self.server.ends(1 if waits else PATIENCE)
        if waits and status is None and not said:
            status = -9
            self.server.kill()
        elif status in (-signal.SIGSEGV, -signal.SIGABRT) and self.control.refused == 3:
            self.bench.knows(self.part, self.nth, "a look-up crashes")
            self.crashed = True
            self.found.clear()
            self.unanswered.clear()
        elif (said, status) != (["stopped"], 0):
            self.miss(f"it ends by {said}, status {status}")
        for target in self.unanswered:
            self.miss(f"{target} got nothing, behind the refusal")
        effects = " and ".join(sorted(self.effects)) or ("all right" if self.control.refused else "nothing refused")
        how = f"status {status}" if status != -9 else "no end"
        self.bench.ended(f"{self.part}, {how}: {effects}", self.control)
        self.read_journal()

    def all_kinds(self) -> None:
        many = [f"X-{number}: {'v' * 300}" for number in range(60)]
        self.both(lambda: self.ask("/deny/a"), lambda: self.ask("/plain/a"))
        self.both(lambda: self.two("/plain/b", "/ask/yes/b"), lambda: self.ask("/post/b", body=b"sent" * 5000))
        self.both(lambda: self.ask("/ask/no/c"), lambda: self.ask("/post/c", body=b"chunk" * 4000, chunked=True))
        self.both(self.tunnel, lambda: self.ask("/plain/name", host="localhost"))
        self.both(lambda: self.ask("/large/d"), lambda: self.ask("/ask/yes/d", *many))

    def reconfigure(self) -> int:
        """The epoch that comes of it."""
        before = self.control.refused
        self.conf.write_text(CONF.format(helper=self.helper, late="http_access deny late\n"))
        self.server.order("reconfigure\n")
        self.ordered = True
        said = self.server.hear(PATIENCE)
        if said == "reconfigured 2":
            return 2
        if said != "kept old memory" or before or not self.control.refused:
            self.miss(f"it says {said!r} of a configuration")
        self.effects["kept old memory"] += 1
        return 1

    # Its journal.

    def read_journal(self) -> None:
        text = (self.folder / "journal").read_bytes()
        if self.crashed:
            # The last line may be cut, and the C library's last words stand on standard error too.
            text = b"".join(re.findall(rb"(?m)^(?:journal 2|\d+ \d+ \d+ .*)\n", text))
        (self.folder / "whole").write_bytes(text)
        ran = subprocess.run([self.bench.program, "verify", "first.conf", "whole"], cwd=self.folder, capture_output=True, timeout=60)
        wanted = b"verified %d\n" % (text.count(b"\n") - 1)
        if (ran.stdout, ran.returncode) != (wanted, 0):
            self.miss(f"its journal: {ran.stdout[:300]!r}, status {ran.returncode}")
        open_: dict[str, str] = {}
        outcomes: dict[str, list[str]] = {}
        for line in text.decode().splitlines()[1:]:
            words = line.split(" ")[3:]
            if words[0] == "ask":
                open_[words[-1]] = words[3]  # by the check's number, which steps and takes name
            elif words[0] == "take" and words[1] in open_:
                target = open_.pop(words[1])
                outcome = " ".join(words[5:])
                outcomes.setdefault(target, []).append(outcome)
                comes = verdict(target, int(words[4]))
                if outcome != comes and not (outcome.startswith("denied fault 2 known ") and "/ask" in target):
                    self.miss(f"the journal has {outcome!r} of {target}, and it is {comes!r}")
        for target, got in self.replies.items():
            if not any(outcome == got or got == "allowed" and outcome.startswith("allowed ") for outcome in outcomes.get(target, [])):
                self.miss(f"{target} got what is {got!r}, and the journal has {outcomes.get(target)}")
        begin = f"/{self.folder.name}/"
        for path in [path for path in self.origin.paths if path.startswith(begin)]:
            if not any(any(o.startswith("allowed ") for o in outcomes[target]) for target in outcomes if target.endswith(path)):
                self.miss(f"the origin was asked for {path}, and the journal has no outcome that allows it")


ENVIRONMENT = threading.Lock()
THREADS = [0]  # how many threads a server has that has all of them
PORTS = iter(range(20_000 + os.getpid() % 5000, 32_000))


def free_port() -> int:
    with ENVIRONMENT:
        for port in PORTS:
            with socket.socket() as link:
                try:
                    link.bind(("0.0.0.0", port))
                    return port
                except OSError:
                    continue
    raise AssertionError("no port is free")


def servers(bench: Bench, part: str, origin: Origin, seconds: float) -> None:
    until = time.monotonic() + seconds
    calls = []
    for _ in range(2):
        trial = Trial(bench, origin, part, 0)
        trial.run()
        calls.append(trial.control.calls)
        THREADS[0] = max(THREADS[0], trial.threads)
    # Threads make the count of calls differ from run to run, so that the last numbers may refuse nothing.
    last = max(calls) + max(calls) // 50
    print(f"memory, {part}: a run has {calls[0]} or {calls[1]} calls", flush=True)

    def one(nth: int) -> bool:
        if time.monotonic() > until:
            return False
        Trial(bench, origin, part, nth).run()
        return True

    def refuse_in(numbers: range) -> None:
        with ThreadPoolExecutor(2) as pool:
            done = sum(pool.map(one, numbers))
        left = "" if done == len(numbers) else f"; the time is up, and {len(numbers) - done} were left out, from number {numbers[done]} on"
        print(f"memory, {part}: every {numbers.step}-th call from {numbers.start} on: {done} runs{left}", flush=True)

    begun = time.monotonic()
    sample = max(1, last // 40)
    refuse_in(range(sample, last + 1, sample))
    each = (time.monotonic() - begun) / (last // sample)
    refuse_in(range(1, last + 1, stride(last, each, (until - time.monotonic()) * 0.9)))


def again(bench: Bench, only: str) -> None:
    part, nth = only.rsplit(":", 1)
    if part in ("start", "serve"):
        origin = Origin()
        for number in (0, int(nth)):
            trial = Trial(bench, origin, part, number)
            trial.run()
            THREADS[0] = max(THREADS[0], trial.threads)
            print(f"memory, {part}:{number}: {trial.control.calls} calls, refused {trial.control.place()}, {dict(trial.effects)}")
        return
    one = next((one for one in jobs(bench.folder) if one.name == part), None)
    if not one:
        sys.exit(f"there is no {part}")
    control = run_command(bench, one, int(nth))
    print(f"memory, {only}: {control.calls} calls, refused {control.place()}")


def main() -> int:
    parser = argparse.ArgumentParser(description=__doc__, formatter_class=argparse.RawDescriptionHelpFormatter)
    parser.add_argument("--program", default=str(TOP / "crates/sq_main/out/sq_main"))
    parser.add_argument("--seconds", type=float, default=600)
    parser.add_argument("--only", metavar="PART:N", help="one run: of a command by its name as it is told, of `start` or of `serve`")
    options = parser.parse_args()
    program = os.path.abspath(options.program)
    if not os.access(program, os.X_OK):
        parser.error(f"{program} is no program: build it first, or name it by --program")
    compiler = shutil.which("cc")
    if not compiler:
        print("memory: left out, since there is no cc")
        return 0
    os.nice(15)
    with tempfile.TemporaryDirectory(prefix="memory.") as name:
        folder = Path(name)
        (folder / "refuse.c").write_text(LIBRARY)
        library = folder / "refuse.so"
        flags = ["-O2", "-Wall", "-fno-builtin", "-shared", "-fPIC"]
        subprocess.run([compiler, *flags, "-o", library, folder / "refuse.c"], check=True)
        bench = Bench(program, folder, library, time.monotonic() + options.seconds)
        if options.only:
            again(bench, options.only)
        else:
            commands(bench, options.seconds * 0.4)
            origin = Origin()
            servers(bench, "start", origin, bench.left() * 0.3)
            servers(bench, "serve", origin, bench.left() - 2 * PATIENCE)
        for how, count in sorted(bench.ends.items()):
            print(f"memory: {how}: {count}")
        known = sum(bench.known.values())
        print(f"memory: in {bench.inside} runs the refused call was a library's")
        print(f"memory: {bench.runs} runs, {known} times what is known, {bench.faults} contradictions")
    return 1 if bench.faults else 0


if __name__ == "__main__":
    sys.exit(main())
