#!/usr/bin/env python3
"""Limits of the system around `aclproxy serve` and `aclproxyctl run`: tests/limits.py [--program PROGRAM] [NAME ..]

Each function below is a limit, as docs/OPERATING.md has it under System limits; its first words say what must hold, and it checks that.
What cannot be tried here (no root, no memory cgroup, no libfaketime) is reported, and is no error. The status is 0 where all else holds. Some
of it takes a minute. Python 3.11 and its standard library are what it needs, and root for all of it.
"""

import contextlib
import functools
import os
import resource
import signal
import socket
import subprocess
import sys
import threading
import time
from pathlib import Path
from typing import Callable, Iterator

sys.dont_write_bytecode = True

from chaos_parts.server import free_port, reply_of, stat_of, until  # noqa: E402
from faults import (  # noqa: E402
    ASKING,
    PATIENCE,
    PLAIN,
    STOPPED,
    THROUGH,
    TUNNEL,
    Bench,
    Load,
    all_of,
    hello,
    helpers_left,
    library_of_clocks,
    own,
    program_of_another_user,
    run_serve,
    tried,
)

HERE = Path(__file__).resolve().parent
CTL = HERE.parent / "tools/bin/aclproxyctl"
DENYING = "acl no url_regex /denied\nhttp_access deny no\nhttp_access allow localhost\n"
DENIED = own("403 Forbidden", "denied rule 1")
DAY = 86_400
TUNNELS = 1000
ECHOED = 60_000


def file_size(most: int, ignored: bool) -> Callable[[], None]:
    """Sets the limit for the size of files in a new process, which ignores the signal for it or does not."""

    def limit() -> None:
        signal.signal(signal.SIGXFSZ, signal.SIG_IGN if ignored else signal.SIG_DFL)
        resource.setrlimit(resource.RLIMIT_FSIZE, (most, most))

    return limit


def replies_until_other(bench: Bench, path: str, wanted: bytes, most: int = 400) -> tuple[int, bytes]:
    """How many replies are as they are to be, and the first other one; none where the connection was refused or reset."""
    for count in range(most):
        try:
            got = bench.get(path)
        except OSError:
            return count, b""
        if got != wanted:
            return count, got.removesuffix(b"<reset>")
    return most, wanted


def journal_that_passes_the_file_size(bench: Bench) -> None:
    """The system ends the server by SIGXFSZ, at once and without `stopped`; all lines but the last are whole; helpers end by themselves."""
    server = bench.start(ASKING, "--workers", "4", before=file_size(20_000, ignored=False))
    count, other = replies_until_other(bench, "/ask/a", hello())
    bench.same("replies before", count > 0, True)
    bench.same("the one at the limit", other, b"")
    bench.same("its end", f"{server.hear(PATIENCE)} status {server.ends(PATIENCE)}", f"its end status {-signal.SIGXFSZ}")
    bench.same("the journal's size", os.path.getsize("journal"), 20_000)
    bench.same("its journal", bench.verify(), "verified")
    until(10, lambda: not helpers_left())
    bench.same("helpers are left", helpers_left(), [])


def access_log_that_passes_the_file_size(bench: Bench) -> None:
    """The same where the access log comes to the limit first. Where the signal is ignored, its lines are dropped and clients are served."""
    for ignored in (False, True):
        more = {"ACLPROXY_ACCESS_LOG": os.path.abspath(f"access.{ignored}"), "ACLPROXY_MESSAGES": os.path.abspath(f"messages.{ignored}")}
        # The journal goes to a device, which has no size.
        server = bench.start(DENYING, "--workers", "4", journal="/dev/null", before=file_size(20_000, ignored), more=more)
        count, other = replies_until_other(bench, "/denied", DENIED)
        name = "with the signal ignored" if ignored else "with the signal"
        if ignored:
            bench.same(f"{name}, replies", (count, other), (400, DENIED))
            bench.same(f"{name}, its end", bench.ends(server), "stopped status 0")
            bench.same(f"{name}, it says so", "access log: " in Path(f"messages.{ignored}").read_text(), True)
        else:
            bench.same(f"{name}, it ends", 0 < count < 400 and other == b"", True)
            bench.same(f"{name}, its end", f"{server.hear(PATIENCE)} status {server.ends(PATIENCE)}", f"its end status {-signal.SIGXFSZ}")
        bench.same(f"{name}, the log's size", os.path.getsize(f"access.{ignored}"), 20_000)


@contextlib.contextmanager
def small_disk(bench: Bench, size: str) -> Iterator[bool]:
    """A file system of this size in the folder `disk`, where one can be mounted."""
    os.mkdir("disk")
    mounted = subprocess.run(["mount", "-t", "tmpfs", "-o", f"size={size}", "tmpfs", "disk"], capture_output=True).returncode == 0
    try:
        yield mounted
    finally:
        for one in bench.servers:
            one.kill()
        if mounted:
            subprocess.run(["umount", "-l", "disk"], capture_output=True)


def access_log_on_a_full_disk(bench: Bench) -> None:
    """Lines are dropped, and clients are served; the log goes on once there is room."""
    with small_disk(bench, "64k") as mounted:
        if not mounted:
            return bench.left("a small disk cannot be mounted")
        more = {"ACLPROXY_ACCESS_LOG": os.path.abspath("disk/access"), "ACLPROXY_MESSAGES": os.path.abspath("messages")}
        server = bench.start(DENYING, "--workers", "4", more=more)
        bench.same("replies", replies_until_other(bench, "/denied", DENIED, 700), (700, DENIED))
        full = os.path.getsize("disk/access")
        bench.same("the disk is full", full, 65_536)
        subprocess.run(["mount", "-o", "remount,size=256k", "disk"], check=True)
        bench.same("with room again", bench.get("/denied"), DENIED)
        bench.same("its end", bench.ends(server), "stopped status 0")
        bench.same("the log went on", os.path.getsize("disk/access") > full, True)
        bench.same("it says what it dropped", "access log: " in Path("messages").read_text(), True)
        bench.same("its journal", bench.verify(), "verified")


def ctl(bench: Bench) -> list[str]:
    """The words that call `aclproxyctl`."""
    return [sys.executable, str(CTL), "--program", bench.program]


def verified(bench: Bench, folder: str) -> int:
    """The status of `aclproxyctl verify` of the journals of a folder."""
    return subprocess.run([*ctl(bench), "verify", folder], capture_output=True, timeout=120).returncode


def accepts(port: int) -> bool:
    with contextlib.suppress(OSError):
        socket.create_connection(("127.0.0.1", port), 1).close()
        return True
    return False


class Service:
    """`aclproxyctl run` over a configuration, with its log in a file."""

    def __init__(
        self, bench: Bench, text: str, *words: str, before: Callable[[], None] | None = None, more: dict[str, str] | None = None
    ) -> None:
        Path("squid.conf").write_text(text)
        bench.port = free_port()
        self.log = Path("service.log")
        with self.log.open("wb") as log:
            self.process = subprocess.Popen(
                [*ctl(bench), "run", "squid.conf", "--port", str(bench.port), "--workers", "8", *words],
                stdin=subprocess.DEVNULL,
                stdout=log,
                stderr=log,
                preexec_fn=before,
                env=os.environ | (more or {}),
                start_new_session=True,
            )
        if not until(PATIENCE, lambda: "listen" in self.said() and accepts(bench.port)):
            self.stop()
            raise AssertionError(f"it says {self.said()}")

    def said(self) -> str:
        return self.log.read_text(errors="replace")

    def ends(self, seconds: float) -> int | None:
        try:
            return self.process.wait(seconds)
        except subprocess.TimeoutExpired:
            return None

    def stop(self) -> int | None:
        if self.process.poll() is None:
            self.process.terminate()
        ended = self.ends(60)
        if ended is None:
            self.process.kill()
            self.process.wait()
        return ended


def service_on_a_full_disk(bench: Bench) -> None:
    """It says that the disk is nearly full; the server ends once its journal cannot be written, and the service with it, by 6."""
    with small_disk(bench, "400k") as mounted:
        if not mounted:
            return bench.left("a small disk cannot be mounted")
        service = Service(bench, DENYING, "--journal", "disk/journal", "--no-access-log")
        try:
            count, other = replies_until_other(bench, "/denied", DENIED, 4000)
            begun = time.monotonic()
            bench.same("replies, until the disk is full", 0 < count < 4000 and other in (b"", STOPPED), True)
            bench.same("its end", service.ends(30), 6)
            bench.same("it ends soon", time.monotonic() - begun < 20, True)
            bench.same("it has said that the disk is nearly full", "is nearly full" in service.said(), True)
            # The last line may be cut off, or the text may end behind a line.
            bench.same("its journal", verified(bench, "disk/journal"), {0, 68})
        finally:
            service.stop()


def service_that_passes_the_file_size(bench: Bench) -> None:
    """A file of the journal that comes to the limit ends the service as a full disk does; an access log that does ends it by the signal."""
    for name, words, status in (
        ("the journal", ["--no-access-log"], 6),
        ("the access log", ["--piece-lines", "50"], 128 + signal.SIGXFSZ),
    ):
        service = Service(bench, DENYING, "--journal", f"{name}.runs", *words, before=file_size(30_000, ignored=False))
        try:
            count, other = replies_until_other(bench, "/denied", DENIED, 4000)
            bench.same(f"{name}, replies, until the file has its size", 0 < count < 4000 and other in (b"", STOPPED), True)
            bench.same(f"{name}, its end", service.ends(30), status)
        finally:
            service.stop()


def too_few_processes(bench: Bench) -> None:
    """With W workers it has W + 3 threads, or W + 4 with a program that rewrites: with fewer it ends by 10 and serves nobody."""
    if os.getuid() != 0:
        return bench.left("only root can be another user")
    program, user = program_of_another_user(bench.program)
    ours, bench.program = bench.program, program
    try:
        rewriting = "url_rewrite_program /bin/cat\nurl_rewrite_children 1\n"
        for name, text, own_threads in (("plain", DENYING, 3), ("rewriting", rewriting + DENYING, 4)):
            for workers in (1, 8, 64):
                most = 0

                def limit() -> None:
                    resource.setrlimit(resource.RLIMIT_NPROC, (most, most))
                    os.setgroups([])
                    os.setgid(user)
                    os.setuid(user)

                Path("c.conf").write_text(text)
                most = workers + own_threads - 1
                ended = run_serve(bench, limit, ("--workers", str(workers)))
                bench.same(f"{name}, {workers} workers, one thread too few", ended, ", status 10")
                # A thread that ended may count for a moment still, so there are some more.
                most = workers + own_threads + 8
                server = bench.start(text, "--workers", str(workers), before=limit)
                bench.same(f"{name}, {workers} workers, a reply", bench.get("/denied"), DENIED)
                until(5, lambda: server.value("Threads") == workers + own_threads)
                bench.same(f"{name}, {workers} workers, threads", server.value("Threads"), workers + own_threads)
                bench.same(f"{name}, {workers} workers, its end", bench.ends(server), "stopped status 0")
    finally:
        bench.program = ours


@contextlib.contextmanager
def memory_group(most: int) -> Iterator[Path | None]:
    """A group of processes that have so many bytes of memory together; None where the system gives none."""
    name = f"aclproxy-limits-{os.getpid()}"
    for top, limit in ((Path("/sys/fs/cgroup/memory"), "memory.limit_in_bytes"), (Path("/sys/fs/cgroup"), "memory.max")):
        group = top / name
        try:
            group.mkdir()
        except OSError:
            continue
        try:
            (group / limit).write_text(str(most))
            # What passes the limit is not to be moved to a disk instead.
            for swap, text in (("memory.memsw.limit_in_bytes", str(most)), ("memory.swap.max", "0")):
                with contextlib.suppress(OSError):
                    (group / swap).write_text(text)
        except OSError:
            group.rmdir()
            continue
        try:
            yield group
        finally:
            until(PATIENCE, lambda: not (group / "cgroup.procs").read_text())
            group.rmdir()
        return
    yield None


def tell_memory(bench: Bench, group: Path, when: str) -> None:
    """Says what the group has now, and had at most; the second is not told by each system."""
    found = [
        next((f"{int((group / name).read_text()) / (1 << 20):.0f} MiB" for name in names if (group / name).exists()), "unknown")
        for names in (("memory.usage_in_bytes", "memory.current"), ("memory.max_usage_in_bytes", "memory.peak"))
    ]
    print(f"{bench.test}, {bench.fault}: memory {when}: {found[0]}, and at most {found[1]}")


def memory_of_a_group(bench: Bench) -> None:
    """1,024 workers serve 1,000 tunnels within 320 MiB. Where the memory of the group does not suffice, the system kills the server, which
    leaves whole lines."""
    if bench.sanitized:
        return bench.left("a build for a sanitizer takes memory of its own")
    with memory_group(320 << 20) as group:
        if group is None:
            return bench.left("no memory cgroup can be made")

        def join() -> None:
            (group / "cgroup.procs").write_text(str(os.getpid()))

        server = bench.start(PLAIN, "--workers", "1024", before=join)
        tell_memory(bench, group, "while 1,024 workers wait")
        tunnels = [bench.connect() for _ in range(TUNNELS)]
        for link in tunnels:
            link.sendall(f"CONNECT 127.0.0.1:{echo_port()} HTTP/1.1\r\nHost: a\r\n\r\n".encode())
        bench.same("tunnels", sum(link.recv(65536) == TUNNEL for link in tunnels), TUNNELS)
        tell_memory(bench, group, "with 1,000 tunnels")
        bench.same("each moves 60,000 bytes both ways", sum(echoes(link) for link in tunnels), TUNNELS)
        tell_memory(bench, group, "once each has moved them")
        for link in tunnels:
            link.close()
        bench.same("its end", bench.ends(server), "stopped status 0")
        bench.same("its journal", bench.verify(), "verified")
    with memory_group(48 << 20) as group:
        assert group is not None
        server = bench.start(PLAIN, "--workers", "1024", before=join)
        bench.same("with little, a reply", bench.get("/"), hello())
        tunnels = []
        with contextlib.suppress(OSError):
            for _ in range(TUNNELS):
                link = bench.connect()
                tunnels.append(link)
                link.sendall(f"CONNECT 127.0.0.1:{echo_port()} HTTP/1.1\r\nHost: a\r\n\r\n".encode())
        bench.same("with little, its end", f"{server.hear(PATIENCE)} status {server.ends(PATIENCE)}", f"its end status {-signal.SIGKILL}")
        for link in tunnels:
            link.close()
        bench.same("with little, its journal", bench.verify(), "verified")


@functools.cache
def echo_port() -> int:
    """The port of an origin that sends back what it gets; one for all."""
    listener = socket.create_server(("127.0.0.1", 0), backlog=2048)

    def serve(link: socket.socket) -> None:
        with contextlib.suppress(OSError), link:
            while text := link.recv(65536):
                link.sendall(text)

    def accept() -> None:
        while True:
            threading.Thread(target=serve, args=(listener.accept()[0],), daemon=True).start()

    threading.Thread(target=accept, daemon=True).start()
    return int(listener.getsockname()[1])


def echoes(link: socket.socket) -> bool:
    """Whether what goes into a tunnel comes back."""
    sent = b"x" * ECHOED
    link.sendall(sent)
    got = b""
    while len(got) < len(sent) and (more := link.recv(65536)):
        got += more
    return got == sent


def moments(journal: str) -> list[int]:
    return [int(line.split()[2]) for line in Path(journal).read_text().splitlines()[1:] if line.count(" ") > 2]


def clock_that_is_set_back(bench: Bench) -> None:
    """By a day: the server's moments go on as time passes, and so do the hours of lists and the age of answers. The service begins a new
    run, and nobody is refused; its journals are in their order."""
    library = next(library_of_clocks(), None)
    if library is None:
        return bench.left("there is no libfaketime, and a time namespace shifts other clocks")
    Path("clock").write_text("+0")
    more = {
        "LD_PRELOAD": library,
        "FAKETIME_TIMESTAMP_FILE": os.path.abspath("clock"),
        "FAKETIME_NO_CACHE": "1",
        "FAKETIME_DONT_FAKE_MONOTONIC": "1",
    }
    server = bench.start(ASKING, "--workers", "4", more=more)
    bench.same("before", bench.get("/ask/a"), hello())
    Path("clock").write_text(f"-{DAY}")
    time.sleep(2.2)
    asked = Path("journal").read_text().count("=> send ")
    bench.same("then", bench.get("/ask/a"), hello())
    bench.same("an answer has aged", Path("journal").read_text().count("=> send "), asked + 1)
    found = moments("journal")
    bench.same("moments never fall", found == sorted(found), True)
    bench.same("they go on as time passes", 2000 <= found[-1] - found[0] < DAY * 1000, True)
    bench.same("its end", bench.ends(server), "stopped status 0")
    bench.same("its journal", bench.verify(), "verified")

    Path("clock").write_text("+0")
    service = Service(bench, PLAIN, "--journal", "runs", "--no-compress", "--linger", "1s", more=more)
    try:
        load = Load(bench, ["/"], {hello()}, 2)
        until(PATIENCE, lambda: load.replies > 20)
        Path("clock").write_text(f"-{DAY}")
        said = until(PATIENCE, lambda: "the clock was set back by 86,400" in service.said())
        bench.same("the service says why", said, True)
        until(PATIENCE, lambda: len(os.listdir("runs")) == 2)
        before = load.replies
        until(PATIENCE, lambda: load.replies > before + 20)
        load.end()
        bench.same("replies", load.odd, [])
        bench.same("the service ends", service.stop(), 0)
    finally:
        service.stop()
    runs = sorted(Path("runs").iterdir())
    bench.same("runs", len(runs), 2)
    firsts = [moments(str(run / "journal.000000"))[0] for run in runs]
    bench.same("the later run comes behind the other, and has the clock that was set", firsts[0] - firsts[1] > (DAY - 60) * 1000, True)
    bench.same("their journals", verified(bench, "runs"), 0)


def stopped_for_a_minute(bench: Bench) -> None:
    """Nothing is lost while the server stands still for longer than a minute: tunnels, connections between requests, requests, those who
    come meanwhile, orders, and what a helper has answered."""
    server = bench.start(ASKING, "--workers", "8")
    kept, tunnel, slow, asking = bench.connect(), bench.connect(), bench.connect(), bench.connect()
    kept.sendall(bench.request("/"))
    bench.same("before", reply_of(kept), hello(closes=False))
    tunnel.sendall(f"CONNECT 127.0.0.1:{echo_port()} HTTP/1.1\r\nHost: a\r\n\r\n".encode())
    bench.same("a tunnel, before", tunnel.recv(65536), TUNNEL)
    slow.sendall(bench.request("/slow", "Connection: close"))
    asking.sendall(bench.request("/ask/slow", "Connection: close"))
    time.sleep(0.4)
    os.kill(server.pid, signal.SIGSTOP)
    begun = time.monotonic()
    server.order("reconfigure\n")
    waiting = [bench.connect() for _ in range(3)]
    for link in waiting:
        link.sendall(bench.request("/", "Connection: close"))
    time.sleep(65)
    bench.same("it stands still", stat_of(server.pid)[0], "T")
    os.kill(server.pid, signal.SIGCONT)
    bench.same("it stood still for more than a minute", time.monotonic() - begun > 60, True)
    bench.same("an order", server.hear(PATIENCE), "reconfigured 2")
    kept.sendall(bench.request("/", "Connection: close"))
    bench.same("a connection between two requests", all_of(kept), hello())
    bench.same("a tunnel", echoes(tunnel), True)
    tunnel.close()
    bench.same("a request whose origin answered meanwhile", all_of(slow), hello())
    bench.same("one whose helper answered meanwhile", all_of(asking), hello())
    bench.same("those who came meanwhile", [all_of(link) for link in waiting], [hello()] * 3)
    bench.same("the next one", bench.tunnel("/"), TUNNEL + THROUGH)
    bench.same("its end", bench.ends(server), "stopped status 0")
    bench.same("its journal", bench.verify(), "verified")


LIMITS: list[Callable[[Bench], None]] = [
    journal_that_passes_the_file_size,
    access_log_that_passes_the_file_size,
    access_log_on_a_full_disk,
    service_on_a_full_disk,
    service_that_passes_the_file_size,
    too_few_processes,
    memory_of_a_group,
    clock_that_is_set_back,
    stopped_for_a_minute,
]


if __name__ == "__main__":
    sys.exit(tried("limits", __doc__ or "", LIMITS))
