#!/usr/bin/env python3
"""Runs of `aclproxyctl run` that overlap, on the loopback: tests/overlap.py [--program PROGRAM] [--seconds S] [--every E]

Tunnels are used all the time and pages are asked for, each over a connection of its own, while a new run is begun every E seconds. No page
may be refused, no tunnel may be cut before its run has lingered, and each run's journal has to be verified. Then a supervisor ends and
another one takes its place at a socket that both were handed, as systemd does it at a restart: no page may be refused either. The status is 0 where all
holds. Python 3.11 and its standard library are what it needs.
"""

import argparse
import os
import re
import shutil
import signal
import socket
import subprocess
import sys
import tempfile
import threading
import time
from pathlib import Path
from typing import Callable, Optional

sys.dont_write_bytecode = True

from chaos_parts.server import Server, free_port, reply_of  # noqa: E402

HERE = Path(__file__).resolve().parent
TOOL = HERE.parent / "tools/bin/aclproxyctl"
PATIENCE = 30.0  # the seconds after which a wait has failed
# Starts the words behind the first with the file of that number as file 3.
HANDS_OVER = "import os, sys; os.dup2(int(sys.argv[1]), 3); os.environ['LISTEN_PID'] = str(os.getpid()); os.execv(sys.argv[2], sys.argv[2:])"
CONF = "acl SSL_ports port 1-65535\nacl CONNECT method CONNECT\nhttp_access allow all\n"


class Origin:
    """Answers a request by hello, and sends back what comes through a tunnel."""

    def __init__(self) -> None:
        self.listener = socket.create_server(("127.0.0.1", 0), backlog=512)
        self.port = self.listener.getsockname()[1]
        threading.Thread(target=self.accept, daemon=True).start()

    def accept(self) -> None:
        while True:
            link, _ = self.listener.accept()
            threading.Thread(target=self.answer, args=(link,), daemon=True).start()

    def answer(self, link: socket.socket) -> None:
        with link:
            try:
                while text := link.recv(65536):
                    link.sendall(b"HTTP/1.1 200 OK\r\nContent-Length: 5\r\n\r\nhello" if text.startswith(b"GET ") else text)
            except OSError:
                pass


class Service:
    """A supervisor with its runs. Where a socket is stated it is handed over, as systemd does it."""

    def __init__(self, program: str, folder: Path, port: int, words: list[str], handed: Optional[socket.socket] = None) -> None:
        self.folder = folder
        self.errors = open(folder / "errors", "ab")
        command = [sys.executable, str(TOOL), "--program", program, "run", str(folder / "squid.conf"), "--journal", str(folder / "journal")]
        command += ["--workers", "128", *(["--port", str(port)] if handed is None else []), *words]
        env = {name: value for name, value in os.environ.items() if name != "NOTIFY_SOCKET"}
        passed: tuple[int, ...] = ()
        if handed is not None:
            passed = (handed.fileno(),)
            env["LISTEN_FDS"] = "1"
            command = [sys.executable, "-c", HANDS_OVER, str(handed.fileno()), *command]
        self.process = subprocess.Popen(
            command, stdin=subprocess.DEVNULL, stdout=subprocess.DEVNULL, stderr=self.errors, env=env, pass_fds=passed
        )

    def said(self) -> str:
        return (self.folder / "errors").read_text(errors="replace")

    def await_listening(self, times: int) -> None:
        deadline = time.monotonic() + PATIENCE
        while self.said().count("listening at port") < times:
            if time.monotonic() > deadline or self.process.poll() is not None:
                raise AssertionError(f"it does not listen, status {self.process.poll()}: {self.said()[-500:]}")
            time.sleep(0.02)

    def ends(self, seconds: float) -> str:
        self.process.send_signal(signal.SIGTERM)
        try:
            return f"status {self.process.wait(seconds)}"
        except subprocess.TimeoutExpired:
            return "it goes on"

    def kill(self) -> None:
        if self.process.poll() is None:
            self.process.kill()
            self.process.wait()
        self.errors.close()


class Bench:
    """What the checks share."""

    def __init__(self, program: str, seconds: float, every: float) -> None:
        self.program, self.seconds, self.every = program, seconds, every
        self.origin = Origin()
        self.wrong = 0
        self.services: list[Service] = []
        self.port = 0

    def check(self, what: str, holds: bool, got: object = "") -> None:
        print(f"overlap, {what}: {'as expected' if holds else f'it was {got!r}'}", flush=True)
        self.wrong += not holds

    def start(self, folder: Path, words: list[str], handed: Optional[socket.socket] = None) -> Service:
        folder.mkdir(exist_ok=True)
        (folder / "squid.conf").write_text(CONF)
        self.port = free_port() if handed is None else handed.getsockname()[1]
        service = Service(self.program, folder, self.port, words, handed)
        self.services.append(service)
        return service

    def page(self) -> None:
        """Asks for a page over a connection of its own; an error where it does not come."""
        with socket.create_connection(("127.0.0.1", self.port), timeout=PATIENCE) as link:
            link.settimeout(PATIENCE)
            self.ask(link)

    def ask(self, link: socket.socket) -> None:
        link.sendall(f"GET http://127.0.0.1:{self.origin.port}/hello HTTP/1.1\r\nHost: a\r\n\r\n".encode())
        reply = reply_of(link)
        if not reply.startswith(b"HTTP/1.1 200 ") or not reply.endswith(b"hello"):
            raise AssertionError(f"a page is {reply!r}")

    def tunnel(self) -> socket.socket:
        link = socket.create_connection(("127.0.0.1", self.port), timeout=PATIENCE)
        link.settimeout(PATIENCE)
        link.sendall(f"CONNECT 127.0.0.1:{self.origin.port} HTTP/1.1\r\nHost: a\r\n\r\n".encode())
        reply = b""
        while b"\r\n\r\n" not in reply:
            more = link.recv(65536)
            if not more:
                raise AssertionError(f"a tunnel is {reply!r}")
            reply += more
        return link

    def verify(self, folder: Path) -> tuple[int, list[str]]:
        """How many journals there are, and which are not verified."""
        wrong = []
        runs = sorted((folder / "journal").iterdir())
        for run in runs:
            text = b""
            for piece in sorted(run.glob("journal.*")):
                text += unpacked(piece)
            (folder / "whole").write_bytes(text)
            ran = subprocess.run([self.program, "verify", str(run / "squid.conf"), str(folder / "whole")], capture_output=True, timeout=300)
            said = ran.stdout.decode(errors="replace").strip()
            if said != f"verified {text.count(b'%c' % 10) - 1}":
                wrong.append(f"{run.name}: {said}")
        return len(runs), wrong


def unpacked(piece: Path) -> bytes:
    """What stands in a piece, which may have been compressed meanwhile."""
    if piece.suffix in (".gz", ".zst"):
        return subprocess.run(["gzip" if piece.suffix == ".gz" else "zstd", "-dc", str(piece)], capture_output=True, check=True).stdout
    return piece.read_bytes()


def echoes(link: socket.socket, text: bytes) -> bool:
    try:
        link.sendall(text)
        return link.recv(65536) == text
    except OSError:
        return False


class Load:
    """Tunnels and pages until it is stopped, and what went wrong with them."""

    def __init__(self, bench: Bench, tunnels: int, pages: int) -> None:
        self.bench = bench
        self.pages = pages
        self.stopped = threading.Event()
        self.wrong: list[str] = []
        self.cut: list[str] = []
        self.count = 0
        self.longest = 0.0
        self.threads = [threading.Thread(target=self.talk, args=(number,), daemon=True) for number in range(tunnels)]
        self.threads += [threading.Thread(target=self.browse, args=(number,), daemon=True) for number in range(4)]
        for one in self.threads:
            one.start()

    def talk(self, number: int) -> None:
        """One tunnel that is used all the time; every fourth of them says something every three seconds alone."""
        pause = 3.0 if number % 4 == 3 else 0.3
        try:
            link = self.bench.tunnel()
        except (OSError, AssertionError) as fault:
            self.wrong.append(f"a tunnel: {fault}")
            return
        begun = time.monotonic()
        with link:
            while not self.stopped.wait(pause):
                if not echoes(link, b"line %d\n" % number):
                    self.cut.append(f"tunnel {number} after {time.monotonic() - begun:.1f} seconds")
                    return

    def browse(self, number: int) -> None:
        """A fourth of the pages of each second."""
        pause = 4 / self.pages
        while not self.stopped.wait(pause):
            begun = time.monotonic()
            try:
                self.bench.page()
            except (OSError, AssertionError) as fault:
                self.wrong.append(f"a page: {type(fault).__name__}: {fault}")
            self.longest = max(self.longest, time.monotonic() - begun)
            self.count += 1

    def stop(self) -> None:
        self.stopped.set()
        for one in self.threads:
            one.join(PATIENCE)


def new_runs(bench: Bench, folder: Path) -> None:
    """20 tunnels and 20 pages a second, and a new run every few seconds."""
    service = bench.start(folder, ["--linger", "1h"])
    service.await_listening(1)
    load = Load(bench, 20, 20)
    until = time.monotonic() + bench.seconds
    begun = 1
    while time.monotonic() + bench.every < until:
        time.sleep(bench.every)
        service.process.send_signal(signal.SIGUSR1)
        begun += 1
        service.await_listening(begun)
    time.sleep(max(0.0, until - time.monotonic()))
    load.stop()
    bench.check(f"{load.count} pages beside {begun} runs", not load.wrong and load.count > bench.seconds * 5, load.wrong[:5] or load.count)
    bench.check("the longest wait for one", load.longest < 3, load.longest)
    bench.check("20 tunnels", not load.cut, load.cut[:5])
    bench.check("its end", (said := service.ends(PATIENCE)) == "status 0", said)
    count, wrong = bench.verify(folder)
    bench.check(f"{count} journals", count == begun and not wrong, wrong[:3] or count)


def lingering(bench: Bench, folder: Path) -> None:
    """Behind a new run a silent tunnel goes on for as long as runs linger, a client that has sent nothing is served, and an idle connection
    ends within a second and a half.
    """
    service = bench.start(folder, ["--linger", "40s"])
    service.await_listening(1)
    tunnel = bench.tunnel()
    idle = socket.create_connection(("127.0.0.1", bench.port), timeout=PATIENCE)
    bench.ask(idle)
    fresh = socket.create_connection(("127.0.0.1", bench.port), timeout=PATIENCE)
    fresh.settimeout(PATIENCE)
    time.sleep(0.5)
    service.process.send_signal(signal.SIGUSR1)
    service.await_listening(2)
    begun = time.monotonic()
    idle.settimeout(10)
    try:
        ended = idle.recv(1) == b""
    except OSError as fault:
        ended = isinstance(fault, ConnectionResetError)
    took = time.monotonic() - begun
    bench.check("an idle connection ends", ended and took < 2.5, took)
    try:
        bench.ask(fresh)
        bench.check("a client that had sent nothing", True)
    except (OSError, AssertionError) as fault:
        bench.check("a client that had sent nothing", False, fault)
    time.sleep(3)
    bench.check("a silent tunnel", echoes(tunnel, b"line\n"))
    for link in (tunnel, idle, fresh):
        link.close()
    bench.check("its end", (said := service.ends(PATIENCE)) == "status 0", said)
    count, wrong = bench.verify(folder)
    bench.check(f"{count} journals", count == 2 and not wrong, wrong or count)


def short_linger(bench: Bench, folder: Path) -> None:
    """A tunnel that is used is cut once runs have lingered, and not before."""
    service = bench.start(folder, ["--linger", "3s"])
    service.await_listening(1)
    tunnel = bench.tunnel()
    service.process.send_signal(signal.SIGUSR1)
    service.await_listening(2)
    begun = time.monotonic()
    while echoes(tunnel, b"line\n") and time.monotonic() < begun + 10:
        time.sleep(0.1)
    took = time.monotonic() - begun
    bench.check("a tunnel of a run that lingers for 3 seconds", 2.7 < took < 4.5, took)
    tunnel.close()
    bench.page()
    bench.check("its end", (said := service.ends(PATIENCE)) == "status 0", said)
    count, wrong = bench.verify(folder)
    bench.check(f"{count} journals", count == 2 and not wrong, wrong or count)


def restart(bench: Bench, folder: Path) -> None:
    """The socket is handed over by others, who have it while a supervisor ends and the next one begins."""
    with socket.create_server(("127.0.0.1", free_port()), backlog=512) as handed:
        service = bench.start(folder, [], handed)
        service.await_listening(1)
        load = Load(bench, 0, 20)
        time.sleep(0.5)
        for number in range(2):
            bench.check("its end", (said := service.ends(PATIENCE)) == "status 0", said)
            time.sleep(0.3)
            service = bench.start(folder, [], handed)
            service.await_listening(2 + number)
            time.sleep(0.5)
        load.stop()
        bench.check(f"{load.count} pages over two restarts", not load.wrong and load.count > 10, load.wrong[:5] or load.count)
        bench.check("its end", (said := service.ends(PATIENCE)) == "status 0", said)
    count, wrong = bench.verify(folder)
    bench.check(f"{count} journals", count == 3 and not wrong, wrong or count)


def refusal(bench: Bench, folder: Path) -> None:
    """Where a new run cannot begin, the one before it goes on, and says so."""
    program = folder.parent / "program"
    program.write_text(f'#!/bin/sh\nexec {bench.program} "$@"\n')
    program.chmod(0o755)
    whole, bench.program = bench.program, str(program)
    try:
        service = bench.start(folder, [])
        service.await_listening(1)
        program.write_text("#!/bin/sh\nexit 10\n")
        service.process.send_signal(signal.SIGUSR1)
        deadline = time.monotonic() + PATIENCE
        while "the new run has not begun" not in service.said() and time.monotonic() < deadline:
            time.sleep(0.05)
        said = re.findall(r"the new run has not begun, and the one before it goes on: .*", service.said())
        bench.check("a new run that does not begin", len(said) == 1 and "status 10" in said[0], service.said()[-300:])
        bench.page()
        bench.check("its end", (ended := service.ends(PATIENCE)) == "status 0", ended)
    finally:
        bench.program = whole


def environment(bench: Bench, folder: Path) -> None:
    """What a server makes of variables that name no socket of its own, or no time."""
    folder.mkdir()
    (folder / "squid.conf").write_text(CONF)
    os.chdir(folder)
    port = free_port()
    words = ["squid.conf", "--port", str(port), "--workers", "4"]
    more = {"ACLPROXY_MESSAGES": str(folder / "messages")}
    for linger in ("abc", "0", "86401", "-5", "", "1" * 40):
        server = Server(bench.program, words, "journal", None, {**more, "LISTEN_FDS": "1", "LISTEN_PID": "1", "ACLPROXY_LINGER": linger})
        said = server.hear(PATIENCE)
        with socket.create_connection(("127.0.0.1", port), timeout=PATIENCE) as idle:
            begun = time.monotonic()
            server.order("shutdown\n")
            bench.check(f"a socket of another process, ACLPROXY_LINGER={linger}", said == f"listening {port}" and server.hear(5) == "stopped", said)
            bench.check("its end", server.ends(5) == 0 and time.monotonic() - begun < 3)
            idle.close()
    said = (folder / "messages").read_text()
    line = "ACLPROXY_LINGER is no number from 1 to 86400: links go on for 30 seconds after shutdown\n"
    bench.check("the messages", said == 6 * line, said)
    with open(os.devnull) as none:
        words = ["-c", HANDS_OVER, str(none.fileno()), bench.program, "serve", *words]
        ran = subprocess.run(
            [sys.executable, *words], pass_fds=(none.fileno(),), env={**os.environ, "LISTEN_FDS": "1"}, capture_output=True, timeout=PATIENCE
        )
    said = f"{ran.stdout.decode()}{ran.stderr.decode()}status {ran.returncode}"
    wanted = f"error net\naclproxy: port {port}: Socket operation on non-socket (os error 88)\nstatus 9"
    bench.check("a file that is no socket", said == wanted, said)


CHECKS: list[Callable[[Bench, Path], None]] = [new_runs, lingering, short_linger, restart, refusal, environment]


def main() -> int:
    parser = argparse.ArgumentParser(description=__doc__, formatter_class=argparse.RawDescriptionHelpFormatter)
    known = {one.__name__: one for one in CHECKS}
    parser.add_argument("names", nargs="*", metavar="NAME", help=f"some of: {', '.join(known)}")
    parser.add_argument("--program", default=str(HERE.parent / "crates/sq_main/out/sq_main"))
    parser.add_argument("--seconds", type=float, default=120, help="how long new runs are begun (120)")
    parser.add_argument("--every", type=float, default=10, help="after how many seconds one is (10)")
    options = parser.parse_args()
    if unknown := [name for name in options.names if name not in known]:
        parser.error(f"there is no {unknown[0]}")
    program = os.path.abspath(options.program)
    if not os.access(program, os.X_OK):
        parser.error(f"{program} is no program: build it first, or name it by --program")
    bench = Bench(program, options.seconds, options.every)
    top = Path(tempfile.mkdtemp(prefix="overlap."))
    for check in [known[name] for name in options.names] or CHECKS:
        try:
            check(bench, top / check.__name__)
        except Exception as what:  # a check that cannot be made to its end is one that failed
            bench.wrong += 1
            print(f"overlap, {check.__name__}: {type(what).__name__}: {what}", flush=True)
        finally:
            for one in bench.services:
                one.kill()
            bench.services.clear()
    if bench.wrong:
        print(f"overlap: what they left stands in {top}")
    else:
        shutil.rmtree(top)
    print(f"overlap: {bench.wrong} failed")
    return 1 if bench.wrong else 0


if __name__ == "__main__":
    sys.exit(main())
