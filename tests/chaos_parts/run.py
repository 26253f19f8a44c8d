"""Rounds of chaos: starts a server, origins, helpers and clients, disturbs them, and judges what came of it."""

import argparse
import contextlib
import json
import multiprocessing
import os
import random
import shutil
import signal
import socket
import subprocess
import sys
import tempfile
import time
from collections import Counter, defaultdict
from pathlib import Path

from thousand_parts.proxies import raise_limit

from . import clients, configs, origin, resolver, rewrites
from .judge import Judge, World, lines_of
from .logged import AccessJudge, writes_tags
from .model import Configuration, Rewriter
from .oracle import Oracle, Order
from .server import Server, signal_one, slurp, until

HERE = Path(__file__).resolve().parent
CROWD = 100  # clients above which each of them rests between its requests
SHOWN = 10  # contradictions of a round that are shown with their lines


def spill(name: str, text: str | bytes) -> None:
    with open(name + ".new", "wb") as file:
        file.write(text if isinstance(text, bytes) else text.encode())
    os.rename(name + ".new", name)


def free_port() -> int:
    """A port at which nobody listens, outside of those that the system gives to clients."""
    while True:
        port = random.randrange(20_000, 30_000)
        with socket.socket(socket.AF_INET) as link:
            try:
                link.bind(("0.0.0.0", port))
                return port
            except OSError:
                continue


# What a run of a minute has to have seen, so that no part is passed over in silence; the second ones where names are looked up.
SEEN = [
    *("requests at origins", "compared 200", "compared 403", "compared 502"),
    *("reconfigured", "kept old", "helpers killed", "helpers stopped"),
    *("fields of a request that did not go on", "fields of a reply that did not go on", "buckets", "buckets of tags", "quiet moments"),
    *(f"rewriter: {does}" for does in (*rewrites.ANSWERS, *rewrites.LOSSES)),
    *(f"rewriter: {name}" for name in ("plain", "heard", "not heard", "clients sent elsewhere", "other targets")),
    *(f"journal: {name}" for name in ("answers by a table", "answers by a tag", "requests with a tag", "took kept")),
    *(f"journal: {name}" for name in ("startfail", "line bad", "died")),
    *(f"log: {name}" for name in ("lines of requests", "lines without a request", "lines whose bytes were compared")),
    *(f"log: code {code}" for code in ("NONE", "TCP_DENIED", "TCP_MISS", "TCP_REDIRECT", "TCP_TUNNEL")),
    *(f"log: code {code}_ABORTED" for code in ("TCP_MISS", "TCP_TUNNEL")),
    *(f"log: cause {cause}" for cause in ("client_gone", "cut_off", "not_http", "other", "refused")),
]
NAMES_SEEN = [
    *(f"journal: look-ups that say {word}" for word in ("OK", "ERR", "BH")),
    *("names that were dialled where a rule had looked", "names that had another answer the second time"),
    *(f"log: cause {cause}" for cause in ("name_not_found", "lookup_failed")),
]


class Round:
    def __init__(self, options: argparse.Namespace, number: int, seconds: float, folder: str) -> None:
        self.options = options
        self.number = number
        self.seconds = seconds
        self.folder = folder
        self.random = random.Random(f"{options.seed}.{number}")
        self.wrong: list[str] = []
        self.counts: Counter[str] = Counter()
        self.most: Counter[str] = Counter()
        self.orders: list[Order] = []
        self.tables: list[tuple[float, float, set[bytes]]] = []
        self.stopped: list[int] = []
        self.logs: list[str] = []  # the files of the access log that were renamed
        self.killed: defaultdict[int, list[float]] = defaultdict(list)
        self.slowest = 0.0
        self.offset = self.random.randrange(-840, 841)
        self.others: list[multiprocessing.process.BaseProcess] = []
        self.server: Server | None = None

    def odd(self, what: str) -> None:
        self.wrong.append(what)

    def table(self) -> None:
        """Writes the helpers another table. The one before it may be read until this one is there, and this one from before that on."""
        listed = {str(variant).encode() for variant in range(8) if self.random.random() < 0.5}
        began = time.time()
        spill("table", b"%d\n%s\n" % (len(self.tables), b" ".join(sorted(listed))))
        if self.tables:
            first, _, before = self.tables[-1]
            self.tables[-1] = (first, time.time(), before)
        self.tables.append((began, float("inf"), listed))

    def local_minute(self) -> int:
        return (int(time.time()) + 60 * self.offset) % 86_400 // 60

    def configuration(self) -> Configuration:
        """One more configuration. What one that is read later says of the program that rewrites has no effect."""
        rewriter = self.random.choice([self.rewriter, self.rewriter, None, Rewriter(configs.ABSENT, 1, 0, 0, 0)])
        return configs.make(self.random, self.echo, self.local_minute(), rewriter, self.options.inside)

    def start(self) -> None:
        self.ports = origin.listeners(2)
        context = multiprocessing.get_context("fork")
        self.http, self.echo = (sockets[0].getsockname()[1] for sockets in self.ports)
        nobody = socket.create_server(("127.0.0.1", 0))
        self.nobody = nobody.getsockname()[1]
        nobody.close()
        # A port that is bound and where nobody listens, so that none of the clients comes to have it.
        self.reserved = socket.socket()
        self.reserved.bind(("127.0.0.1", self.nobody))
        self.table()
        self.rewriter = configs.rewriter(self.random, self.number, self.http, self.nobody)
        self.first = configs.make(self.random, self.echo, self.local_minute(), self.rewriter, self.options.inside)
        spill("first.conf", self.first.text)
        spill("squid.conf", self.first.text)
        spill("pids", "")
        spill("rewriter.log", "")
        origins = context.Process(target=origin.run, args=(self.ports, "origins.log"), daemon=True)
        origins.start()
        self.others.append(origins)
        for sockets in self.ports:
            for one in sockets:
                one.close()
        spill("names.log", "")
        if self.options.inside:
            names = context.Process(target=resolver.run, args=("names.log",), daemon=True)
            names.start()
            self.others.append(names)
        port = free_port()
        words = ["squid.conf", "--port", str(port), "--workers", str(self.options.workers), "--utc-offset", str(self.offset)]
        self.started = time.time()
        more = {"ACLPROXY_ACCESS_LOG": "access.log", "ACLPROXY_MESSAGES": "messages"}
        self.server = Server(self.options.program, words, "journal", more=more)
        said = self.server.hear(self.options.patience)
        if said != f"listening {port}":
            raise SystemExit(f"chaos: the server says {said}; its folder is {self.folder}")
        has_six = len(self.ports[0]) == len(origin.PLACES)
        # A link that rests for ten seconds may have to give way to a client that waits.
        pause = min(5.0, self.options.clients / 200) if self.options.clients > CROWD else 0.0
        world = clients.World(
            port,
            self.http,
            self.echo,
            self.nobody,
            has_six,
            self.options.inside,
            time.time() + self.seconds,
            self.options.patience,
            pause,
            f"{self.options.seed}.{self.number}",
        )
        self.until = world.until
        them = context.Process(target=clients.run, args=(world, self.options.clients, "clients.log"), daemon=True)
        them.start()
        self.others.append(them)
        self.clients = them

    # What is done to them while clients ask.

    def reconfigure(self) -> None:
        assert self.server
        rng = self.random
        kind = rng.random()
        wanted = f"reconfigured {len(self.orders) + 2}"
        config = self.configuration()
        if os.path.isdir("squid.conf"):
            os.rmdir("squid.conf")
        if kind < 0.1:
            text, where = configs.faulty(rng, config)
            spill("squid.conf", text)
            wanted = f"kept old {where}"
        elif kind < 0.15:
            Path("squid.conf").unlink(missing_ok=True)
            wanted = "kept old missing"
        elif kind < 0.2:
            Path("squid.conf").unlink(missing_ok=True)
            os.mkdir("squid.conf")
            wanted = "kept old read"
        else:
            spill("squid.conf", config.text)
        if rng.random() < 0.3 and os.path.exists("access.log"):
            os.rename("access.log", f"access.log.{len(self.logs)}")
            self.logs.append(f"access.log.{len(self.logs)}")
        ordered = time.time()
        self.server.order(rng.choice(["", "", "", "an order that is none\n", " reconfigure\n\n"]) + "reconfigure\n")
        said = self.server.hear(self.options.patience)
        answered = time.time()
        self.slowest = max(self.slowest, answered - ordered)
        if said == wanted:
            self.counts["reconfigured" if kind >= 0.2 else "kept old"] += 1
            if kind >= 0.2:
                self.orders.append(Order(config, ordered, answered))
        elif said == "kept old epochs" and kind >= 0.2:
            self.counts["kept old epochs"] += 1
        else:
            self.odd(f"an order was answered `{said}`, and not `{wanted}`")
            if said.startswith("reconfigured"):
                self.orders.append(Order(config, ordered, answered))

    def disturb_helper(self) -> None:
        assert self.server
        for pid in self.stopped:
            signal_one(pid, signal.SIGCONT, self.server.pid)
        self.stopped = []
        live = self.server.live_helpers("pids")
        if live:
            pid = self.random.choice(live)
            if self.random.random() < 0.6:
                self.killed[pid].append(time.time())
                self.counts["helpers killed"] += signal_one(pid, signal.SIGKILL, self.server.pid)
            elif signal_one(pid, signal.SIGSTOP, self.server.pid):
                self.counts["helpers stopped"] += 1
                self.stopped.append(pid)

    def look(self) -> None:
        assert self.server
        for name, value in (
            ("KiB resident", self.server.value("VmRSS")),
            ("threads", self.server.value("Threads")),
            ("files", self.server.files()),
            ("not reaped yet", self.server.unreaped()),
        ):
            self.most[name] = max(self.most[name], value)

    def disturb(self) -> None:
        assert self.server
        due = {self.reconfigure: 1.0, self.disturb_helper: 0.4, self.table: 0.7, self.look: 2.0}
        at = {what: time.time() + every for what, every in due.items()}
        while time.time() < self.until:
            if self.server.has_ended():
                self.odd(f"the server ended by itself, with status {self.server.process.returncode}")
                return
            if not self.clients.is_alive():
                self.odd("the clients ended before their time")
                return
            for what, every in due.items():
                if time.time() >= at[what]:
                    what()
                    at[what] = time.time() + every
            time.sleep(0.02)

    def end(self) -> None:
        """All come to their end: clients by themselves, and then the server by an order."""
        assert self.server
        server = self.server
        for pid in self.stopped:
            signal_one(pid, signal.SIGCONT, server.pid)
        self.clients.join(3 * self.options.patience)
        if self.clients.is_alive():
            self.odd("the clients have not ended")
            self.clients.kill()
            self.clients.join()
        if self.clients.exitcode:
            self.odd(f"the clients ended with status {self.clients.exitcode}")
        if server.has_ended():
            self.odd("the server has ended by itself")
        else:
            idle = 20 + 2 * sum(cls.children for cls in self.first.classes.values()) + 2 * (self.rewriter.children if self.rewriter else 0)
            until(self.options.patience, lambda: not server.unreaped() and server.files() <= idle)
            if server.unreaped() or server.files() > idle:
                self.odd(f"while nobody asks it has {server.files()} files open, and {server.unreaped()} processes that were not reaped")
            ordered = time.time()
            if self.random.random() < 0.5:
                server.order("shutdown\n")
            else:
                server.end_orders()
            said = server.hear(self.options.patience)
            status = server.ends(self.options.patience)
            if said != "stopped" or status != 0:
                self.odd(f"at its end it wrote `{said}`, and its status was {status}")
            self.most["milliseconds to end"] = int(1000 * (time.time() - ordered))
            server.kill()
        spill("origins.end", "")
        for one in self.others:
            one.join(5)
            if one.is_alive():
                one.kill()
                one.join()
        until(2.0, lambda: not self.left())
        if self.left():
            self.odd(f"helpers are left: {self.left()}")

    def left(self) -> list[int]:
        """Processes of helpers that live on without their server."""
        out = []
        for word in Path("pids").read_text().split():
            try:
                line = Path(f"/proc/{word}/cmdline").read_bytes()
            except OSError:
                continue
            if b"chaos_parts/helper." in line or b"chaos_parts/rewriter." in line:
                out.append(int(word))
        return out

    # What came of it.

    def judge(self) -> None:
        oracle = Oracle(self.first, self.orders, self.tables, self.offset, self.options.workers, resolver.Answers("names.log"))
        with open("journal", encoding="ascii", errors="replace", newline="\n") as file:
            oracle.play(file)
        self.wrong += oracle.wrong
        for identity in dict.fromkeys(oracle.blamed):
            self.odd("\n    ".join([f"request {identity}, in the journal:", *lines_of("journal", identity)]))
        if oracle.unsaid:
            self.odd(f"and {oracle.unsaid} more lines, which may follow from these")
        if oracle.conns:
            self.odd(f"connections were not closed: {oracle.conns}")
        if oracle.epoch != len(self.orders) + 1:
            self.odd(f"the journal has {oracle.epoch - 1} reconfigurations, and {len(self.orders)} were told")
        verified = self.verify()
        if verified != f"verified {oracle.entries}, status 0":
            self.odd(f"verify: {verified}; the journal has {oracle.entries} entries")
        judge = Judge(oracle, World(self.http, self.nobody, self.options.clients), self.started)
        judge.hear_program("rewriter.log", self.killed)
        judge.look_who_left("origins.log")
        logged = AccessJudge(judge, writes_tags(self.options.program))
        began: Counter[tuple[str, int]] = Counter()
        with open("clients.log") as file:
            for line in file:
                record = json.loads(line)
                began[record["address"], record["port"]] += 1
                logged.record(record)
                judge.connection(record)
        judge.origins("origins.log")
        judge.questions()
        logged.look([*self.logs, "access.log"], slurp("messages"))
        judge.connections(oracle.opened, began)
        judge.pools()
        judge.names()
        for identity in [*oracle.verdicts, *oracle.unfinished]:
            if identity not in judge.sent:
                judge.odd("it was asked, and no client sent it whole", identity)
        for what, identity in judge.wrong[:SHOWN]:
            lines = lines_of("journal", identity) if identity else []
            self.odd("\n    ".join([f"request {identity}: {what}", *(lines or ["(the journal has no line of it)"])]))
        self.wrong += [f"request {identity}: {what}" for what, identity in judge.wrong[SHOWN : 10 * SHOWN]]
        if len(judge.wrong) > 10 * SHOWN:
            self.odd(f"and {len(judge.wrong) - 10 * SHOWN} more")
        self.counts.update(judge.counts)
        self.counts.update({f"log: {name}": count for name, count in logged.counts.items()})
        self.counts.update({f"journal: {name}": count for name, count in oracle.counts.items()})
        self.counts["entries verified"] += oracle.entries
        self.most["connections open at once"] = oracle.most_open
        self.most["percent of its bound that a bucket gave"] = int(100 * judge.fullest)
        if os.path.exists("clients.log.counts"):
            with open("clients.log.counts") as file:
                self.counts.update({f"clients: {name}": count for name, count in json.load(file).items()})

    def verify(self) -> str:
        try:
            ran = subprocess.run([self.options.program, "verify", "first.conf", "journal"], capture_output=True, timeout=60 + 10 * self.seconds)
        except subprocess.TimeoutExpired:
            return "it has not ended"
        return f"{ran.stdout.decode(errors='replace').rstrip()}, status {ran.returncode}"

    def clean(self) -> None:
        if self.server:
            self.server.kill()
        for one in self.others:
            if one.is_alive():
                one.kill()
        if os.path.exists("pids"):
            for pid in self.left():
                with contextlib.suppress(ProcessLookupError):
                    os.kill(pid, signal.SIGKILL)


def main() -> int:
    parser = argparse.ArgumentParser(prog="chaos.py", description=__doc__)
    parser.add_argument("--seconds", type=int, default=60, help="for how long clients ask, all rounds together (60)")
    parser.add_argument("--seed", default=str(int(time.time())), help="what decides configurations, requests and disturbances")
    parser.add_argument("--clients", type=int, default=24, help="clients at a time (24)")
    parser.add_argument("--workers", type=int, default=16, help="workers of the server (16)")
    parser.add_argument("--round", type=int, default=0, help="the seconds of one server (half of all, from 10 to 300)")
    parser.add_argument("--patience", type=float, default=45.0, help="the seconds after which a wait is a contradiction (45)")
    parser.add_argument("--plain", action="store_true", help="leave out what needs a name server, and so namespaces")
    parser.add_argument("--inside", action="store_true", help=argparse.SUPPRESS)
    parser.add_argument("--program", default=str(HERE.parent.parent / "crates/sq_main/out/sq_main"))
    options = parser.parse_args()
    options.program = os.path.abspath(options.program)
    if not os.access(options.program, os.X_OK):
        parser.error(f"{options.program} is no program: build it first, or name it by --program")
    if not options.inside and not options.plain:
        resolver.enter(sys.argv[0], sys.argv[1:])
        print("chaos: look-ups of names are left out, since this machine gives no namespaces", flush=True)
    length = options.round or max(10, min(300, options.seconds // 2))
    raise_limit()
    top = tempfile.mkdtemp(prefix="chaos.")
    os.chdir(top)
    if options.inside:
        resolver.settle(top)
    current: list[Round] = []

    def give_up(*_: object) -> None:
        print("chaos: it has not come to its end in time", flush=True)
        for one in current:
            one.clean()
        os._exit(1)

    signal.signal(signal.SIGALRM, give_up)
    signal.signal(signal.SIGTERM, give_up)
    counts: Counter[str] = Counter()
    most: Counter[str] = Counter()
    wrong = 0
    slowest = 0.0
    left = options.seconds
    number = 0
    while left > 0:
        number += 1
        seconds = left if left < 1.5 * length else length
        left -= seconds
        folder = os.path.join(top, f"round{number}")
        os.mkdir(folder)
        os.chdir(folder)
        signal.alarm(int(12 * seconds + 8 * options.patience + 120))
        one = Round(options, number, seconds, folder)
        current[:] = [one]
        try:
            one.start()
            one.disturb()
            one.end()
            one.judge()
        finally:
            one.clean()
        for what in one.wrong:
            print(f"chaos: round {number}: {what}", flush=True)
        if one.wrong:
            spill(os.path.join(folder, "contradictions"), "".join(f"{what}\n" for what in one.wrong))
        wrong += len(one.wrong)
        counts.update(one.counts)
        for name, value in one.most.items():
            most[name] = max(most[name], value)
        print(
            f"chaos: round {number}, {seconds} seconds: {one.counts['clients: connections']} connections, {one.counts['clients: requests']} requests, "
            f"{one.counts['entries verified']} entries verified, {len(one.wrong)} contradictions",
            flush=True,
        )
        slowest = max(slowest, one.slowest)
        os.chdir(top)
        if not one.wrong:
            shutil.rmtree(folder)
        if wrong > 1000:
            break
    signal.alarm(0)
    for title, names in (
        ("journal: ", "the journal"),
        ("clients: ", "clients"),
        ("log: ", "the access log"),
        ("rewriter: ", "the program that rewrites"),
    ):
        told = ", ".join(f"{name[len(title):]} {count}" for name, count in sorted(counts.items()) if name.startswith(title))
        print(f"chaos: {names}: {told}")
    print("chaos: " + ", ".join(f"{name} {count}" for name, count in sorted(counts.items()) if ": " not in name))
    print("chaos: at most " + ", ".join(f"{value} {name}" for name, value in sorted(most.items())) + f"; the slowest order took {slowest:.2f} seconds")
    print(
        f"chaos: seed {options.seed}, {options.seconds} seconds in {number} rounds, {options.clients} clients, {options.workers} workers: "
        f"{counts['clients: connections']} connections, {counts['clients: requests']} requests, {counts['entries verified']} entries verified, "
        f"{wrong} contradictions"
    )
    wanted = []
    if options.seconds >= 60:
        wanted = SEEN + (NAMES_SEEN if options.inside else []) + (["log: lines with a tag"] if writes_tags(options.program) else [])
    missing = [name for name in wanted if not counts[name]]
    if missing:
        print(f"chaos: in all this time there was none of: {', '.join(missing)}")
    if wrong:
        print(f"chaos: what the rounds left stands in {top}")
        return 1
    os.chdir("/")
    shutil.rmtree(top)
    return 1 if missing else 0


if __name__ == "__main__":
    sys.exit(main())
