"""run: a service under systemd's socket, with its orders, its runs and its ends; and what log, verify and status say of them."""

import os
import re
import signal
import socket
import subprocess
import sys
import threading
import time
from pathlib import Path
from unittest import mock

from aclproxyctl.journal import is_written
from aclproxyctl.notify import Notifier
from tests.common import HAS_LOG, LAUNCHER, PROGRAM, InFolder, ctl, needs_program
from tests.loopback import TIME, Service, free_port, has_ended, origin, wait_for

CONF = [
    "# Which paths are denied, and by which rule.",
    "acl games dstdomain .games.example",
    "acl odd url_regex /odd/",
    "acl posts method POST",
    "acl even url_regex /even/",
    "http_access deny games",
    "http_access deny odd !even",
    "http_access allow posts",
    "http_access allow localhost even",
    "http_access deny all",
]
@needs_program
class Run(InFolder):
    def test_reload_and_stop(self) -> None:
        conf = self.file("conf", ["http_access deny all"])
        with Service(self.folder, conf, abstract=True) as service:
            ready = service.told("READY")
            self.assertEqual((ready["READY"], ready["STATUS"]), ("1", f"listening at port {service.port}"))
            self.assertEqual(service.get("http://a.example/"), (403, b"denied rule 1\n"))

            self.file("conf", ["acl a dstdomain a.example", "http_access allow !a", "http_access deny a"])
            before = time.clock_gettime_ns(time.CLOCK_MONOTONIC) // 1000
            service.process.send_signal(signal.SIGHUP)
            reloading = service.told("RELOADING")
            self.assertEqual(reloading["RELOADING"], "1")
            self.assertLessEqual(before, int(reloading["MONOTONIC_USEC"]))
            self.assertEqual(service.told("READY")["STATUS"], "configuration 2 of this run")
            self.assertEqual(service.get("http://a.example/"), (403, b"denied rule 2\n"))

            self.file("conf", ["http_access allow all", "acl a src x"])
            service.process.send_signal(signal.SIGHUP)
            service.told("RELOADING")
            self.assertEqual(service.told("READY")["STATUS"], "the configuration stays as it was")
            self.assertEqual(service.get("http://a.example/"), (403, b"denied rule 2\n"))
            self.assertIn(f"{conf}:2: `x` is no address: names of hosts are not looked up here: acl a src x\n", service.said())

            os.unlink(conf)
            service.process.send_signal(signal.SIGHUP)
            service.told("RELOADING")
            service.told("READY")
            self.assertIn("there is no such file\n", service.said())

            service.process.send_signal(signal.SIGTERM)
            self.assertEqual(service.told("STOPPING")["STOPPING"], "1")
            self.assertEqual(service.ended(), 0)
            self.assertIn("the server has ended with status 0: it was ordered to end\n", service.said())

            (run,) = service.runs()
            for path, mode in ((service.journal, 0o700), (run, 0o700), *((file, 0o600) for file in run.iterdir())):
                self.assertEqual(oct(path.stat().st_mode & 0o777), oct(mode), str(path))
            self.assertEqual((run / "squid.conf").read_text(), "http_access deny all\n")
        verified = ctl("verify", str(service.journal))
        self.assertEqual((verified.status, verified.err), (0, ""))
        # The begin, five entries for each of three requests with a connection of their own, and one reconfiguration.
        self.assertIn("verified: each of its 17 entries is the machine's", verified.out)
        # The rule stands at the end of a line, behind what an access log has of its own.
        rules = [line[line.index(" rule ") + 1 :] for line in ctl("log", "--rule", str(service.journal)).out.splitlines()]
        self.assertEqual(rules, ["rule 1: http_access deny all", "rule 2: http_access deny a", "rule 2: http_access deny a"])
        state = ctl("status", str(service.journal)).out
        self.assertRegex(state, r"(?m)^requests: +3: 0 allowed, 3 denied, of these 0 by a fault of a helper$")
        self.assertRegex(state, r"(?m)^configuration: +number 2, since ")
        self.assertRegex(state, r"(?m)^connections: +0 open$")

    def test_a_thousand_requests(self) -> None:
        """Their log has the verdicts that replay gives to them, over pieces and runs."""
        conf = self.file("conf", CONF)
        asked: list[tuple[str, str]] = []
        with origin() as port, Service(self.folder, conf, "--piece-lines", "700", "--run-bytes", "120000", "--grace", "15") as service:
            service.told("READY")
            kinds = ("games", "odd", "even", "post", "none")
            for number in range(1000):
                kind = kinds[number * number % 5 if number % 3 else number % 5]
                host = "www.games.example" if kind == "games" else f"127.0.0.1:{port}"
                method = "POST" if kind == "post" else "GET"
                asked.append((method, f"http://{host}/{kind}/{number}%20x"))
                # A new run begins before the one that it follows ends, so nobody is refused.
                status, body = service.get(asked[-1][1], method)
                self.assertIn(status, (200, 403))
                self.assertTrue(status == 403 or body == b"hello")
                if number == 600:
                    # By now a new run is due. The size is looked at once a second, and a fast machine would be through before.
                    until = time.monotonic() + TIME
                    while len(service.runs()) < 2 and time.monotonic() < until:
                        time.sleep(0.05)
            service.process.send_signal(signal.SIGTERM)
            self.assertEqual(service.ended(), 0)
            runs = service.runs()
        self.assertGreater(len(runs), 1, "no new run has begun")
        self.assertGreater(sum(len(list(run.glob("journal.*"))) for run in runs), len(runs), "no second piece was begun")
        script = []
        for number, (method, target) in enumerate(asked, 1):
            escaped = target.replace("%", "%25")
            script += [f"0 open {number} 127.0.0.1 1", f"0 ask {number} {method} {escaped}", f"0 step {number}", f"0 take {number}"]
        replayed = subprocess.run([PROGRAM, "replay", conf, self.file("script", script)], capture_output=True, text=True, timeout=60)
        self.assertEqual(replayed.returncode, 0)
        wanted = [line.split(" => epoch 1 ")[1] for line in replayed.stdout.splitlines() if " take " in line]
        self.assertEqual(len(wanted), 1000)
        self.assertEqual({word: sum(text.startswith(word) for text in wanted) > 100 for word in ("allowed", "denied")}, {"allowed": True, "denied": True})
        logged = ctl("log", "--rule", str(service.journal))
        self.assertEqual((logged.status, logged.err), (0, ""))
        got = []
        # A client may have its reply, and another one ask, before the line of the first is written.
        lines = sorted(logged.out.splitlines(), key=lambda line: int(re.findall(r"/([0-9]+)%20x ", line)[0]))
        for line, (method, target) in zip(lines, asked):
            fields = line.split()
            self.assertEqual((fields[2], fields[5], fields[6]), ("127.0.0.1", method, target))
            # A journal does not have the status of an allowed request.
            verdict = {"TCP_DENIED/403": "denied", "TCP_MISS/200" if HAS_LOG else "TCP_MISS/000": "allowed"}[fields[3]]
            rule = re.search(r" rule ([0-9]+): ", line)
            assert rule is not None
            got.append(f"{verdict} rule {rule.group(1)}")
        self.assertEqual(len(logged.out.splitlines()), 1000)
        self.assertEqual(got, wanted)
        self.assertEqual(len(ctl("log", "--denied", str(service.journal)).out.splitlines()), sum(text.startswith("denied") for text in wanted))
        verified = ctl("verify", str(service.journal))
        self.assertEqual((verified.status, verified.out.count("verified: each of its")), (0, len(runs)))

    def hold(self, service: Service) -> socket.socket:
        """A connection that stays open."""
        held = socket.create_connection(("127.0.0.1", service.port), TIME)
        held.sendall(b"GET http://a.example/ HTTP/1.1\r\nHost: a.example\r\n\r\n")
        self.assertIn(b"denied rule 1\n", held.recv(4096))
        return held

    def keep_asking(self, held: socket.socket) -> threading.Thread:
        """Asks over a connection, again and again, until it is cut: one that is idle ends with its server by itself."""

        def ask() -> None:
            try:
                held.sendall(b"GET http://a.example/ HTTP/1.1\r\nHost: a.example\r\n\r\n")
                while held.recv(4096):
                    time.sleep(0.1)
                    held.sendall(b"GET http://a.example/ HTTP/1.1\r\nHost: a.example\r\n\r\n")
            except OSError:
                pass

        asking = threading.Thread(target=ask, daemon=True)
        asking.start()
        return asking

    def test_second_signal(self) -> None:
        conf = self.file("conf", ["http_access deny all"])
        with Service(self.folder, conf, "--grace", "1000") as service:
            service.told("READY")
            with self.hold(service):
                service.process.send_signal(signal.SIGINT)
                service.told("STOPPING")
                time.sleep(0.3)
                self.assertIsNone(service.process.poll())
                service.process.send_signal(signal.SIGINT)
                self.assertEqual(service.ended(), 128 + signal.SIGTERM)
        self.assertEqual(ctl("verify", str(service.journal)).status, 0)

    def test_grace(self) -> None:
        conf = self.file("conf", ["http_access deny all"])
        with Service(self.folder, conf, "--grace", "1") as service:
            service.told("READY")
            with self.hold(service) as held:
                self.keep_asking(held)
                service.process.send_signal(signal.SIGTERM)
                self.assertEqual(service.ended(), 128 + signal.SIGTERM)
        self.assertIn("connections are still open after 1 seconds", service.said())

    def test_new_run_over_a_held_connection(self) -> None:
        """It is cut after its linger, and the new run serves by the rules that were current, beside it."""
        conf = self.file("conf", ["http_access deny all"])
        with Service(self.folder, conf, "--linger", "2", "--run-bytes", "1500") as service:
            service.told("READY")
            self.file("conf", ["acl a src all", "http_access deny a"])
            service.process.send_signal(signal.SIGHUP)
            service.told("RELOADING")
            service.told("READY")
            # What is in the file at the start of the new run was not asked for, and would not be accepted.
            self.file("conf", ["nothing"])
            with self.hold(service) as held:
                for _ in range(5):
                    held.sendall(b"GET http://a.example/ HTTP/1.1\r\nHost: a.example\r\nX: " + b"x" * 200 + b"\r\n\r\n")
                    self.assertIn(b"denied rule 1\n", held.recv(4096))
                asking = self.keep_asking(held)
                self.assertEqual(service.told("READY")["STATUS"], f"listening at port {service.port}")
                begun = time.monotonic()
                first, second = service.runs()[:2]
                self.assertTrue(is_written(first))
                self.assertEqual(service.get("http://a.example/"), (403, b"denied rule 1\n"))
                self.assertIn(f"before it:     connections of 1 run go on: {first.name}\n", ctl("status", str(service.journal)).out)
                asking.join(TIME)
                took = time.monotonic() - begun
                self.assertTrue(1.5 < took < 6, took)
            wait_for(lambda: not is_written(first))
            service.process.send_signal(signal.SIGTERM)
            self.assertEqual(service.ended(), 0)
        self.assertIn(f"the open connections of {first.name} go on for 2 seconds at most", service.said())
        self.assertEqual((second / "squid.conf").read_text(), "acl a src all\nhttp_access deny a\n")
        self.assertEqual(ctl("verify", str(service.journal)).status, 0)

    def test_new_run_that_was_asked_for(self) -> None:
        """A silent tunnel of the run before goes on, and ends soon where the service ends."""
        conf = self.file("conf", ["acl CONNECT method CONNECT", "acl SSL_ports port 1-65535", "http_access allow all"])
        with origin() as port, Service(self.folder, conf) as service:
            service.told("READY")
            with socket.create_connection(("127.0.0.1", service.port), TIME) as held:
                held.sendall(f"CONNECT 127.0.0.1:{port} HTTP/1.1\r\nHost: a\r\n\r\n".encode())
                self.assertIn(b" 200 ", held.recv(4096))
                service.process.send_signal(signal.SIGUSR1)
                self.assertEqual(service.told("READY")["STATUS"], f"listening at port {service.port}")
                self.assertIn("it was asked for: a new run begins\n", service.said())
                time.sleep(2.5)
                held.sendall(b"GET / HTTP/1.1\r\nHost: a\r\n\r\n")
                self.assertIn(b" 200 ", held.recv(4096))
                service.process.send_signal(signal.SIGTERM)
                begun = time.monotonic()
                self.assertEqual(service.ended(), 0)
                self.assertLess(time.monotonic() - begun, 6)
            self.assertEqual(len(service.runs()), 2)
        self.assertEqual(ctl("verify", str(service.journal)).status, 0)

    def test_one_address(self) -> None:
        conf = self.file("conf", ["http_access deny all"])
        port = free_port()
        with Service(self.folder, conf, listen=f"127.0.0.2:{port}", port=port) as service:
            self.assertEqual(service.told("READY")["STATUS"], f"listening at port {port}")
            with self.assertRaises(ConnectionRefusedError):
                socket.create_connection(("127.0.0.1", port), TIME)
            socket.create_connection(("127.0.0.2", port), TIME).close()
            service.process.send_signal(signal.SIGTERM)
            self.assertEqual(service.ended(), 0)

    def test_socket_that_is_kept(self) -> None:
        """Systemd is asked to keep the socket, and hands it to the next start: who comes in between waits for it."""
        conf = self.file("conf", ["http_access deny all"])
        with Service(self.folder, conf) as service:
            service.told("FDSTORE")
            (kept,) = service.files
            service.told("READY")
            service.process.send_signal(signal.SIGTERM)
            self.assertEqual(service.ended(), 0)
            port = service.port
        with socket.create_connection(("127.0.0.1", port), TIME) as waits:
            waits.sendall(b"GET http://a.example/ HTTP/1.1\r\nHost: a.example\r\n\r\n")
            with Service(self.folder, conf, port=port, handed=kept) as service:
                service.told("READY")
                self.assertIn(b"denied rule 1\n", waits.recv(4096))
                waits.close()
                service.process.send_signal(signal.SIGTERM)
                self.assertEqual(service.ended(), 0)
        # One that listens elsewhere is not wanted any more.
        with Service(self.folder, conf, handed=kept) as service:
            self.assertEqual(service.told("FDSTOREREMOVE")["FDNAME"], "port")
            self.assertEqual(service.told("READY")["STATUS"], f"listening at port {service.port}")
            self.assertNotEqual(service.port, port)
        os.close(kept)

    def test_new_run_while_nobody_is_connected(self) -> None:
        """From half of the size on it begins as soon as nobody is connected, and cuts nothing."""
        conf = self.file("conf", ["http_access deny all"])
        with Service(self.folder, conf, "--grace", "1000", "--run-bytes", "1500") as service:
            service.told("READY")
            with self.hold(service) as held:
                for _ in range(2):
                    held.sendall(b"GET http://a.example/ HTTP/1.1\r\nHost: a.example\r\nX: " + b"x" * 200 + b"\r\n\r\n")
                    self.assertIn(b"denied rule 1\n", held.recv(4096))
                # More than a second, in which the size is looked at.
                time.sleep(1.5)
                self.assertEqual(len(service.runs()), 1)
            self.assertEqual(service.told("READY")["STATUS"], f"listening at port {service.port}")
            self.assertRegex(service.said(), "the journal has [0-9,]+ bytes, and nobody is connected: a new run begins")
            service.process.send_signal(signal.SIGTERM)
            self.assertEqual(service.ended(), 0)
            self.assertEqual(len(service.runs()), 2)

    def test_supervisor_that_is_killed(self) -> None:
        """The server reads the end of its orders and ends, and nothing of its journal is lost."""
        conf = self.file("conf", ["http_access deny all"])
        with Service(self.folder, conf) as service:
            service.told("READY")
            self.assertEqual(service.get("http://a.example/")[0], 403)
            children = [service.child("split"), service.child(Path(PROGRAM).name[:15])]
            service.process.kill()
            service.process.wait()
            wait_for(lambda: all(has_ended(child) for child in children))
        verified = ctl("verify", str(service.journal))
        self.assertIn("verified: each of its 6 entries is the machine's", verified.out)

    def test_journal_that_fails(self) -> None:
        conf = self.file("conf", ["http_access deny all"])
        with Service(self.folder, conf) as service:
            service.told("READY")
            split = service.child("split")
            os.kill(split, signal.SIGKILL)
            wait_for(lambda: has_ended(split))
            self.assertEqual(service.get("http://a.example/"), (500, b"journal stopped\n"))
            self.assertEqual(service.ended(), 6)
        self.assertIn("the server has ended with status 6: the journal could not be written\n", service.said())

    def test_starts_that_fail(self) -> None:
        with Service(self.folder, self.file("conf", ["acl web port 80x"])) as service:
            self.assertEqual(service.ended(), 2)
            # A start that came to nothing leaves nothing.
            self.assertEqual(service.runs(), [])
            self.assertIn("the server has ended with status 2: " + str(self.folder / "conf") + ":1: `80x` is no port: acl web port 80x\n", service.said())
            # systemd keeps why it did not start.
            self.assertEqual(service.told("STOPPING")["STATUS"], f"the server has ended with status 2: {self.folder}/conf:1: `80x` is no port: acl web port 80x")
        with socket.socket() as taken:
            taken.bind(("0.0.0.0", 0))
            taken.listen()
            with Service(self.folder, self.file("conf", ["http_access deny all"]), port=int(taken.getsockname()[1])) as service:
                self.assertEqual(service.ended(), 9)
                port = taken.getsockname()[1]
                self.assertIn(f"status 9: port {port} of all addresses (0.0.0.0 and ::) is taken or may not be opened: Address already in use", service.said())
                self.assertEqual(service.runs(), [])
        with Service(self.folder, str(self.folder / "none")) as service:
            self.assertEqual(service.ended(), 66)
            self.assertIn("none: there is no such file\n", service.said())
            self.assertEqual(service.told("STOPPING")["STATUS"], f"{self.folder}/none: there is no such file")
        with Service(self.folder, self.file("conf", ["http_access deny all"]), "--journal", str(self.folder / "conf")) as service:
            self.assertNotEqual(service.ended(), 0)
            self.assertNotIn("Traceback", service.said())

    def test_journal_that_is_not_stated(self) -> None:
        """Where the journals are is said, since nobody named it."""
        conf = self.file("conf", ["acl web port 80x"])
        told: list[tuple[dict[str, str], str]] = [
            ({"STATE_DIRECTORY": str(self.folder / "state")}, f"{self.folder}/state/journal, by STATE_DIRECTORY"),
            ({}, f"{self.folder}/journal, a folder of the current one"),
        ]
        for env, wanted in told:
            ended = subprocess.run([sys.executable, str(LAUNCHER), "run", conf, "--workers", "8"], cwd=self.folder, env={**os.environ, **env}, capture_output=True, text=True)
            self.assertEqual(ended.returncode, 2)
            self.assertIn(f"aclproxyctl: --journal is not stated: the journals are in {wanted}\n", ended.stderr)

    def test_messages_of_the_server(self) -> None:
        """Lines that the server appends to the file that it is given are told one by one; here another process appends them."""
        conf = self.file("conf", ["http_access deny all"])
        with Service(self.folder, conf) as service:
            service.told("READY")
            server = Path(f"/proc/{service.child(Path(PROGRAM).name[:15])}/environ").read_bytes().split(b"\0")
            (named,) = [value.partition(b"=")[2].decode() for value in server if value.startswith(b"ACLPROXY_MESSAGES=")]
            self.assertEqual(Path(named), service.runs()[0] / "messages")
            with open(named, "ab") as messages:
                messages.write(b"all 8 workers are in use\nand a second line\n")
            wait_for(lambda: "second line" in service.said())
            self.assertIn("aclproxyctl: all 8 workers are in use\naclproxyctl: and a second line\n", service.said())
            with open(named, "ab") as messages:
                messages.write(b"the last words")
            service.process.send_signal(signal.SIGTERM)
            self.assertEqual(service.ended(), 0)
            self.assertIn("aclproxyctl: the last words\n", service.said())
            self.assertFalse(Path(named).exists())

    def test_watchdog(self) -> None:
        """It is fed each second where systemd asks this process for it."""
        conf = self.file("conf", ["http_access deny all"])
        with mock.patch.dict(os.environ, {"WATCHDOG_USEC": "30000000"}), Service(self.folder, conf) as service:
            service.told("READY")
            for _ in range(2):
                self.assertEqual(service.told("WATCHDOG"), {"WATCHDOG": "1"})
            environ = Path(f"/proc/{service.child(Path(PROGRAM).name[:15])}/environ").read_bytes()
            self.assertNotIn(b"WATCHDOG_USEC", environ)
        with mock.patch.dict(os.environ, {"WATCHDOG_USEC": "30000000", "WATCHDOG_PID": "1"}):
            self.assertFalse(Notifier().watched)

    def test_helpers_do_not_speak_for_the_service(self) -> None:
        os.environ["NOTIFY_SOCKET"] = "@x"
        self.assertEqual(Notifier().address, "\0x")
        self.assertNotIn("NOTIFY_SOCKET", os.environ)
