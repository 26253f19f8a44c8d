"""Programs that read logs of Squid's, over the log of this proxy and over that of a Squid that was asked the same: their totals are alike."""

import html
import re
import shutil
import signal
import subprocess
import tempfile
import unittest
from pathlib import Path
from typing import Callable

from aclproxyctl.access import Odd, access_files, accesses
from tests.common import ctl, data_of, needs_log
from tests.loopback import Service, ask, free_port, origin, squid

RULES = ["acl games dstdomain .games.example", "http_access deny games", "http_access allow all"]


def ask_all(port: int, server: int, nobody: int) -> dict[str, int]:
    """Eleven requests: four and three pages of two clients, two that are denied, one to a port at which nobody listens, and one tunnel. How many
    bytes each client got.
    """
    here = f"127.0.0.1:{server}"
    got: dict[str, int] = {}

    def asks(client: str, target: str, wanted: bytes, tunnelled: str = "") -> None:
        method, host = ("CONNECT", target) if tunnelled else ("GET", target.split("/")[2])
        close = "" if tunnelled else "Connection: close\r\n"
        reply = ask(port, client, f"{method} {target} HTTP/1.1\r\nHost: {host}\r\n{close}\r\n", tunnelled)
        assert re.search(wanted, reply), reply
        got[client] = got.get(client, 0) + len(reply)

    for _ in range(4):
        asks("127.0.0.1", f"http://{here}/a", rb"hello$")
    for _ in range(3):
        asks("127.0.0.2", f"http://{here}/b", rb"hello$")
    for _ in range(2):
        asks("127.0.0.1", "http://www.games.example/x", rb"^HTTP/1.1 403 ")
    asks("127.0.0.2", f"http://127.0.0.1:{nobody}/c", rb"^HTTP/1.1 50[23] ")
    asks("127.0.0.2", here, rb"hello$", f"GET /d HTTP/1.1\r\nHost: {here}\r\nConnection: close\r\n\r\n")
    return got


# Per client its requests and bytes.
Totals = dict[str, tuple[int, int]]


@needs_log
@unittest.skipUnless(shutil.which("squid"), "there is no squid")
class Beside(unittest.TestCase):
    """By hand: of the eleven requests six are the first client's and five the second one's; eight end with 200, two with 403 and one with 502 or 503. Each
    reply is to its client alone, so the bytes that a client got are those of the log.
    """

    folder: Path
    logs: list[Path]
    got: list[dict[str, int]]

    @classmethod
    def setUpClass(cls) -> None:
        """Both are asked once for all tests."""
        cls.folder = Path(tempfile.mkdtemp(prefix="aclproxyctl-test-"))
        cls.folder.chmod(0o777)
        (cls.folder / "hosts").write_text("127.0.0.1 localhost\n")
        cls.logs = [cls.folder / "ours.log", cls.folder / "squids.log"]
        conf = cls.folder / "conf"
        conf.write_text("".join(line + "\n" for line in RULES))
        nobody = free_port()
        with origin() as server:
            with Service(cls.folder, str(conf)) as service:
                service.told("READY")
                ours = ask_all(service.port, server, nobody)
                service.process.send_signal(signal.SIGTERM)
                service.ended()
                found = accesses(access_files(service.runs()[0]), Odd())
            port = free_port()
            with squid(cls.folder, [f"http_port {port}", *RULES], port, log=f"stdio:{cls.folder}/squid.log squid"):
                theirs = ask_all(port, server, nobody)
        cls.got = [ours, theirs]
        for log, lines in zip(cls.logs, (found, accesses([cls.folder / "squid.log"], Odd()))):
            # That somebody only looks whether Squid is there is a line, too.
            log.write_text("".join(line.text + "\n" for line in lines if not line.silent))

    @classmethod
    def tearDownClass(cls) -> None:
        shutil.rmtree(cls.folder)

    def totals(self, by_client: Callable[[Path], Totals]) -> None:
        """A program finds in both logs what was asked and what clients got."""
        for log, got in zip(self.logs, self.got):
            found = by_client(log)
            self.assertEqual({client: requests for client, (requests, _) in found.items()}, {"127.0.0.1": 6, "127.0.0.2": 5}, log)
            # The tunnel of the second client: Squid counts what passed in it, and what it said before as well.
            self.assertEqual({client: size for client, (_, size) in found.items()}, got, log)

    def test_the_logs(self) -> None:
        """Line by line: who asked for what, the class of the status, the code, and by which way."""

        def rows(log: Path) -> list[tuple[str, ...]]:
            found = []
            for line in accesses([log], Odd()):
                way, _, address = line.text.split()[8].partition("/")
                found.append((line.client, line.code, str(line.status // 100), line.method, line.url, way, address))
            # A client may have its reply, and ask again, before the line is written.
            return sorted(found)

        ours, theirs = map(rows, self.logs)
        self.assertEqual(ours, theirs)
        self.assertEqual([(client, code, status) for client, code, status, *_ in ours], [
            *[("127.0.0.1", "TCP_DENIED", "4")] * 2, *[("127.0.0.1", "TCP_MISS", "2")] * 4, *[("127.0.0.2", "TCP_MISS", "2")] * 3,
            ("127.0.0.2", "TCP_MISS", "5"), ("127.0.0.2", "TCP_TUNNEL", "2"),
        ])

    def test_by_usage(self) -> None:
        def by_client(log: Path) -> Totals:
            rows = [row.split() for row in ctl("usage", str(log)).out.splitlines()[1:-1]]
            return {row[0]: (int(row[1]), int(row[4].replace(",", ""))) for row in rows}

        self.totals(by_client)

    @unittest.skipUnless(shutil.which("sarg"), "there is no sarg")
    def test_sarg(self) -> None:
        def by_client(log: Path) -> Totals:
            to = self.folder / f"sarg-{log.name}"
            to.mkdir()
            subprocess.run(["sarg", "-l", str(log), "-o", str(to)], capture_output=True, check=True, timeout=60)
            (page,) = to.glob("*/index.html")
            cells = re.sub(r"(<[^>]+>\s*)+", "|", html.unescape(page.read_text()))
            self.assertRegex(cells, r"\|TOTAL\|11\|")
            self.assertEqual((page.parent / "sarg-general").read_text().split("\t")[:3:2], ["TOTAL", str(sum(self.got[self.logs.index(log)].values()))])
            requests = {client: int(number) for client, number in re.findall(r"\|(127\.0\.0\.[0-9])\|([0-9]+)\|", cells)}
            # Its pages have bytes in thousands, so of one client they are not told to the byte.
            return {client: (number, self.got[self.logs.index(log)][client]) for client, number in requests.items()}

        self.totals(by_client)

    @unittest.skipUnless(shutil.which("calamaris"), "there is no calamaris")
    def test_calamaris(self) -> None:
        def by_client(log: Path) -> Totals:
            with open(log) as text:
                said = subprocess.run(["calamaris", "-n", "-r", "-1"], stdin=text, capture_output=True, text=True, timeout=60).stdout
            rows = {line[:40].strip(): line.split()[-1] for line in said.splitlines() if line.strip()}
            self.assertEqual((rows["lines parsed:"], rows["invalid lines:"], rows["Total amount:"]), ("11", "0", "11"))
            # Two denials are errors to it, and all else is fetched from its source.
            for row in ("ERROR +2 ", "MISS +9 ", "DIRECT Fetch from Source +9 ", "GET +10 ", "CONNECT +1 "):
                self.assertRegex(said, rf"(?m)^{row}")
            return {row[1]: (int(row[2]), int(row[3])) for row in re.finditer(r"(?m)^(127\.0\.0\.[0-9]) +([0-9]+) +[0-9.]+ +[0-9.]+ +([0-9]+) ", said)}

        self.totals(by_client)

    @unittest.skipUnless(shutil.which("goaccess"), "there is no goaccess")
    def test_goaccess(self) -> None:
        """By way of report."""

        def by_client(log: Path) -> Totals:
            page = self.folder / f"{log.name}.html"
            ended = ctl("report", str(log), "-o", str(page))
            self.assertEqual(ended.status, 0, ended.err)
            data = data_of(page)
            self.assertEqual((data["general"]["total_requests"], data["general"]["failed_requests"]), (11, 0))
            self.assertEqual({row["data"]: row["hits"]["count"] for row in data["status_codes"]["data"]}, {
                "2xx Success": 8, "4xx Client Errors": 2, "5xx Server Errors": 1,
            })
            return {row["data"]: (row["hits"]["count"], row["bytes"]["count"]) for row in data["hosts"]["data"]}

        self.totals(by_client)


if __name__ == "__main__":
    unittest.main()
