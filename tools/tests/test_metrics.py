"""metrics: what they count, that Prometheus reads them, and that a service serves them."""

import importlib.util
import json
import re
import shutil
import signal
import subprocess
import sys
import tempfile
import unittest
import urllib.request
from pathlib import Path
from unittest import mock

from aclproxyctl import counters
from aclproxyctl.counts import Counts, Histogram, Watched
from aclproxyctl.metrics import address_of
from tests.common import HAS_LOG, TOP, InFolder, ctl, needs_program
from tests.test_access import JOURNAL as LOGGED_JOURNAL
from tests.test_access import LINES
from tests.test_log import JOURNAL
from tests.loopback import Service, ask, free_port, wait_for

DEBIAN = "/usr/lib/python3/dist-packages"
if importlib.util.find_spec("prometheus_client") is None and Path(DEBIAN, "prometheus_client").is_dir():
    # The machine's own Python has it, and this one does not look there.
    sys.path.append(DEBIAN)
HAS_CLIENT = importlib.util.find_spec("prometheus_client") is not None
needs_client = unittest.skipUnless(HAS_CLIENT, "there is no prometheus_client")

# Helpers that answer, that write a bad line, that die with a question, and that are stopped.
HELPERS = """journal 2
1 1 1000 begin 0 => epoch 1
2 1 1000 open 1 10.1.2.3 4000 => ok
3 1 1000 ask 1 GET http://a.example/ => check 1
4 1 1000 step 1 => waits 1
5 1 1000 act => start 1 listed
6 1 1001 started 1 listed => proc 1
7 1 1001 act => send 1 1 - 10.1.2.3
8 1 1021 line 1 ERR => reply 1 err
9 1 1021 act => send 1 2 - 10.1.2.4
10 1 1030 line 1 what? => bad
11 1 1030 act => stop 1
12 1 1030 startfail 1 listed => ok
13 1 1040 started 1 listed => proc 2
14 1 1040 act => send 2 3 - 10.1.2.5
15 1 1050 died 2 => ok
16 1 1060 started 1 other => proc 3
17 1 1070 act => send 3 4 0 10.1.2.5
18 1 5070 line 3 0%20OK => reply 4 ok
19 1 5080 act => stop 3
20 1 5080 close 1 => ok
"""


# Look-ups of names, of which the second one finds nothing.
LOOKUPS = """journal 2
1 1 1000 begin 0 => epoch 1
2 1 1000 act => start 1 dst%20lookup
3 1 1001 started 1 dst%20lookup => proc 1
4 1 1001 act => send 1 1 0 a.example%20-
5 1 1002 act => send 1 2 1 b.example%20-
6 1 1031 line 1 0%20OK => reply 1 ok
7 1 1102 line 1 1%20BH => reply 2 bh
"""


class Counted(InFolder):
    def counted(self, journal: str) -> tuple[Counts, Watched]:
        self.file("run/journal.000000", journal)
        watched = Watched(self.folder / "run")
        watched.update()
        watched.close()
        return watched.counts, watched

    def test_requests(self) -> None:
        counts, watched = self.counted(JOURNAL)
        self.assertEqual(counts.outcomes, {("denied", "rule", "1"): 1, ("allowed", "rule", "2"): 1, ("allowed", "default", ""): 1, ("denied", "fault", "1"): 1})
        self.assertEqual((counts.faults, counts.dropped, counts.opened, counts.reconfigurations, counts.entries), ({"Died": 1}, 1, 2, 1, 24))
        self.assertEqual((len(watched.state.clients), len(watched.state.waiting), watched.fault), (1, 1, ""))

    def test_helpers(self) -> None:
        counts, watched = self.counted(HELPERS)
        self.assertEqual(counts.questions, {"listed": 3, "other": 1})
        self.assertEqual(counts.replies, {("listed", "err"): 1, ("listed", "bad"): 1, ("other", "ok"): 1})
        self.assertEqual((counts.starts, counts.failed_starts, counts.ends), ({"listed": 2, "other": 1}, {"listed": 1}, {"listed": 2, "other": 1}))
        # 20 milliseconds, and 4 seconds. Questions of processes that ended have no reply.
        self.assertEqual({name: (found.sum, sum(found.counts)) for name, found in counts.waits.items()}, {"listed": (0.02, 1), "other": (4.0, 1)})
        self.assertEqual((watched.sent, watched.state.helpers), ({}, {}))

    def test_histogram(self) -> None:
        """A value counts at the first bound that is not below it."""
        found = Histogram()
        for value in (0.0, 0.001, 0.0011, 60.0, 61.0):
            found.add(value)
        buckets = dict(found.buckets())
        self.assertEqual((buckets["0.001"], buckets["0.0025"], buckets["30.0"], buckets["60.0"], buckets["+Inf"]), (2, 3, 3, 4, 5))

    def test_what_comes_later(self) -> None:
        """In the same piece, in the middle of a line, in a further piece and in one that was compressed."""
        lines = JOURNAL.splitlines(True)
        path = self.folder / "run" / "journal.000000"
        self.file("run/journal.000000", "".join(lines[:4]) + lines[4][:5])
        watched = Watched(self.folder / "run")
        counts = watched.counts
        watched.update()
        self.assertEqual(counts.entries, 3)
        with open(path, "a") as file:
            file.write(lines[4][5:] + "".join(lines[5:10]))
        watched.update()
        self.assertEqual(counts.entries, 9)
        self.file("run/journal.000001", "".join(lines[10:15]))
        self.file("run/journal.000002", "".join(lines[15:]))
        subprocess.run(["gzip", str(self.folder / "run/journal.000001")], check=True)
        watched.update()
        self.assertEqual((counts.entries, counts.dropped), (24, 1))
        watched.close()

    def test_a_journal_that_cannot_be_read(self) -> None:
        counts, watched = self.counted("journal 2\n1 1 0 begin 0 => epoch 1\nnonsense\n")
        self.assertEqual((counts.entries, watched.fault != ""), (1, True))

    def test_access_log(self) -> None:
        self.file("run/access.log", LINES)
        counts, watched = self.counted(LOGGED_JOURNAL)
        self.assertEqual((counts.logged, counts.odd, counts.sent), (7, 0, 1_302_928))
        self.assertEqual(counts.statuses, {
            ("TCP_DENIED", "4xx"): 1, ("TCP_MISS", "2xx"): 2, ("TCP_MISS", "5xx"): 1, ("TCP_TUNNEL", "2xx"): 1, ("TCP_MISS_ABORTED", "2xx"): 1, ("NONE", "4xx"): 1,
        })
        self.assertEqual(counts.causes, {"refused": 1, "client_gone": 1})
        # All but the tunnel: 2, 95, 2500, 1, 1500 and 0 milliseconds.
        self.assertEqual((sum(counts.durations.counts), round(counts.durations.sum, 3)), (6, 4.098))

    def test_labels_are_few(self) -> None:
        lines = ["journal 2\n", "1 1 0 begin 0 => epoch 1\n"]
        for number in range(1500):
            lines.append(f"{number + 2} 1 0 take {number} => epoch 1 denied rule {number + 1}\n")
        counts, _ = self.counted("".join(lines))
        self.assertEqual((len(counts.outcomes), counts.outcomes[("denied", "rule", "other")]), (1001, 500))


class Text(InFolder):
    def metrics(self, *words: str) -> dict[str, float]:
        ended = ctl("metrics", *words)
        self.assertEqual((ended.status, ended.err), (0, ""))
        if shutil.which("promtool"):
            checked = subprocess.run(["promtool", "check", "metrics"], input=ended.out, capture_output=True, text=True, timeout=60)
            self.assertEqual((checked.returncode, checked.stdout, checked.stderr), (0, "", ""))
        return values_of(ended.out)

    @needs_client
    def test_once(self) -> None:
        self.file("runs/20251129T004321.000Z/journal.000000", JOURNAL)
        found = self.metrics(str(self.folder / "runs"))
        self.assertEqual(found['aclproxy_requests_total{by="fault",outcome="denied",rule="1"}'], 1)
        self.assertEqual(found['aclproxy_helper_reply_seconds_bucket{class="v",le="2.5"}'], 1)
        self.assertEqual((found["aclproxy_up"], found["aclproxy_runs_kept"], found["aclproxy_configuration"], found["aclproxy_journal_bytes"]), (0, 1, 2, len(JOURNAL)))
        # What an access log alone has is not there without one.
        self.assertEqual([name for name in found if name.startswith(("aclproxy_sent", "aclproxy_replies", "aclproxy_failures"))], [])
        self.file("runs/20251129T004321.000Z/access.log", LINES)
        found = self.metrics(str(self.folder / "runs"))
        self.assertEqual((found["aclproxy_sent_bytes_total"], found['aclproxy_failures_total{cause="refused"}']), (1_302_928, 1))

    @needs_client
    def test_lookups(self) -> None:
        """They are none of the helpers. One took 30 milliseconds, the other 100."""
        self.file("runs/20251129T004321.000Z/journal.000000", LOOKUPS)
        found = self.metrics(str(self.folder / "runs"))
        self.assertEqual((found['aclproxy_lookups_total{result="ok"}'], found['aclproxy_lookups_total{result="bh"}']), (1, 1))
        self.assertEqual([found[f'aclproxy_lookup_seconds_bucket{{le="{bound}"}}'] for bound in ("0.025", "0.05", "0.1")], [0, 1, 2])
        self.assertEqual([name for name in found if name.startswith("aclproxy_helper_") and "dropped" not in name], [])

    @needs_client
    def test_by_counters(self) -> None:
        """Once again the same, where the service has left its counters: nothing else of the run is read."""
        self.file("runs/20251129T004321.000Z/journal.000000", JOURNAL)
        self.file("runs/20251129T004321.000Z/access.log", LINES)
        run = self.folder / "runs" / "20251129T004321.000Z"

        def counted() -> dict[str, float]:
            return {name: value for name, value in self.metrics(str(self.folder / "runs")).items() if "disk" not in name}

        before = counted()
        watched = Watched(run)
        watched.update()
        watched.close()
        counters.write(run, watched.counted(), True)
        for name in ("journal.000000", "access.log"):
            (run / name).write_text("")
        self.assertEqual(counted(), before)

    def test_without_the_client(self) -> None:
        self.file("runs/20251129T004321.000Z/journal.000000", JOURNAL)
        with mock.patch.dict(sys.modules, {"prometheus_client": None, "prometheus_client.registry": None}):
            self.no_traceback(ctl("metrics", str(self.folder / "runs")), 69, "Debian has it in the package python3-prometheus-client")

    def test_addresses(self) -> None:
        self.assertEqual([address_of(text) for text in ("127.0.0.1:9312", "[::1]:80", "localhost:65535")], [("127.0.0.1", 9312), ("::1", 80), ("localhost", 65535)])
        for text in ("", "9312", ":9312", "127.0.0.1", "127.0.0.1:0", "127.0.0.1:65536", "::1:80"):
            self.assertRaises(ValueError, address_of, text)


def values_of(text: str) -> dict[str, float]:
    return {line.rpartition(" ")[0]: float(line.rpartition(" ")[2]) for line in text.splitlines() if not line.startswith("#")}


@needs_program
@needs_client
class Served(InFolder):
    def test_a_service(self) -> None:
        """Counts go on over a new run."""
        conf = self.file("conf", ["http_access deny all"])
        port = free_port()

        def found() -> dict[str, float]:
            with urllib.request.urlopen(f"http://127.0.0.1:{port}/metrics", timeout=20) as reply:
                self.assertTrue(reply.headers["Content-Type"].startswith("text/plain; version=0.0.4"))
                return values_of(reply.read().decode())

        options = ("--metrics", f"127.0.0.1:{port}", "--workers", "3", "--run-bytes", "4000")
        with mock.patch.dict("os.environ", {"PYTHONPATH": DEBIAN}), mock.patch.dict("os.environ", {"no_proxy": "*"}), Service(self.folder, conf, *options) as service:
            service.told("READY")
            request = "GET http://a.example/ HTTP/1.1\r\nHost: a.example\r\nConnection: close\r\n\r\n"
            got = [ask(service.port, "127.0.0.1", request) for _ in range(2)]
            denied = 'aclproxy_requests_total{by="rule",outcome="denied",rule="1"}'
            wait_for(lambda: found().get(denied) == 2)
            first = found()
            self.assertEqual((first["aclproxy_up"], first["aclproxy_workers"], first["aclproxy_runs_total"], first["aclproxy_connections_opened_total"]), (1, 3, 1, 2))
            self.assertEqual((first["aclproxy_workers_in_use"], first["aclproxy_clients_waiting"]), (0, 0))
            self.assertGreater(first["aclproxy_process_resident_bytes"], 1_000_000)
            if HAS_LOG:
                wait_for(lambda: found().get('aclproxy_replies_total{code="TCP_DENIED",status="4xx"}') == 2)
                logged = found()
                self.assertEqual(logged["aclproxy_sent_bytes_total"], sum(map(len, got)))
                self.assertEqual((logged["aclproxy_received_bytes_total"], logged["aclproxy_request_seconds_count"]), (2 * len(request), 2))
                self.assertEqual(logged["aclproxy_access_log_dropped_lines_total"], 0)
            service.get("http://a.example/" + "x" * 3000)
            service.told("READY")
            service.get("http://a.example/")
            wait_for(lambda: found().get(denied) == 4)
            self.assertEqual(found()["aclproxy_runs_total"], 2)
            service.process.send_signal(signal.SIGTERM)
            self.assertEqual(service.ended(), 0)

    def test_an_address_that_is_taken(self) -> None:
        conf = self.file("conf", ["http_access deny all"])
        with mock.patch.dict("os.environ", {"PYTHONPATH": DEBIAN}), Service(self.folder, conf) as service:
            service.told("READY")
            with Service(self.folder / "..", conf, "--metrics", f"127.0.0.1:{service.port}") as other:
                self.assertEqual(other.ended(), 71)
            service.process.send_signal(signal.SIGTERM)
            self.assertEqual(service.ended(), 0)


@unittest.skipUnless((TOP / "packaging" / "metrics").is_dir(), "there are no examples")
class Examples(unittest.TestCase):
    FOLDER = TOP / "packaging" / "metrics"

    def known(self) -> set[str]:
        """The metrics that the tool has."""
        source = (TOP / "tools" / "aclproxyctl" / "metrics.py").read_text()
        names = set()
        for kind, name in re.findall(r"(CounterMetricFamily|GaugeMetricFamily|counter|histogram)\(\"(aclproxy_[a-z_]+)\"", source):
            names |= {f"{name}_total"} if kind.lower().startswith("counter") else {f"{name}_bucket", f"{name}_sum", f"{name}_count"} if kind == "histogram" else {name}
        return names

    @unittest.skipUnless(shutil.which("promtool"), "there is no promtool")
    def test_alerts(self) -> None:
        checked = subprocess.run(["promtool", "check", "rules", str(self.FOLDER / "alerts.yml")], capture_output=True, text=True, timeout=60)
        self.assertEqual(checked.returncode, 0, checked.stdout + checked.stderr)
        self.assertIn("SUCCESS: 10 rules found", checked.stdout)

    @unittest.skipUnless(shutil.which("promtool"), "there is no promtool")
    def test_what_alerts(self) -> None:
        """Ten requests a minute of which one fails are an alert after twenty minutes, and not after ten; those whose clients went away are none. One line of
        the access log that was lost is one at once.
        """
        series = {
            'aclproxy_replies_total{code="TCP_MISS",status="2xx"}': "0+10x40",
            'aclproxy_failures_total{cause="refused"}': "0+1x40",
            'aclproxy_failures_total{cause="client_gone"}': "0+5x40",
            "aclproxy_access_log_dropped_lines_total": "0x29 1x10",
            "aclproxy_up": "1x40",
        }
        wanted = (("AclproxyManyFailures", "10m", 0), ("AclproxyManyFailures", "25m", 1), ("AclproxyAccessLogDropsLines", "25m", 0),
                  ("AclproxyAccessLogDropsLines", "32m", 1), ("AclproxyDown", "32m", 0), ("AclproxySlow", "32m", 0))
        tests = [{
            "interval": "1m",
            "input_series": [{"series": name, "values": values} for name, values in series.items()],
            "alert_rule_test": [
                {"alertname": name, "eval_time": at, "exp_alerts": [{"exp_labels": {"severity": "warning"}, "exp_annotations": self.summary(name)}] * count}
                for name, at, count in wanted
            ],
        }]
        self.promtool("test", {"rule_files": [str(self.FOLDER / "alerts.yml")], "evaluation_interval": "1m", "tests": tests})

    def summary(self, name: str) -> dict[str, str]:
        text = (self.FOLDER / "alerts.yml").read_text().partition(f"alert: {name}\n")[2]
        found = re.search(r'summary: "?(.*?)"?\n', text)
        assert found is not None
        return {"summary": found[1]}

    def promtool(self, does: str, what: object) -> None:
        """Has it test or check rules. JSON is YAML, too."""
        with tempfile.NamedTemporaryFile("w", suffix=".yml") as file:
            json.dump(what, file)
            file.flush()
            ran = subprocess.run(["promtool", does, "rules", file.name], capture_output=True, text=True, timeout=60)
            self.assertEqual(ran.returncode, 0, ran.stdout + ran.stderr)

    @unittest.skipUnless(shutil.which("promtool"), "there is no promtool")
    def test_queries(self) -> None:
        """Those of the dashboard are ones that Prometheus can read."""
        board = json.loads((self.FOLDER / "dashboard.json").read_text())
        queries = [target["expr"].replace("$__rate_interval", "1m") for panel in board["panels"] for target in panel["targets"]]
        self.assertGreater(len(queries), 12)
        rules = [{"record": f"query:{number}", "expr": query} for number, query in enumerate(queries)]
        self.promtool("check", {"groups": [{"name": "queries", "rules": rules}]})

    def test_names(self) -> None:
        """Alerts and dashboard ask for metrics that there are."""
        known = self.known()
        self.assertIn("aclproxy_requests_total", known)
        for name in ("alerts.yml", "dashboard.json"):
            asked = set(re.findall(r"aclproxy_[a-z_]+", (self.FOLDER / name).read_text()))
            self.assertEqual(asked - known, set())

    def test_names_in_the_documents(self) -> None:
        page = (TOP / "docs" / "OPERATING.md").read_text()
        table = page[page.index("| Metrics, each with `aclproxy_` in front |") :].partition("\n\n")[0]
        named = {f"aclproxy_{name}" for row in table.splitlines()[2:] for name in re.findall(r"`([a-z_]+)`", row.split("|")[1])}
        known = {re.sub(r"_(bucket|sum|count)$", "", name) for name in self.known()}
        self.assertEqual(named - known, set())
        self.assertEqual(known - named, set())

    def test_dashboard(self) -> None:
        board = json.loads((self.FOLDER / "dashboard.json").read_text())
        self.assertEqual((board["title"], len(board["panels"]), board["templating"]["list"][0]["type"]), ("aclproxy", 12, "datasource"))
        places = {(panel["gridPos"]["x"], panel["gridPos"]["y"]) for panel in board["panels"]}
        self.assertEqual((len(places), {target["refId"] for panel in board["panels"] for target in panel["targets"]}), (12, {"A", "B", "C", "D"}))


if __name__ == "__main__":
    unittest.main()
