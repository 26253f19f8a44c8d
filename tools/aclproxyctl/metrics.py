"""metrics: counts of a service in the text format of Prometheus, once, or over http for as long as the service runs."""

import os
import re
from dataclasses import dataclass
from pathlib import Path
from typing import TYPE_CHECKING, Iterator, Optional, TextIO

from aclproxyctl import counters
from aclproxyctl.counts import LOOKUP, Counted, Counts, Histogram
from aclproxyctl.errors import DONE, NEEDS, SYSTEM, UserError, of_system
from aclproxyctl.journal import runs_at, started
from aclproxyctl.ledger import Ledger
from aclproxyctl.service import service_of
from aclproxyctl.sockets import clients_of

if TYPE_CHECKING:
    from prometheus_client.core import Metric
    from prometheus_client.registry import CollectorRegistry

TICKS = os.sysconf("SC_CLK_TCK")
PAGE = os.sysconf("SC_PAGE_SIZE")


@dataclass
class Told:
    """What the supervisor counts itself."""

    refused: int = 0
    dropped: int = 0


def registry_of(collector: object) -> "CollectorRegistry":
    try:
        from prometheus_client.registry import CollectorRegistry
    except ImportError:
        raise UserError(NEEDS, "the module prometheus_client is not found; Debian has it in the package python3-prometheus-client") from None
    registry = CollectorRegistry()
    registry.register(collector)  # type: ignore[arg-type]
    return registry


@dataclass
class Found:
    """What is counted by now: of the last run, of each run that has not ended, and of all runs."""

    run: Path
    last: Counted
    open: list[Counted]
    counts: Counts


class Collector:
    """The counts of a service as metrics. Without a ledger those that a run's file of counters has, or else its journal."""

    def __init__(self, folder: Path, told: Optional[Told] = None, ledger: Optional[Ledger] = None) -> None:
        self.folder = folder
        self.told = told
        self.ledger = ledger

    def describe(self) -> list["Metric"]:
        """None in advance: a registry would collect all of them to know their names."""
        return []

    def found(self) -> Optional[Found]:
        if self.ledger is not None:
            run, open_, counts = self.ledger.found()
            return Found(run, open_[-1], open_, counts) if run is not None else None
        run = runs_at(str(self.folder))[-1]
        kept = counters.read(run)
        if kept is not None:
            return Found(run, kept.counted, [kept.counted], kept.counted.counts)
        ledger = Ledger(keep=False)
        ledger.watch(run)
        _, open_, counts = ledger.found()
        ledger.close()
        return Found(run, open_[-1], open_, counts)

    def collect(self) -> Iterator["Metric"]:
        found = self.found()
        if found is not None:
            yield from self.of_requests(found)
            yield from self.of_helpers(found)
            yield from self.of_journal(found)
            yield from self.of_access_log(found)
            yield from self.of_process(found.run)
            yield from self.of_supervisor(found)

    def of_requests(self, found: Found) -> Iterator["Metric"]:
        from prometheus_client.core import CounterMetricFamily, GaugeMetricFamily

        counts, standings = found.counts, [one.standing for one in found.open]
        requests = CounterMetricFamily("aclproxy_requests", "Requests that were judged, by outcome and what decided.", labels=["outcome", "by", "rule"])
        for (outcome, by, rule), count in sorted(counts.outcomes.items()):
            requests.add_metric([outcome, by, rule], count)
        yield requests
        yield counter("aclproxy_faults", "Denials because a helper gave no answer, by cause.", "cause", counts.faults)
        yield CounterMetricFamily("aclproxy_requests_dropped", "Requests whose connection closed before they were judged.", counts.dropped)
        yield CounterMetricFamily("aclproxy_connections_opened", "Connections of clients that a worker took.", counts.opened)
        yield GaugeMetricFamily("aclproxy_connections_open", "Connections of clients that a worker serves.", sum(one.connections for one in standings))
        yield GaugeMetricFamily("aclproxy_checks_open", "Requests that are not judged yet.", sum(one.checks for one in standings))
        yield GaugeMetricFamily("aclproxy_checks_waiting", "Requests that wait for a helper.", sum(one.waiting for one in standings))

    def of_helpers(self, found: Found) -> Iterator["Metric"]:
        """Of helpers, and of look-ups of names that rules ask for."""
        from prometheus_client.core import CounterMetricFamily, GaugeMetricFamily

        counts = found.counts
        yield counter("aclproxy_helper_questions", "Questions that were sent to helpers.", "class", of_classes(counts.questions))
        replies = CounterMetricFamily("aclproxy_helper_replies", "Lines of helpers: ok, err, bh, bad or stray.", labels=["class", "result"])
        lookups = CounterMetricFamily("aclproxy_lookups", "Look-ups of names for rules, by whether an address is in the list: ok, err or bh.", labels=["result"])
        for (name, result), count in sorted(counts.replies.items()):
            if name == LOOKUP:
                lookups.add_metric([result], count)
            else:
                replies.add_metric([name, result], count)
        yield replies
        yield histogram("aclproxy_helper_reply_seconds", "Time from a question to its reply.", "class", {name: wait for name, wait in counts.waits.items() if name != LOOKUP})
        yield lookups
        yield histogram("aclproxy_lookup_seconds", "Time of such a look-up.", "", {"": counts.waits.get(LOOKUP, Histogram())})
        alive: dict[str, int] = {}
        for name, number in [item for one in found.open for item in one.standing.helpers.items()]:
            alive[name] = alive.get(name, 0) + number
        processes = GaugeMetricFamily("aclproxy_helper_processes", "Helper processes that live.", labels=["class"])
        for name, number in sorted(of_classes(alive).items()):
            processes.add_metric([name], number)
        yield processes
        yield counter("aclproxy_helper_starts", "Helper processes that were started.", "class", of_classes(counts.starts))
        yield counter("aclproxy_helper_start_failures", "Helper processes that could not be started.", "class", of_classes(counts.failed_starts))
        yield counter("aclproxy_helper_ends", "Helper processes that ended, or wrote a line that ended them.", "class", of_classes(counts.ends))

    def of_journal(self, found: Found) -> Iterator["Metric"]:
        from prometheus_client.core import CounterMetricFamily, GaugeMetricFamily

        standing = found.last.standing
        yield GaugeMetricFamily("aclproxy_configuration", "The number of the current configuration in its run.", standing.epoch)
        yield CounterMetricFamily("aclproxy_reconfigurations", "Configurations that were read again and accepted.", found.counts.reconfigurations)
        yield CounterMetricFamily("aclproxy_journal_entries", "Entries of journals.", found.counts.entries)
        yield GaugeMetricFamily("aclproxy_journal_bytes", "Bytes of the current run's journal.", found.last.bytes)
        begun = started(found.run)
        yield GaugeMetricFamily("aclproxy_run_start_seconds", "When the current run began, in seconds since 1970.", (standing.begun or begun or 0) / 1000)
        yield GaugeMetricFamily("aclproxy_journal_unreadable", "1 where the journal cannot be read on, and counts stand still.", float(found.last.fault != ""))

    def of_access_log(self, found: Found) -> Iterator["Metric"]:
        """Only where the program writes an access log."""
        from prometheus_client.core import CounterMetricFamily

        counts = found.counts
        if not found.last.has_access and counts.logged == 0:
            return
        replies = CounterMetricFamily("aclproxy_replies", "Requests and tunnels that ended, by Squid's code and the class of their status.", labels=["code", "status"])
        for (code, status), count in sorted(counts.statuses.items()):
            replies.add_metric([code, status], count)
        yield replies
        yield counter("aclproxy_failures", "Requests that were allowed and came to no good end, and connections that were ended before one.", "cause", counts.causes)
        yield CounterMetricFamily("aclproxy_connections_silent", "Connections that ended without a request.", counts.silent)
        yield CounterMetricFamily("aclproxy_sent_bytes", "Bytes that were sent to clients.", counts.sent)
        yield CounterMetricFamily("aclproxy_received_bytes", "Bytes that came from clients.", counts.received)
        yield CounterMetricFamily("aclproxy_origin_sent_bytes", "Bytes that were sent to origins.", counts.sent_on)
        yield CounterMetricFamily("aclproxy_origin_received_bytes", "Bytes that came from origins.", counts.fetched)
        yield histogram("aclproxy_request_seconds", "Time of requests, but tunnels, from their beginning to their end.", "", {"": counts.durations})
        yield CounterMetricFamily("aclproxy_access_log_dropped_lines", "Lines that could not be written to the access log.", counts.lost)
        yield CounterMetricFamily("aclproxy_access_log_odd_lines", "Lines that are none of an access log.", counts.odd)

    def of_process(self, run: Path) -> Iterator["Metric"]:
        from prometheus_client.core import CounterMetricFamily, GaugeMetricFamily

        service = service_of(run)
        yield GaugeMetricFamily("aclproxy_up", "1 while the server serves.", float(service is not None))
        if service is None:
            return
        yield GaugeMetricFamily("aclproxy_workers", "Workers: connections that are served at a time.", service.workers)
        clients = clients_of(service.port, service.process)
        if clients is not None:
            yield GaugeMetricFamily("aclproxy_workers_in_use", "Workers that have a connection.", clients.workers_in_use(service.workers))
            yield GaugeMetricFamily("aclproxy_clients_connected", "Connections at the port.", clients.connected)
            yield GaugeMetricFamily("aclproxy_clients_waiting", "Connections at the port that have no worker.", clients.waiting(service.workers))
            yield GaugeMetricFamily("aclproxy_accept_queue", "Connections that wait in the accept queue.", clients.queued)
        try:
            words = Path(f"/proc/{service.process}/stat").read_text().rpartition(")")[2].split()
        except OSError:
            return
        yield CounterMetricFamily("aclproxy_process_cpu_seconds", "Processor time of the server.", (int(words[11]) + int(words[12])) / TICKS)
        yield GaugeMetricFamily("aclproxy_process_threads", "Threads of the server.", int(words[17]))
        yield GaugeMetricFamily("aclproxy_process_resident_bytes", "Resident memory of the server.", int(words[21]) * PAGE)
        try:
            yield GaugeMetricFamily("aclproxy_process_files", "Files that the server has open.", len(os.listdir(f"/proc/{service.process}/fd")))
        except OSError:
            return

    def of_supervisor(self, found: Found) -> Iterator["Metric"]:
        from prometheus_client.core import CounterMetricFamily, GaugeMetricFamily

        try:
            kept = [name for name in os.listdir(self.folder) if started(Path(name)) is not None]
            disk = os.statvfs(self.folder)
        except OSError:
            return
        yield GaugeMetricFamily("aclproxy_runs_kept", "Runs in the folder of journals.", len(kept))
        yield GaugeMetricFamily("aclproxy_disk_free_bytes", "Bytes that the disk of the journals has free.", disk.f_bavail * disk.f_frsize)
        yield GaugeMetricFamily("aclproxy_disk_bytes", "Bytes that the disk of the journals has.", disk.f_blocks * disk.f_frsize)
        if self.told is None:
            return
        yield CounterMetricFamily("aclproxy_runs", "Runs that this service has begun.", found.counts.runs)
        yield CounterMetricFamily("aclproxy_configurations_refused", "Configurations that were not taken.", self.told.refused)
        yield CounterMetricFamily("aclproxy_helper_error_dropped_bytes", "Bytes that helpers wrote to standard error and that were dropped.", self.told.dropped)


def of_classes(counts: "dict[str, int]") -> dict[str, int]:
    """The counts of helpers, without those of look-ups."""
    return {name: count for name, count in counts.items() if name != LOOKUP}


def counter(name: str, text: str, label: str, counts: "dict[str, int]") -> "Metric":
    from prometheus_client.core import CounterMetricFamily

    family = CounterMetricFamily(name, text, labels=[label])
    for value, count in sorted(counts.items()):
        family.add_metric([value], count)
    return family


def histogram(name: str, text: str, label: str, found: dict[str, Histogram]) -> "Metric":
    from prometheus_client.core import HistogramMetricFamily

    family = HistogramMetricFamily(name, text, labels=[label] if label else [])
    for value, one in sorted(found.items()):
        family.add_metric([value] if label else [], one.buckets(), one.sum)
    return family


def address_of(text: str) -> tuple[str, int]:
    """The host and port of HOST:PORT; an address of IPv6 stands in brackets."""
    found = re.fullmatch(r"(?:\[([0-9A-Fa-f:.]+)\]|([^:\[\]]+)):([0-9]{1,5})", text)
    if found is None or not 0 < int(found[3]) < 65536:
        raise ValueError
    return found[1] or found[2], int(found[3])


def serve(address: tuple[str, int], collector: Collector) -> None:
    """Serves the metrics of a service over http, in a thread of its own, for as long as the service lasts."""
    registry = registry_of(collector)
    from prometheus_client import start_http_server

    try:
        start_http_server(address[1], address[0], registry)
    except OSError as fault:
        raise UserError(SYSTEM, f"--metrics {address[0]}:{address[1]}: {of_system(fault, 'the port').text}") from None


def metrics(out: TextIO, named: str) -> int:
    """The command: once, of the last run of a folder."""
    runs_at(named)
    registry = registry_of(Collector(Path(named)))
    from prometheus_client import generate_latest

    out.write(generate_latest(registry).decode())
    return DONE
