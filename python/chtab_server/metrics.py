"""The counts of a service in the text of Prometheus: requests by status, their seconds, refusals by
reason, and waiting requests.

The counts are in memory that all processes of a service share. Each process has its own row, which
no other process changes, so that no lock is needed. The text has the sums of all rows.
"""
from __future__ import annotations

import bisect
import mmap
import time
from collections.abc import Iterable, Sequence
from typing import TYPE_CHECKING

import numpy

if TYPE_CHECKING:
    from chtab.typing import Integers

SERVICES = "route", "table", "nearest", "trip", "match", "api", "page"
STATUSES = 200, 204, 206, 304, 400, 403, 404, 405, 408, 413, 415, 416, 499, 500, 503, 504
# The reasons of refusals: OSRM's codes, those of requests in JSON and of the service, and those of
# connections.
CODES = (
    "InvalidUrl", "InvalidService", "InvalidVersion", "InvalidQuery", "InvalidOptions",
    "InvalidValue", "NoSegment", "NoRoute", "NoTrips", "NoMatch", "TooBig")
REASONS = (
    *CODES, "form", "page", "size", "sending", "gone", "busy", "time", "program", "fault", "http",
    "idle", "connections", "system")
# The upper ends of the ranges of seconds; the last range has no end.
EDGES = 0.001, 0.0025, 0.005, 0.01, 0.025, 0.05, 0.1, 0.25, 0.5, 1.0, 2.5, 5.0, 10.0, 25.0, 60.0
STATES = "waiting", "engines", "begun", "memory", "connections", "speeds"
# The parts of a row: requests by service and status, microseconds of each service, ranges of each
# service, refusals, and states.
PARTS = (
    len(SERVICES) * (len(STATUSES) + 1), len(SERVICES), len(SERVICES) * (len(EDGES) + 1),
    len(REASONS), len(STATES))
WIDTH = sum(PARTS)


class Metrics:
    """The counts of a service with this many processes. It has to be made before they are
    forked."""

    def __init__(self, processes: int = 1) -> None:
        self.shared = mmap.mmap(-1, 8 * WIDTH * processes)
        self.rows = numpy.frombuffer(self.shared, numpy.int64).reshape(processes, WIDTH)
        self.of_processes = [Row(row) for row in self.rows]

    def text(self) -> str:
        """The counts in Prometheus' text, version 0.0.4."""
        rows = self.of_processes
        lines = [*head("chtab_requests_total", "counter", "Requests that were answered.")]
        for service, statuses in zip(SERVICES, sum_of(row.counts for row in rows).tolist()):
            for status, count in zip((*STATUSES, "other"), statuses):
                if count:
                    lines.append(
                        f'chtab_requests_total{{service="{service}",status="{status}"}} {count}')
        lines += self.seconds(rows)
        lines += head(
            "chtab_refusals_total", "counter",
            "Requests that were refused, and connections that were closed, by reason.")
        lines += [
            f'chtab_refusals_total{{reason="{name}"}} {count}'
            for name, count in zip(REASONS, sum_of(row.refusals for row in rows).tolist()) if count]
        for name, kind, about, value in self.states(rows):
            lines += [*head(name, kind, about), f"{name} {value}"]
        return "\n".join(lines) + "\n"

    def seconds(self, rows: Sequence[Row]) -> list[str]:
        """The lines of the seconds from requests to their answers: a histogram for each service
        that was asked."""
        name = "chtab_request_seconds"
        lines = head(name, "histogram", "Seconds from a request to its answer.")
        for service, ranges, micros in zip(
            SERVICES, sum_of(row.ranges for row in rows),
            sum_of(row.micros for row in rows).tolist()
        ):
            sums = numpy.cumsum(ranges).tolist()
            if sums[-1]:
                lines += [
                    f'{name}_bucket{{service="{service}",le="{edge}"}} {count}'
                    for edge, count in zip((*EDGES, "+Inf"), sums)]
                lines += [
                    f'{name}_sum{{service="{service}"}} {micros / 1e6}',
                    f'{name}_count{{service="{service}"}} {sums[-1]}']
        return lines

    def states(self, rows: Sequence[Row]) -> list[tuple[str, str, str, int]]:
        waiting, engines, begun, memory, connections = (
            sum(row.of(state) for row in rows) for state in STATES[:-1])
        # When the file was written whose speeds a process has, in milliseconds; 0 without such a
        # file.
        written = [row.of("speeds") for row in rows if row.of("speeds") and row.of("memory")]
        ages = (
            [(
                "chtab_speeds_age_seconds", "gauge",
                "Seconds since the oldest speeds in use were written.",
                max(0, int(time.time() - min(written) / 1_000)))] if written else [])
        return [
            ("chtab_requests_waiting", "gauge", "Requests that are underway or wait.", waiting),
            ("chtab_connections", "gauge", "Connections of clients.", connections),
            ("chtab_engines", "gauge", "Runs of the program that answer.", engines),
            ("chtab_engines_begun_total", "counter", "Runs of the program that were begun.", begun),
            (
                "chtab_processes", "gauge", "Processes of the service.",
                sum(row.of("memory") > 0 for row in rows)),
            (
                "chtab_resident_memory_bytes", "gauge",
                "Memory of the processes, without that of the runs.", memory), *ages]


def sum_of(columns: Iterable[Integers]) -> Integers:
    """The sums of columns of one shape."""
    return numpy.sum([*columns], axis=0)


def head(name: str, kind: str, about: str) -> list[str]:
    return [f"# HELP {name} {about}", f"# TYPE {name} {kind}"]


class Row:
    """The counts of one process."""

    def __init__(self, row: Integers) -> None:
        counts, self.micros, ranges, self.refusals, self.states = numpy.split(
            row, numpy.cumsum(PARTS)[:-1])
        self.counts, self.ranges = (
            counts.reshape(len(SERVICES), -1), ranges.reshape(len(SERVICES), -1))
        # Views on the same numbers, one of which is changed in a fifth of the time there.
        self.each_count, self.each_micros, self.each_range = (
            counts.data, self.micros.data, ranges.data)
        self.services, self.statuses, self.reasons, self.names = (
            {name: place for place, name in enumerate(names)}
            for names in (SERVICES, STATUSES, REASONS, STATES))

    def add(self, service: str, status: int, seconds: float) -> None:
        """Counts an answer."""
        place = self.services[service]
        self.each_count[place * (len(STATUSES) + 1) + self.statuses.get(status, len(STATUSES))] += 1
        self.each_micros[place] += int(seconds * 1e6)
        self.each_range[place * (len(EDGES) + 1) + bisect.bisect_left(EDGES, seconds)] += 1

    def refuse(self, reason: str) -> None:
        """Counts a refusal."""
        self.refusals[self.reasons[reason]] += 1

    def of(self, state: str) -> int:
        """The last noted value of a state."""
        return int(self.states[self.names[state]])

    def note(self, **states: int) -> None:
        """Notes the current values of states."""
        for name, value in states.items():
            self.states[self.names[name]] = value
