"""Records each request: its counts, and a line of the access log."""
from __future__ import annotations

import json
import logging
import logging.handlers
import time
from collections.abc import Callable
from typing import TYPE_CHECKING, NamedTuple

from chtab_server import web_policy
from chtab_server.connections import client_of
from chtab_server.metrics import REASONS, SERVICES

if TYPE_CHECKING:
    from aiohttp import web
    from chtab_server.metrics import Row

ACCESS, LOG = logging.getLogger("chtab.access"), logging.getLogger("chtab.service")
# The seconds between two lines on standard error about one kind of event.
MINUTE = 60.0
# The messages about frequent events that an operator has to know of.
MESSAGES = {
    "connections": "connections made way because there were more than there may be",
    "system": "times the system refused a connection"}


class Entry(NamedTuple):
    """What the log has of a request: the second of the epoch, the client's address, the method and
    the target, both empty for a connection without a request, the version of HTTP, the status, the
    bytes and the seconds of the answer, the reason and the message of a refusal, and what the
    client says of itself and of the page that asks."""

    second: float
    address: str
    method: str
    target: str
    version: str
    status: int
    size: int
    seconds: float
    reason: str = ""
    message: str = ""
    agent: str = ""
    page: str = ""


def plain_line(entry: Entry) -> str:
    """A line with the time, the client, the request, the status, the bytes and milliseconds of the
    answer, and the reason of a refusal."""
    now = time.strftime("%Y-%m-%dT%H:%M:%SZ", time.gmtime(entry.second))
    requested = f"{entry.method} {entry.target}" if entry.method else "-"
    more = f' "{escaped(f"{entry.reason}: {entry.message}")}"' if entry.reason else ""
    return (
        f'{now} {escaped(entry.address) or "-"} "{escaped(requested)}" {entry.status} {entry.size} '
        f'{1000 * entry.seconds:.1f}{more}')


def combined_line(entry: Entry) -> str:
    """A line in the combined form of Apache and nginx."""
    now = time.strftime("%d/%b/%Y:%H:%M:%S +0000", time.gmtime(entry.second))
    requested = f"{entry.method} {entry.target} HTTP/{entry.version}" if entry.method else "-"
    texts = [escaped(text) or "-" for text in (requested, entry.page, entry.agent)]
    return '{} - - [{}] "{}" {} {} "{}" "{}"'.format(
        escaped(entry.address) or "-", now, texts[0], entry.status, entry.size, *texts[1:])


def json_line(entry: Entry) -> str:
    """An object of JSON, without fields that are empty."""
    now = time.strftime("%Y-%m-%dT%H:%M:%SZ", time.gmtime(entry.second))
    value = {
        "time": now, "address": entry.address, "method": entry.method, "target": entry.target,
        "status": entry.status, "bytes": entry.size, "milliseconds": round(1000 * entry.seconds, 1),
        "reason": entry.reason, "message": entry.message, "agent": entry.agent, "page": entry.page}
    return json.dumps({name: part for name, part in value.items() if part != ""})


# The forms of lines of the log, by their names.
FORMS: dict[str, Callable[[Entry], str]] = {
    "plain": plain_line, "combined": combined_line, "json": json_line}


def log_to(path: str) -> None:
    """Writes the access log to the end of a file, or to standard output for `-`. If the file is
    moved, a new one is started, so that logs can be rotated."""
    handler = (
        logging.StreamHandler(open(1, "w", closefd=False)) if path == "-"
        else logging.handlers.WatchedFileHandler(path))
    handler.setFormatter(logging.Formatter("%(message)s"))
    ACCESS.addHandler(handler)
    ACCESS.setLevel(logging.INFO)
    ACCESS.propagate = False


def service_of(path: str) -> str:
    """The service that a request counts for."""
    if path.startswith(web_policy.QUICK):
        return path[1:path.index("/", 1)]
    if web_policy.is_osrm(path):
        name = path.split("/")[1]
        return name if name in SERVICES else "page"
    return "api" if path.startswith("/api/") else "page"


def escaped(text: str) -> str:
    """A text for the quotes of the log: ASCII, without quotes, ends of lines and other control
    characters."""
    plain = text.encode("ascii", "backslashreplace").decode()
    return "".join(
        letter if letter.isprintable() and letter != '"' else f"\\x{ord(letter):02x}"
        for letter in plain)


class Recorder:
    """Counts answers in a row of metrics, and logs them in a form if a log is wanted. Requests from
    the address `proxy` count for the clients that it names."""

    def __init__(self, row: Row, proxy: str | None = None, form: str = "plain") -> None:
        self.row, self.proxy, self.line_of = row, proxy, FORMS[form]
        # For each kind of event how often it happened since it was last reported, and when that
        # was.
        self.events: dict[str, list[float]] = {kind: [0, -MINUTE] for kind in MESSAGES}

    def note(self, request: web.BaseRequest, response: web.StreamResponse, seconds: float) -> None:
        """Records an answered request. `request["refused"]` has the reason and the message of a
        refusal."""
        reason, why = request.get("refused", ("", ""))
        # Most requests name a service of OSRM, also before the address is taken apart and its
        # escapes are read.
        path = request.raw_path if request.raw_path.startswith(web_policy.QUICK) else request.path
        self.row.add(service_of(path), response.status, seconds)
        if reason:
            self.row.refuse(reason)
        if ACCESS.handlers:
            headers, version = request.headers, f"{request.version.major}.{request.version.minor}"
            entry = Entry(
                time.time(), client_of(request, self.proxy), request.method, request.raw_path,
                version, response.status, response.content_length or 0, seconds, reason, why,
                headers.get("User-Agent", ""), headers.get("Referer", ""))
            ACCESS.info("%s", self.line_of(entry))

    def note_event(self, kind: str, address: str, status: int, why: str) -> None:
        """Records what happened to a connection without a request."""
        if kind in REASONS:
            self.row.refuse(kind)
        if ACCESS.handlers:
            entry = Entry(time.time(), address, "", "", "", status, 0, 0.0, kind, why)
            ACCESS.info("%s", self.line_of(entry))
        if kind in MESSAGES:
            self.tell(kind)

    def tell(self, kind: str) -> None:
        """Reports an event on standard error, at most once a minute."""
        event, now = self.events[kind], time.monotonic()
        event[0] += 1
        if now - event[1] >= MINUTE:
            LOG.warning("%d %s", event[0], MESSAGES[kind])
            event[:] = 0, now
