"""The answers to requests that can't be answered: JSON with a line, in the form of the interface
that was asked."""
from __future__ import annotations

import errno
import logging
from collections.abc import Callable

from aiohttp import web
from aiohttp.http_exceptions import BadHttpMessage

from chtab.errors import ChtabError, TimedOut
from chtab_server import web_policy
from chtab_server.osrm.options import Refusal
from chtab_server.queue import Busy, Gone
from chtab_server.requests import Refused

LOG = logging.getLogger("chtab.service")
# Faults of the service itself, for which OSRM has no code.
INTERNAL = "InternalError"
# The errors of the system for a name that no file can have.
NO_NAMES = errno.ENAMETOOLONG, errno.EINVAL, errno.ENOENT, errno.ENOTDIR, errno.ELOOP
# The reasons for statuses, as the metrics count them.
REASONS = {
    404: "page", 405: "page", 403: "page", 408: "sending", 413: "size", 415: "form", 499: "gone",
    503: "busy", 504: "time", 500: "fault"}


def fault(
    request: web.BaseRequest, text: str, status: int, code: str = INTERNAL,
    reason: str | None = None,
) -> web.Response:
    """The answer to a failed request. The request keeps the reason for the log."""
    request["refused"] = reason or REASONS.get(status, "form"), text
    value = {"code": code, "message": text} if web_policy.is_osrm(request.path) else {"error": text}
    return web.json_response(
        value, status=status, headers={"Retry-After": "1"} if status == 503 else None)


def fault_of(
    request: web.BaseRequest, raised: Exception, most_bytes: int, translated: Callable[[str], str],
) -> web.Response:
    """The answer for an exception. `translated` replaces names of files by those that the user
    knows."""
    match raised:
        case Refusal():
            return fault(request, str(raised), 400, raised.code, raised.code)
        case Refused():
            return fault(request, str(raised), raised.status)
        case Busy():
            return fault(request, "too many requests are waiting; try again in a second", 503)
        case TimedOut():
            return fault(request, "the answer took too long", 504)
        case web.HTTPRequestEntityTooLarge():
            return fault(request, f"a request has at most {most_bytes:,} bytes", 413)
        case web.HTTPException():
            return fault(request, raised.reason, raised.status)
        case BadHttpMessage() | web.RequestPayloadError():
            return fault(request, "the body of the request can't be read", 400)
        case ConnectionError() | Gone():
            return fault(request, "the client went away", 499)
        case OSError() if raised.errno in NO_NAMES:
            return fault(request, "Not Found", 404)
        case ChtabError():
            LOG.error("%s", translated(str(raised)))
            return fault(request, "the program did not answer; try again", 503, reason="program")
    LOG.error("a request failed", exc_info=raised)
    return fault(request, "the service has a fault", 500)
