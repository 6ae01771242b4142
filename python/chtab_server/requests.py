"""Requests in JSON: their limits, and their fields, which are checked before anything is looked
up."""
from __future__ import annotations

import json
import zlib
from collections.abc import Sequence
from dataclasses import dataclass
from typing import TYPE_CHECKING, Any

if TYPE_CHECKING:
    from chtab.typing import Point

# The window sizes that tell zlib the compressed form of a body.
PACKED = {"gzip": 31, "x-gzip": 31, "deflate": 15}


@dataclass(frozen=True)
class Limits:
    """The limits of requests, and of how many are answered."""

    # Bytes of a request.
    body: int = 1 << 20
    # Places in a list of a table, its cells, and bands of reach.
    list: int = 1_000
    cells: int = 100_000
    bands: int = 12
    # Metres from a place to the nearest road.
    metres: float = 1_000.0
    # Requests that are answered at a time, and that wait; and how many legs of routes are answered
    # together.
    at_once: int = 2
    waiting: int = 200
    together: int = 64
    # The seconds for the body of a request, those after which an idle connection is closed, those
    # for requests that are underway when the service ends, and those in which clients of a replaced
    # service may send one more request on each connection.
    sending: float = 30.0
    idle: float = 60.0
    ending: float = 30.0
    grace: float = 5.0


class Refused(Exception):
    """A refused request, with the status and the message for the client."""

    def __init__(self, text: str, status: int = 400) -> None:
        super().__init__(text)
        self.status = status


def bytes_in(body: bytes, encoding: str, most: int) -> bytes:
    """The bytes of a body, decompressed if its encoding says so; never more than `most`."""
    encoding = encoding.strip().lower()
    if encoding in ("", "identity"):
        return body
    if encoding not in PACKED:
        raise Refused("a body is packed by gzip or deflate, or not at all", 415)
    unpacking = zlib.decompressobj(PACKED[encoding])
    try:
        found = unpacking.decompress(body, most + 1)
    except zlib.error:
        raise Refused(f"the body is not packed by {encoding}") from None
    if len(found) > most:
        raise Refused(f"a request has at most {most:,} bytes", 413)
    if not unpacking.eof:
        raise Refused(f"the body is not packed by {encoding}")
    return found


def number_in(value: Any, low: float, high: float, name: str) -> float:
    if isinstance(value, bool) or not isinstance(value, (int, float)) or not low <= value <= high:
        raise Refused(f"{name} is a number from {low:,} to {high:,}")
    return value


def place_in(value: Any, name: str) -> Point:
    """A place: [longitude, latitude] in degrees."""
    if not isinstance(value, list) or len(value) != 2:
        raise Refused(f"{name} is a place [longitude, latitude]")
    return (
        number_in(value[0], -180, 180, f"the longitude of {name}"),
        number_in(value[1], -90, 90, f"the latitude of {name}"))


def places_in(value: Any, name: str, most: int) -> list[Point]:
    if not isinstance(value, list) or not 1 <= len(value) <= most:
        raise Refused(f"{name} is a list of 1 to {most:,} places")
    return [place_in(place, f"{name}[{index}]") for index, place in enumerate(value)]


def fields_of(body: bytes, needed: Sequence[str], optional: Sequence[str] = ()) -> dict[str, Any]:
    """The fields of a request, which has to be an object of JSON with these fields and no
    others."""
    try:
        fields = json.loads(body)
    except (ValueError, RecursionError):
        raise Refused("the request is not JSON") from None
    if not isinstance(fields, dict):
        raise Refused("the request is an object of JSON")
    for name in needed:
        if name not in fields:
            raise Refused(f"{name} is missing")
    for name in fields:
        if name not in (*needed, *optional):
            raise Refused(
                f"{name[:40]} is not known; the fields are {', '.join((*needed, *optional))}")
    return fields
