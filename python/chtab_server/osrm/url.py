"""The words of an address: `/SERVICE/VERSION/PROFILE/COORDINATES?NAME=VALUE&..`, decoded after they
were taken apart. `options` reads the query."""
from __future__ import annotations

import re
from typing import TYPE_CHECKING, NamedTuple

from chtab_server.osrm.options import Refusal, text_of, unsupported
from chtab_server.osrm.polylines import decoded

if TYPE_CHECKING:
    from chtab.typing import Point

SERVICES = "route", "table", "nearest", "trip", "match"
# A service of OSRM that isn't supported.
OTHERS = ("tile",)
VERSION = "v1"
# What an address begins with that names the server too, as proxies send it.
ABSOLUTE = re.compile("^https?://[^/?]*(?=/)", re.IGNORECASE)
# OSRM reads numbers without exponents, NaN and infinity.
NUMBER = r"[+-]?(?:\d+(?:\.\d*)?|\.\d+)"
COORDINATE = re.compile(f"({NUMBER}),({NUMBER})", re.ASCII)
COORDINATES = re.compile(f"{NUMBER},{NUMBER}(?:;{NUMBER},{NUMBER})*", re.ASCII)
POLYLINE = re.compile(r"polyline(6?)\((.*)\)", re.DOTALL)
# An address as most clients send it, of which no part has an escape or another suffix.
USUAL = re.compile(
    rf"/({'|'.join(SERVICES)})/{VERSION}/([\w-]+)/([\d.,;+-]+)(?:\?([^%#]*))?", re.ASCII)


class Words(NamedTuple):
    """The words of an address: the service, the profile, and the coordinates and the options as
    texts."""

    service: str
    profile: str
    coordinates: str
    query: str


def words_of(target: str, most: int) -> Words:
    """The words of a request's target, which has at most so many characters."""
    if len(target) > most:
        raise Refusal("TooBig", f"an address has at most {most:,} characters")
    usual = USUAL.fullmatch(target)
    if usual:
        service, profile, coordinates, query = usual.groups("")
        return Words(service, profile, coordinates, query)
    path, _, query = ABSOLUTE.sub("", target, 1).partition("?")
    before, *parts = path.split("/")
    service = text_of(parts[0]) if parts else ""
    if before or service not in (*SERVICES, *OTHERS):
        raise Refusal("InvalidService", f"the services are {', '.join(SERVICES)}")
    if service in OTHERS:
        raise Refusal("InvalidService", f"{service}: not supported")
    if len(parts) > 1 and text_of(parts[1]) != VERSION:
        raise Refusal("InvalidVersion", f"the version is {VERSION}")
    if len(parts) != 4 or not all(parts):
        raise Refusal(
            "InvalidUrl",
            f"an address has the form /{service}/{VERSION}/PROFILE/COORDINATES?NAME=VALUE&..")
    coordinates = text_of(parts[3])
    if coordinates.endswith(".flatbuffers"):
        raise unsupported("flatbuffers")
    return Words(service, text_of(parts[2]), coordinates.removesuffix(".json"), query)


def posted(target: str, body: bytes) -> str:
    """The target of a request by POST, whose body has the coordinates and the options: what follows
    the profile in an address."""
    if "?" in target:
        raise Refusal("InvalidUrl", "options are in the body: COORDINATES?NAME=VALUE&..")
    try:
        return f"{target.rstrip('/')}/{body.decode('ascii').strip()}"
    except UnicodeDecodeError:
        raise Refusal("InvalidUrl", "a body has printable characters of ASCII alone") from None


def coordinates_of(text: str, most: int) -> list[Point]:
    """The coordinates of an address, at most `most`: (longitude, latitude) in degrees."""
    line = POLYLINE.fullmatch(text)
    found = decoded(line[2], 6 if line[1] else 5, most) if line else listed(text, most)
    for index, (longitude, latitude) in enumerate(found):
        if not (-180 <= longitude <= 180 and -90 <= latitude <= 90):
            raise Refusal(
                "InvalidValue",
                f"coordinate {index} is not a longitude from -180 to 180 and a latitude from -90 "
                "to 90")
    return found


def listed(text: str, most: int) -> list[Point]:
    if text.count(";") >= most:
        raise Refusal("TooBig", f"at most {most:,} coordinates")
    if not COORDINATES.fullmatch(text):
        index = next(
            index for index, part in enumerate(text.split(";")) if not COORDINATE.fullmatch(part))
        raise Refusal(
            "InvalidQuery", f"coordinate {index} is not a longitude and a latitude, as 9.52,47.14")
    numbers = iter(map(float, text.replace(";", ",").split(",")))
    return list(zip(numbers, numbers))
