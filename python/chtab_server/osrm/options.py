"""The options of each service. An option that would change the answer, and that isn't supported, is
refused by its name."""
from __future__ import annotations

import functools
import math
import re
import urllib.parse
from collections.abc import Callable, Mapping
from typing import Any, NamedTuple

# The classes of ways that may be excluded.
CLASSES = "toll", "motorway", "ferry"
# A percent sign that begins no escape.
BROKEN = re.compile("%(?![0-9A-Fa-f]{2})")
NUMBER = re.compile(r"\d+(?:\.\d*)?|\.\d+", re.ASCII)
INDEX = re.compile(r"\d{1,9}", re.ASCII)
# The metres a second of cells without a way.
LEAST_SPEED, MOST_SPEED = 0.001, 1_000_000
# With larger factors, durations might be no numbers of JSON.
MOST_SCALE = 1_000_000_000
ANNOTATIONS = "duration", "distance", "nodes", "weight", "speed", "datasources"
ALTERNATIVES = re.compile(r"true|false|\d{1,9}", re.ASCII)
BEARING = re.compile(r"(\d{1,3}),(\d{1,3})", re.ASCII)
TIMESTAMP = re.compile(r"\d{1,18}", re.ASCII)
# The forms of lines.
FORMS = "polyline", "polyline6", "geojson"
# How many cells take as long as the distance of one.
DISTANCE = 8
# How much longer a leg takes than one without a line: with a line, with steps, and with
# annotations.
OF_LINES, OF_STEPS, OF_ANNOTATIONS = {"false": 0.0, "full": 0.5, "simplified": 3.5}, 1.5, 10.0
# The most alternatives of a route.
MOST_ALTERNATIVES = 3
# Queries that were read last are kept, of so many characters and for so many coordinates at most.
QUERIES_KEPT, LONGEST_KEPT, MOST_KEPT = 1_024, 256, 64


class Refusal(Exception):
    """A refused request. Its status is 400, as in OSRM."""

    def __init__(self, code: str, text: str) -> None:
        super().__init__(text)
        self.code = code


def unsupported(name: str) -> Refusal:
    """The refusal of an option that isn't supported, and that would change the answer."""
    return Refusal("InvalidOptions", f"{name}: not supported")


def text_of(part: str) -> str:
    """A part of an address with its escapes read. The words of this interface are ASCII."""
    text = part
    if "%" in part:
        if BROKEN.search(part):
            raise Refusal("InvalidUrl", "a percent sign is followed by two hexadecimal digits")
        text = urllib.parse.unquote(part, "ascii", "replace")
    if not (text.isascii() and text.isprintable()):
        raise Refusal("InvalidUrl", "an address has printable characters of ASCII alone")
    return text


def values_in(query: str) -> dict[str, str]:
    """The values of options by their names, each given once."""
    options: dict[str, str] = {}
    for part in query.split("&") if query else ():
        name, mark, value = part.partition("=")
        name = text_of(name)
        if not name or not mark:
            raise Refusal("InvalidQuery", "an option has the form NAME=VALUE")
        if name in options:
            raise Refusal("InvalidQuery", f"{name[:40]}: given twice")
        options[name] = text_of(value)
    return options


class General(NamedTuple):
    """What all services take: for each coordinate the metres within which a road has to lie, the
    direction in which it has to be driven along with how many degrees off it are taken, or None,
    and whether it has to lie on the side of the road that is driven on; whether waypoints have
    hints, which are empty, and whether there are waypoints; and whether any radius is not infinite,
    any direction asked for, and any side of the road."""

    radiuses: tuple[float, ...]
    bearings: tuple[tuple[int, int] | None, ...]
    are_at_curb: tuple[bool, ...]
    has_hints: bool
    has_waypoints: bool
    has_radiuses: bool
    has_bearings: bool
    has_curbs: bool


class Route(NamedTuple):
    """The options of a route: its lines, whether it has steps, its annotations, whether it goes
    straight on at its stops, None for the default, the coordinates between which it has legs, None
    for all, and how many alternatives there may be."""

    geometries: str
    overview: str
    has_steps: bool
    annotations: tuple[str, ...]
    is_straight: bool | None = None
    waypoints: tuple[int, ...] | None = None
    alternatives: int = 0

    @property
    def work(self) -> float:
        """How long a leg takes, beside one without a line, steps and annotations."""
        more = OF_STEPS * self.has_steps + OF_ANNOTATIONS * bool(self.annotations)
        return 1 + OF_LINES[self.overview] + more

    @property
    def has_traces(self) -> bool:
        """Whether the places of the route have to be known, and what lies between them."""
        return self.overview == "simplified" or bool(self.annotations)


class Trip(NamedTuple):
    """The options of a trip: those of its route, whether it leads back to its start, whether the
    first coordinate is the start, and whether the last one is the end."""

    route: Route
    is_round: bool
    is_first_fixed: bool
    is_last_fixed: bool


class Match(NamedTuple):
    """The options of a matched track: those of its routes, the seconds of its coordinates or None,
    whether it is split at gaps, and whether coordinates that add little are left out."""

    route: Route
    timestamps: list[int] | None
    is_parted: bool
    is_tidied: bool


class Table(NamedTuple):
    """The options of a table: the coordinates of its rows and columns, what its cells have, the
    factor of durations, and the metres a second along the straight line in a cell without a way,
    None where it is empty, between the coordinates as they came or where roads are."""

    sources: list[int]
    destinations: list[int]
    has_durations: bool
    has_distances: bool
    scale: float
    fallback: float | None = None
    is_between_inputs: bool = True

    @property
    def size(self) -> int:
        """How much is asked for, in cells; one with a distance takes as long as some others."""
        return len(self.sources) * len(self.destinations) * (1 + DISTANCE * self.has_distances)


class Reader:
    """Reads the options of one request by their names. `finish` refuses those that were not
    read."""

    def __init__(self, service: str, given: Mapping[str, str], count: int) -> None:
        self.service, self.given, self.count = service, dict(given), count

    def take(self, name: str, default: str) -> str:
        return self.given.pop(name, default)

    def choice(self, name: str, *words: str) -> str:
        """One of these words, by default the first."""
        word = self.take(name, words[0])
        if word not in words:
            raise Refusal("InvalidQuery", f"{name}: one of {', '.join(words)}")
        return word

    def boolean(self, name: str, default: bool) -> bool:
        return self.choice(name, *(("true", "false") if default else ("false", "true"))) == "true"

    def elements(self, name: str) -> list[str]:
        """A list with an element for each coordinate, which is empty for the default."""
        if name not in self.given:
            return [""] * self.count
        found = self.take(name, "").split(";")
        if len(found) != self.count:
            raise Refusal(
                "InvalidOptions", f"{name}: {len(found):,} elements for {self.count:,} coordinates")
        return found

    def refuse(self, *names: str) -> None:
        for name in names:
            if name in self.given:
                raise unsupported(name)

    def number(self, name: str, text: str) -> float:
        """A number from 0 on."""
        value = float(text) if NUMBER.fullmatch(text) else math.inf
        if math.isinf(value):
            raise Refusal("InvalidQuery", f"{name}: a number from 0 on, as 1.5")
        return value

    def integer(self, name: str, text: str) -> int:
        if not INDEX.fullmatch(text):
            raise Refusal("InvalidQuery", f"{name}: a whole number from 0 on")
        return int(text)

    def indices(self, name: str) -> list[int]:
        """The indices of coordinates, by default all."""
        text = self.take(name, "all")
        if text == "all":
            return list(range(self.count))
        found = [self.integer(name, part) for part in text.split(";", self.count)]
        if max(found) >= self.count:
            raise Refusal("InvalidOptions", f"{name}: an index is from 0 to {self.count - 1:,}")
        if len(found) > self.count:
            raise Refusal("InvalidOptions", f"{name}: more than there are coordinates")
        return found

    def finish(self) -> None:
        for name in self.given:
            raise Refusal("InvalidQuery", f"{name[:40]}: not an option of {self.service}")


def general(reader: Reader) -> General:
    """The options of all services."""
    texts = reader.elements("radiuses")
    radiuses = tuple(
        math.inf if text in ("", "unlimited") else reader.number("radiuses", text)
        for text in texts)
    bearings = tuple(bearing_in(text) for text in reader.elements("bearings"))
    # Hints of other servers would only shorten the search for a road.
    reader.take("hints", "")
    curbs = tuple(is_at_curb(text) for text in reader.elements("approaches"))
    # Trips may start on each road of a graph, so that both are the same.
    reader.choice("snapping", "default", "any")
    # Another network answers, which the service has chosen.
    reader.take("exclude", "")
    hints = reader.boolean("generate_hints", True)
    waypoints = not reader.boolean("skip_waypoints", False)
    return General(
        radiuses, bearings, curbs, hints, waypoints, any(map(math.isfinite, radiuses)),
        any(bearings), any(curbs))


def excluded_in(query: str) -> tuple[str, ...]:
    """The classes of ways that a query excludes, in order and each once."""
    word = values_in(query).get("exclude", "")
    names = word.split(",") if word else []
    if not set(names) <= set(CLASSES):
        raise Refusal(
            "InvalidValue", f"exclude: some of {', '.join(CLASSES)}, with commas between them")
    return tuple(name for name in CLASSES if name in names)


def is_at_curb(text: str) -> bool:
    """Whether a coordinate has to lie on the side of the road that is driven on."""
    if text not in ("", "unrestricted", "curb"):
        raise Refusal("InvalidQuery", "approaches: one of unrestricted, curb")
    return text == "curb"


def bearing_in(text: str) -> tuple[int, int] | None:
    """A direction from 0 to 360 degrees and the allowed deviation, from 0 to 180; None for an empty
    element."""
    if not text:
        return None
    found = BEARING.fullmatch(text)
    if not found or int(found[1]) > 360 or int(found[2]) > 180:
        raise Refusal(
            "InvalidQuery",
            "bearings: a direction from 0 to 360 and a range from 0 to 180 degrees, as 90,20")
    return int(found[1]), int(found[2])


def route(reader: Reader) -> Route:
    if reader.count < 2:
        raise Refusal("InvalidOptions", "a route has at least two coordinates")
    count = alternatives(reader)
    straight = reader.choice("continue_straight", "default", "true", "false")
    return without_steps(
        route_options(reader)._replace(
            is_straight={"true": True, "false": False}.get(straight), waypoints=waypoints(reader),
            alternatives=count))


def without_steps(found: Route) -> Route:
    """The options of a route, which has no steps where some of its coordinates are waypoints."""
    if found.waypoints is not None and found.has_steps:
        raise Refusal("InvalidOptions", "waypoints: not supported with steps")
    return found


def alternatives(reader: Reader) -> int:
    """How many alternatives a route may have, as OSRM has them between two coordinates alone."""
    text = reader.take("alternatives", "false")
    if not ALTERNATIVES.fullmatch(text):
        raise Refusal("InvalidQuery", "alternatives: true, false or a number")
    known = {"true": 1, "false": 0}.get(text)
    most = MOST_ALTERNATIVES if reader.count == 2 else 0
    return min(int(text) if known is None else known, most)


def waypoints(reader: Reader) -> tuple[int, ...] | None:
    """The indices of the coordinates that are waypoints, in order, the first and the last
    coordinate among them; None if all are."""
    if "waypoints" not in reader.given:
        return None
    found = tuple(sorted({*reader.indices("waypoints")}))
    if found[:1] != (0,) or found[-1] != reader.count - 1:
        raise Refusal("InvalidValue", "waypoints: the first and the last coordinate are waypoints")
    return found


def route_options(reader: Reader) -> Route:
    """The options of routes in all services."""
    geometries = reader.choice("geometries", *FORMS)
    overview = reader.choice("overview", "simplified", "full", "false")
    return Route(
        geometries, overview, reader.boolean("steps", False),
        route_annotations(reader.take("annotations", "false")))


def route_annotations(text: str) -> tuple[str, ...]:
    if text in ("true", "false"):
        return ANNOTATIONS if text == "true" else ()
    names = text.split(",", len(ANNOTATIONS))
    if not set(names) <= set(ANNOTATIONS):
        raise Refusal(
            "InvalidQuery", f"annotations: true, false or some of {', '.join(ANNOTATIONS)}")
    return tuple(name for name in ANNOTATIONS if name in names)


def trip(reader: Reader) -> Trip:
    """The options of a trip over all coordinates, in a short order."""
    if reader.count < 2:
        raise Refusal("InvalidOptions", "a trip has at least two coordinates")
    is_round = reader.boolean("roundtrip", True)
    source, destination = (
        reader.choice("source", "any", "first"), reader.choice("destination", "any", "last"))
    return Trip(route_options(reader), is_round, source == "first", destination == "last")


def match(reader: Reader) -> Match:
    """The roads of a track."""
    if reader.count < 2:
        raise Refusal("InvalidOptions", "a track has at least two coordinates")
    gaps, is_tidied = reader.choice("gaps", "split", "ignore"), reader.boolean("tidy", False)
    found = route_options(reader)._replace(waypoints=waypoints(reader))
    return Match(without_steps(found), timestamps(reader), gaps == "split", is_tidied)


def timestamps(reader: Reader) -> list[int] | None:
    """The seconds of a track's coordinates, in ascending order; None if there are none."""
    if "timestamps" not in reader.given:
        return None
    found = []
    for text in reader.elements("timestamps"):
        if not TIMESTAMP.fullmatch(text):
            raise Refusal("InvalidQuery", "timestamps: whole seconds from 0 on")
        found.append(int(text))
    if any(later < earlier for earlier, later in zip(found, found[1:])):
        raise Refusal("InvalidOptions", "timestamps: each is at least the one before")
    return found


def table(reader: Reader) -> Table:
    if reader.count < 2:
        raise Refusal("InvalidOptions", "a table has at least two coordinates")
    annotations = reader.choice(
        "annotations", "duration", "distance", "duration,distance", "distance,duration")
    scale = reader.number("scale_factor", reader.take("scale_factor", "1"))
    if not 0 < scale <= MOST_SCALE:
        raise Refusal("InvalidOptions", f"scale_factor: a number above 0, at most {MOST_SCALE:,}")
    fallback = (
        reader.number("fallback_speed", reader.take("fallback_speed", "0"))
        if "fallback_speed" in reader.given else None)
    if fallback is not None and not LEAST_SPEED <= fallback <= MOST_SPEED:
        raise Refusal(
            "InvalidOptions",
            f"fallback_speed: metres a second, from {LEAST_SPEED} to {MOST_SPEED:,}")
    is_between_inputs = reader.choice("fallback_coordinate", "input", "snapped") == "input"
    sources, destinations = reader.indices("sources"), reader.indices("destinations")
    return Table(
        sources, destinations, "duration" in annotations, "distance" in annotations, scale,
        fallback, is_between_inputs)


def nearest(reader: Reader) -> int:
    """The number of roads to find."""
    if reader.count != 1:
        raise Refusal("InvalidOptions", "nearest has one coordinate")
    number = reader.integer("number", reader.take("number", "1"))
    if not number:
        raise Refusal("InvalidOptions", "number: at least 1")
    return number


OF_SERVICE: dict[str, Callable[[Reader], Any]] = {
    "route": route, "table": table, "nearest": nearest, "trip": trip, "match": match}


def read(service: str, query: str, count: int) -> tuple[General, Any]:
    """The general options and those of the service, by the query of an address with so many
    coordinates. Clients send the same query again and again, so that what short ones say is
    kept."""
    return (
        known(service, query, count) if len(query) <= LONGEST_KEPT and count <= MOST_KEPT
        else read_anew(service, query, count))


def read_anew(service: str, query: str, count: int) -> tuple[General, Any]:
    """The same, of a query that is not kept."""
    reader = Reader(service, values_in(query), count)
    own = OF_SERVICE[service](reader)
    found = general(reader), own
    reader.finish()
    return found


known = functools.lru_cache(QUERIES_KEPT)(read_anew)
