"""Decides which ways of a map are roads for one way of travelling, how fast, and in which
direction."""
from __future__ import annotations

import array
import collections
import itertools
import math
import operator
from collections.abc import Collection, Iterator, Mapping, Sequence
from typing import TYPE_CHECKING, Any, NamedTuple

from chtab_maps import speeds, tags
from chtab_maps.signs import Streets

if TYPE_CHECKING:
    from chtab_maps.profiles import Profile
    from chtab_maps.reading import Relation
    from chtab_maps.report import Report
    from chtab.typing import Point

# A way can only be a road or a ferry if it has one of these keys.
ROAD_KEYS = ("highway", "route")
# The classes of ways that may be left out, as OSRM calls them.
CLASSES = "toll", "motorway", "ferry"
MOTORWAYS = "motorway", "motorway_link"
# The tag of a node with a traffic light, and that of the direction along its way in which it
# counts. https://wiki.openstreetmap.org/wiki/Tag:highway%3Dtraffic_signals
LIGHT, LIGHT_SIDE = "traffic_signals", "traffic_signals:direction"
SIDES = "forward", "backward"
# The place of a node that the map doesn't have.
NOWHERE = (math.nan, math.nan)


class Rule(NamedTuple):
    """The rule for a way by its tags: the kilometres an hour along it and against it, 0 if it is
    closed in that direction, and whether it is a ferry, of which `seconds` are those of the whole
    crossing, 0 if its tags don't say."""

    forward: float
    backward: float
    seconds: int
    is_ferry: bool = False


class Road(NamedTuple):
    """A way that is a road: its number in the map, its rule, and the numbers, longitudes and
    latitudes of its nodes, in order. A node that the map lacks is at `NOWHERE`. `streets` has the
    numbers of its streets along it and against it, or is None unless they are wanted."""

    number: int
    rule: Rule
    nodes: array.array[int]
    longitudes: array.array[float]
    latitudes: array.array[float]
    streets: tuple[int, int] | None = None


class Verdict(NamedTuple):
    """The rule of a way, None if it is no road, and the notes about it."""

    rule: Rule | None
    notes: tuple[tuple[str, str], ...]


def is_ferry(way: tags.Tags, profile: Profile) -> bool:
    return (
        "ferry" in tags.words_of(way.get("route", "")) and way.get("highway") not in profile.speeds)


def reason_against(way: tags.Tags, profile: Profile, notes: tags.Notes) -> tuple[str, str] | None:
    """The reason why a way is no road, as (kind, words); None if it is one."""
    kind, on_ferry = way.get("highway"), is_ferry(way, profile)
    if not on_ferry and kind not in profile.speeds and kind not in profile.speeds_where_opened:
        return "kinds", f"highway={kind}"
    closed = tags.has_one_of(way, profile.closed_by)
    if closed:
        return "closed", closed
    key, is_open = tags.deciding(way, profile.access, notes)
    if key and not is_open:
        return "closed", f"{key}={way[key]}"
    if not on_ferry and kind in profile.speeds_where_opened and key in (None, "access"):
        return "kinds", f"highway={kind}"
    if on_ferry and not key and any(other in way for other in profile.ferries_for_others):
        return "closed", "route=ferry for others"
    return None


def usual_speed(way: tags.Tags, profile: Profile) -> float:
    """The kilometres an hour of a road's kind."""
    if is_ferry(way, profile):
        return profile.ferry_speed
    return profile.speeds.get(way["highway"]) or profile.speeds_where_opened[way["highway"]]


def duration_of(way: tags.Tags, notes: tags.Notes) -> int:
    """The seconds of a ferry; 0 if its tags don't say."""
    seconds = speeds.seconds_of(way.get("duration", ""))
    if seconds is None:
        notes.append(("durations", f"duration={way['duration']}" if "duration" in way else ""))
    return seconds or 0


def class_of(way: tags.Tags, profile: Profile, classes: Collection[str]) -> str | None:
    """The tag that puts a way into one of some classes; None if it is in none of them."""
    if "toll" in classes and "yes" in tags.words_of(way.get("toll", "")):
        return f"toll={way['toll']}"
    if "motorway" in classes and way.get("highway") in MOTORWAYS:
        return f"highway={way['highway']}"
    return "route=ferry" if "ferry" in classes and is_ferry(way, profile) else None


def judged(
    way: tags.Tags, profile: Profile, with_ferries: bool = True, excluded: Collection[str] = (),
) -> Verdict:
    """The verdict on a way with these tags. Nothing is noted about ways that are neither a road nor
    a ferry of any kind."""
    notes: tags.Notes = []
    on_ferry = is_ferry(way, profile)
    if not on_ferry and "highway" not in way:
        return Verdict(None, ())
    if on_ferry and not with_ferries:
        return Verdict(None, (("ferries", ""),))
    reason = reason_against(way, profile, notes)
    if reason:
        return Verdict(None, (*notes, reason))
    left_out = class_of(way, profile, excluded)
    if left_out:
        return Verdict(None, (*notes, ("excluded", left_out)))
    direction = tags.direction_of(way, profile.oneway, notes)
    if direction is tags.BY_TIME:
        return Verdict(None, (*notes, ("by time", "")))
    usual = usual_speed(way, profile)
    sides = ("forward", direction != tags.AGAINST), ("backward", direction != tags.ALONG)
    forward, backward = (
        speeds.speed_of(way, side, usual, profile.limit, notes) if is_open else 0
        for side, is_open in sides)
    seconds = duration_of(way, notes) if on_ferry else 0
    return Verdict(Rule(forward, backward, seconds, on_ferry), tuple(dict.fromkeys(notes)))


class Survey:
    """What is kept of a map: the roads with the places of their nodes, barriers, and the relations
    that restrict turns."""

    def __init__(
        self, profile: Profile, report: Report, with_ferries: bool = True, with_names: bool = False,
        excluded: Collection[str] = (),
    ) -> None:
        self.profile, self.report, self.with_ferries, self.excluded = (
            profile, report, with_ferries, excluded)
        # The streets of roads, if they are wanted.
        self.streets = Streets() if with_names else None
        self.roads: list[Road] = []
        self.barriers: dict[int, tags.Tags] = {}
        self.relations: list[Relation] = []
        # The nodes with traffic lights, and those of `SIDES` in which each counts.
        self.lights: dict[int, Collection[str]] = {}
        # Nodes that may be on no road, but whose barriers are noted too.
        self.lone_nodes: set[int] = set()
        self.keys = {*profile.keys(), "toll"} if "toll" in excluded else profile.keys()
        self.barrier_keys = {"barrier", *profile.access.tags}
        self.verdicts: dict[Any, Verdict] = {}

    def verdict_on(self, way: tags.Tags) -> Verdict:
        """The verdict on a way with these tags, which is kept for other ways with the same relevant
        tags."""
        asked = frozenset(item for item in way.items() if item[0] in self.keys)
        if asked not in self.verdicts:
            self.verdicts[asked] = judged(
                dict(asked), self.profile, self.with_ferries, self.excluded)
        return self.verdicts[asked]

    def rule_by(self, verdict: Verdict, number: int) -> Rule | None:
        """The rule of a verdict on a way with this number. Its notes are counted."""
        self.report.note_all(verdict.notes, "way", number)
        return verdict.rule

    def streets_of(self, way: tags.Tags) -> tuple[int, int] | None:
        """The numbers of the streets of a road with these tags; None unless they are wanted."""
        return None if self.streets is None else self.streets.add(way)

    def add_way(
        self, number: int, rule: Rule, nodes: Sequence[int], longitudes: Sequence[float] = (),
        latitudes: Sequence[float] = (), streets: tuple[int, int] | None = None,
    ) -> None:
        """Adds a road through these nodes, with their places if they are known already. Repeated
        nodes are dropped."""
        if any(map(operator.eq, nodes, nodes[1:])):
            is_kept = [True, *map(operator.ne, nodes, nodes[1:])]
            nodes = list(itertools.compress(nodes, is_kept))
            longitudes, latitudes = (
                list(itertools.compress(part, is_kept)) for part in (longitudes, latitudes))
        if len(nodes) < 2:
            self.report.note("short", "", "way", number)
            self.lone_nodes.update(nodes)
        else:
            self.roads.append(
                Road(
                    number, rule, array.array("q", nodes), array.array("d", longitudes),
                    array.array("d", latitudes), streets))

    def place_roads(self, places: Mapping[int, Point]) -> None:
        """Adds the places of the roads' nodes, {number: (longitude, latitude)}, if they were not
        known when the roads were added."""
        for road in self.roads:
            longitudes, latitudes = zip(*(places.get(node, NOWHERE) for node in road.nodes))
            road.longitudes.extend(longitudes)
            road.latitudes.extend(latitudes)

    def add_node(self, number: int, node: tags.Tags) -> None:
        """Adds a node's barrier and traffic light, if it has them, by its tags."""
        if "barrier" in node:
            self.add_barrier(number, node)
        if node.get("highway") == LIGHT:
            side = node.get(LIGHT_SIDE)
            self.lights[number] = [side] if side in SIDES else SIDES

    def add_barrier(self, number: int, node: tags.Tags) -> None:
        """Adds a node with a barrier, by its tags."""
        self.barriers[number] = {
            key: value for key, value in node.items() if key in self.barrier_keys}

    def nodes(self) -> Iterator[int]:
        """Yields the nodes of the roads, one road after the other."""
        return itertools.chain.from_iterable(road.nodes for road in self.roads)

    def closed_nodes(self) -> set[int]:
        """The nodes of roads that a barrier closes. They are noted, and so are unknown kinds of
        barrier."""
        closed: set[int] = set()
        for number in sorted(
            set(self.barriers).intersection(itertools.chain(self.nodes(), self.lone_nodes))):
            notes: tags.Notes = []
            barrier = self.barriers[number]
            if tags.is_closed_barrier(barrier, self.profile.barriers, notes):
                closed.add(number)
                notes.append(("barriers", f"barrier={barrier['barrier']}"))
            self.report.note_all(notes, "node", number)
        return closed

    def note_ways_that_come_twice(self) -> None:
        """Notes each road with the number of an earlier road. Both are kept."""
        counts = collections.Counter(road.number for road in self.roads)
        for number, count in counts.items():
            for _ in range(count - 1):
                self.report.note("twice", "way", "way", number)
