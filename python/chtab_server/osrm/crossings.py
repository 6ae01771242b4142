"""Crossings: the ends of roads that meet there, the direction of each, and which of them are open
from which node.

The ends of roads are numbered: 2k is the end of road k at its first place, and 2k + 1 the one at
its last. A driver along road k leaves by the end 2k and arrives by the end 2k + 1, and a driver
back along it does the opposite. The number of an end therefore also says which way along the road
one leaves.
"""
from __future__ import annotations

from collections.abc import Callable, Hashable, Mapping
from typing import TYPE_CHECKING, NamedTuple

import numpy

from chtab.files import Street
from chtab._roads.leaving import narrow
from chtab._roads.lines import ranges
from chtab._roads.snapping import NONE

if TYPE_CHECKING:
    from chtab import files
    from chtab._roads.lines import Lines
    from chtab._roads.snapping import Roads
    from chtab.typing import Floats, Integers, Marks

# The direction of a road at its end is that of the point this many metres along it.
AHEAD = 10.0
RAMPS, FAST, FERRY = ("motorway_link", "trunk_link"), ("motorway", "trunk"), "ferry"


class Meeting(NamedTuple):
    """The ends of roads that meet at some crossings: for each end the place of its crossing, and
    the number of the end."""

    owners: Integers
    ends: Integers


def bearings(starts: Floats, ends: Floats) -> Integers:
    """The directions from places to others (n, 2) in whole degrees, clockwise from north; 0 if both
    are the same."""
    (x, y), (u, v) = numpy.radians(starts).T, numpy.radians(ends).T
    east = numpy.sin(u - x) * numpy.cos(v)
    north = numpy.cos(y) * numpy.sin(v) - numpy.sin(y) * numpy.cos(v) * numpy.cos(u - x)
    return numpy.rint(numpy.degrees(numpy.arctan2(east, north))).astype(numpy.int64) % 360


def turned(bearing: Integers, other: Integers) -> Integers:
    """The angle from one direction to another, from -180 to 179 degrees; above 0 is to the
    right."""
    return (other - bearing + 180) % 360 - 180


def leading(lines: Lines) -> Integers:
    """For each end of each line the direction in which the line leads away from it."""
    count = len(lines)
    shares = numpy.minimum(1.0, AHEAD / numpy.where(lines.metres > 0, lines.metres, 1.0))
    # The keys of the places of line k are from 2k to 2k + 1, so that one search serves all lines.
    keys = numpy.repeat(2.0 * numpy.arange(count), numpy.diff(lines.firsts)) + lines.parts
    found = numpy.empty((count, 2), numpy.int64)
    for side, parts, ends in (0, shares, lines.firsts[:-1]), (1, 1 - shares, lines.firsts[1:] - 1):
        after = numpy.searchsorted(keys, 2.0 * numpy.arange(count) + parts).clip(
            lines.firsts[:-1] + 1, lines.firsts[1:] - 1)
        wide = lines.parts[after] - lines.parts[after - 1]
        share = (
            ((parts - lines.parts[after - 1]) / numpy.where(wide > 0, wide, 1)).clip(0, 1)[:, None])
        ahead = lines.places[after - 1] + share * (lines.places[after] - lines.places[after - 1])
        found[:, side] = bearings(lines.places[ends], ahead)
    return found.reshape(-1)


class Crossings:
    """The crossings of some roads, whose arcs have streets, `files.Streets` or None. `copies` are
    the nodes that are copies of others."""

    def __init__(
        self, roads: Roads, copies: Mapping[int, int], streets: files.Streets | None = None,
    ) -> None:
        self.roads = roads
        self.streets = [Street(), *(streets.streets if streets else ())]
        self.side = streets and streets.side
        self.street_of_arc = narrow(
            numpy.array(streets.of_arcs, numpy.int64) if streets
            else numpy.zeros(len(roads.tails), numpy.int64))
        self.crossing = numpy.arange(len(roads.places) + 1)
        for copy, node in copies.items():
            self.crossing[copy] = node
        self.leads = narrow(leading(roads.lines))
        self.find_ends()
        self.find_open()
        self.judge_streets()

    def find_ends(self) -> None:
        """Finds the ends at each crossing, clockwise from north: those of crossing c are
        `ends[firsts[c]:firsts[c + 1]]`."""
        nodes = numpy.column_stack([self.roads.firsts, self.roads.lasts]).reshape(-1)
        self.ends = narrow(numpy.lexsort([numpy.arange(len(nodes)), self.leads, nodes]))
        self.firsts = numpy.searchsorted(nodes[self.ends], numpy.arange(len(self.crossing) + 1))

    def find_open(self) -> None:
        """Finds the ends of roads where a node can be left, for each node, and the street of each
        end: that of the arc of least weight, or if the road is closed that way the street of the
        opposite direction."""
        kept = numpy.flatnonzero(self.roads.road_of != NONE)
        ends = 2 * self.roads.road_of[kept] + self.roads.is_back[kept]
        tails = self.roads.tails[kept]
        self.open_keys = numpy.unique(
            numpy.append(tails << 32 | ends, self.behind_turns(tails, ends)))
        order = numpy.lexsort([kept, self.roads.weights[kept]])[::-1]
        known = numpy.full(len(self.leads), -1)
        known[ends[order]] = self.street_of_arc[kept[order]]
        self.street_of = narrow(
            numpy.where(known < 0, known.reshape(-1, 2)[:, ::-1].reshape(-1), known).clip(0))

    def behind_turns(self, tails: Integers, ends: Integers) -> Integers:
        """The keys of the nodes where roads end that have nodes of their own, as turns cost time.
        From such a node arcs along no road lead to the nodes where roads begin: `tails`, which are
        left by the ends beside them."""
        roads = self.roads
        is_tail = numpy.zeros(len(roads.places) + 1, bool)
        is_tail[tails] = True
        turns = numpy.flatnonzero((roads.road_of == NONE) & ~is_tail[roads.tails])
        order = numpy.argsort(tails, kind="stable")
        firsts = tails[order].searchsorted(roads.heads[turns])
        counts = tails[order].searchsorted(roads.heads[turns], "right") - firsts
        behind = ends[order][ranges(firsts, counts)]
        return numpy.repeat(roads.tails[turns], counts) << 32 | behind

    def judge_streets(self) -> None:
        """Finds which streets are rings, ramps, links, fast roads and ferries, and numbers that are
        equal for streets of the same kind, or with the same name."""
        def flags(test: Callable[[Street], bool]) -> Marks:
            return numpy.array([test(street) for street in self.streets], bool)

        def numbers(key: Callable[[Street], Hashable]) -> Integers:
            known: dict[Hashable, int] = {}
            return numpy.array([
                known.setdefault(key(street), len(known)) for street in self.streets])

        self.is_ring = flags(lambda street: bool(street.junction))
        self.is_ramp = flags(lambda street: street.highway in RAMPS)
        self.is_link = flags(lambda street: street.highway.endswith("_link"))
        self.is_fast = flags(lambda street: street.highway in FAST)
        self.is_ferry = flags(lambda street: street.highway == FERRY)
        self.is_called = flags(lambda street: bool(street.name or street.ref))
        self.kind, self.called = (
            numbers(lambda street: street.highway),
            numbers(lambda street: street.name or street.ref))

    def meeting(self, nodes: Integers) -> Meeting:
        """The ends that meet at the crossings of some nodes."""
        crossings = self.crossing[nodes]
        counts = self.firsts[crossings + 1] - self.firsts[crossings]
        return Meeting(
            numpy.repeat(numpy.arange(len(nodes)), counts),
            self.ends[ranges(self.firsts[crossings], counts)])

    def is_open(self, nodes: Integers, ends: Integers) -> Marks:
        """Whether each node can be left by the end beside it."""
        keys = nodes << 32 | ends
        at = numpy.searchsorted(self.open_keys, keys).clip(0, max(len(self.open_keys) - 1, 0))
        return self.open_keys[at] == keys if len(self.open_keys) else numpy.zeros(len(keys), bool)
