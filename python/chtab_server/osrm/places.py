"""Places that were taken to roads, kept. Clients ask about the same places again and again, such as
a depot that is in every table, and to look for the nearest road takes longer than to read what was
found.
"""
from __future__ import annotations

import threading
from collections.abc import Callable, Sequence
from typing import TYPE_CHECKING, Any, NamedTuple, TypeAlias

import numpy

from chtab._roads.snapping import BACKWARD, FEW, FORWARD, Spots

if TYPE_CHECKING:
    from chtab._roads.snapping import Roads
    from chtab.typing import Floats, Integers, Point

# How many places are kept, each with about 1,500 bytes. Then all are looked for anew.
MOST = 1 << 13
# How many places have room at first.
ROOM = 64
# The columns of fractions: longitude and latitude on the road, metres, part of the road, and the
# longitude and latitude of the place; and those of whole numbers before the nodes: road and sides.
FRACTIONS, BEFORE_NODES = 6, 2
# The text of the waypoint of a spot, by its longitude, its latitude, its metres and its road.
Text: TypeAlias = "Callable[[float, float, float, int], str]"


class Stop(NamedTuple):
    """A place on a road in plain numbers: the road, the part of it, and its metres; and the ways
    out and in: the end of the road, 0 or 1, the node, and the weight up to there."""

    road: int
    part: float
    length: float
    outs: list[tuple[int, int, int]]
    ins: list[tuple[int, int, int]]


class Places:
    """The spots of places, and the texts of their waypoints, which `text_of` makes. Several threads
    may ask."""

    def __init__(self, roads: Roads, text_of: Text) -> None:
        self.roads, self.text_of, self.most, self.lock = roads, text_of, MOST, threading.Lock()
        self.begin()

    def begin(self) -> None:
        """Begins anew what is kept: the row of each place, and the rows."""
        ways = self.roads.ways
        self.outs, width = ways.outs, ways.nodes.shape[1]
        self.rows: dict[Point, int] = {}
        self.fractions: Floats = numpy.empty((ROOM, FRACTIONS))
        self.integers: Integers = numpy.empty((ROOM, BEFORE_NODES + 2 * width), numpy.int64)
        self.texts: list[str] = []
        self.stops: list[Stop | None] = []

    def found(self, coordinates: Sequence[Point]) -> tuple[Spots, list[str]]:
        """The spots of coordinates, (longitude, latitude) in degrees, and the texts of their
        waypoints."""
        with self.lock:
            rows = self.rows_of(coordinates)
            return self.spots(rows), [self.texts[row] for row in rows]

    def stops_of(self, coordinates: Sequence[Point]) -> tuple[list[Stop], list[str]]:
        """The same as stops."""
        with self.lock:
            rows = self.rows_of(coordinates)
            stops = [self.stops[row] or self.stop(row) for row in rows]
            return stops, [self.texts[row] for row in rows]

    def rows_of(self, coordinates: Sequence[Point]) -> list[int]:
        """The rows of coordinates, of which those that are not known are looked for."""
        known = self.rows
        try:
            return [known[place] for place in coordinates]
        except KeyError:
            if len(known) >= self.most:
                self.begin()
            self.look_for([place for place in dict.fromkeys(coordinates) if place not in self.rows])
            return [self.rows[place] for place in coordinates]

    def look_for(self, places: Sequence[Point]) -> None:
        """Takes places to roads, and keeps what is found."""
        fractions, integers = self.few(places) if len(places) <= FEW else self.many(places)
        first, last = len(self.texts), len(self.texts) + len(places)
        self.make_room(last)
        self.fractions[first:last], self.integers[first:last] = fractions, integers
        for (x, y, metres, *_), road in zip(fractions, (each[0] for each in integers)):
            self.texts.append(self.text_of(x, y, metres, road))
            self.stops.append(None)
        self.rows.update(zip(places, range(first, last)))

    def few(self, places: Sequence[Point]) -> tuple[list[Any], list[Any]]:
        """The columns of a few places, one by one."""
        self.roads.see_that_some()
        longitudes, latitudes = zip(*places)
        on_lines = self.roads.lines.nearest_few(numpy.array(longitudes), numpy.array(latitudes))
        found, sides = self.roads.few_on(longitudes, latitudes, on_lines), FORWARD | BACKWARD
        fractions = [(*each[:3], each.part, *place) for each, place in zip(found, places)]
        return fractions, [(each.road, sides, *each.nodes, *each.weights) for each in found]

    def many(self, places: Sequence[Point]) -> tuple[list[Any], list[Any]]:
        """The columns of several places."""
        spots = self.roads.find_any(*numpy.array(places).T)
        fractions = spots.longitudes, spots.latitudes, spots.metres, spots.parts, spots.places
        nodes, weights = (spots.out_nodes, spots.in_nodes), (spots.out_weights, spots.in_weights)
        integers = numpy.column_stack([spots.roads, spots.sides, *nodes, *weights])
        return numpy.column_stack(fractions).tolist(), integers.tolist()

    def make_room(self, count: int) -> None:
        """Makes room for so many rows."""
        room = len(self.fractions)
        if count > room:
            more = max(count, 2 * room) - room
            self.fractions, self.integers = (
                numpy.concatenate([kept, numpy.empty((more, kept.shape[1]), kept.dtype)])
                for kept in (self.fractions, self.integers))

    def spots(self, rows: list[int]) -> Spots:
        """The spots of some rows."""
        fractions, integers = self.fractions.take(rows, axis=0), self.integers.take(rows, axis=0)
        out, into, behind, end = self.cuts()
        x, y, metres, parts = fractions.T[:4]
        return Spots(
            x, y, metres, integers[:, 0], parts, integers[:, out:into], integers[:, behind:end],
            integers[:, into:behind], integers[:, end:], integers[:, 1], fractions[:, 4:],
            self.roads.origin)

    def cuts(self) -> tuple[int, int, int, int]:
        """Where the nodes out of roads begin among the columns of whole numbers, then the nodes
        into them, the weights out of them, and the weights into them."""
        behind = BEFORE_NODES + self.roads.ways.nodes.shape[1]
        return BEFORE_NODES, BEFORE_NODES + self.outs, behind, behind + self.outs

    def stop(self, row: int) -> Stop:
        """Makes the stop of a row, and keeps it."""
        part, numbers = float(self.fractions[row, 3]), self.integers[row].tolist()
        out, into, behind, end = self.cuts()
        outs = by_ends(numbers[out:into], numbers[behind:end])
        ins = by_ends(numbers[into:behind], numbers[end:])
        stop = Stop(numbers[0], part, float(self.roads.lines.metres[numbers[0]]), outs, ins)
        self.stops[row] = stop
        return stop


def by_ends(nodes: Sequence[int], weights: Sequence[int]) -> list[tuple[int, int, int]]:
    """The end of the road, the node and the weight of each node that there is. The first half of
    the nodes are at the end 0."""
    half, ways = len(nodes) // 2, enumerate(zip(nodes, weights))
    return [(int(place >= half), node, weight) for place, (node, weight) in ways if node > 0]
