"""Places on roads. Each place is taken to the nearest point of the nearest road, and trips leave
and reach it by the ends of this road.

A road is a line with an arc along it, or with two of opposite directions: from `first` to `last`
with the weight `forward`, and back with `backward`. Where turns are restricted, a crossing has
several nodes, and several arcs lead along a road. The node at which a trip arrives then decides
which turns are open to it.
"""
from __future__ import annotations

import hashlib
import math
import numbers
from collections.abc import Iterator, Sequence
from dataclasses import dataclass, replace
from typing import TYPE_CHECKING, Any, NamedTuple

import numpy

from chtab._engine.walks import ranges
from chtab.errors import ChtabError, DataFault, TooFar
from chtab._files import row_index
from chtab._files.columns import degrees_in, see_that_long, quoted
from chtab._files.showing import SHOWN, table_of
from chtab._roads import sphere
from chtab._roads.bends import roads_of
from chtab._roads.leaving import NONE, Few, both_ways, ways_of
from chtab._roads.lines import Lines, metres_between

if TYPE_CHECKING:
    from numpy.typing import NDArray
    from chtab import files
    from chtab._roads.bends import Bends
    from chtab._roads.lines import OnLine
    from chtab.typing import Column, Floats, Integers, Marks

# The directions along a road in which trips may leave a spot and arrive at it, as a set of bits.
FORWARD, BACKWARD = 1, 2
# A place that is less than this many metres from an end of its road is at the end.
AT_END = 1.0
# Spots of two networks that are at most this many metres apart are at the same point.
SAME = 0.01
# Up to so many places are taken to roads one by one: to call numpy takes longer.
FEW = 3
# Metres in a nanometre.
NANOMETRE = 1e-9


def places_in(longitudes: Column, latitudes: Column) -> list[Floats]:
    """Two columns of degrees that go together; what is no degree is refused."""
    names = "longitudes", "latitudes"
    columns = zip(names, row_index.matched(names, (longitudes, latitudes)), (180, 90))
    found = [degrees_in(name, column, most) for name, column, most in columns]
    see_that_long(names, found)
    return found


def metres_in(max_metres: float | None) -> float:
    """The largest distance of a place from its road or node; infinity for None."""
    if max_metres is None:
        return math.inf
    if isinstance(max_metres, bool) or not isinstance(max_metres, numbers.Real):
        text = "max_metres is a number of metres, or None for any distance, not"
        raise TypeError(f"{text} {max_metres!r}")
    if not max_metres >= 0:
        text = "it is a number from 0 on, or None for any distance"
        raise ValueError(f"max_metres is {max_metres!r}: {text}")
    return float(max_metres)


def see_that_near(
    longitudes: Floats, latitudes: Floats, metres: Floats, max_metres: float, what: str,
) -> None:
    """Refuses places that are farther than `max_metres` from each road, or node."""
    far = numpy.flatnonzero(~(metres <= max_metres)).tolist()
    if far:
        place = f"{longitudes[far[0]]:.6f} {latitudes[far[0]]:.6f}"
        lengths = length_text(metres[far[0]]), length_text(max_metres)
        text = f"{place} is {lengths[0]} from the nearest {what}, more than {lengths[1]}"
        text += "; longitude comes first, then latitude"
        raise TooFar(text, {place: float(metres[place]) for place in far})


def length_text(metres: float) -> str:
    """A length as a person would write it: 640 m, 18.6 km, 5,467 km."""
    if metres < 999.5:
        return f"{metres:.0f} m"
    if metres < 99_950:
        return f"{metres / 1000:.1f}".removesuffix(".0") + " km"
    return f"{metres / 1000:,.0f} km"


class Origin(NamedTuple):
    """Where spots were found: digests of the network's roads and of the places of its nodes."""

    roads: bytes
    nodes: bytes = b""
    # How far a place may be from its road where it is found anew in another network.
    max_metres: float = math.inf


@dataclass(frozen=True, eq=False, repr=False)
class Spots:
    """Places on roads, in arrays with an item for each place.

    `longitudes` and `latitudes` are the points on the roads in degrees, and `metres` their
    distances from the places. Spot k is on road `roads[k]` at the part `parts[k]` of it (0 at
    `first`, 1 at `last`). Trips leave it by the nodes `out_nodes[k]` at the weights
    `out_weights[k]`, and arrive by `in_nodes[k]` at `in_weights[k]`, in whole numbers of the graph;
    `NONE` stands for no node. The first half of each of these are nodes of `first`, the second half
    nodes of `last`: one each, or several where turns are restricted. `sides[k]` has the directions
    in which trips may use the road at the spot, `FORWARD`, `BACKWARD` or both; the road itself may
    be closed in one of them.
    """

    longitudes: Floats
    latitudes: Floats
    metres: Floats
    roads: Integers
    parts: Floats
    out_nodes: Integers
    out_weights: Integers
    in_nodes: Integers
    in_weights: Integers
    sides: Integers
    # The places that were taken to roads, in degrees (n, 2), and where.
    places: Floats
    origin: Origin

    def __post_init__(self) -> None:
        for column in self.columns().values():
            column.flags.writeable = False

    def __repr__(self) -> str:
        return f"<{len(self):,} spots on roads>"

    def _repr_html_(self) -> str:
        names = "longitudes", "latitudes", "metres", "roads", "parts"
        columns = {name: getattr(self, name)[:SHOWN].tolist() for name in names}
        return table_of(repr(self), **columns)

    def columns(self) -> dict[str, NDArray[Any]]:
        """The arrays by their names."""
        return {name: each for name, each in vars(self).items() if isinstance(each, numpy.ndarray)}

    def __len__(self) -> int:
        return len(self.roads)

    def __getitem__(self, which: Any) -> Spots:
        """Some of them: by a slice, by an array of places, or the one of a place."""
        if isinstance(which, int | numpy.integer):
            which = [range(len(self))[which]]
        elif isinstance(which, list):
            which = numpy.asarray(which, None if which else numpy.int64)
        return replace(self, **{name: column[which] for name, column in self.columns().items()})

    def __iter__(self) -> Iterator[Spots]:
        """One spot after the other."""
        return (self[place] for place in range(len(self)))

    @staticmethod
    def joined(parts: Sequence[Spots]) -> Spots:
        """Joins spots of one network, one after the other."""
        columns = [part.columns() for part in parts]
        joined = {name: numpy.concatenate([each[name] for each in columns]) for name in columns[0]}
        return replace(parts[0], **joined)


def digest_of(*columns: NDArray[Any]) -> bytes:
    """A digest of some columns."""
    made = hashlib.blake2b(digest_size=16)
    for column in columns:
        made.update(numpy.ascontiguousarray(column).data)
    return made.digest()


class Roads:
    """The roads of a graph, from the nodes `firsts` to `lasts`, and their `lines`."""

    def __init__(self, graph: files.Graph, coordinates: files.Coordinates, bends: Bends) -> None:
        self.tails, self.heads, self.weights = (
            numpy.asarray(column, numpy.int64) for column in graph[1:4])
        self.ends = coordinates.ends()
        known = numpy.column_stack([coordinates.longitudes, coordinates.latitudes])
        self.places = numpy.full((graph.nodes, 2), numpy.nan)
        self.places[:len(known)] = known[:graph.nodes]
        self.lengths: NDArray[numpy.uint64] | None = None
        crossing = numpy.arange(graph.nodes + 1)
        for copy, node in coordinates.copies().items():
            crossing[copy] = node
        # The road of each arc, or NONE, and whether the arc leads back along it.
        self.road_of = numpy.full(len(self.tails), NONE)
        self.is_back = crossing[self.tails] > crossing[self.heads]
        self.find_roads(crossing[self.tails], crossing[self.heads], bends)
        self.find_ways()
        own = (
            self.tails, self.heads, self.weights, self.firsts, self.lasts, self.places,
            self.forward, self.backward, self.road_of, self.is_back)
        for column in own:
            column.flags.writeable = False
        lines = self.lines.places, self.lines.firsts, *self.ways[:2]
        self.origin = Origin(digest_of(*own, *lines), digest_of(self.places))

    def find_roads(self, tails: Integers, heads: Integers, bends: Bends) -> None:
        """Finds the roads by the crossings at both ends of arcs, those without bends first."""
        bent = bends.arcs
        firsts, lasts = self.straight(tails, heads, bent)
        numbers, self.is_back[bent], lines = roads_of(tails[bent], heads[bent], bends)
        self.road_of[bent] = len(firsts) + numbers
        # The first arc of each road with bends says where it leads.
        chosen = numpy.unique(numbers, return_index=True)[1]
        ends, inner = (tails[bent[chosen]], heads[bent[chosen]]), bends.counts[chosen]
        self.firsts = numpy.append(firsts, numpy.minimum(*ends))
        self.lasts = numpy.append(lasts, numpy.maximum(*ends))
        counts = numpy.append(numpy.full(len(firsts), 2), inner + 2)
        places, at = numpy.empty((counts.sum(), 2)), numpy.cumsum(counts) - counts
        places[at] = self.places[self.firsts - 1]
        places[at + counts - 1] = self.places[self.lasts - 1]
        starts = (numpy.cumsum(bends.counts) - bends.counts)[chosen]
        places[ranges(at + 1, counts - 2)] = lines[ranges(starts, inner)]
        self.lines = Lines(counts, places)

    def straight(
        self, tails: Integers, heads: Integers, bent: Integers,
    ) -> tuple[Integers, Integers]:
        """The ends of roads of arcs without bends, each pair of crossings once."""
        kept = tails != heads
        kept[bent] = False
        low, high = numpy.minimum(tails, heads)[kept], numpy.maximum(tails, heads)[kept]
        keys, self.road_of[kept] = numpy.unique(low << 32 | high, return_inverse=True)
        return keys >> 32, keys & 0xFFFFFFFF

    def find_ways(self) -> None:
        """Finds the nodes where trips leave roads and arrive, and the least weights both ways."""
        kept = self.road_of != NONE
        roads, is_back, weights = self.road_of[kept], self.is_back[kept], self.weights[kept]
        out = ways_of(roads, (~is_back).astype(int), self.heads[kept], weights, len(self))
        into = ways_of(roads, is_back.astype(int), self.tails[kept], weights, len(self))
        self.ways = both_ways(out, into)
        self.is_last = self.ways.is_last.tolist()
        least = numpy.full((2, len(self)), numpy.iinfo(numpy.int64).max)
        numpy.minimum.at(least, (is_back.astype(int), roads), weights)
        least[least == numpy.iinfo(numpy.int64).max] = NONE
        self.forward, self.backward = least

    def __len__(self) -> int:
        return len(self.firsts)

    @property
    def nanometres(self) -> NDArray[numpy.uint64]:
        """The length of the road of each arc in whole nanometres, 0 for an arc along no road."""
        if self.lengths is None:
            metres = numpy.append(self.lines.metres, 0.0)[self.road_of]
            whole = numpy.round(metres / NANOMETRE).astype(numpy.uint64)
            # Handles of the library keep them, and compare nothing where nobody can write to them.
            self.lengths = numpy.frombuffer(whole.tobytes(), numpy.uint64)
        return self.lengths

    # From places to roads.

    def find(
        self, longitudes: Column, latitudes: Column, max_metres: float | None = 1_000.0,
    ) -> Spots:
        """Takes places to roads; those farther than `max_metres` from each are refused."""
        most = metres_in(max_metres)
        longitudes, latitudes = places_in(longitudes, latitudes)
        spots = self.find_any(longitudes, latitudes)
        see_that_near(longitudes, latitudes, spots.metres, most, "road")
        return replace(spots, origin=self.origin._replace(max_metres=most))

    def own(self, name: str, spots: Any) -> Spots:
        """Spots of this network; those of another one with nodes at the same places, as a scenario
        has them, are found anew. Others are refused, and so are those on roads in one direction."""
        if not isinstance(spots, Spots):
            raise TypeError(f"{name} are Spots, as `snap` gives them, not {quoted(spots)}")
        if spots.origin.roads == self.origin.roads:
            return spots
        if spots.origin.nodes != self.origin.nodes or not (spots.sides == FORWARD | BACKWARD).all():
            text = "are spots of another network: `snap` of this one gives its own"
            raise DataFault(f"{name} {text}", name)
        longitudes, latitudes = spots.places.T
        return self.find(longitudes, latitudes, spots.origin.max_metres)

    def find_any(self, longitudes: Column, latitudes: Column) -> Spots:
        """Does the same for places at any distance from roads."""
        self.see_that_some()
        x, y = numpy.asarray(longitudes, float), numpy.asarray(latitudes, float)
        if not 0 < len(x) <= FEW:
            return self.spots_at(x, y, *self.lines.nearest(x, y))
        few = self.few_on(x.tolist(), y.tolist(), self.lines.nearest_few(x, y))
        columns = [numpy.array(column) for column in zip(*few)]
        at_x, at_y, metres, roads, parts, _, nodes, weights = columns
        places = numpy.column_stack([x, y])
        return self.spots_by(at_x, at_y, metres, roads, parts, nodes, weights, places)

    def few_on(
        self, longitudes: Sequence[float], latitudes: Sequence[float], found: Sequence[OnLine],
    ) -> list[Few]:
        """The spots of a few places at these points of roads, one by one."""
        roads, ways, few = [each.line for each in found], self.ways, []
        lengths = self.lines.metres.take(roads).tolist()
        columns = (column.take(roads, axis=0).tolist() for column in (ways.nodes, ways.weights))
        for place, (nodes, weights) in enumerate(zip(*columns)):
            (road, part, x, y), length = found[place], lengths[place]
            metres = sphere.metres_from(longitudes[place], latitudes[place], x, y)
            before, behind = part * length, (1 - part) * length
            if min(before, behind) < AT_END:
                part = 0.0 if before <= behind else 1.0
            if part in (0.0, 1.0):
                self.stay_at_node(nodes, weights, road, part == 0)
            else:
                shares = (1 - part if is_last else part for is_last in self.is_last)
                along = [round(share * weight) for share, weight in zip(shares, weights)]
                weights = [NONE if node == NONE else own for node, own in zip(nodes, along)]
            few.append(Few(x, y, metres, road, part, length, nodes, weights))
        return few

    def stay_at_node(self, nodes: list[int], weights: list[int], road: int, is_first: bool) -> None:
        """Gives a spot at an end of its road this node alone, at the weight 0."""
        begin, outs = int((self.firsts if is_first else self.lasts)[road]), self.ways.outs
        ins = len(nodes) - outs
        nodes[:] = weights[:] = [NONE] * len(nodes)
        out, into = (0, outs) if is_first else (outs // 2, outs + ins // 2)
        nodes[out], nodes[into] = begin, self.ends.get(begin, begin)
        weights[out] = weights[into] = 0

    def at_nodes(self, starts: Integers, ends: Integers, side: int) -> Spots:
        """Spots at nodes where trips start and end; they are on no road, alone or together."""
        count = len(starts)
        nothing, numbers = numpy.zeros((count, 1), numpy.int64), -2 - 2 * numpy.arange(count) - side
        places, sides = self.places[starts - 1], numpy.full(count, FORWARD | BACKWARD)
        x, y = places.T.copy()
        return Spots(
            x, y, numpy.zeros(count), numbers, numpy.zeros(count), starts[:, None], nothing,
            ends[:, None], nothing.copy(), sides, places, self.origin)

    def spots_at(
        self, longitudes: Column, latitudes: Column, roads: Integers, parts: Floats, xs: Floats,
        ys: Floats,
    ) -> Spots:
        """The spots of places at these parts of roads."""
        lengths = self.lines.metres[roads]
        # On a road of less than two metres the nearer end counts.
        before, behind = parts * lengths, (1 - parts) * lengths
        nearer_end = numpy.where(before <= behind, 0.0, 1.0)
        parts = numpy.where(numpy.minimum(before, behind) < AT_END, nearer_end, parts)
        return self.spots(numpy.column_stack([longitudes, latitudes]), xs, ys, roads, parts)

    def spots(
        self, places: Floats, longitudes: Floats, latitudes: Floats, roads: Integers, parts: Floats,
    ) -> Spots:
        """Makes the spots of places with their ways out and in, whose weights are rounded."""
        metres = metres_between(places[:, 0], places[:, 1], longitudes, latitudes)
        ways = self.ways
        nodes, weights = (column.take(roads, axis=0).astype(numpy.int64) for column in ways[:2])
        column = parts[:, None]
        along = numpy.where(ways.is_last, 1 - column, column)
        weights = numpy.where(nodes == NONE, NONE, numpy.rint(along * weights).astype(numpy.int64))
        at_node = numpy.flatnonzero((parts == 0) | (parts == 1))
        if len(at_node):
            self.stay_at_nodes(nodes, weights, at_node, roads[at_node], parts[at_node] == 0)
        return self.spots_by(longitudes, latitudes, metres, roads, parts, nodes, weights, places)

    def spots_by(
        self, x: Floats, y: Floats, metres: Floats, roads: Integers, parts: Floats,
        nodes: Integers, weights: Integers, places: Floats,
    ) -> Spots:
        """Spots with the nodes out of roads and then those into them, and with their weights."""
        outs, sides = self.ways.outs, numpy.full(len(roads), FORWARD | BACKWARD)
        out, into = (nodes[:, :outs], weights[:, :outs]), (nodes[:, outs:], weights[:, outs:])
        return Spots(x, y, metres, roads, parts, *out, *into, sides, places, self.origin)

    def see_that_some(self) -> None:
        """Refuses a graph without a road."""
        if not len(self):
            raise ChtabError("the graph has no road between two places")

    def stay_at_nodes(
        self, nodes: Integers, weights: Integers, at_node: Integers, roads: Integers,
        is_first: Marks,
    ) -> None:
        """Gives those of the spots that are at a node this node alone, at the weight 0."""
        begins, outs = numpy.where(is_first, self.firsts[roads], self.lasts[roads]), self.ways.outs
        stops = numpy.array([self.ends.get(node, node) for node in begins.tolist()], numpy.int64)
        nodes[at_node], weights[at_node] = NONE, NONE
        for there, first, width in (begins, 0, outs), (stops, outs, nodes.shape[1] - outs):
            column = first + numpy.where(is_first, 0, width // 2)
            nodes[at_node, column], weights[at_node, column] = there, 0

    def along(self, starts: Spots, ends: Spots) -> Integers:
        """The weights along the road that both spots are on, `NONE` if there is no such way."""
        found = numpy.full(len(starts), NONE)
        [same] = (starts.roads == ends.roads).nonzero()
        found[same] = self.along_roads(starts, same, ends, same)
        return found

    def along_roads(
        self, starts: Spots, rows: Integers, ends: Spots, columns: Integers,
    ) -> Integers:
        """The same from some spots of one list to as many of another, both on one road."""
        roads, parts = starts.roads[rows], ends.parts[columns] - starts.parts[rows]
        is_forward = parts >= 0
        weights = numpy.where(is_forward, self.forward[roads], self.backward[roads])
        may = starts.sides[rows] & ends.sides[columns] & numpy.where(is_forward, FORWARD, BACKWARD)
        is_there = (weights != NONE) & (may > 0) | (parts == 0)
        along = numpy.rint(abs(parts) * numpy.maximum(weights, 0))
        return numpy.where(is_there, along, NONE).astype(numpy.int64)

    # Spots and arcs on roads.

    def same_points(self, spots: Spots) -> tuple[Spots, Marks]:
        """Spots of this network at the points of others, and which of these are on a road here."""
        if spots.origin.roads == self.origin.roads:
            return spots, numpy.ones(len(spots), bool)
        if spots.origin.nodes != self.origin.nodes or not len(self):
            return spots, numpy.zeros(len(spots), bool)
        found = replace(self.find_any(*spots.places.T), sides=spots.sides)
        points = found.longitudes, found.latitudes, spots.longitudes, spots.latitudes
        return found, metres_between(*points) <= SAME

    # The lines of roads.

    def lines_of(self, starts: Integers, counts: Integers, arcs: Integers) -> list[Floats]:
        """The places along routes (n, 2), perhaps repeated: route k has `counts[k]` of the arcs."""
        is_along, cuts = self.road_of[arcs] != NONE, numpy.append(0, numpy.cumsum(counts))
        roads, sizes = self.road_of[arcs[is_along]], numpy.zeros(len(arcs) + 1, numpy.int64)
        places = self.lines.joined(roads, self.is_back[arcs[is_along]])
        sizes[1:][is_along] = self.lines.firsts[roads + 1] - self.lines.firsts[roads]
        firsts, stops = numpy.cumsum(sizes)[cuts], starts.copy()
        stops[counts > 0] = self.heads[arcs[cuts[1:][counts > 0] - 1]]
        begins, ends = self.places[starts - 1], self.places[stops - 1]
        parts = (places[first:last] for first, last in zip(firsts, firsts[1:]))
        return [numpy.vstack(each) for each in zip(begins, parts, ends)]

    def segments(self, arcs: Integers | None = None) -> tuple[Integers, Floats, Floats]:
        """The straight pieces of arcs, or of all, along roads: arcs, ends (n, 4), parts (n, 2)."""
        arcs = (self.road_of != NONE).nonzero()[0] if arcs is None else arcs
        roads, lines = self.road_of[arcs], self.lines
        counts = lines.firsts[roads + 1] - lines.firsts[roads] - 1
        steps = ranges(lines.firsts[roads], counts)
        is_back = numpy.repeat(self.is_back[arcs], counts)[:, None]
        ends = numpy.hstack([lines.places[steps], lines.places[steps + 1]])
        parts = numpy.column_stack([lines.parts[steps], lines.parts[steps + 1]])
        ends = numpy.where(is_back, ends[:, [2, 3, 0, 1]], ends)
        parts = numpy.where(is_back, 1 - parts[:, ::-1], parts)
        return numpy.repeat(arcs, counts), ends, parts
