"""Alternatives to a best way between two spots, each over a node (Abraham, Delling, Goldberg and
Werneck 2013: Alternative routes in road networks).

A way over a node is the best way to it and the best way on from there. One is taken if it is little
longer than the best way, shares little with this and with those taken before, makes no detour that
is long by itself, and is locally optimal: each short part of it is a best way.
"""
from __future__ import annotations

from typing import TYPE_CHECKING, NamedTuple

import numpy

from chtab._engine.walks import Walks
from chtab._near import blocks
from chtab._near.question import NearQuestion
from chtab._roads.legs import FAR, Legs
from chtab._roads.snapping import NANOMETRE, NONE

if TYPE_CHECKING:
    from chtab._roads.snapping import Roads, Spots
    from chtab._roads.trips import Trips
    from chtab.typing import Integers

# How much longer than the best way an alternative may be, and each detour of it; how much of the
# best way it may share; and the part of the best way up to which its parts are best ways.
LONGER, SHARED, LOCAL = 1.25, 0.8, 0.25
# Nodes are looked for up to this part of the straight line beyond the box of both spots.
BEYOND = 0.5
# How many ways are looked at for each that is wanted; the part of all nodes from which on they are
# looked at all together; and the most nodes around two spots between which alternatives are found.
TRIED, SWEPT, MOST_NODES = 8, 100, 1 << 20


class Path(NamedTuple):
    """A way between two spots over nodes: its weight, the columns of the nodes where it leaves
    the first spot and comes to the last one, and its arcs."""

    weight: int
    out: int
    into: int
    arcs: Integers


class Between:
    """The alternatives between two spots, the first and only ones of `start` and `end`."""

    def __init__(self, trips: Trips, start: Spots, end: Spots) -> None:
        self.trips, self.roads, self.start, self.end = trips, trips.roads, start, end
        (self.outs, self.ins), (self.before, self.behind) = (
            (start.out_nodes[0], end.in_nodes[0]), (start.out_weights[0], end.in_weights[0]))

    def found(self, best: Path, most: int) -> list[Path]:
        """At most so many alternatives to the best way, the best ones first."""
        nodes, totals, plateaus = self.plateaus(best)
        if not len(nodes):
            return []
        own = numpy.isin(nodes, self.roads.heads[best.arcs])
        order = numpy.flatnonzero(~own)
        order = order[numpy.argsort((2 * totals - plateaus)[order], kind="stable")][:TRIED * most]
        taken = [best]
        ways = self.ways(nodes[order])
        for path, is_local in zip(ways, self.are_local(ways, nodes[order], best.weight)):
            if len(taken) <= most and is_local and self.is_apart(path, taken):
                taken.append(path)
        return taken[1:]

    # Nodes that ways may lead over.

    def plateaus(self, best: Path) -> tuple[Integers, Integers, Integers]:
        """Nodes with the weights of the ways over them, and of the plateaus that these are on: the
        longest parts of the ways that are on best ways from the start and to the end alike. Each
        plateau is there once, by its first node."""
        most = int(LONGER * best.weight)
        nodes = self.nearby()
        nodes = nodes if len(nodes) <= MOST_NODES else nodes[:0]
        come = self.weights(nodes, self.outs, self.before, most, True)
        go = self.weights(nodes, self.ins, self.behind, most, False)
        kept = (come <= most) & (go <= most)
        kept[kept] = come[kept] + go[kept] <= most
        nodes, come, go = nodes[kept], come[kept], go[kept]
        tails, heads = self.tight(nodes, come, go)
        first = chains(len(nodes), tails, heads)
        lengths = numpy.zeros(len(nodes), numpy.int64)
        numpy.maximum.at(lengths, first, come - come[first])
        firsts = numpy.unique(first)
        return nodes[firsts], (come + go)[firsts], lengths[firsts]

    def nearby(self) -> Integers:
        """The nodes around the two spots."""
        places = self.roads.places
        spots = self.start, self.end
        ends = numpy.array([[spot.longitudes[0], spot.latitudes[0]] for spot in spots])
        wide = numpy.array([1 / max(numpy.cos(numpy.radians(ends[0, 1])), 0.01), 1.0])
        more = BEYOND * numpy.hypot(*((ends[1] - ends[0]) / wide)) * wide
        low, high = ends.min(axis=0) - more, ends.max(axis=0) + more
        return numpy.flatnonzero(((places >= low) & (places <= high)).all(axis=1)) + 1

    def weights(
        self, nodes: Integers, places: Integers, added: Integers, most: int, is_from: bool,
    ) -> Integers:
        """The least weights from the places at which the way may begin to each node, each with
        what is added there, or from each node to those where it may end; `FAR` beyond a limit."""
        engine, own = self.trips.engine, places > 0
        # To sweep all nodes takes as long as to search from a few.
        is_swept = len(nodes) * SWEPT > engine.nodes
        found = numpy.full(engine.nodes if is_swept else len(nodes), FAR)
        if not len(nodes) or not own.any():
            return found[:len(nodes)]
        question = NearQuestion(None if is_swept else nodes, places[own], None, most, is_from)
        for start, rows in blocks.rows_by(engine, question):
            numpy.minimum.at(found, start + rows.owners(), rows.weights + added[own][rows.places])
        return found[nodes - 1] if is_swept else found

    def tight(self, nodes: Integers, come: Integers, go: Integers) -> tuple[Integers, Integers]:
        """The arcs between nodes, by the places of their ends, that are on best ways from the start
        and on best ways to the end."""
        roads = self.roads
        place = numpy.full(len(roads.places) + 1, NONE)
        place[nodes] = numpy.arange(len(nodes))
        tails, heads = place[roads.tails], place[roads.heads]
        kept = numpy.flatnonzero((tails >= 0) & (heads >= 0))
        tails, heads, weights = tails[kept], heads[kept], roads.weights[kept]
        is_tight = (come[tails] + weights == come[heads]) & (go[heads] + weights == go[tails])
        is_tight &= weights > 0
        return tails[is_tight], heads[is_tight]

    # Ways.

    def ways(self, nodes: Integers) -> list[Path]:
        """The best ways over some nodes."""
        engine, count = self.trips.engine, len(nodes)
        sides = []
        for others, added, is_out in (self.outs, self.before, True), (self.ins, self.behind, False):
            own = numpy.flatnonzero(others > 0)
            every = numpy.repeat(others[own], count), numpy.tile(nodes, len(own))
            pairs = numpy.column_stack(every)
            weights = engine.distances(pairs if is_out else pairs[:, ::-1]).reshape(len(own), count)
            totals = numpy.where(weights < 0, FAR // 4, weights + added[own][:, None])
            sides.append((own[totals.argmin(axis=0)], totals.min(axis=0)))
        (outs, come), (ins, go) = sides
        pairs = numpy.concatenate([
            numpy.column_stack([self.outs[outs], nodes]),
            numpy.column_stack([nodes, self.ins[ins]])])
        _, counts, arcs = engine.paths(pairs)
        firsts = numpy.append(0, numpy.cumsum(counts))
        parts = [arcs[first:last] for first, last in zip(firsts, firsts[1:])]
        return [
            Path(
                int(come[at] + go[at]), int(outs[at]), int(ins[at]),
                numpy.concatenate([parts[at], parts[count + at]])) for at in range(count)]

    def are_local(self, paths: list[Path], nodes: Integers, best: int) -> list[bool]:
        """Whether the part of each path from at most `LOCAL` of the best weight before its node to
        as far behind it is a best way, and the path leads along no road twice. Other parts of that
        length are parts of best ways."""
        roads, ends, weights = self.roads, numpy.ones((len(paths), 2), numpy.int64), []
        for at, path in enumerate(paths):
            walked = numpy.append(roads.tails[path.arcs[:1]], roads.heads[path.arcs])
            far = numpy.append(0, numpy.cumsum(roads.weights[path.arcs]))
            here = far[numpy.flatnonzero(walked == nodes[at])[0]] if len(walked) else 0
            low = int(numpy.searchsorted(far, here - LOCAL * best))
            high = int(numpy.searchsorted(far, here + LOCAL * best, "right")) - 1
            if len(walked):
                ends[at] = walked[low], walked[high]
            weights.append(int(far[high] - far[low]))
        known = self.trips.engine.distances(ends)
        return [
            weight == least and len(path.arcs) > 0 and self.is_simple(path)
            for path, weight, least in zip(paths, weights, known.tolist())]

    def is_simple(self, path: Path) -> bool:
        """Whether a path leads along no road twice, in whichever direction."""
        along = self.roads.road_of[path.arcs]
        # At an end of its road a spot is left, or come to, by any road.
        spots = self.start, self.end
        inside = [spot.roads[(spot.parts > 0) & (spot.parts < 1)] for spot in spots]
        along = numpy.concatenate([*inside, along[along != NONE]])
        return len(numpy.unique(along)) == len(along)

    def is_apart(self, path: Path, taken: list[Path]) -> bool:
        """Whether a path shares little enough with those that are taken, the best one first, and
        what it does not share with the best one is no long detour."""
        best = taken[0].weight
        keys, weights = self.pieces(path)
        before = [self.pieces(other) for other in taken]
        every = numpy.concatenate([other for other, _ in before])
        shared = int(weights[numpy.isin(keys, every)].sum())
        own = int(weights[~numpy.isin(keys, before[0][0])].sum())
        instead = int(before[0][1][~numpy.isin(before[0][0], keys)].sum())
        return path.weight <= LONGER * best and shared <= SHARED * best and own <= LONGER * instead

    def pieces(self, path: Path) -> tuple[Integers, Integers]:
        """What a path leads along, as numbers that are equal for the same road in the same
        direction, and the weights."""
        roads, half = self.roads, len(self.outs) // 2
        of_arcs = roads.road_of[path.arcs]
        keys = numpy.where(of_arcs == NONE, -1 - path.arcs, 2 * of_arcs + roads.is_back[path.arcs])
        first = 2 * self.start.roads + (path.out < half)
        last = 2 * self.end.roads + (2 * path.into >= len(self.ins))
        return (
            numpy.concatenate([first, keys, last]),
            numpy.concatenate([
                self.before[[path.out]], roads.weights[path.arcs], self.behind[[path.into]]]))


def chains(count: int, tails: Integers, heads: Integers) -> Integers:
    """For each of some nodes the first one of the chain of arcs that it is on, itself if there is
    none; of several arcs to a node one counts."""
    before = numpy.arange(count)
    before[heads] = tails
    while True:
        further = before[before]
        if (further == before).all():
            return before
        before = further


def legs_of(roads: Roads, start: Spots, end: Spots, paths: list[Path]) -> Legs:
    """Paths between two spots as legs."""
    count = len(paths)
    ends_of = [(path.out, path.into) for path in paths]
    outs, ins = numpy.array(ends_of, numpy.int64).T
    arcs = numpy.concatenate([path.arcs for path in paths])
    counts = numpy.array([len(path.arcs) for path in paths])
    firsts = numpy.append(0, numpy.cumsum(counts))
    weights = numpy.array([path.weight for path in paths])
    starts, ends = (spot[numpy.zeros(count, numpy.int64)] for spot in (start, end))
    leaves = (outs >= start.out_nodes.shape[1] // 2).astype(int)
    arrives = (2 * ins >= end.in_nodes.shape[1]).astype(int)
    walks = Walks(weights, firsts, roads.tails[arcs], roads.heads[arcs], roads.weights[arcs])
    nanometres = roads.nanometres[arcs].astype(numpy.int64)
    middle = numpy.diff(numpy.append(0, numpy.cumsum(nanometres))[firsts]) * NANOMETRE
    lengths = roads.lines.metres[start.roads], roads.lines.metres[end.roads]
    first, last = abs(leaves - start.parts) * lengths[0], abs(arrives - end.parts) * lengths[1]
    return Legs(
        roads, starts, ends, weights, numpy.ones(count, bool), start.out_nodes[0, outs], walks,
        arcs, leaves, arrives, start.out_weights[0, outs], end.in_weights[0, ins],
        first + middle + last)


def alternatives(trips: Trips, legs: Legs, leg: int, most: int) -> Legs | None:
    """At most so many alternatives to one of some legs, which is the best way between its spots;
    None if there are none."""
    if not legs.is_walk[leg]:
        return None
    start, end = legs.starts[leg], legs.ends[leg]
    between = Between(trips, start, end)
    first, last = legs.walks.firsts[leg:leg + 2]
    arcs = legs.arcs[first:last]
    begin = int(legs.first_nodes[leg])
    stop = int(trips.roads.heads[arcs[-1]]) if len(arcs) else begin
    out = column_of(start.out_nodes[0], start.out_weights[0], begin, int(legs.out_weights[leg]))
    into = column_of(end.in_nodes[0], end.in_weights[0], stop, int(legs.in_weights[leg]))
    paths = between.found(Path(int(legs.weights[leg]), out, into, arcs), most)
    return legs_of(trips.roads, start, end, paths) if paths else None


def column_of(nodes: Integers, weights: Integers, node: int, weight: int) -> int:
    """The column of a node with a weight."""
    return int(numpy.flatnonzero((nodes == node) & (weights == weight))[0])
