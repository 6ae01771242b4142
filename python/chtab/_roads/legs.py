"""Legs of trips: the best ways between spots on roads, many at once in flat arrays, with their
lengths and lines.

A trip leaves the road of its first spot by a node at either end, and comes to the road of its last
spot by such a node. This makes several ways from spot to spot, one for each pair of these nodes,
and one more if both spots are on the same road. The leg is the best of these ways.
"""
from __future__ import annotations

from collections.abc import Sequence
from dataclasses import dataclass
from typing import TYPE_CHECKING, Any, NamedTuple

import numpy

from chtab._engine.walks import NO_WALK, Walks, cuts_of, ranges
from chtab.errors import mismatch
from chtab._roads.snapping import NANOMETRE, NONE, Roads, Spots

if TYPE_CHECKING:
    from chtab._roads.trips import Trips
    from chtab.typing import Floats, Integers, Marks

FAR = numpy.iinfo(numpy.int64).max
# More than any way weighs, and less than half of what a number holds.
NOWHERE = 1 << 61
# How many totals of a table are compared together.
CELLS = 1 << 20
# Up to this many nodes of spots are asked for as they are, though a node may occur twice: to find
# that out takes longer than a search.
FEW = 128


def totals(added: Integers, is_there: Marks, between: Integers, along: Integers) -> Integers:
    """The weights of all ways (n, m + 1), the last along a single road; `FAR` for no way."""
    weights = numpy.full((len(added), added.shape[1] + 1), FAR)
    weights[:, :-1][is_there] = numpy.where(between >= 0, between + added[is_there], FAR)
    weights[:, -1] = numpy.where(along >= 0, along, FAR)
    return weights


class Traces(NamedTuple):
    """The lines of several legs without repeated places: `firsts[k]` to `firsts[k + 1] - 1`."""

    # The places in degrees (n, 2), rounded to millionths; the weight and the metres up to each.
    places: Floats
    weights: Integers
    metres: Floats
    # The node at each place, 0 at a bend; before the first node the one behind, at last that ahead.
    nodes: Integers
    firsts: Integers


class Pieces(NamedTuple):
    """What legs lead along: leg k over the pieces `firsts[k]` to `firsts[k + 1] - 1`."""

    # Roads, `NONE` for an arc along none, from one part to another, and the weights.
    roads: Integers
    starts: Floats
    ends: Floats
    weights: Integers
    # The arcs, `NONE` on the first and last road of a leg; and the nodes behind, 0 at its end.
    arcs: Integers
    heads: Integers
    firsts: Integers


@dataclass(frozen=True)
class Legs:
    """The best ways from spot k of `starts` to spot k of `ends`, of a weight -1 if there is none:
    over walks between ends of roads, as `Between` has them, or along single roads."""

    roads: Roads
    starts: Spots
    ends: Spots
    weights: Integers
    is_walk: Marks
    first_nodes: Integers
    walks: Walks
    arcs: Integers
    leaves: Integers
    arrives: Integers
    out_weights: Integers
    in_weights: Integers
    metres: Floats

    def __len__(self) -> int:
        return len(self.weights)

    def nodes(self, leg: int) -> list[int]:
        """The nodes on a leg; none if it stays on a single road, or if there is no way."""
        if not self.is_walk[leg]:
            return []
        own = slice(*self.walks.firsts[leg:leg + 2])
        return [int(self.first_nodes[leg]), *self.walks.heads[own].tolist()]

    def pieces(self, which: Integers) -> Pieces:
        """What some legs lead along, each of which is a way."""
        is_walk, walk_firsts = self.is_walk[which], self.walks.firsts[which]
        arc_counts = self.walks.firsts[which + 1] - walk_firsts
        cuts = cuts_of(1 + arc_counts + is_walk)
        firsts, lasts, walked = cuts[:-1], (cuts[1:] - 1)[is_walk], which[is_walk]
        roads, weights = numpy.empty((2, cuts[-1]), numpy.int64)
        own, heads = numpy.full(len(roads), NONE), numpy.zeros(len(roads), numpy.int64)
        starts, ends = numpy.empty((2, len(roads)))
        roads[firsts], starts[firsts] = self.starts.roads[which], self.starts.parts[which]
        ends[firsts] = numpy.where(is_walk, self.leaves[which], self.ends.parts[which])
        weights[firsts] = numpy.where(is_walk, self.out_weights[which], self.weights[which])
        roads[lasts], weights[lasts] = self.ends.roads[walked], self.in_weights[walked]
        starts[lasts], ends[lasts] = self.arrives[walked], self.ends.parts[walked]
        heads[firsts] = self.first_nodes[which]
        between = ranges(firsts + 1, arc_counts)
        along = ranges(walk_firsts, arc_counts)
        arcs = self.arcs[along]
        roads[between], weights[between] = self.roads.road_of[arcs], self.walks.arc_weights[along]
        starts[between] = self.roads.is_back[arcs]
        ends[between] = ~self.roads.is_back[arcs]
        own[between], heads[between] = arcs, self.walks.heads[along]
        return Pieces(roads, starts, ends, weights, own, heads, cuts)

    def traces(self, which: Sequence[int]) -> Traces:
        """The lines of some legs, each of which has a way."""
        if not len(which):
            nothing = numpy.zeros(0, numpy.int64)
            metres, firsts = numpy.zeros(0), numpy.zeros(1, numpy.int64)
            return Traces(numpy.zeros((0, 2)), nothing, metres, nothing, firsts)
        numbers = numpy.asarray(which)
        return traced(self.roads, self.pieces(numbers), self.weights[numbers])


def traced(roads: Roads, pieces: Pieces, totals: Integers) -> Traces:
    """The traces of legs over some pieces, which weigh `totals`."""
    is_road, counts = pieces.roads != NONE, numpy.zeros(len(pieces.roads), numpy.int64)
    along = pieces.roads[is_road]
    found = roads.lines.stretches(along, pieces.starts[is_road], pieces.ends[is_road])
    counts[is_road] = found.counts
    piece = numpy.repeat(numpy.arange(len(counts)), counts)
    lengths = numpy.zeros(len(counts))
    lengths[is_road] = abs(pieces.ends - pieces.starts)[is_road] * roads.lines.metres[along]
    metres = sums_before(lengths, pieces.firsts)[piece] + found.shares * lengths[piece]
    weights = numpy.round(found.shares * pieces.weights[piece]).astype(numpy.int64)
    weights += sums_before(pieces.weights, pieces.firsts)[piece]
    cuts = cuts_of(counts)[pieces.firsts]
    weights[cuts[:-1]], weights[cuts[1:] - 1] = 0, totals
    # Of repeated places the last is kept, which includes the weight of pieces without a length.
    places, is_kept = found.places.round(6), numpy.ones(len(piece), bool)
    is_kept[:-1] = (places[1:] != places[:-1]).any(axis=1)
    is_kept[cuts[1:] - 1] = True
    nodes = nodes_of_places(roads, pieces, counts, cuts)[is_kept]
    firsts = cuts_of(is_kept)[cuts]
    return Traces(places[is_kept], weights[is_kept], metres[is_kept], nodes, firsts)


def nodes_of_places(roads: Roads, pieces: Pieces, counts: Integers, cuts: Integers) -> Integers:
    """The nodes of the places of pieces, `counts` of each, 0 at bends; legs are cut at `cuts`."""
    found, lasts = numpy.zeros(int(counts.sum()), numpy.int64), numpy.cumsum(counts)
    before = numpy.append(0, pieces.heads[:-1])[:len(counts)]
    with_places = counts > 0
    found[(lasts - counts)[with_places]] = before[with_places]
    found[lasts[with_places] - 1] = pieces.heads[with_places]
    first, ends = pieces.firsts[:-1], pieces.firsts[1:] - 1
    is_forward = pieces.starts <= pieces.ends
    found[cuts[:-1]] = beside(roads, pieces.roads[first], pieces.starts[first], is_forward[first])
    found[cuts[1:] - 1] = beside(roads, pieces.roads[ends], pieces.ends[ends], ~is_forward[ends])
    return found


def beside(roads: Roads, numbers: Integers, parts: Floats, is_below: Marks) -> Integers:
    """The first nodes of roads where `is_below`, and else the last; 0 where a bend comes before."""
    firsts, ends = roads.lines.firsts[numbers], roads.lines.firsts[numbers + 1]
    first, last = roads.lines.parts[firsts + 1], roads.lines.parts[ends - 2]
    is_straight = ends - firsts == 2
    low = numpy.where((parts < first) | is_straight, roads.firsts[numbers], 0)
    high = numpy.where((parts > last) | is_straight, roads.lasts[numbers], 0)
    return numpy.where(is_below, low, high)


def sums_before(column: Any, firsts: Integers) -> Any:
    """For each item the sum of those before it in its group, from `firsts[k]` to the next."""
    sums = column.cumsum() - column
    return sums - sums[firsts[:-1]].repeat(firsts[1:] - firsts[:-1])


def weights_of_ways(trips: Trips, starts: Spots, ends: Spots) -> Integers:
    """The weights of all ways from spot k to spot k (n, m + 1): by the nodes out of the first road
    and, for each, those into the last; then along a single road. `FAR` for none."""
    outs, ins = numpy.broadcast_arrays(starts.out_nodes[:, :, None], ends.in_nodes[:, None, :])
    pairs = numpy.stack([outs, ins], axis=-1).reshape(len(outs), outs[:1].size, 2)
    added = starts.out_weights[:, :, None] + ends.in_weights[:, None, :]
    added = added.reshape(pairs.shape[:2])
    is_there = (pairs > 0).all(axis=2)
    between = trips.engine.distances(pairs[is_there])
    return totals(added, is_there, between, trips.roads.along(starts, ends))


def best_ways(trips: Trips, starts: Spots, ends: Spots) -> tuple[Integers, Integers]:
    """The least weights of the ways from spot k to spot k, `FAR` for none, and their numbers."""
    weights = weights_of_ways(trips, starts, ends)
    return weights.min(axis=1, initial=FAR), weights.argmin(axis=1)


def table_ways(
    trips: Trips, starts: Spots, ends: Spots, within: int | None = None,
) -> tuple[Integers, Integers]:
    """The least weights of the ways from each spot to each (k, l), `FAR` for none; which."""
    if are_few(starts, ends):
        cells = few_totals(trips, starts, ends, within)
        best, ways = cells.min(axis=0), cells.argmin(axis=0)
    else:
        best, ways = many_ways(trips, starts, ends, within)
    stay_on_roads(trips.roads, starts, ends, best, ways)
    best[best > (NOWHERE // 2 if within is None else within)] = FAR
    return best, ways


def many_ways(
    trips: Trips, starts: Spots, ends: Spots, within: int | None,
) -> tuple[Integers, Integers]:
    """The least weights of the ways by nodes from each spot to each, and which way this is."""
    outs, out_place = different_nodes(starts.out_nodes)
    ins, in_place = different_nodes(ends.in_nodes)
    return least_ways(node_weights(trips, outs, ins, within), starts, out_place, ends, in_place)


def least_ways(
    nodes: Integers, starts: Spots, out_place: Integers, ends: Spots, in_place: Integers,
) -> tuple[Integers, Integers]:
    """The same by the weights between nodes, with the places of the spots' nodes there."""
    best, ways = numpy.empty((2, len(starts), len(ends)), numpy.int64)
    # Where turns are restricted few roads have nodes beside the first one of each end.
    out = (starts.out_nodes > 0).any(axis=0).nonzero()[0]
    into = (ends.in_nodes > 0).any(axis=0).nonzero()[0]
    columns, behind = in_place[:, into].reshape(-1), ends.in_weights[:, into].reshape(-1)
    numbers = (out[:, None] * in_place.shape[1] + into).reshape(-1)
    height = max(1, CELLS // max(1, len(columns) * len(out)))
    for first in range(0, len(starts), height):
        rows = slice(first, first + height)
        totals = nodes[out_place[rows][:, out].reshape(-1)].take(columns, axis=1)
        totals += starts.out_weights[rows][:, out].reshape(-1, 1)
        totals += behind
        best[rows], ways[rows] = least_of(totals, len(ends), len(out), numbers)
    return best, ways


def are_few(starts: Spots, ends: Spots) -> bool:
    """Whether the weights of all ways of a table take little memory."""
    return 0 < starts.out_nodes.size <= FEW and 0 < ends.in_nodes.size <= FEW


def few_totals(trips: Trips, starts: Spots, ends: Spots, within: int | None) -> Integers:
    """The weights of all ways by nodes (w, k, l), at least `NOWHERE` where there is none."""
    return few_ways(trips.engine.table(*few_nodes(starts, ends), within), starts, ends)


def few_nodes(starts: Spots, ends: Spots) -> tuple[Integers, Integers]:
    """The nodes where trips leave and arrive, spot after spot for each of a spot's nodes."""
    outs, ins = starts.out_nodes.T, ends.in_nodes.T
    return numpy.maximum(outs, 1).reshape(-1), numpy.maximum(ins, 1).reshape(-1)


def few_ways(found: Integers, starts: Spots, ends: Spots) -> Integers:
    """The weights of all ways (w, k, l) by those between these nodes, to which it adds."""
    outs, ins = starts.out_nodes.T, ends.in_nodes.T
    found[found < 0] = NOWHERE
    found += numpy.where(outs > 0, starts.out_weights.T, NOWHERE).reshape(-1, 1)
    found += numpy.where(ins > 0, ends.in_weights.T, NOWHERE).reshape(-1)
    return by_ways(found, starts, ends)


def by_ways(found: Any, starts: Spots, ends: Spots) -> Any:
    """A table between these nodes by ways (w, k, l)."""
    shape = *starts.out_nodes.T.shape, *ends.in_nodes.T.shape
    return found.reshape(shape).transpose(0, 2, 1, 3).reshape(-1, len(starts), len(ends))


def different_nodes(nodes: Integers) -> tuple[Integers, Integers]:
    """The nodes of spots (n, m), each once if there are many, and their places there (n, m)."""
    if nodes.size <= FEW:
        return nodes.reshape(-1), numpy.arange(nodes.size).reshape(nodes.shape)
    found, places = numpy.unique(nodes, return_inverse=True)
    return found, places.reshape(nodes.shape)


def node_weights(trips: Trips, outs: Integers, ins: Integers, within: int | None) -> Integers:
    """The weights from each node to each, `NOWHERE` if no way leads, or if one is missing."""
    is_out, is_in = outs > 0, ins > 0
    if is_out.all() and is_in.all():
        found = trips.engine.table(outs, ins, within)
    else:
        found = numpy.full((len(outs), len(ins)), -1)
        found[numpy.ix_(is_out, is_in)] = trips.engine.table(outs[is_out], ins[is_in], within)
    found[found < 0] = NOWHERE
    return found


def least_of(
    totals: Integers, width: int, outs: int, numbers: Integers,
) -> tuple[Integers, Integers]:
    """The least total of each cell, by starts and `outs`, and by ends and their ways."""
    height = len(totals) // outs if outs else 0
    if not (height and width and len(numbers)):
        return numpy.full((1, 1), FAR), numpy.zeros((1, 1), numpy.int64)
    cells = totals.reshape(height, outs, width, -1).transpose(1, 3, 0, 2)
    cells = cells.reshape(len(numbers), height, width)
    return cells.min(axis=0), numbers.take(cells.argmin(axis=0))


def stay_on_roads(roads: Roads, starts: Spots, ends: Spots, best: Integers, ways: Integers) -> None:
    """Puts the weights along single roads in place of larger ones, with this way's number."""
    rows, columns = (starts.roads[:, None] == ends.roads).nonzero()
    along = roads.along_roads(starts, rows, ends, columns)
    is_less = (along >= 0) & (along < best[rows, columns])
    rows, columns = rows[is_less], columns[is_less]
    best[rows, columns] = along[is_less]
    ways[rows, columns] = starts.out_nodes.shape[1] * ends.in_nodes.shape[1]


def legs_between(trips: Trips, starts: Spots, ends: Spots) -> Legs:
    """The legs from spot k of `starts` to spot k of `ends`; of their ways the best has a route."""
    return legs_by(trips, starts, ends, *best_ways(trips, starts, ends))


class Between(NamedTuple):
    """What ways from spot to spot lead over."""

    # Which ways have a walk between nodes, and the ends of roads that these leave and arrive by: 0
    # at the first place, 1 at the last.
    is_walk: Marks
    leaves: Integers
    arrives: Integers
    # The nodes of the walk (n, 2), and the weights before and behind it.
    pairs: Integers
    out_weights: Integers
    in_weights: Integers

    def see_that_right(self, between: Integers, best: Integers) -> None:
        """Refuses walks whose weights do not make their ways as heavy as they are."""
        if (between + self.out_weights + self.in_weights != best)[self.is_walk].any():
            raise mismatch()


def between_nodes(
    starts: Spots, rows: Integers, ends: Spots, columns: Integers, best: Integers, ways: Integers,
) -> Between:
    """What these ways of these weights lead over, from some of the spots to as many others."""
    half, width = starts.out_nodes.shape[1] // 2, ends.in_nodes.shape[1]
    is_walk = (best < FAR) & (ways < starts.out_nodes.shape[1] * width)
    outs, intos = numpy.divmod(ways if is_walk.all() else numpy.where(is_walk, ways, 0), width)
    pairs = numpy.column_stack([starts.out_nodes[rows, outs], ends.in_nodes[columns, intos]])
    sides = (outs >= half).astype(int), (2 * intos >= width).astype(int)
    return Between(
        is_walk, *sides, pairs, starts.out_weights[rows, outs], ends.in_weights[columns, intos])


def legs_by(trips: Trips, starts: Spots, ends: Spots, best: Integers, ways: Integers) -> Legs:
    """The legs by these ways of these weights. Routes that weigh something else are refused."""
    roads, legs = trips.roads, numpy.arange(len(best))
    over = between_nodes(starts, legs, ends, legs, best, ways)
    between, counts, arcs = numpy.zeros((3, len(best)), numpy.int64)
    which = over.is_walk
    between[which], counts[which], arcs = trips.engine.paths(over.pairs[which])
    over.see_that_right(between, best)
    weights, firsts = numpy.where(best < FAR, best, NO_WALK), cuts_of(counts)
    walks = Walks(weights, firsts, roads.tails[arcs], roads.heads[arcs], roads.weights[arcs])
    if (walks.sums(walks.arc_weights) != between)[which].any():
        raise mismatch()
    middle = walks.sums(roads.nanometres[arcs].view(numpy.int64)) * NANOMETRE
    metres = metres_of(roads, starts, legs, ends, legs, over, middle)
    return Legs(
        roads, starts, ends, weights, which, over.pairs[:, 0], walks, arcs, over.leaves,
        over.arrives, over.out_weights, over.in_weights, metres)


def metres_of(
    roads: Roads, starts: Spots, rows: Integers, ends: Spots, columns: Integers,
    found: Between, middle: Floats,
) -> Floats:
    """The lengths of legs whose walks are `middle` metres long; without a way they mean nothing."""
    of_first, of_last = roads.lines.metres[starts.roads], roads.lines.metres[ends.roads]
    first, last = starts.parts[rows], ends.parts[columns]
    before, behind = abs(found.leaves - first), abs(found.arrives - last)
    metres = before * of_first[rows] + middle + behind * of_last[columns]
    return numpy.where(found.is_walk, metres, abs(last - first) * of_first[rows])
