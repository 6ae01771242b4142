"""The least weights of tables of trips, and how long the ways of some of their cells are."""
from __future__ import annotations

from typing import TYPE_CHECKING, Any

import numpy

from chtab._roads.legs import (
    FAR, NOWHERE, are_few, between_nodes, by_ways, different_nodes, few_nodes, few_totals, few_ways,
    least_ways, metres_of, stay_on_roads, table_ways,
)
from chtab._roads.snapping import NANOMETRE

if TYPE_CHECKING:
    from chtab._roads.snapping import Roads, Spots
    from chtab._roads.trips import Trips
    from chtab.typing import Floats, Integers

# How many cells' metres are found at once, and the most cells between nodes that are asked for at
# once.
BATCH, MOST = 1 << 17, 1 << 24


def table_weights(trips: Trips, starts: Spots, ends: Spots) -> Integers:
    """The least weights of `table_ways` alone, which takes less time where there are few."""
    if not are_few(starts, ends):
        return table_ways(trips, starts, ends)[0]
    best: Integers = few_totals(trips, starts, ends, None).min(axis=0)
    if starts is ends and len({*starts.roads.tolist()}) == len(starts):
        # Each spot has a road for itself.
        best.reshape(-1)[::len(starts) + 1] = 0
    else:
        stay_on_roads(trips.roads, starts, ends, best, numpy.empty_like(best))
    best[best > NOWHERE // 2] = FAR
    return best


def weights_and_metres(trips: Trips, starts: Spots, ends: Spots) -> tuple[Integers, Floats]:
    """The least weights of a table, `FAR` for no way, and the metres of its ways. The same calls of
    the library give both, and as many searches as the weights alone."""
    if are_few(starts, ends):
        return few_with_metres(trips, starts, ends)
    cells = int((starts.out_nodes > 0).sum()) * int((ends.in_nodes > 0).sum())
    height = max(1, len(starts) * MOST // max(1, cells))
    rows = (slice(first, first + height) for first in range(0, len(starts), height))
    found = [many_with_metres(trips, starts[some], ends) for some in rows]
    best, metres = (numpy.concatenate(parts) for parts in zip(*found))
    return best, metres


def few_with_metres(trips: Trips, starts: Spots, ends: Spots) -> tuple[Integers, Floats]:
    """The same of a few spots."""
    found = trips.engine.table_sums(*few_nodes(starts, ends), trips.roads.nanometres)
    cells, sums = few_ways(found[0], starts, ends), by_ways(found[1], starts, ends)
    best, ways = cells.min(axis=0), cells.argmin(axis=0)
    lengths = numpy.take_along_axis(sums, ways[None], axis=0)[0]
    return best, metres_of_cells(trips.roads, starts, ends, best, ways, lengths)


def many_with_metres(trips: Trips, starts: Spots, ends: Spots) -> tuple[Integers, Floats]:
    """The same of many spots, whose nodes are searched from once each."""
    outs, out_place = different_nodes(starts.out_nodes)
    ins, in_place = different_nodes(ends.in_nodes)
    nodes, sums = node_sums(trips, outs, ins)
    best, ways = least_ways(nodes, starts, out_place, ends, in_place)
    out, into = numpy.divmod(ways, ends.in_nodes.shape[1])
    rows, columns = numpy.arange(len(starts))[:, None], numpy.arange(len(ends))
    lengths = sums[out_place[rows, out], in_place[columns, into]]
    return best, metres_of_cells(trips.roads, starts, ends, best, ways, lengths)


def node_sums(trips: Trips, outs: Integers, ins: Integers) -> tuple[Integers, Any]:
    """The weights from each node to each, `NOWHERE` if no way leads, or if one is missing, and the
    nanometres along these ways."""
    is_out, is_in = outs > 0, ins > 0
    weights = numpy.full((len(outs), len(ins)), NOWHERE)
    sums = numpy.zeros(weights.shape, numpy.uint64)
    found = trips.engine.table_sums(outs[is_out], ins[is_in], trips.roads.nanometres)
    found[0][found[0] < 0] = NOWHERE
    there = numpy.ix_(is_out, is_in)
    weights[there], sums[there] = found
    return weights, sums


def metres_of_cells(
    roads: Roads, starts: Spots, ends: Spots, best: Integers, ways: Integers, lengths: Any,
) -> Floats:
    """The metres of the way of each cell, if it has one, by the nanometres between nodes; puts ways
    along single roads, and `FAR`, into the weights."""
    stay_on_roads(roads, starts, ends, best, ways)
    best[best > NOWHERE // 2] = FAR
    rows, columns = numpy.nonzero(best < FAR)
    metres = numpy.zeros(best.shape)
    for first in range(0, len(rows), BATCH):
        row, column = rows[first:first + BATCH], columns[first:first + BATCH]
        some = row, column
        over = between_nodes(starts, row, ends, column, best[some], ways[some])
        between = numpy.where(over.is_walk, lengths[some], 0) * NANOMETRE
        metres[some] = metres_of(roads, starts, row, ends, column, over, between)
    return metres
