"""Tables between a few places, several at a time. What numpy does for one of them takes nearly as
long as for all, because its calls take longer than so few numbers.

They are the tables that `answering` makes of other questions, and formatted in the same way.
"""
from __future__ import annotations

from collections.abc import Iterator, Sequence
from typing import TYPE_CHECKING, Any, NamedTuple

import numpy

from chtab._roads.legs import FAR, FEW, NOWHERE
from chtab._roads.snapping import NANOMETRE
from chtab_server.osrm import cells

if TYPE_CHECKING:
    from chtab._roads.snapping import Roads, Spots
    from chtab._roads.trips import Trips
    from chtab_server.osrm import options
    from chtab.typing import Floats, Integers, Marks

# The digits of durations and of distances behind the point, and how many tables are made together.
DIGITS, OF_METRES, PART = 3, 1, 16


class Ways(NamedTuple):
    """The best ways of tables (k, n, n): the weights, `FAR` where there is none, and the metres,
    None where they are not asked for."""

    weights: Integers
    metres: Floats | None


def is_small(general: options.General, own: options.Table, count: int, roads: Roads) -> bool:
    """Whether a table of so many places is one from each of a few to each."""
    every = list(range(count))
    return (
        own.fallback is None and own.scale == 1
        and not (general.has_radiuses or general.has_bearings or general.has_curbs)
        and own.sources == every == own.destinations
        and count * max(roads.ways.outs, roads.ways.nodes.shape[1] - roads.ways.outs) <= FEW)


def rows_of(
    trips: Trips, spots: Spots, count: int, has_metres: bool,
) -> Iterator[tuple[str, str | None]]:
    """The durations of tables as texts of JSON, and their distances if they are asked for: each
    from so many of the spots to each of these."""
    for first in range(0, len(spots), PART * count):
        found = best_ways(trips, spots[first:first + PART * count], count, has_metres)
        is_there = found.weights < FAR
        durations = texts_of(found.weights, DIGITS, is_there)
        if found.metres is None:
            yield from ((text, None) for text in durations)
        else:
            lengths = numpy.rint(found.metres * 10**OF_METRES).astype(numpy.int64)
            yield from zip(durations, texts_of(lengths, OF_METRES, is_there))


def texts_of(numbers: Integers, digits: int, is_there: Marks) -> list[str]:
    """The texts of several tables of numbers of which so many digits lie behind the point."""
    if numbers.max(initial=0, where=is_there) < cells.MOST:
        return cells.tables(numbers, digits, is_there)
    return [cells.rows_of(each, digits, each_is) for each, each_is in zip(numbers, is_there)]


def best_ways(trips: Trips, spots: Spots, count: int, has_metres: bool) -> Ways:
    """The best ways of tables of so many of the spots each."""
    outs, ins = (by_ends(column, count) for column in (spots.out_nodes, spots.in_nodes))
    left, reached = (numpy.maximum(nodes, 1).reshape(len(nodes), -1) for nodes in (outs, ins))
    if not has_metres:
        found = numpy.array([trips.engine.table(*pair) for pair in zip(left, reached)])
        best = totals_of(found, spots, outs, ins).min(axis=0)
        stay_on_roads(trips.roads, spots, best, None)
        metres = None
    else:
        nanometres = trips.roads.nanometres
        known = [trips.engine.table_sums(*pair, nanometres) for pair in zip(left, reached)]
        found, along = (numpy.array([each[part] for each in known]) for part in (0, 1))
        totals, sums = totals_of(found, spots, outs, ins), by_ways(along, outs, ins)
        best, lengths, ways = least_of(totals, sums)
        metres = metres_of(trips.roads, spots, ways, lengths * NANOMETRE, ins.shape[1], len(totals))
        stay_on_roads(trips.roads, spots, best, metres)
    best[best > NOWHERE // 2] = FAR
    return Ways(best, metres)


def by_ends(column: Any, count: int) -> Any:
    """A column of spots (n, w) for each table by the ends of roads (k, w, `count`)."""
    return column.reshape(-1, count, column.shape[1]).transpose(0, 2, 1)


def by_ways(found: Any, outs: Integers, ins: Integers) -> Any:
    """Tables between nodes by ways (w, k, n, n): for each end to leave by, those to arrive by."""
    tables, width, count = outs.shape
    cells_of = found.reshape(tables, width, count, ins.shape[1], count).transpose(1, 3, 0, 2, 4)
    return cells_of.reshape(-1, tables, count, count)


def totals_of(found: Integers, spots: Spots, outs: Integers, ins: Integers) -> Integers:
    """The weights of all ways by nodes (w, k, n, n), by those between the nodes, to which it adds;
    at least `NOWHERE` where there is no way."""
    tables, count = len(outs), outs.shape[2]
    found[found < 0] = NOWHERE
    added = zip((outs, ins), (spots.out_weights, spots.in_weights))
    out, into = (numpy.where(nodes > 0, by_ends(some, count), NOWHERE) for nodes, some in added)
    found += out.reshape(tables, -1, 1)
    found += into.reshape(tables, 1, -1)
    totals: Integers = by_ways(found, outs, ins)
    return totals


def least_of(totals: Integers, sums: Any) -> tuple[Integers, Any, Integers]:
    """The least total of each cell, what is summed up along this way, and its number."""
    best, lengths, ways = totals[0].copy(), sums[0].copy(), numpy.zeros(totals[0].shape, int)
    for way in range(1, len(totals)):
        is_less = totals[way] < best
        numpy.copyto(best, totals[way], where=is_less)
        numpy.copyto(lengths, sums[way], where=is_less)
        ways[is_less] = way
    return best, lengths, ways


def metres_of(
    roads: Roads, spots: Spots, ways: Integers, between: Floats, ins: int, count: int,
) -> Floats:
    """The metres of ways by nodes, of which each has so many between these. There are `count` ways
    of each cell, for each end to leave by `ins` of them."""
    tables, size = ways.shape[:2]
    lengths, parts = roads.lines.metres[spots.roads], spots.parts
    # From the first end of a road, and from the last one.
    first, last = (
        (abs(end - parts) * lengths).reshape(tables, size) for end in (0, 1))
    leaves, arrives = ways >= count // 2, 2 * (ways % ins) >= ins
    before = numpy.where(leaves, last[:, :, None], first[:, :, None])
    found: Floats = before + between
    found += numpy.where(arrives, last[:, None], first[:, None])
    return found


def stay_on_roads(roads: Roads, spots: Spots, best: Integers, metres: Floats | None) -> None:
    """Puts the weights along single roads, and the metres there, in place of larger weights."""
    own = spots.roads.reshape(best.shape[:2])
    tables, rows, columns = (own[:, :, None] == own[:, None]).nonzero()
    before = tables * best.shape[1]
    along = roads.along_roads(spots, before + rows, spots, before + columns)
    is_less = (along >= 0) & (along < best[tables, rows, columns])
    tables, rows, columns = tables[is_less], rows[is_less], columns[is_less]
    best[tables, rows, columns] = along[is_less]
    if metres is not None:
        first, last = before[is_less] + rows, before[is_less] + columns
        lengths = roads.lines.metres[spots.roads[first]]
        metres[tables, rows, columns] = abs(spots.parts[last] - spots.parts[first]) * lengths
