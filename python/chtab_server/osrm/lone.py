"""Routes between two places without lines: found and formatted by plain numbers, because it takes
longer to call numpy than to compute what they are asked for. The engine is asked for all of them at
once.

They are the routes that `answering` finds for other questions, and formatted in the same way.
"""
from __future__ import annotations

from collections.abc import Iterator, Sequence
from typing import TYPE_CHECKING, NamedTuple, TypeAlias

import numpy

from chtab.errors import mismatch
from chtab._engine.library import FEW
from chtab._roads.snapping import NANOMETRE, NONE

if TYPE_CHECKING:
    from chtab._roads.snapping import Roads
    from chtab._roads.trips import Trips
    from chtab_server.osrm import options
    from chtab_server.osrm.places import Stop

MILLISECONDS = 1_000
# A way out of a road, or into one: the end of the road, 0 or 1, the node, and the weight.
End: TypeAlias = "tuple[int, int, int]"


def is_lone(general: options.General, own: options.Route, count: int) -> bool:
    """Whether a question for a route over so many places may be answered here."""
    return (
        count == 2 and own.overview == "false" and not own.has_steps and not own.annotations
        and not own.alternatives and own.waypoints is None
        and not (general.has_radiuses or general.has_bearings or general.has_curbs))


class Way(NamedTuple):
    """A way between two stops: its weight, and the ends of roads that it leaves and arrives by;
    None if it is along a single road."""

    weight: int
    over: tuple[End, End] | None


def texts_of(trips: Trips, pairs: Sequence[tuple[Stop, Stop]]) -> list[str | None]:
    """The texts of the routes between pairs of stops; None where there is no way."""
    ways = ways_of(trips, pairs)
    metres = metres_of(trips, pairs, ways)
    return [None if way is None else text_of(way.weight, each) for way, each in zip(ways, metres)]


def ways_of(trips: Trips, pairs: Sequence[tuple[Stop, Stop]]) -> list[Way | None]:
    """The first of the best ways of each pair; None where there is none."""
    among = [[(out, into) for out in one.outs for into in other.ins] for one, other in pairs]
    sources = [out[1] for ends in among for out, _ in ends]
    targets = [into[1] for ends in among for _, into in ends]
    known = iter(distances(trips, sources, targets))
    return [best_way(trips.roads, *pair, ends, known) for pair, ends in zip(pairs, among)]


def best_way(
    roads: Roads, one: Stop, other: Stop, ends: Sequence[tuple[End, End]], known: Iterator[int],
) -> Way | None:
    """The first of the best ways between two stops, by the distances of the ends that it may lead
    over, which are the next ones of `known`."""
    best: Way | None = None
    for over, between in zip(ends, known):
        total = between + over[0][2] + over[1][2]
        if between >= 0 and (best is None or total < best.weight):
            best = Way(total, over)
    along = along_road(roads, one, other) if one.road == other.road else None
    return Way(along, None) if along is not None and (best is None or along < best.weight) else best


def distances(trips: Trips, sources: list[int], targets: list[int]) -> Sequence[int]:
    """The distances of some pairs of nodes, -1 where there is no walk."""
    if not sources:
        return []
    few = trips.engine.few_distances(sources, targets) if len(sources) <= FEW else None
    if few is not None:
        return few
    return trips.engine.distances(numpy.column_stack([sources, targets])).tolist()


def along_road(roads: Roads, one: Stop, other: Stop) -> int | None:
    """The weight along the road that both stops are on; None if no arc leads that way."""
    part = other.part - one.part
    weight = int((roads.forward if part >= 0 else roads.backward)[one.road])
    return None if weight == NONE and part else round(abs(part) * max(weight, 0))


def metres_of(
    trips: Trips, pairs: Sequence[tuple[Stop, Stop]], ways: Sequence[Way | None],
) -> list[float]:
    """The metres of some ways, 0 where there is none."""
    over = [way.over for way in ways if way is not None and way.over is not None]
    found: Iterator[tuple[int, int]] = iter(())
    if over:
        nodes = numpy.array([(out[1], into[1]) for out, into in over])
        weights, sums = trips.engine.sums(nodes, trips.roads.nanometres)
        found = zip(weights.tolist(), sums.tolist())
    return [0.0 if way is None else length(*pair, way, found) for pair, way in zip(pairs, ways)]


def length(one: Stop, other: Stop, way: Way, found: Iterator[tuple[int, int]]) -> float:
    """The metres of a way. One that leads over nodes has the next weight of `found`, and the
    nanometres there."""
    if way.over is None:
        return abs(other.part - one.part) * one.length
    out, into = way.over
    weight, between = next(found)
    if weight + out[2] + into[2] != way.weight:
        raise mismatch()
    first, last = abs(out[0] - one.part) * one.length, abs(into[0] - other.part) * other.length
    return first + between * NANOMETRE + last


def text_of(weight: int, metres: float) -> str:
    """The text of a route."""
    duration = weight / MILLISECONDS
    members = f'"distance": {round(metres, 1)}, "duration": {duration}, "weight": {duration}'
    leg = f'{{{members}, "summary": "", "steps": []}}'
    return f'{{{members}, "weight_name": "duration", "legs": [{leg}]}}'
