"""Routes that go straight on at their stops: where the driver comes along a road, the next leg goes
on in the same direction.

A stop in the middle of a road is reached in one of two directions, and left in one of them. Of all
choices those are taken that turn round at the fewest stops, and of these the shortest. A stop at an
end of its road, which is a crossing or a dead end, may be left by each road.
"""
from __future__ import annotations

from collections.abc import Sequence
from typing import TYPE_CHECKING, TypeAlias

import numpy

from chtab._roads.legs import FAR, weights_of_ways

if TYPE_CHECKING:
    from chtab._roads.snapping import Spots
    from chtab._roads.trips import Trips
    from chtab.typing import Integers, Marks

# The directions in which a stop is left or reached: towards the last place of its road, or towards
# the first one.
FORWARD, BACKWARD = 0, 1
SIDES = FORWARD, BACKWARD
# How often a route turns round, its weight, and the ways of its legs so far, the last one first: a
# pair of the way and of those before it.
Best: TypeAlias = "tuple[int, int, tuple[int, object] | None]"


def straight_ways(
    trips: Trips, starts: Spots, ends: Spots, routes: Sequence[list[int]],
) -> tuple[Integers, Integers]:
    """The weights of the legs from spot k of `starts` to spot k of `ends`, `FAR` where there is
    none, and which of their ways are taken. Each of `routes` has the numbers of its legs, of which
    each begins where the one before ends."""
    weights = weights_of_ways(trips, starts, ends)
    best, ways = weights.min(axis=1, initial=FAR), weights.argmin(axis=1)
    inner = [route for route in routes if len(route) > 1]
    if inner:
        which = numpy.concatenate([numpy.array(route) for route in inner])
        least, of_sides = by_sides(weights[which], starts[which], ends[which])
        first = 0
        for route in inner:
            own = slice(first, first + len(route))
            taken = straight(least[own].tolist(), of_sides[own].tolist())
            if taken is not None:
                ways[route] = taken
            first += len(route)
        best[which] = weights[which, ways[which]]
    return best, ways


def by_sides(weights: Integers, starts: Spots, ends: Spots) -> tuple[Integers, Integers]:
    """The least weight of the ways of each leg that leave in one direction and arrive in one (n, 2,
    2), and which way that is."""
    outs, ins = starts.out_nodes.shape[1] // 2, ends.in_nodes.shape[1] // 2
    cells = weights[:, :-1].reshape(len(weights), 2 * outs, 2 * ins)
    numbers = numpy.arange(4 * outs * ins).reshape(2 * outs, 2 * ins)
    least, ways = numpy.empty((2, len(weights), 2, 2), numpy.int64)
    # Who leaves forward leaves by the road's last place, and who arrives forward comes by its first
    # one.
    for leave, out in (FORWARD, slice(outs, None)), (BACKWARD, slice(outs)):
        for arrive, into in (FORWARD, slice(ins)), (BACKWARD, slice(ins, None)):
            part = cells[:, out, into].reshape(len(weights), -1)
            least[:, leave, arrive], ways[:, leave, arrive] = (
                part.min(axis=1), numbers[out, into].reshape(-1)[part.argmin(axis=1)])
    along, parts = weights[:, -1], ends.parts - starts.parts
    for side, is_so in (FORWARD, parts >= 0), (BACKWARD, parts <= 0):
        take(
            least[:, side, side], ways[:, side, side], is_so & (along < least[:, side, side]),
            along, weights.shape[1] - 1)
    free(least, ways, starts, 1)
    free(least, ways, ends, 2)
    return least, ways


def take(
    least: Integers, ways: Integers, is_less: Marks, others: Integers, number: Integers | int,
) -> None:
    """Puts other weights, and the numbers of their ways, in the place of those that are more."""
    least[is_less] = others[is_less]
    ways[is_less] = number[is_less] if isinstance(number, numpy.ndarray) else number


def free(least: Integers, ways: Integers, spots: Spots, axis: int) -> None:
    """Lets those of the spots that are at an end of their road be left, or reached, in each
    direction."""
    some = numpy.flatnonzero((spots.parts == 0) | (spots.parts == 1))
    if not len(some):
        return
    cells, numbers = least[some], ways[some]
    better = cells.argmin(axis=axis, keepdims=True)
    least[some], ways[some] = (
        numpy.take_along_axis(cells, better, axis), numpy.take_along_axis(numbers, better, axis))


def straight(least: list[list[list[int]]], ways: list[list[list[int]]]) -> list[int] | None:
    """The ways of the legs of a route that turns round at the fewest stops, and among these of the
    least weight; None if a leg has no way."""
    found: list[Best | None] = [(0, 0, None), (0, 0, None)]
    for weights, numbers in zip(least, ways):
        reached: list[Best | None] = [None, None]
        for came, leave, arrive in (
            (came, leave, arrive) for came in SIDES for leave in SIDES for arrive in SIDES
        ):
            before, weight = found[came], weights[leave][arrive]
            if before is None or weight == FAR:
                continue
            turns, total = before[0] + (came != leave and before[2] is not None), before[1] + weight
            known = reached[arrive]
            if known is None or (turns, total) < known[:2]:
                reached[arrive] = turns, total, (numbers[leave][arrive], before[2])
        found = reached
    last = min(
        (each for each in found if each is not None), key=lambda each: each[:2], default=None)
    return None if last is None else unrolled(last[2])


def unrolled(chain: tuple[int, object] | None) -> list[int]:
    """The ways of a chain, the first one first."""
    listed: list[int] = []
    while chain is not None:
        way, chain = chain  # type: ignore[assignment]
        listed.append(way)
    return listed[::-1]
