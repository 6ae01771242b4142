"""Finds short orders of places for a trip over all of them (the asymmetric travelling salesman
problem).

For few places each order is tried. For more, the nearest place comes next, and then the order is
improved as long as that helps, by reversing a stretch (Croes 1958) or by moving a stretch of up to
three places (Or 1976). This is a heuristic, so a shorter order may exist.
"""
from __future__ import annotations

import itertools
from collections.abc import Callable
from typing import TYPE_CHECKING, TypeAlias

import numpy

if TYPE_CHECKING:
    from chtab.typing import Integers

# The length that a change adds to a round trip, and a function that makes the changed order.
Change: TypeAlias = "tuple[int, Callable[[], Integers]]"

# The most places, one of them fixed, for which each order is tried; and the most places that are
# moved together.
FEW, STRETCH = 8, 3
# The cost of a missing way, small enough that the sum over all places fits into 64 bits.
NONE = 1 << 48


def tour(
    costs: Integers, is_round: bool = True, is_first_fixed: bool = False,
    is_last_fixed: bool = False,
) -> Integers:
    """Finds an order of all places, 0 to n - 1.

    Parameters
    ----------
    costs : array of int64, shape (n, n)
        The cost from each place to each other, from 0 on; below 0 if there is no way.
    is_round : bool
        Whether the way from the last place back to the first counts.
    is_first_fixed, is_last_fixed : bool
        Whether place 0 comes first, and place n - 1 last.

    Returns
    -------
    array of int64, shape (n,)
        Each place once.
    """
    count = len(costs)
    links = numpy.where(costs < 0, NONE, numpy.minimum(costs, NONE))
    if is_round:
        if is_first_fixed and is_last_fixed and count > 1:
            links[-1, 1:] = links[:-1, 0] = NONE
        found = circle(links)
        first = found.tolist().index(count - 1) + 1 if is_last_fixed else found.tolist().index(0)
        return numpy.roll(found, -first)
    # An additional place without costs connects the end to the start.
    wider = numpy.zeros((count + 1, count + 1), numpy.int64)
    wider[:-1, :-1] = links
    if is_first_fixed:
        wider[-1, 1:-1] = NONE
    if is_last_fixed:
        wider[:-2, -1] = NONE
    found = circle(wider)
    return numpy.roll(found, -found.tolist().index(count))[1:]


def circle(links: Integers) -> Integers:
    """A round trip over all places, from any start."""
    count = len(links)
    if count <= FEW:
        return best_of_all(links)
    return improved(links, nearest_next(links))


def best_of_all(links: Integers) -> Integers:
    """The shortest of all orders that start with place 0."""
    orders = numpy.array(
        [(0, *rest) for rest in itertools.permutations(range(1, len(links)))], numpy.int64)
    return orders[links[orders, numpy.roll(orders, -1, axis=1)].sum(axis=1).argmin()]


def nearest_next(links: Integers) -> Integers:
    """The order in which the nearest remaining place comes next."""
    left, order = numpy.ones(len(links), bool), [0]
    for _ in range(len(links) - 1):
        left[order[-1]] = False
        others = numpy.flatnonzero(left)
        order.append(int(others[links[order[-1], others].argmin()]))
    return numpy.array(order)


def improved(links: Integers, order: Integers) -> Integers:
    """Improves an order by the best change each time, until none helps."""
    while True:
        changes = [
            turned_round(links, order),
            *(moved(links, order, length) for length in range(1, STRETCH + 1))]
        gain, better = min(changes, key=lambda change: change[0])
        if gain >= 0:
            return order
        order = better()


def turned_round(links: Integers, order: Integers) -> Change:
    """The best reversal of a stretch: the length that it adds, and a function that makes the order.
    The first place stays."""
    count, ahead = len(order), numpy.roll(order, -1)
    forth, back = (
        numpy.append(0, numpy.cumsum(column))
        for column in (links[order, ahead], links[ahead, order]))
    places = numpy.arange(1, count)
    first, last = places[:, None], places[None, :]
    before = order[first - 1]
    after = ahead[last]
    gains = links[before, order[last]] - links[before, order[first]] + links[
        order[first], after] - links[order[last], after]
    gains = gains + (back[last] - back[first]) - (forth[last] - forth[first])
    gains[first >= last] = 1
    at = int(gains.argmin())
    start, stop = at // (count - 1) + 1, at % (count - 1) + 1
    return (
        int(gains.min()),
        lambda: numpy.concatenate([order[:start], order[start:stop + 1][::-1], order[stop + 1:]]))


def moved(links: Integers, order: Integers, length: int) -> Change:
    """The best move of a stretch with this many places between two others, in the same form."""
    count, ahead = len(order), numpy.roll(order, -1)
    first = numpy.arange(1, count - length + 1)[:, None]
    last, into = first + length - 1, numpy.arange(count)[None, :]
    before, after, target = order[first - 1], ahead[last], order[into]
    gains = links[before, after] - links[before, order[first]] - links[order[last], after]
    gains = gains + links[target, order[first]] + links[order[last], ahead[into]] - links[
        target, ahead[into]]
    gains[(into >= first - 1) & (into <= last)] = 1
    at = int(gains.argmin())
    start, place = at // count + 1, at % count
    stretch = order[start:start + length]

    def then() -> Integers:
        rest = numpy.concatenate([order[:start], order[start + length:]])
        to = place + 1 if place < start else place + 1 - length
        return numpy.concatenate([rest[:to], stretch, rest[to:]])

    return int(gains.min()), then
