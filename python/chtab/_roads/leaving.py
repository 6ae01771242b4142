"""The nodes where trips leave roads and come to them, with the weights of the way there."""
from __future__ import annotations

from typing import TYPE_CHECKING, Any, NamedTuple

import numpy

if TYPE_CHECKING:
    from numpy.typing import NDArray
    from chtab.typing import Integers, Marks

# No arc leads along a road in this direction, or no trip leaves or arrives by this end.
NONE = -1


class Ways(NamedTuple):
    """The nodes where trips leave roads, or arrive, and the weights of the whole roads, in rows."""

    nodes: Integers
    weights: Integers


class BothWays(NamedTuple):
    """The ways out of roads in `outs` columns, and those into them; which have the last place."""

    # Numbers of 32 bits where these fit, and else of 64.
    nodes: NDArray[Any]
    weights: NDArray[Any]
    outs: int
    is_last: Marks


def both_ways(out: Ways, into: Ways) -> BothWays:
    """The ways out of roads and into them."""
    widths = out.nodes.shape[1], into.nodes.shape[1]
    is_last = numpy.concatenate([numpy.arange(width) >= width // 2 for width in widths])
    nodes, weights = (narrow(numpy.hstack(pair)) for pair in zip(out, into))
    return BothWays(nodes, weights, widths[0], is_last)


def narrow(numbers: Integers) -> NDArray[Any]:
    """The same numbers, in 32 bits if they fit."""
    fits = numbers.min(initial=0) >= -2**31 and numbers.max(initial=0) < 2**31
    return numpy.ascontiguousarray(numbers, numpy.int32 if fits else numpy.int64)


def ways_of(
    roads: Integers, sides: Integers, nodes: Integers, weights: Integers, count: int,
) -> Ways:
    """The ways of `count` roads, by arcs: their roads, the ends of these (0 or 1) that their nodes
    are at, these nodes, and weights, of which the least of a node counts."""
    order = numpy.lexsort([weights, nodes, sides, roads])
    keys = numpy.column_stack([roads, sides, nodes])[order]
    is_new = numpy.append(True, (keys[1:] != keys[:-1]).any(axis=1))[:len(keys)]
    keys, weights = keys[is_new], weights[order][is_new]
    group = keys[:, 0] * 2 + keys[:, 1]
    rank = numpy.arange(len(group)) - numpy.searchsorted(group, group)
    width = int(rank.max(initial=0)) + 1
    ways = Ways(*numpy.full((2, count, 2 * width), NONE))
    for column, values in zip(ways, (keys[:, 2], weights)):
        column[keys[:, 0], keys[:, 1] * width + rank] = values
    return ways


class Few(NamedTuple):
    """A spot by itself in plain numbers, so many metres from its place, on a part of a road."""

    longitude: float
    latitude: float
    metres: float
    road: int
    part: float
    length: float
    # The nodes out of it and then those into it, with what is added there.
    nodes: list[int]
    weights: list[int]
