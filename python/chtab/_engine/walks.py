"""Routes of many queries in flat arrays, for callers that need sums over their arcs."""
from __future__ import annotations

from dataclasses import dataclass
from typing import TYPE_CHECKING, Any, NamedTuple

import numpy

if TYPE_CHECKING:
    from chtab.typing import Integers

# The weight where there is no walk.
NO_WALK = -1


class Paths(NamedTuple):
    """The routes of pairs: weights, -1 for no walk, numbers of arcs, and arcs from 0 on."""

    weights: Integers
    counts: Integers
    arcs: Integers


@dataclass(frozen=True)
class Walks:
    """Walks of a graph. Walk k has the weight `weights[k]`, -1 if there is no walk. Its arcs are
    `firsts[k]` to `firsts[k + 1] - 1` of the columns `tails`, `heads` and `arc_weights`."""

    weights: Integers
    firsts: Integers
    tails: Integers
    heads: Integers
    arc_weights: Integers

    def sums(self, column: Integers) -> Integers:
        """For each walk the sum of a column over its arcs."""
        cuts = cuts_of(column)[self.firsts]
        return cuts[1:] - cuts[:-1]


def cuts_of(counts: Any) -> Integers:
    """Where groups of so many items begin, one after the other, and where the last one ends."""
    cuts = numpy.zeros(len(counts) + 1, numpy.int64)
    counts.cumsum(out=cuts[1:])
    return cuts


def ranges(firsts: Integers, counts: Integers) -> Integers:
    """For each pair the `count` numbers from `first` on, all in one array."""
    cuts = cuts_of(counts)
    return numpy.arange(cuts[-1]) + (firsts - cuts[:-1]).repeat(counts)
