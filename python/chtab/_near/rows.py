"""Near rows in compressed form: the places and weights of the targets that are near, for each
source in order of weight and place."""
from __future__ import annotations

from collections.abc import Sequence
from dataclasses import dataclass, replace
from typing import TYPE_CHECKING, Any

import numpy

if TYPE_CHECKING:
    from numpy.typing import NDArray
    from chtab.typing import Integers


@dataclass(frozen=True)
class Rows:
    """Row i has the places and weights `offsets[i]` to `offsets[i + 1] - 1`, all int64, and the
    sums along their routes, if these are asked for."""

    offsets: Integers
    places: Integers
    weights: Integers
    sums: NDArray[Any] | None = None

    def __len__(self) -> int:
        return len(self.offsets) - 1

    def counts(self) -> Integers:
        """How many pairs each row has."""
        return numpy.diff(self.offsets)

    def owners(self) -> Integers:
        """The row of each pair."""
        return numpy.repeat(numpy.arange(len(self)), self.counts())

    def ranks(self) -> Integers:
        """The rank of each pair in its row, from 0 on."""
        return numpy.arange(len(self.places)) - numpy.repeat(self.offsets[:-1], self.counts())

    def chosen(self, counts: Integers, pairs: NDArray[Any]) -> Rows:
        """Rows, each with this many pairs, of these pairs."""
        sums = None if self.sums is None else self.sums[pairs]
        return rows_of(counts, self.places[pairs], self.weights[pairs], sums)


def rows_of(counts: Integers, places: Integers, weights: Integers, sums: Any = None) -> Rows:
    """Makes rows, each with this many pairs."""
    return Rows(numpy.append(0, numpy.cumsum(counts)), places, weights, sums)


def empty(count: int, has_sums: bool = False) -> Rows:
    """So many rows without pairs."""
    nothing = numpy.zeros(0, numpy.int64)
    sums = nothing.view(numpy.uint64) if has_sums else None
    return Rows(numpy.zeros(count + 1, numpy.int64), nothing, nothing, sums)


def below(parts: Sequence[Rows]) -> Rows:
    """Joins rows of different sources, one below the other."""
    if not parts:
        return empty(0)
    names = ("places", "weights") if parts[0].sums is None else ("places", "weights", "sums")
    columns = ([getattr(part, name) for part in parts] for name in names)
    counts = numpy.concatenate([part.counts() for part in parts])
    return rows_of(counts, *(numpy.concatenate(column) for column in columns))


def beside(parts: Sequence[tuple[int, Rows]], count: int | None = None) -> Rows:
    """Joins the rows of the same sources for parts of targets, up to `count` pairs in each."""
    if len(parts) == 1:
        return parts[0][1]
    owners = numpy.concatenate([rows.owners() for _, rows in parts])
    pairs = below([replace(rows, places=rows.places + first) for first, rows in parts])
    order = numpy.lexsort([pairs.places, pairs.weights, owners])
    counts = numpy.sum([rows.counts() for _, rows in parts], axis=0)
    joined = pairs.chosen(counts, order)
    if count is None:
        return joined
    return joined.chosen(numpy.minimum(counts, count), joined.ranks() < count)
