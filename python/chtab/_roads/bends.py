"""The points of arcs between their ends, in columns, and which of these arcs lie along one road."""
from __future__ import annotations

import itertools
from collections.abc import Iterator, Sequence
from typing import TYPE_CHECKING, Any, NamedTuple

import numpy

from chtab._engine.walks import ranges
from chtab.errors import FileFault

if TYPE_CHECKING:
    from chtab.typing import Floats, Integers, Marks, Point


class Bends(NamedTuple):
    """The points of `arcs`, in ascending order and so many of each: degrees (n, 2)."""

    arcs: Integers
    counts: Integers
    places: Floats

    def of_arcs(self) -> Iterator[tuple[int, list[Point]]]:
        """Each arc with its points."""
        places = iter(self.places.tolist())
        for arc, count in zip(self.arcs.tolist(), self.counts.tolist()):
            yield arc, [(x, y) for x, y in itertools.islice(places, count)]


def bends_in(columns: Sequence[Any], arcs: int, path: str) -> Bends:
    """The bends of columns: arcs from 1 on, and millionths of a degree."""
    arc, *places = (numpy.asarray(column, numpy.int64) for column in columns)
    if len(arc) and not 1 <= arc.min() <= arc.max() <= arcs:
        text = f"an arc is not from 1 to {arcs:,}: these are the points of another graph"
        raise FileFault(f"{path}: {text}")
    order = arc.argsort(kind="stable")
    found, counts = numpy.unique(arc, return_counts=True)
    return Bends(found - 1, counts, numpy.column_stack(places)[order] / 1e6)


def roads_of(tails: Integers, heads: Integers, bends: Bends) -> tuple[Integers, Marks, Floats]:
    """The roads of arcs with bends from `tails` to `heads`, numbered in the order of their first
    arcs, and shared by opposite ones; which arcs lead back; and all points, along the roads."""
    counts, lasts = bends.counts, numpy.cumsum(bends.counts)
    is_back = tails > heads
    for arc in (tails == heads).nonzero()[0].tolist():
        own = bends.places[lasts[arc] - counts[arc]:lasts[arc]].tolist()
        is_back[arc] = own > own[::-1]
    which = ranges(lasts - counts, counts)
    turned = numpy.repeat(2 * lasts - counts - 1, counts) - which
    lines = bends.places[numpy.where(numpy.repeat(is_back, counts), turned, which)]
    ends = numpy.column_stack([numpy.minimum(tails, heads), numpy.maximum(tails, heads)]).tobytes()
    known: dict[bytes, int] = {}
    text, cuts = lines.tobytes(), itertools.pairwise([0, *(16 * lasts).tolist()])
    found = [
        known.setdefault(ends[16 * arc:16 * arc + 16] + text[first:last], len(known))
        for arc, (first, last) in enumerate(cuts)]
    return numpy.array(found, numpy.int64), is_back, lines
