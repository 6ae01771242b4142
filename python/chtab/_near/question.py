"""Questions on near rows between nodes or spots on roads, and their rows."""
from __future__ import annotations

from collections.abc import Iterator, Sequence
from dataclasses import dataclass
from typing import TYPE_CHECKING, Any

import numpy

from chtab._engine import library
from chtab._engine.interruptible import LONG, interruptible
from chtab.errors import ProgramFault, mismatch
from chtab._near.rows import Rows, rows_of

if TYPE_CHECKING:
    from numpy.typing import NDArray
    from chtab._engine.deadlines import Deadline
    from chtab._roads.snapping import Spots
    from chtab.typing import Floats, Integers

# The most that one call of the library gives: pairs, and the rows that it copies with them.
PAIRS = 1 << 20
# The most rows of a call that searches from each source; and with a time limit, as long as searches
# take.
TOGETHER, SHORT = 1 << 13, 1 << 9
# A sweep may have this many pairs of 16 bytes each, or this many for each node. A call therefore
# takes much more than a second only in networks of many millions of nodes.
SWEPT, FEW = 1 << 24, 4
# From this share of the nodes as sources on, all rows are swept: a sweep takes no longer.
SHARE = 1 / 4
# How many sources are sampled to estimate the pairs of all rows.
SAMPLE = 64
# The most cells of a table of trips.
CELLS = 1 << 22


@dataclass(frozen=True)
class Question:
    """Which targets, `count` of them at most and within a weight, are near each source."""

    sources: Any
    targets: Any
    count: int | None = None
    within: int | None = None
    # Whether weights are those from the targets to the sources.
    is_from: bool = False
    # A value for each line of the graph, whose sums along routes are asked for too.
    values: Any = None

    def height(self, nodes: int) -> int:
        """How many rows the answer has, on a network with this many nodes."""
        return nodes if self.sources is None else len(self.sources)

    def most(self) -> int:
        """The most pairs of a row."""
        return len(self.targets) if self.count is None else min(self.count, len(self.targets))


@dataclass(frozen=True)
class NearQuestion(Question):
    """A question between nodes, which count from 1; `sources` are None for all nodes."""

    sources: Integers | None
    targets: Integers


@dataclass(frozen=True)
class SpotQuestion(Question):
    """A question between spots on roads, whose rows come from tables of trips."""

    sources: Spots
    targets: Spots
    trips: Any = None

    def portions(self) -> Iterator[tuple[int, Rows]]:
        """Yields the rows in portions, each with the place of its first row."""
        height = max(1, CELLS // max(1, len(self.targets)))
        for start in range(0, len(self.sources), height):
            some = self.sources[start:start + height]
            if self.is_from:
                table = self.trips.table(self.targets, some, self.within).T
            else:
                table = self.trips.table(some, self.targets, self.within)
            yield start, rows_of_table(table, self.most())


def rows_of_table(table: Integers, most: int) -> Rows:
    """The first cells of each row of a table by weight and place, without those below 0."""
    counts = numpy.minimum((table >= 0).sum(axis=1), most)
    ordered: Any = numpy.where(table >= 0, table, numpy.iinfo(numpy.int64).max)
    order = numpy.argsort(ordered, axis=1, kind="stable")
    is_first = numpy.arange(table.shape[1]) < counts[:, None]
    return rows_of(counts, order[is_first], numpy.take_along_axis(table, order, 1)[is_first])


class NearRows:
    """The rows of a question with at most 65,536 targets, which a handle makes and keeps."""

    def __init__(
        self, handle: library.Handle, question: Question, nodes: int, deadline: Deadline,
    ) -> None:
        self.handle, self.question, self.nodes, self.deadline = handle, question, nodes, deadline
        targets = library.nodes_of(question.targets, nodes)
        if question.sources is None:
            self.sources = numpy.arange(nodes, dtype=numpy.uint32)
        else:
            self.sources = library.nodes_of(question.sources, nodes)
        count = library.ALL if question.count is None else min(question.count, library.ALL)
        limit = library.NO_LIMIT if question.within is None else question.within
        # A worker of Dask may have got values at any address.
        given = question.values
        self.values = None if given is None else numpy.require(given, numpy.uint64, "A")
        interruptible(len(targets), handle.keep_places, targets, limit, count, question.is_from)
        deadline.check()
        # Sums take searches beside the rows that are swept.
        is_copied = self.is_swept() and question.values is None
        self.together = PAIRS if is_copied else TOGETHER if deadline.is_open else SHORT

    def is_swept(self) -> bool:
        """Whether the rows of all nodes are made at once."""
        if len(self.sources) < SHARE * self.nodes or not self.has_few():
            return False
        try:
            interruptible(LONG, self.handle.sweep)
        except ProgramFault:
            # Memory is too short. The sample may have had fewer pairs than most rows.
            return False
        return True

    def has_few(self) -> bool:
        """Whether a sweep's rows have few pairs: by their bound, or else by a sample of nodes."""
        enough, most = max(SWEPT, FEW * self.nodes), self.question.most()
        if self.nodes * most <= enough:
            return True
        some = numpy.linspace(0, self.nodes - 1, SAMPLE, dtype=numpy.uint32)
        ends, *_ = self.handle.near_rows(some, max(most, PAIRS))
        return self.nodes * int(ends[-1]) <= enough * len(ends)

    def portions(self) -> Iterator[tuple[int, Rows]]:
        """Yields the rows in portions, each with the place of its first row."""
        start, most = 0, self.question.most()
        while start < len(self.sources):
            self.deadline.check()
            some = self.sources[start:start + self.together]
            room = min(len(some) * most, max(most, PAIRS))
            # For sums, a place that is near for the first time is searched from.
            searches = len(some) if self.values is None else len(some) + len(self.question.targets)
            ends, weights, places, sums = interruptible(
                searches, self.handle.near_rows, some, room, self.values)
            if not len(ends):
                raise mismatch()
            yield start, Rows(numpy.append(0, ends), places, weights, sums)
            start += len(ends)

    def sums(self, values: NDArray[numpy.uint64], limits: Sequence[int]) -> Floats:
        """For each source, column and limit the sum of the values (l, c) within it (n, c, m)."""
        columns = [numpy.ascontiguousarray(column) for column in values.T]
        within = numpy.array(limits, numpy.uint64)
        found = numpy.zeros((len(self.sources), len(columns), len(limits)))
        for start in range(0, len(self.sources), self.together):
            some = self.sources[start:start + self.together]
            for place, column in enumerate(columns):
                self.deadline.check()
                sums = interruptible(len(some), self.handle.near_sums, some, column, within)
                found[start:start + len(some), place] = sums
        return found
