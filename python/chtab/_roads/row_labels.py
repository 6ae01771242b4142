"""The rows of arcs that the labels of an index of pandas name."""
from __future__ import annotations

from typing import TYPE_CHECKING, Any

import numpy

from chtab.errors import DataFault
from chtab._files import columns, row_index
from chtab._files.columns import refused, quoted
from chtab._roads.groups import Found, Groups

if TYPE_CHECKING:
    from chtab.typing import Integers, LabelArray


class RowLabels:
    """What the first rows of a network are called in the caller's frame, as `kept` gives it."""

    def __init__(self, labels: LabelArray | None, count: int) -> None:
        self.labels, self.count = labels, count

    @property
    def covered(self) -> int:
        """How many rows have a label."""
        return self.count if self.labels is None else len(self.labels)

    def found(self, name: str, index: Any) -> Found | None:
        """The rows that labels of an index name; None if these may name arcs otherwise. A label of
        several rows is refused, and a number that is none, as it could be taken for a row."""
        try:
            wanted = row_index.labels_in(index)
        except DataFault:
            return None
        places = numpy.arange(len(wanted))
        if self.labels is None:
            if wanted.dtype == object or not ((wanted >= 0) & (wanted < self.count)).all():
                return None
            return Found(wanted, places)
        if wanted.dtype == self.labels.dtype and numpy.array_equal(wanted, self.labels):
            return Found(places, places)
        found = self.matched(self.labels, wanted)
        counts = found.counts(len(wanted))
        missing, several = columns.first_of(counts == 0), columns.first_of(counts > 1)
        if missing is not None and columns.is_integer(type(label_of(wanted, missing))):
            text = f"nothing says which row is called {quoted(label_of(wanted, missing))}: give"
            text += " an array, or a list, in the order of rows"
            if self.covered:
                text = f"no row of the frame is called {quoted(label_of(wanted, missing))}"
            raise refused(name, missing, text)
        if missing is None and several is not None:
            called = quoted(label_of(wanted, several))
            raise refused(name, several, f"{counts[several]} rows of the frame are called {called}")
        return found if missing is None else None

    def matched(self, labels: LabelArray, wanted: LabelArray) -> Found:
        """The rows that have these labels, and those that are looked for."""
        if labels.dtype == object or wanted.dtype == object:
            both = [*labels.tolist(), *wanted.tolist()]
            codes = dict(zip(both, range(len(both))))
            numbers = numpy.fromiter(map(codes.__getitem__, both), numpy.int64, len(both))
            labels, wanted = numbers[:len(labels)], numbers[len(labels):]
        return Groups.of(labels).of_each(wanted)

    def see_that_plain(self, name: str, places: Integers, rows: Integers) -> None:
        """Refuses the first number of a row that is also what another row is called."""
        if self.labels is None or self.labels.dtype != numpy.int64:
            return
        own = numpy.append(self.labels, numpy.full(max(self.count - len(self.labels), 0) + 1, -1))
        are_others = own[numpy.minimum(rows, len(own) - 1)] != rows
        either = columns.first_of(numpy.isin(rows, self.labels) & are_others)
        if either is not None:
            row = int(rows[either])
            text = f"{row} is the number of a row, and what another one is called"
            hint = f"frame.index[[{row}]] of your frame is row {row}, and pandas.Index([{row}]) the"
            raise refused(name, int(places[either]), f"{text}: {hint} row that is called so")


def label_of(labels: LabelArray, place: int) -> Any:
    """The label at a place, as a value of Python."""
    return labels[place:place + 1].tolist()[0]
