"""The labels of the nodes of a network, which the program numbers from 1 on."""
from __future__ import annotations

import collections
import itertools
import sys
from collections.abc import Iterable, Sequence
from typing import TYPE_CHECKING, Any, TypeAlias

import numpy

from chtab._engine.forks import computed_once
from chtab.errors import DataFault
from chtab._files import columns
from chtab._files.columns import GREATEST, INTEGERS, LEAST, TUPLES, row_of, quoted

if TYPE_CHECKING:
    from numpy.typing import NDArray
    import pandas
    from chtab.typing import Column, Integers, LabelArray

Label: TypeAlias = int | str
# A range of so many numbers for each label is too large to be marked.
SPARSE = 4


def fixed(column: Any) -> Any:
    """The values of a column in an array that can't be written to."""
    found = numpy.asarray(column)
    found.flags.writeable = False
    return found


class Numbers:
    """Nodes that are called by their numbers, from 1 to `count`, as in a network of files."""

    def __init__(self, count: int) -> None:
        self.count = count

    @computed_once
    def values(self) -> LabelArray:
        """The labels, in order of the nodes."""
        return fixed(numpy.arange(1, self.count + 1))

    def nodes_of(self, name: str, given: Any) -> Integers:
        """The nodes of numbers of any shape, whole floats too. Those out of range are refused."""
        if isinstance(given, numpy.ma.MaskedArray):
            given = columns.array_of(name, given)
        column = numpy.asarray(given)
        if column.dtype == object and all(map(columns.is_number, map(type, column.flat))):
            # Such as a column of pandas whose type has missing values.
            column = numpy.array(column.tolist()).reshape(column.shape)
        are_numbers = column.dtype.kind in "iu" or column.dtype.kind == "f" and is_whole(column)
        if column.size and not (are_numbers and not has_truths(given)):
            raise no_number(name, column, given)
        outside = columns.first_of((column < 1) | (column > self.count))
        if outside is not None:
            text = f"node {column.flat[outside]:.17g} is not from 1 to {self.count:,}"
            raise columns.refused(name, row_of(column, outside), text)
        return column.astype(numpy.int64)

    def few(self, labels: Iterable[Any]) -> list[int] | None:
        """The nodes of a short list of labels; None if one of them needs a closer look."""
        labels = [int(label) if type(label) is numpy.int64 else label for label in labels]
        are_nodes = all(type(label) is int and 0 < label <= self.count for label in labels)
        return labels if are_nodes else None

    def of(self, nodes: Integers) -> LabelArray:
        """The labels of an array of nodes."""
        return nodes

    def index_of(self, name: str, given: Any) -> pandas.Index:
        """An index of pandas with a caller's labels."""
        import pandas

        return pandas.Index(given, name=name)

    def listed(self, nodes: list[int]) -> list[int]:
        """The labels of a list of nodes, as a list."""
        return nodes


def has_truths(given: Any) -> bool:
    """Whether a list has True or False, of which numpy makes numbers where others are in it."""
    values: Any = numpy.array(given, object).flat if isinstance(given, list | tuple) else ()
    return not {bool, numpy.bool_}.isdisjoint(map(type, values))


def is_whole(column: NDArray[Any]) -> bool:
    """Whether all numbers of a column of decimal numbers are whole."""
    return bool(numpy.isfinite(column).all() and (column == numpy.floor(column)).all())


def no_number(name: str, column: NDArray[Any], given: Any) -> DataFault:
    """The fault of the first value that is no number of a node."""
    is_array = column.dtype != object and not isinstance(given, list | tuple)
    array = column if is_array else numpy.array(given, object)
    values = array.reshape(-1).tolist()
    are_whole = (
        columns.is_integer(type(value))
        or columns.is_number(type(value)) and float(value).is_integer()
        for value in values)
    place = next((place for place, is_one in enumerate(are_whole) if not is_one), 0)
    text = f"{quoted(values[place])} is no node: a node is a whole number"
    return columns.refused(name, row_of(array, place), text)


class Labels:
    """The labels of a caller, no two equal: int64, or objects that are `int`, `str` or tuples."""

    def __init__(self, values: LabelArray) -> None:
        self.values, self.count = fixed(values.copy()), len(values)
        self.kind = columns.kind_of(type(values[0])) if len(values) else INTEGERS

    @computed_once
    def sorted(self) -> tuple[LabelArray, Integers]:
        """The labels in order and the node of each, for integers of 64 bits."""
        order = numpy.argsort(self.values, kind="stable")
        return self.values[order], order + 1

    @computed_once
    def numbers(self) -> dict[Label, int]:
        """The node of each label, for all other labels."""
        return dict(zip(self.values.tolist(), range(1, len(self.values) + 1)))

    def nodes_of(self, name: str, given: Any) -> Integers:
        """The nodes of labels in the shape of these. Labels of no node are refused."""
        read = self.tuples_of if self.kind == TUPLES else columns.labels_in
        labels = read(name, given)
        nodes = self.found(labels)
        place = columns.first_of(nodes == 0)
        if place is not None:
            label = labels.reshape(-1)[place:place + 1].tolist()[0]
            text = f"no node has the label {quoted(label)}; labels are {self.kind}"
            raise columns.refused(name, row_of(labels, place), text)
        return nodes

    def tuples_of(self, name: str, given: Any) -> LabelArray:
        """Tuples in the shape of the argument: a column of labels, or rows of them."""
        items = list(given)
        firsts = (item[0] if isinstance(item, tuple) and item else None for item in items)
        are_tuples = all(isinstance(item, tuple) for item in items)
        if are_tuples and not any(isinstance(first, tuple) for first in firsts):
            return columns.tuples_in(name, items)
        rows = [columns.tuples_in(name, row) for row in items]
        if len({len(row) for row in rows}) != 1:
            raise DataFault(f"{name} has rows of several lengths", name)
        return numpy.stack(rows)

    def found(self, labels: LabelArray) -> Integers:
        """The nodes of labels; 0 if no node has a label."""
        if self.values.dtype == object or labels.dtype == object:
            found = map(self.numbers.get, labels.reshape(-1).tolist(), [0] * labels.size)
            return numpy.fromiter(found, numpy.int64, labels.size).reshape(labels.shape)
        values, nodes = self.sorted
        if not len(values):
            return numpy.zeros(labels.shape, numpy.int64)
        place = numpy.minimum(numpy.searchsorted(values, labels), len(values) - 1)
        return numpy.where(values[place] == labels, nodes[place], 0)

    def few(self, labels: Iterable[Any]) -> list[int] | None:
        """The nodes of a short list of labels; None if one of them needs a closer look."""
        labels = [int(label) if type(label) is numpy.int64 else label for label in labels]
        if self.values.dtype == object:
            known = [label for label in labels if type(label) in (int, str)]
            found = [self.numbers.get(label, 0) for label in known]
            return None if 0 in found or len(known) < len(labels) else found
        if not all(type(label) is int and LEAST <= label <= GREATEST for label in labels):
            return None
        values, nodes = self.sorted
        places = values.searchsorted(labels).tolist()
        pairs = zip(places, labels)
        is_there = all(place < len(values) and values[place] == label for place, label in pairs)
        return [int(nodes[place]) for place in places] if is_there else None

    def of(self, nodes: Integers) -> LabelArray:
        """The labels of an array of nodes."""
        return self.values[nodes - 1]

    def index_of(self, name: str, given: Any) -> pandas.Index:
        """An index of pandas with a caller's labels. Tuples make one column, not several."""
        import pandas

        labels = columns.objects_of(list(given)) if self.kind == TUPLES else given
        return pandas.Index(labels, name=name, tupleize_cols=False)

    def listed(self, nodes: list[int]) -> list[Label]:
        """The labels of a list of nodes, as a list."""
        return self.values[numpy.array(nodes, numpy.int64) - 1].tolist()


def labels_of_nodes(name: str, column: Column) -> Labels:
    """The labels of a column, which have to differ."""
    values = columns.column_labels_in(name, column)
    count = len(set(values.tolist())) if values.dtype == object else len(numpy.unique(values))
    if count < len(values):
        raise doubled(name, values.tolist())
    return Labels(values)


def doubled(name: str, labels: Sequence[Label]) -> DataFault:
    """The fault of a column that has a label twice."""
    known: dict[Label, int] = {}
    for row, label in enumerate(labels):
        if known.setdefault(label, row) != row:
            text = f"the label {quoted(label)} is in row {known[label]} already"
            return columns.refused(name, row, text)
    raise AssertionError("no label is repeated")


def labels_of_ends(
    names: Sequence[str], sources: LabelArray, targets: LabelArray
) -> tuple[Labels, Integers]:
    """The labels in either of two columns in ascending order, and the nodes of both (2, m)."""
    firsts = [*sources[:1].tolist(), *targets[:1].tolist()]
    kinds = [columns.kind_of(type(label)) for label in firsts]
    if len(set(kinds)) > 1:
        text = f"the label {quoted(firsts[1])} is not one of {kinds[0]}, as those of {names[0]}"
        raise columns.refused(names[1], 0, text)
    if sources.dtype == targets.dtype == numpy.int64:
        values, places = ordered_numbers(numpy.concatenate([sources, targets]))
    else:
        values, places = ordered([*sources.tolist(), *targets.tolist()])
    return Labels(values), places.reshape(2, -1) + 1


def ordered_numbers(labels: Integers) -> tuple[Integers, Integers]:
    """The labels of an array in ascending order, each once, and the place of each item there."""
    low, high = (int(labels.min()), int(labels.max())) if len(labels) else (0, 0)
    if high - low > SPARSE * len(labels):
        return numpy.unique(labels, return_inverse=True)
    # Marks of all numbers in so small a range take less time than a sort.
    is_there, places = numpy.zeros(high - low + 1, bool), labels - low
    is_there[places] = True
    return numpy.flatnonzero(is_there) + low, (numpy.cumsum(is_there) - 1)[places]


def numbered(labels: Sequence[Any]) -> tuple[Integers, list[Label]]:
    """The labels of a list, each once as they first come, and the place of each item there."""
    factorize: Any = getattr(sys.modules.get("pandas"), "factorize", None)
    text = "".join(labels) if factorize and isinstance(labels[0], str) else "\0"
    if text.isascii() and "\0" not in text:
        # Its table takes a third of the time, but ends strings at a NUL.
        found, known = factorize(columns.objects_of(labels))
        return found, known.tolist()
    numbers: dict[Label, int] = collections.defaultdict(itertools.count().__next__)
    found = numpy.fromiter(map(numbers.__getitem__, labels), numpy.int64, len(labels))
    return found, list(numbers)


def ordered(labels: Sequence[Label]) -> tuple[LabelArray, Integers]:
    """The labels of a list in ascending order, each once, and the place of each item there."""
    found, known = numbered(labels)
    try:
        order = numpy.array(sorted(range(len(known)), key=known.__getitem__), numpy.int64)
    except TypeError:
        text = "labels have no order, because their parts are of several kinds: give `nodes`"
        raise DataFault(text, "nodes") from None
    places = numpy.empty(len(known), numpy.int64)
    places[order] = numpy.arange(len(known))
    return columns.objects_like(places, known)[order], places[found]
