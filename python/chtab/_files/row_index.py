"""The index of a frame or of columns of pandas: what the rows of a caller's arcs are called. pandas
is not imported."""
from __future__ import annotations

from collections.abc import Sequence
from typing import TYPE_CHECKING, Any

import numpy

from chtab.errors import DataFault
from chtab._files import columns

if TYPE_CHECKING:
    from chtab.typing import LabelArray

# An index that is not kept, because of its labels, or because it isn't known.
UNKNOWN: LabelArray = numpy.zeros(0, numpy.int64)


def labels_in(index: Any) -> LabelArray:
    """The labels of an index of pandas in order. Others, such as dates, are refused."""
    return columns.column_labels_in("index", list(index) if is_of_levels(index) else index)


def is_of_levels(index: Any) -> bool:
    """Whether an index has several levels, so that its labels are tuples."""
    return getattr(index, "nlevels", 1) > 1


def kept(index: Any, rows: int) -> LabelArray | None:
    """The labels of rows; None for 0, 1, .. or no index, `UNKNOWN` if they can't be kept."""
    if index is None:
        return None
    try:
        labels = labels_in(index)
    except DataFault:
        return UNKNOWN
    are_numbers = labels.dtype == numpy.int64 and numpy.array_equal(labels, numpy.arange(rows))
    return None if are_numbers else labels.copy()


def index_of(column: Any) -> Any:
    """The index of a column of pandas; None for an array or a list."""
    return column.index if hasattr(column, "iloc") else None


def matched(names: Sequence[str], given: Sequence[Any]) -> list[Any]:
    """Columns that go together, those of pandas by the first one's index, or they are refused."""
    found = list(given)
    own = [place for place, column in enumerate(given) if index_of(column) is not None]
    for place in own[1:]:
        index, other = given[own[0]].index, given[place].index
        if other is index or other.equals(index):
            continue
        are_unique = len(other) == len(index) and other.is_unique and index.is_unique
        if not are_unique or not other.isin(index).all():
            text = f"the rows of {names[place]} and of {names[own[0]]} have other labels, so that"
            hint = "give columns of one frame, or arrays, as `to_numpy()` gives them"
            raise DataFault(f"{text} nothing says which go together: {hint}", names[place])
        found[place] = given[place].iloc[other.get_indexer(index)]
    return found


def by_labels(names: Sequence[str], column: Any, labels: Any) -> Any:
    """A column of pandas in the order of a list of nodes by whose labels its rows are called. It is
    refused if it lacks some of them, or if its rows may have numbers that are no labels."""
    index = index_of(column)
    is_list = hasattr(labels, "__len__") and index_of(labels) is None
    if index is None or not is_list or not 0 < len(index) == len(labels):
        return column
    own, wanted = index.tolist(), list(labels)
    try:
        apart = {*own} ^ {*wanted}
    except TypeError:
        return column
    # Numbers of rows and of nodes may be equal by chance, but not strings.
    is_called_so = isinstance(own[0], str | tuple) and not {*own}.isdisjoint(wanted)
    if own == wanted or apart and not is_called_so:
        return column
    if apart or not index.is_unique or own == [*range(len(own))]:
        text = f"the index of {names[0]} has labels of nodes, and {names[1]} has others, or another"
        hint = "order, so that nothing says which go together: `to_numpy()` gives values without it"
        raise DataFault(f"{text} {hint}", names[0])
    return column.iloc[index.get_indexer(wanted)]
