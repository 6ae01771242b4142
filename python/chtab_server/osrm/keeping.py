"""What is made once for a place of a long list, and kept: the places that are asked for have it at
once, and memory is taken for these alone."""
from __future__ import annotations

import threading
from collections.abc import Callable, Sequence
from typing import TYPE_CHECKING, Any, Generic, TypeVar

import numpy

if TYPE_CHECKING:
    from chtab.typing import Integers, Marks

# Columns of equal length, with an item for each place that is known.
Columns = TypeVar("Columns", bound=tuple[Any, ...])


class Keeping(Generic[Columns]):
    """Columns with an item for each of some places of a list of `count`. `nothing` are empty
    columns. Once there are `most` items, all of them are made anew when they are asked for. Several
    threads may ask."""

    def __init__(self, count: int, most: int, nothing: Columns) -> None:
        self.count, self.most, self.nothing, self.lock = count, most, nothing, threading.Lock()
        self.begin()

    def begin(self) -> None:
        """Begins anew what is kept. `numbers` has for each place the number of its item from 1 on,
        0 for one that is not known."""
        self.kept, self.numbers = self.nothing, numpy.zeros(self.count, numpy.int32)

    def found(
        self, places: Integers, is_own: Marks | None, make: Callable[[Integers], Columns],
    ) -> tuple[Columns, Integers]:
        """The columns, and which of their items the places have. `make` takes an array of numbers
        k, and makes the items of `places[k]`. Where `is_own` is False the item is not that of the
        place, and is made each time."""
        with self.lock:
            if len(self.kept[0]) >= self.most:
                self.begin()
            which = self.numbers[places].astype(numpy.int64) - 1
            if is_own is not None:
                which[~is_own] = -1
            missing = numpy.flatnonzero(which < 0)
            if len(missing):
                self.make(places, is_own, make, which, missing)
            return self.kept, which

    def make(
        self, places: Integers, is_own: Marks | None, make: Callable[[Integers], Columns],
        which: Integers, missing: Integers,
    ) -> None:
        """Makes the items that are missing, each once."""
        keys = (
            places[missing] if is_own is None
            else numpy.where(is_own[missing], places[missing], -1 - missing))
        _, firsts, copies = numpy.unique(keys, return_index=True, return_inverse=True)
        some, before = missing[firsts], len(self.kept[0])
        made: Callable[..., Columns] = type(self.nothing)
        self.kept = made(*map(numpy.concatenate, zip(self.kept, make(some))))
        which[missing] = before + copies
        kept = some if is_own is None else some[is_own[some]]
        self.numbers[places[kept]] = which[kept] + 1


def column_of(texts: Sequence[str]) -> Any:
    """Texts in a column."""
    column = numpy.empty(len(texts), object)
    column[:] = texts
    return column
