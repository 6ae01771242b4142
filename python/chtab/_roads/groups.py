"""Items that are found by a number, many at a time, such as the arcs of rows, or of ways."""
from __future__ import annotations

from typing import TYPE_CHECKING, NamedTuple, Self

import numpy

from chtab._engine.walks import ranges

if TYPE_CHECKING:
    from chtab.typing import Integers


class Found(NamedTuple):
    """Items that were found, and for each the place of what it was found for."""

    items: Integers
    places: Integers

    def through(self, places: Integers) -> Found:
        """The same items, where what was looked for has these places in a longer list."""
        return Found(self.items, places[self.places])

    def counts(self, wanted: int) -> Integers:
        """How many items were found for each of `wanted` places."""
        return numpy.bincount(self.places, minlength=wanted)


class Groups(NamedTuple):
    """Items in the order of their numbers, and these numbers."""

    items: Integers
    numbers: Integers

    @classmethod
    def of(cls, numbers: Integers, items: Integers | None = None) -> Self:
        """The groups of items that have these numbers; by default the items are 0, 1, .."""
        order = numpy.argsort(numbers, kind="stable")
        return cls(order if items is None else items[order], numbers[order])

    def of_each(self, wanted: Integers) -> Found:
        """The items of some numbers, in the order of these."""
        firsts = self.numbers.searchsorted(wanted)
        counts = self.numbers.searchsorted(wanted, "right") - firsts
        return Found(
            self.items[ranges(firsts, counts)], numpy.repeat(numpy.arange(len(wanted)), counts))
