"""Joins steps that a driver takes for one: a street that changes its name right behind a turn, or
right before one."""
from __future__ import annotations

from typing import TYPE_CHECKING

import numpy

from chtab_server.osrm.maneuvers import CONTINUE, END_OF_ROAD, NEW_NAME, SILENT, TURN, TYPES

if TYPE_CHECKING:
    from chtab_server.osrm.rides import Passages, Pieces
    from chtab.typing import Floats, Integers, Marks

# Which maneuvers a new name is joined with, by their numbers, and the metres within which it is.
IS_JOINING, NEAR = numpy.zeros(len(TYPES), bool), 30.0
IS_JOINING[[TURN, CONTINUE, END_OF_ROAD]] = True


def joined(passages: Passages, pieces: Pieces, metres: Floats) -> tuple[Passages, dict[int, int]]:
    """The passages without new names that are joined with a turn, and the streets that the turns
    then lead onto, by the numbers of their passages. `metres` has how far from the start of its leg
    each piece ends."""
    kinds = passages.kinds
    if not (kinds == NEW_NAME).any():
        return passages, {}
    acting = (kinds != SILENT).nonzero()[0]
    before, doing = passages.before[acting], kinds[acting]
    streets, numbers = pieces.streets[before + 1], numpy.arange(len(acting))
    is_new, lasts = doing == NEW_NAME, (pieces.ends[before] ^ 1, pieces.ends[before + 1])
    columns = pieces.legs[before], metres[pieces.numbers[before]], lasts[0] != lasts[1]
    # The last maneuver before each new name that is none, and the one right behind it.
    turn = numpy.maximum.accumulate(numpy.where(is_new, -1, numbers))
    is_behind, is_ahead = is_new & may_join(doing, *columns, numpy.array([turn, numbers + 1]))
    is_ahead &= ~is_behind
    ahead, behind = is_ahead.nonzero()[0], is_behind.nonzero()[0]
    found = dict(zip(acting[ahead + 1].tolist(), streets[ahead + 1].tolist()))
    found |= zip(acting[turn[behind]].tolist(), streets[behind].tolist())
    kept = kinds.copy()
    kept[acting[is_behind | is_ahead]] = SILENT
    return passages._replace(kinds=kept), found


def may_join(
    doing: Integers, legs: Integers, metres: Floats, leads_on: Marks, others: Integers,
) -> Marks:
    """Whether each maneuver may be joined with `others` (2, n): with one of `IS_JOINING` near it on
    its leg, that does not lead back."""
    is_there = (others >= 0) & (others < len(doing))
    others = numpy.where(is_there, others, 0)
    is_near = (legs == legs[others]) & (abs(metres - metres[others]) < NEAR)
    return is_there & is_near & leads_on[others] & IS_JOINING[doing[others]]
