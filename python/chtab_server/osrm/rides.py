"""Rides: the pieces of legs that drivers notice, and what they do at the crossings between these,
many legs at once in flat arrays.

A leg is cut into pieces, each a road, or a part of a road, in one direction. Between two pieces the
driver passes a crossing. Most of what is done there is known by the crossing alone; the names of
streets and the exits of rings depend on what the driver has passed before.
"""
from __future__ import annotations

from typing import TYPE_CHECKING, NamedTuple

import numpy

from chtab._roads.snapping import NONE
from chtab_server.osrm.maneuvers import ENTER, EXIT, NEW_NAME, SILENT

if TYPE_CHECKING:
    from chtab._roads import legs
    from chtab_server.osrm.crossings import Crossings
    from chtab_server.osrm.passing import Passing
    from chtab.typing import Integers, Marks


class Pieces(NamedTuple):
    """The pieces of legs, one leg after the other: the place of the leg in the question, the end of
    the road where the piece starts, its street, whether that is another one than the street of the
    end, the node at its end, and its number among the pieces that `Legs.pieces` has."""

    legs: Integers
    ends: Integers
    streets: Integers
    is_other: Marks
    heads: Integers
    numbers: Integers


def pieces_of(crossings: Crossings, drawn: legs.Pieces) -> Pieces:
    """The pieces that drivers notice of those that legs lead along. What leads along no road is
    none, nor is a stretch without length, unless it is a whole leg."""
    counts = drawn.firsts[1:] - drawn.firsts[:-1]
    is_kept = (drawn.starts != drawn.ends) & (drawn.roads != NONE)
    is_kept[drawn.firsts[:-1][counts == 1]] = True
    [numbers] = is_kept.nonzero()
    arcs = drawn.arcs[numbers]
    ends = 2 * drawn.roads[numbers] + (drawn.starts[numbers] > drawn.ends[numbers])
    of_ends = crossings.street_of[ends]
    streets = (
        numpy.where(arcs == NONE, of_ends, crossings.street_of_arc[arcs])
        if len(crossings.street_of_arc) else of_ends)
    owners = numpy.repeat(numpy.arange(len(counts)), counts)[numbers]
    return Pieces(owners, ends, streets, streets != of_ends, drawn.heads[numbers], numbers)


class Passages(NamedTuple):
    """The passages of crossings between pieces: the piece before, the place of the way in what is
    kept of them, the maneuver, the number of the exit if a ring is entered or left, and the piece
    where a ring starts and the one after it, -1 if there is none."""

    before: Integers
    ways: Integers
    kinds: Integers
    exits: Integers
    rings: Integers
    behind: Integers


class Rides:
    """Finds the maneuvers between the pieces of legs."""

    def __init__(self, crossings: Crossings, passing: Passing, pieces: Pieces) -> None:
        self.crossings, self.pieces = crossings, pieces
        [self.before] = (pieces.legs[1:] == pieces.legs[:-1]).nonzero()
        self.kept, self.ways = passing.ways(pieces, self.before)
        self.new = pieces.streets[self.before + 1]

    def passages(self) -> Passages:
        """The passages between the pieces."""
        kinds = self.with_new_names(self.kept.kinds[self.ways])
        return Passages(self.before, self.ways, kinds, *self.exits(kinds))

    def with_new_names(self, kinds: Integers) -> Integers:
        """The maneuvers together with new names: the name of the street differs from the last name
        since the previous maneuver."""
        pieces, known, is_silent = self.pieces, self.crossings, kinds == SILENT
        is_called = known.is_called[pieces.streets]
        begins = numpy.ones(len(is_called), bool)
        begins[self.before + 1] = ~is_silent
        last = numpy.maximum.accumulate(
            numpy.where(begins | is_called, numpy.arange(len(begins)), 0))
        called = known.called[pieces.streets]
        is_other = called[self.before + 1] != called[last[self.before]]
        is_new = is_silent & is_called[self.before + 1] & is_other & ~known.is_ring[self.new]
        return numpy.where(is_new, NEW_NAME, kinds)

    def exits(self, kinds: Integers) -> tuple[Integers, Integers, Integers]:
        """The number of the exit of each ring, at the passages that enter it and leave it, and 0
        elsewhere; and for these passages the piece where the ring is entered, and the one after it,
        -1 if there is none."""
        count = len(self.before)
        numbers, rings, behind = numpy.zeros(count, numpy.int64), *numpy.full((2, count), -1)
        [left], [came] = (kinds == EXIT).nonzero(), (kinds == ENTER).nonzero()
        rings[came] = self.before[came] + 1
        if not len(left):
            return numbers, rings, behind
        counts = numpy.cumsum(self.kept.exits[self.ways])
        legs = self.pieces.legs[self.before]
        begun = legs.searchsorted(legs[left])
        # The passage where the ring is entered that each of these leaves; where it is none of its
        # leg, the leg begins in the ring.
        at = came.searchsorted(left) - 1
        entered = came[at] if len(came) else at
        is_entered = (at >= 0) & (entered >= begun)
        base = numpy.where(is_entered, counts[entered], numpy.append(0, counts)[begun])
        numbers[left] = counts[left] - base
        rings[left] = numpy.where(is_entered, self.before[entered] + 1, self.before[begun])
        behind[left] = self.before[left] + 1
        pairs = left[is_entered]
        numbers[entered[is_entered]], behind[entered[is_entered]] = (
            numbers[pairs], self.before[pairs] + 1)
        return numbers, rings, behind
