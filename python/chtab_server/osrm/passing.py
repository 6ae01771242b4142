"""What is known of each way through a crossing by itself: the maneuver, and the texts of JSON of
the crossing and of the maneuver.

All of it depends on the node, and on the ends of roads where the driver arrives and leaves, so it
is kept.
"""
from __future__ import annotations

from typing import TYPE_CHECKING, Any, NamedTuple

import numpy

from chtab_server.osrm.keeping import Keeping, column_of
from chtab_server.osrm.maneuvers import NEW_NAME, TYPES, Judge

if TYPE_CHECKING:
    from chtab_server.osrm.crossings import Crossings
    from chtab_server.osrm.rides import Pieces
    from chtab.typing import Integers, Marks

# How many ways through crossings are kept, with texts of some 400 bytes each.
MOST_WAYS = 1 << 17


class Kept(NamedTuple):
    """What is kept of ways through crossings, in columns: the maneuver, without new names; whether
    an exit of a ring is passed; whether three roads meet; the node; and the texts of the crossing
    behind another one, and of the maneuver, a new name where there is no other, with the
    crossing."""

    kinds: Integers
    exits: Marks
    is_crossing: Marks
    nodes: Integers
    crossings: Any
    maneuvers: Any


NUMBERS, MARKS, TEXTS = numpy.zeros(0, numpy.int64), numpy.zeros(0, bool), numpy.empty(0, object)
NOTHING = Kept(NUMBERS, MARKS, MARKS, NUMBERS, TEXTS, TEXTS)


class Passing:
    """What is known of the ways through crossings. Each is judged when it is first passed."""

    def __init__(self, crossings: Crossings) -> None:
        self.known, degrees = crossings, numpy.diff(crossings.firsts)
        # The ends at a crossing count from 0; ways through it have places by both ends, one after
        # the other for each node.
        self.ranks = numpy.empty(len(crossings.ends), numpy.int64)
        begins = numpy.repeat(crossings.firsts[:-1], degrees)
        self.ranks[crossings.ends] = numpy.arange(len(crossings.ends)) - begins
        self.widths = degrees[crossings.crossing]
        squares = self.widths * self.widths
        self.firsts = numpy.cumsum(squares) - squares
        self.keeping = Keeping(int(squares.sum()), MOST_WAYS, NOTHING)

    def ways(self, pieces: Pieces, before: Integers) -> tuple[Kept, Integers]:
        """The ways from the pieces `before` to those behind them: what is known, and the place of
        each in it."""
        nodes, ins, outs = pieces.heads[before], pieces.ends[before] ^ 1, pieces.ends[before + 1]
        places = self.firsts[nodes] + self.ranks[ins] * self.widths[nodes] + self.ranks[outs]

        def judged(some: Integers) -> Kept:
            return self.judged(
                nodes[some], ins[some], outs[some], pieces.streets[before[some]],
                pieces.streets[before[some] + 1])

        # What is done from a street to another depends on them, where one of them is not that of
        # the end of its road.
        is_own = (
            ~(pieces.is_other[before] | pieces.is_other[before + 1]) if pieces.is_other.any()
            else None)
        return self.keeping.found(places, is_own, judged)

    def judged(
        self, nodes: Integers, ins: Integers, outs: Integers, old: Integers, new: Integers,
    ) -> Kept:
        """What is known of ways through nodes, from the streets `old` to others."""
        judge = Judge(self.known, nodes, ins, outs, old, new)
        kinds, exits, modifiers = judge.kinds_and_modifiers()
        listed = self.known.leads[ins], self.known.leads[outs], self.ranks[ins], self.ranks[outs]
        locations = self.known.roads.places[nodes - 1].round(6).tolist()
        crossings, maneuvers = [], []
        owners, ends = self.known.meeting(nodes)
        cuts = numpy.searchsorted(owners, numpy.arange(len(nodes) + 1)).tolist()
        leads, is_open = self.known.leads[ends].tolist(), self.known.is_open(nodes[owners], ends)
        # A way is open that is taken, and none leads back.
        entries = numpy.where(
            is_open & (ends != ins[owners]) | (ends == outs[owners]), "true", "false").tolist()
        for location, first, last, kind, modifier, (came, goes, rank_in, rank_out) in zip(
            locations, cuts, cuts[1:], kinds.tolist(), modifiers,
            zip(*(column.tolist() for column in listed))
        ):
            text = (
                f'{{"location": {location}, "bearings": {leads[first:last]}, "entry": '
                f'[{", ".join(entries[first:last])}], "in": {rank_in}, "out": {rank_out}}}')
            crossings.append(f", {text}")
            more = (
                f'"modifier": "{modifier}", "location": {location}, "bearing_before": '
                f'{(came + 180) % 360}, "bearing_after": {goes}')
            maneuvers.append(maneuver(TYPES[kind or NEW_NAME], more) + text)
        return Kept(kinds, exits, judge.meet > 2, nodes, *map(column_of, (crossings, maneuvers)))


def maneuver(word: str, more: str) -> str:
    """The text of a step from behind its line up to its crossings, by the type of its maneuver and
    what else there is of it."""
    return f', "maneuver": {{"type": "{word}", {more}}}, "intersections": ['
