"""Steps of legs in OSRM's form: the maneuvers of each leg, with streets, lines and crossings, as
texts of JSON."""
from __future__ import annotations

import functools
import json
from collections.abc import Iterator, Sequence
from typing import TYPE_CHECKING, Any, NamedTuple

import numpy

from chtab._engine.walks import cuts_of, ranges
from chtab._roads.legs import sums_before
from chtab._roads.snapping import NONE
from chtab_server.osrm import joining, polylines
from chtab_server.osrm.crossings import FERRY
from chtab_server.osrm.keeping import column_of
from chtab_server.osrm.maneuvers import CONTINUE, ENTER, EXIT, SILENT, TURN, TYPES
from chtab_server.osrm.passing import Passing, maneuver
from chtab_server.osrm.rides import Rides, pieces_of

if TYPE_CHECKING:
    from chtab.files import Street
    from chtab._roads.legs import Legs
    from chtab_server.osrm.crossings import Crossings
    from chtab_server.osrm.drawing import Drawing, Drawn
    from chtab_server.osrm.rides import Passages, Pieces
    from chtab.typing import Floats, Integers

# The text of JSON of a text.
quoted = json.JSONEncoder().encode
# The text of a maneuver that continues a street, and that of one onto another street.
CONTINUES, TURNS = (f'"type": "{TYPES[kind]}"' for kind in (CONTINUE, TURN))
# The types of maneuvers at rings with names of their own.
ROTARIES = {ENTER: "rotary", EXIT: "exit rotary"}
# How many texts of steps at rings are kept.
MOST_RINGS = 1 << 14


class LegSteps(NamedTuple):
    """The steps of a leg, and the names of its two longest streets, as texts of JSON."""

    steps: str
    summary: str


class Order(NamedTuple):
    """The order of the steps of some legs, one leg after the other: how many there are, where the
    departure and the arrival of each leg are, and where the steps between are."""

    total: int
    begins: Integers
    lasts: Integers
    inner: Integers

    def column(self, begins: Any, inner: Any, lasts: Any) -> Any:
        """A column for all steps, by what it has for each of these."""
        found = numpy.empty(self.total, inner.dtype)
        found[self.begins], found[self.inner], found[self.lasts] = begins, inner, lasts
        return found


def order_of(counts: Integers) -> Order:
    """The order of the steps of legs with so many of them between departure and arrival."""
    lasts = (counts + 2).cumsum() - 1
    count = int(lasts[-1]) + 1
    is_inner = numpy.ones(count, bool)
    is_inner[lasts] = is_inner[lasts - counts - 1] = False
    return Order(count, lasts - counts - 1, lasts, is_inner.nonzero()[0])


class Steps:
    """Makes steps from the crossings of a network, for those who travel by `mode`."""

    def __init__(self, crossings: Crossings, mode: str) -> None:
        self.known, self.passing, self.streets = crossings, Passing(crossings), crossings.streets
        self.names = [quoted(street.name) for street in crossings.streets]
        side = f', "driving_side": "{crossings.side}"' if crossings.side else ""
        # The way of travelling along a street as the text of a step between its names and its line,
        # and this text with the names before it.
        along, across = (
            f', "mode": "{each}"{side}, "geometry": ' for each in (mode, FERRY))
        self.modes = [
            across if street.highway == FERRY else along for street in crossings.streets]
        self.members = column_of([
            f", {called(street, name)}{way}"
            for street, name, way in zip(crossings.streets, self.names, self.modes)])
        # What signs call a street, as the inside of a text of JSON; and numbers that are equal for
        # streets with the same name, 0 for none.
        self.signs = [
            (name if street.name else quoted(street.ref))[1:-1]
            for street, name in zip(crossings.streets, self.names)]
        numbers = {"": 0}
        self.name_numbers = numpy.array([
            numbers.setdefault(street.name, len(numbers)) for street in crossings.streets])
        self.ring_street = functools.lru_cache(MOST_RINGS)(self.ring_street_anew)
        self.ring_maneuver = functools.lru_cache(MOST_RINGS)(ring_maneuver_anew)

    def of(self, legs: Legs, which: Integers, lines: Lines) -> list[LegSteps]:
        """The steps of some legs, each of which is a way and lies along `lines`."""
        if not len(which):
            return []
        pieces = pieces_of(self.known, lines.drawn.pieces)
        rides = Rides(self.known, self.passing, pieces)
        passages, known = rides.passages(), rides.kept
        passages, joined = joining.joined(passages, pieces, lines.metres)
        [kept] = ((passages.kinds != SILENT) | known.is_crossing[passages.ways]).nonzero()
        [acting] = (passages.kinds[kept] != SILENT).nonzero()
        done, numbers = kept[acting], numpy.arange(len(which) + 1)
        owners = pieces.legs[passages.before[kept]]
        cuts, turns = owners.searchsorted(numbers), owners[acting].searchsorted(numbers)
        order = order_of(turns[1:] - turns[:-1])
        begun, ended = self.ends_of(legs, which, pieces)
        streets = order.column(begun, pieces.streets[passages.before[done] + 1], ended)
        maneuvers = order.column(None, known.maneuvers[passages.ways[done]], None)
        for passage, street in joined.items():
            place = order.inner[done.searchsorted(passage)]
            streets[place], maneuvers[place] = street, maneuvers[place].replace(CONTINUES, TURNS, 1)
        members = self.members[streets]
        self.see_to_rings(passages, pieces, done, order.inner, members, maneuvers)
        maneuvers[order.begins], maneuvers[order.lasts] = map(column_of, zip(*lines.ends()))
        # The crossings of a step are those up to the next step; an arrival has none. The text of a
        # maneuver has the crossing where it is.
        passed = order.column(cuts[:-1], acting, cuts[1:])
        passed[:-1] = passed[1:] - passed[:-1]
        passed[-1] = 0
        passed[order.inner] -= 1
        nodes = known.nodes[passages.ways[done]]
        begins = lines.drawing.at_nodes(nodes, self.known.roads.places[nodes - 1].round(6))
        measured = lines.measured(order, pieces.numbers[passages.before[done]], begins)
        others = known.crossings[passages.ways[kept]][passages.kinds[kept] == SILENT]
        texts = lines.joined(order, measured, members, maneuvers, passed, others)
        signs, metres, begins = (
            [self.signs[street] for street in streets.tolist()], measured.metres.tolist(),
            order.begins.tolist())
        return [
            LegSteps(text, summary(signs[begin:last], metres[begin:last]))
            for text, begin, last in zip(texts, begins, order.lasts.tolist())]

    def ends_of(self, legs: Legs, which: Integers, pieces: Pieces) -> tuple[Integers, Integers]:
        """The streets where each leg begins and ends."""
        cuts = pieces.legs.searchsorted(numpy.arange(len(which) + 1))
        begun = self.known.street_of[2 * legs.starts.roads[which]]
        ended = begun.copy()
        is_there = cuts[1:] > cuts[:-1]
        begun[is_there], ended[is_there] = (
            pieces.streets[cuts[:-1][is_there]], pieces.streets[cuts[1:][is_there] - 1])
        return begun, ended

    def see_to_rings(
        self, passages: Passages, pieces: Pieces, done: Integers, at: Integers, members: Any,
        maneuvers: Any,
    ) -> None:
        """Puts the texts of steps at rings in place of those that don't know the exit. The steps at
        the passages `done` have the places `at`."""
        kinds = passages.kinds[done]
        [places] = ((kinds == ENTER) | (kinds == EXIT)).nonzero()
        some = done[places]
        rings, behind, streets, before = (
            passages.rings[some], passages.behind[some], pieces.streets, passages.before[some])
        names, firsts = self.name_numbers[streets], pieces.legs.searchsorted(pieces.legs[before])
        # A ring has a name of its own if no street beside it has the same.
        is_own = names[rings] > 0
        for beside in rings - 1, behind:
            is_own &= (beside < firsts) | (names[beside] != names[rings])
        named = numpy.where(is_own, streets[rings], -1).tolist()
        along = streets[before + 1]
        called = numpy.where(behind >= 0, streets[behind], along).tolist()
        exits = passages.exits[some].tolist()
        for place, kind, exit, name, street, own in zip(
            at[places].tolist(), kinds[places].tolist(), exits, named, called, along.tolist()
        ):
            members[place] = self.ring_street(street, name, own)
            maneuvers[place] = self.ring_maneuver(
                maneuvers[place], TYPES[kind], ROTARIES[kind] if name >= 0 else TYPES[kind], exit)

    def ring_street_anew(self, street: int, name: int, along: int) -> str:
        """The text of a step at a ring from behind its weight up to its line. `name` is a street
        with the ring's own name, or -1."""
        more = f', "rotary_name": {self.names[name]}' if name >= 0 else ""
        return f", {called(self.streets[street], self.names[street])}{more}{self.modes[along]}"


def ring_maneuver_anew(text: str, old: str, new: str, exit: int) -> str:
    """The text of a maneuver with another type, and with the number of the exit unless that is
    0."""
    more = f', "exit": {exit}' if exit else ""
    return text.replace(f'"type": "{old}"', f'"type": "{new}"', 1).replace(
        '}, "intersections"', f'{more}}}, "intersections"', 1)


def summary(names: Sequence[str], metres: Sequence[float]) -> str:
    """The names of the two longest streets, in their order on the leg, as a text of JSON."""
    lengths: dict[str, float] = {}
    for name, length in zip(names, metres):
        lengths[name] = lengths.get(name, 0) + length
    lengths.pop("", None)
    longest = sorted(lengths, key=lengths.__getitem__, reverse=True)[:2]
    return f'"{", ".join([name for name in lengths if name in longest])}"'


def called(street: Street, name: str) -> str:
    """What a step on a street is called: its name as a text of JSON, and what else signs have."""
    more = (("ref", street.ref), ("destinations", street.destinations))
    return f'"name": {name}' + "".join([f', "{key}": {quoted(text)}' for key, text in more if text])


class Measured(NamedTuple):
    """How long steps are, in metres and in seconds, the texts of their first places, and how many
    pieces each has."""

    metres: Floats
    seconds: Floats
    begins: Any
    counts: Integers


class Lines:
    """How legs lie, one leg after the other: `metres` and `weights` from the start of a leg up to
    the end of each piece of it."""

    def __init__(self, drawing: Drawing, drawn: Drawn) -> None:
        self.drawing, self.drawn, self.firsts = drawing, drawn, drawn.pieces.firsts
        pieces = drawn.pieces
        lengths = numpy.where(
            pieces.roads != NONE,
            abs(pieces.ends - pieces.starts) * drawing.lines.metres[pieces.roads], 0)
        self.metres = sums_before(lengths, self.firsts) + lengths
        self.weights = sums_before(pieces.weights, self.firsts) + pieces.weights

    def reached(self) -> Integers:
        """For each piece the last of those of its leg that follow it without any place. It is at
        their end that the next step begins."""
        is_new = self.drawn.stretches.has_places.copy()
        is_new[self.firsts[:-1]] = True
        lasts = is_new.nonzero()[0] - 1
        lasts[:-1], lasts[-1] = lasts[1:], len(is_new) - 1
        return lasts[is_new.cumsum() - 1]

    def measured(self, order: Order, stops: Integers, begins: Any) -> Measured:
        """How long all steps are, and where they begin. Those between departure and arrival begin
        at the ends of the pieces `stops`, at places with the texts `begins`."""
        reached, ends = self.reached()[stops], self.firsts[1:] - 1
        metres, weights = (
            order.column(0, known[reached], known[ends]) for known in (self.metres, self.weights))
        cuts = order.column(self.firsts[:-1], stops + 1, self.firsts[1:])
        for column in metres, weights, cuts:
            column[:-1] = column[1:] - column[:-1]
            column[order.lasts] = 0
        starts = order.column(
            column_of(self.drawn.begin_texts), begins, column_of(self.drawn.last_texts))
        return Measured(metres.round(1), weights / 1_000, starts, cuts)

    def joined(
        self, order: Order, measured: Measured, members: Any, maneuvers: Any, passed: Integers,
        crossings: Any,
    ) -> list[str]:
        """The texts of the steps of each leg, from columns of texts. Each step has `passed` of the
        crossings beside that of its maneuver."""
        open_line, close_line, alone = self.drawing.around()
        seconds = column_of(list(map(repr, measured.seconds.tolist())))
        # Each step has this many parts before the pieces of its line, between these and its
        # crossings, and behind them.
        before, between, behind = 9, 3, 1
        sizes = before + measured.counts + between + passed + behind
        firsts = sizes.cumsum() - sizes
        parts, middle = numpy.empty(int(sizes.sum()), object), firsts + before + measured.counts
        metres = column_of(list(map(repr, measured.metres.tolist())))
        for place, column in enumerate((
            ', {"distance": ', metres, ', "duration": ', seconds, ', "weight": ', seconds, members,
            open_line, measured.begins
        )):
            parts[firsts + place] = column
        parts[firsts[order.begins]] = '[{"distance": '
        parts[ranges(firsts + before, measured.counts)] = self.drawn.stretches.texts
        # A line has at least two places.
        places = cuts_of(self.drawn.stretches.has_places)[cuts_of(measured.counts)]
        is_short = places[1:] == places[:-1]
        parts[middle] = ""
        parts[middle[is_short]] = (
            polylines.SAME if alone is None
            else column_of([f"{alone}{begin}" for begin in measured.begins[is_short].tolist()]))
        parts[middle + 1], parts[middle + 2] = close_line, maneuvers
        parts[ranges(middle + between, passed)] = crossings
        lasts = firsts + sizes - 1
        parts[lasts], parts[lasts[order.lasts]] = "]}", "]}]"
        listed, cuts = parts.tolist(), [*firsts[order.begins].tolist(), len(parts)]
        return ["".join(listed[first:last]) for first, last in zip(cuts, cuts[1:])]

    def ends(self) -> Iterator[tuple[str, str]]:
        """For each leg the maneuver of its departure with the crossing there, and the same of its
        arrival, as texts of JSON."""
        columns = (self.drawn.begins, self.drawn.lasts, *self.ways())
        for begin, last, ahead, came in zip(*(column.tolist() for column in columns)):
            start, goal = f'"location": {begin}', f'"location": {last}'
            depart = maneuver("depart", f'{start}, "bearing_before": 0, "bearing_after": {ahead}')
            arrive = maneuver("arrive", f'{goal}, "bearing_before": {came}, "bearing_after": 0')
            yield (
                f'{depart}{{{start}, "bearings": [{ahead}], "entry": [true], "out": 0}}',
                f'{arrive}{{{goal}, "bearings": [{(came + 180) % 360}], "entry": [true], "in": 0}}')

    def ways(self) -> tuple[Integers, Integers]:
        """The directions in which legs leave their first places, and come to their last ones; 0 of
        legs that stay at one place."""
        found, ways = self.drawn.stretches, numpy.zeros((2, len(self.firsts) - 1), numpy.int64)
        [with_places] = found.has_places.nonzero()
        cuts = with_places.searchsorted(self.firsts)
        [moving] = (cuts[1:] > cuts[:-1]).nonzero()
        ways[0][moving], ways[1][moving] = (
            found.aheads[with_places[cuts[:-1][moving]]],
            found.cames[with_places[cuts[1:][moving] - 1]])
        return ways[0], ways[1]
