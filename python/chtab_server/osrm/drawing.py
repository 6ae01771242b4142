"""Lines of routes as texts of JSON. What a whole road adds to a line depends on the road and on the
direction alone, so it is kept."""
from __future__ import annotations

from typing import TYPE_CHECKING, Any, NamedTuple

import numpy

from chtab._engine.walks import cuts_of
from chtab._roads.snapping import NONE
from chtab_server.osrm import polylines
from chtab_server.osrm.crossings import bearings
from chtab_server.osrm.keeping import Keeping, column_of
from chtab_server.osrm.polylines import DIGITS

if TYPE_CHECKING:
    from collections.abc import Sequence
    from chtab._roads.legs import Legs, Pieces
    from chtab._roads.lines import Lines
    from chtab.typing import Floats, Integers, Marks

# Texts of roads that are kept, some 100 bytes each.
MOST_TEXTS = 1 << 18


class Stretch(NamedTuple):
    """Stretches of roads in one direction: the texts of their places behind the first one, whether
    there are any, and the directions in which the first place is left and the last one reached,
    without meaning where there are none."""

    texts: Any
    has_places: Marks
    aheads: Integers
    cames: Integers


NOTHING = Stretch(numpy.empty(0, object), numpy.zeros(0, bool), *numpy.zeros((2, 0), numpy.int64))


class Drawn(NamedTuple):
    """The lines of legs: what they lead along, the stretches that these pieces are, and the first
    and the last place of each leg in degrees (n, 2), rounded to millionths, and as texts."""

    pieces: Pieces
    stretches: Stretch
    begins: Floats
    lasts: Floats
    begin_texts: list[str]
    last_texts: list[str]


class Places(NamedTuple):
    """The texts of places."""

    texts: Any


class Drawing:
    """Draws routes in one form of lines. What whole roads add to lines is kept by the ends of roads
    that they are left by, and the texts of nodes."""

    def __init__(self, lines: Lines, nodes: int, form: str) -> None:
        self.lines, self.form = lines, form
        # The last stretch is that of no road.
        self.roads = Keeping(2 * len(lines) + 1, MOST_TEXTS, NOTHING)
        self.nodes = Keeping(nodes + 1, MOST_TEXTS, Places(numpy.empty(0, object)))

    def full_roads(self, ends: Integers) -> Stretch:
        """The roads that are left by these ends; no stretch for the number behind the last one."""
        def made(some: Integers) -> Stretch:
            roads, is_back = ends[some] >> 1, ends[some] & 1 > 0
            is_road = roads < len(self.lines)
            counts = numpy.ones(len(some), numpy.int64)
            counts[is_road] = (
                self.lines.firsts[roads[is_road] + 1] - self.lines.firsts[roads[is_road]])
            places = numpy.zeros((int(counts.sum()), 2))
            places[numpy.repeat(is_road, counts)] = (
                self.lines.joined(roads[is_road], is_back[is_road]).round(6))
            return self.stretch(places, counts)

        kept, which = self.roads.found(ends, None, made)
        return Stretch(*(column[which] for column in kept))

    def at_nodes(self, nodes: Integers, places: Floats) -> Any:
        """The texts of nodes, which lie at `places`."""
        kept, which = self.nodes.found(
            nodes, None, lambda some: Places(column_of(self.places(places[some]))))
        return kept.texts[which]

    def stretch(self, places: Floats, counts: Integers) -> Stretch:
        """Stretches with so many places each, one after the other, rounded to millionths. Places
        that follow on themselves count once."""
        begins, is_written = cuts_of(counts), numpy.ones(len(places), bool)
        is_written[1:] = (places[1:] != places[:-1]).any(axis=1)
        is_written[begins[:-1]] = False
        cuts = cuts_of(is_written)[begins]
        has_places, after = cuts[1:] > cuts[:-1], is_written.nonzero()[0]
        ways = numpy.zeros((2, len(counts)), numpy.int64)
        both = after[numpy.concatenate([cuts[:-1][has_places], cuts[1:][has_places] - 1])]
        ways[:, has_places] = bearings(places[both - 1], places[both]).reshape(2, -1)
        return Stretch(column_of(self.behind(places, is_written, cuts)), has_places, *ways)

    def behind(self, places: Floats, is_written: Marks, cuts: Integers) -> list[str]:
        """The texts of those places that are written: line k has those from `cuts[k]` to before
        `cuts[k + 1]` of them, behind another place."""
        if self.form in DIGITS:
            steps = polylines.integers(places, DIGITS[self.form])
            steps[1:] -= steps[:-1].copy()
            return [
                text.replace("\\", "\\\\") for text in polylines.letters(steps[is_written], cuts)]
        texts = [f", [{x}, {y}]" for x, y in places[is_written].tolist()]
        return ["".join(texts[first:last]) for first, last in zip(cuts.tolist(), cuts[1:].tolist())]

    def drawn(self, legs: Legs, which: Integers) -> Drawn:
        """The lines of some legs, each of which is a way."""
        pieces = legs.pieces(which)
        is_part = numpy.zeros(len(pieces.roads), bool)
        is_part[pieces.firsts[:-1]] = is_part[pieces.firsts[1:] - 1] = True
        parts = self.lines.stretches(
            pieces.roads[is_part], pieces.starts[is_part], pieces.ends[is_part])
        places = parts.places.round(6)
        is_none = is_part | (pieces.roads == NONE)
        found = self.full_roads(
            numpy.where(
                is_none, 2 * len(self.lines), 2 * pieces.roads + (pieces.starts > pieces.ends)))
        for column, own in zip(found, self.stretch(places, parts.counts)):
            column[is_part] = own
        ends, part = numpy.cumsum(parts.counts), numpy.cumsum(is_part) - 1
        begins = places[(ends - parts.counts)[part[pieces.firsts[:-1]]]]
        lasts = places[ends[part[pieces.firsts[1:] - 1]] - 1]
        texts = self.places(numpy.concatenate([begins, lasts]))
        return Drawn(pieces, found, begins, lasts, texts[:len(begins)], texts[len(begins):])

    def lines_of(self, drawn: Drawn, counts: Integers) -> list[str]:
        """The lines of routes over some legs, so many of each route, each of which begins where the
        one before ends. A line has at least two places."""
        legs = cuts_of(counts)
        cuts, texts = drawn.pieces.firsts[legs].tolist(), drawn.stretches.texts.tolist()
        begins = [drawn.begin_texts[leg] for leg in legs[:-1].tolist()]
        return self.full_lines(
            begins, ["".join(texts[first:last]) for first, last in zip(cuts, cuts[1:])])

    def places(self, places: Floats) -> list[str]:
        """The texts of places by themselves."""
        if self.form in DIGITS:
            found = polylines.letters(
                polylines.integers(places, DIGITS[self.form]), numpy.arange(len(places) + 1))
            return [text.replace("\\", "\\\\") for text in found]
        return [f"[{x}, {y}]" for x, y in places.tolist()]

    def full_lines(self, begins: Sequence[str], behind: Sequence[str]) -> list[str]:
        """The texts of lines by their first places and what lies behind these."""
        if self.form in DIGITS:
            return [f'"{begin}{more or polylines.SAME}"' for begin, more in zip(begins, behind)]
        return [
            f'{{"type": "LineString", "coordinates": [{begin}{more or f", {begin}"}]}}'
            for begin, more in zip(begins, behind)]

    def around(self) -> tuple[str, str, str | None]:
        """The texts before and behind the places of a line, and that before a place which is there
        twice; None if its text is the same for all."""
        return (
            ('"', '"', None) if self.form in DIGITS
            else ('{"type": "LineString", "coordinates": [', "]}", ", "))
