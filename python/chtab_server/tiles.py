"""The roads of a network as a map: square tiles of SVG in the numbering of web maps, drawn from the
graph alone."""
from __future__ import annotations

import functools
from typing import TYPE_CHECKING

import numpy

from chtab._engine.walks import ranges
from chtab._roads.snapping import NONE
from chtab_tools import svg

if TYPE_CHECKING:
    from numpy.typing import NDArray
    from chtab._roads.snapping import Roads
    from chtab.typing import Floats, Integers

# The pixels of a tile, the units of the drawing for each pixel, and how many pixels beyond its
# border roads are drawn.
SIDE, FINE, BEYOND = 256, 4, 8
# The kinds of roads by speed, the slowest first: the least km/h, the first zoom that shows them,
# their colour, border and width in pixels at zoom 14. If weights are not times, all roads are of
# the second kind. The contrast of borders with the ground and with each band of reach is at least
# three to one (`page/map.css` has these colours).
KINDS = (
    (0, 13, "#ffffff", "#605e57", 2.0), (25, 11, "#ffffff", "#605e57", 3.0),
    (48, 9, "#ffe9a3", "#6e5210", 4.2), (75, 0, "#ffc47d", "#84430b", 5.2))
UNTIMED = 30.0
# A road narrower than the first number of pixels is a line in its border's colour, at least as wide
# as the second; others have two borders.
NARROW, LEAST, BORDER = 2.6, 1.4, 1.0
# A tile has at most this many pieces of roads. If there are more, the slowest kinds are left out.
MOST = 30_000
KEPT_TILES = 512
# Pieces of roads are found by the square of this zoom where they begin, but for those that are more
# than half as long.
ZOOM = 13
SQUARES = 1 << ZOOM
LONG = 0.5 / SQUARES
# How many pieces are looked at together.
PART = 1 << 20


def world(places: Floats) -> Floats:
    """Longitudes and latitudes (n, 2) as fractions of the map's square, from its north-west
    corner."""
    x = places[:, 0] / 360 + 0.5
    y = 0.5 - numpy.arcsinh(numpy.tan(numpy.radians(numpy.clip(places[:, 1], -85, 85)))) / (
        2 * numpy.pi)
    return numpy.column_stack([x, y])


def kinds_of(roads: Roads, is_timed: bool) -> NDArray[numpy.int8]:
    """The kind of each road by the faster of its directions."""
    speeds = numpy.full(len(roads), UNTIMED)
    if is_timed:
        weights = numpy.where(roads.forward == NONE, roads.backward, roads.forward)
        other = roads.backward != NONE
        weights[other] = numpy.minimum(weights, roads.backward)[other]
        speeds = roads.lines.metres * 3600 / numpy.maximum(weights, 1)
    least = [kind[0] for kind in KINDS]
    return (numpy.searchsorted(least, speeds, side="right") - 1).astype(numpy.int8)


class Tiles:
    """The tiles of a network's roads, whose pieces lead from one place of their lines to the next.
    `steps` has the numbers of the first places, ordered by the `keys` of pieces; the first `longs`
    of them are long ones."""

    def __init__(self, roads: Roads, is_timed: bool) -> None:
        lines = self.lines = roads.lines
        kinds, steps, keys = kinds_of(roads, is_timed), [], []
        for first in range(0, len(lines), PART):
            own = numpy.arange(first, min(first + PART, len(lines)))
            counts = lines.firsts[own + 1] - lines.firsts[own] - 1
            some = ranges(lines.firsts[own], counts)
            found = self.keys_of(some, numpy.repeat(kinds[own], counts))
            kept = found >= 0
            steps.append(some[kept].astype(numpy.int32))
            keys.append(found[kept].astype(numpy.int32))
        every = numpy.concatenate([numpy.zeros(0, numpy.int32), *keys])
        order = numpy.argsort(every, kind="stable")
        self.keys = every[order]
        self.steps = numpy.concatenate([numpy.zeros(0, numpy.int32), *steps])[order]

    def keys_of(self, steps: Integers, kinds: NDArray[numpy.int8]) -> Integers:
        """The keys of pieces: of a long one its kind, and else a number behind all of these for the
        kind and the square; -1 for one without a place."""
        begins, ends = (world(self.lines.places[some]) for some in (steps, steps + 1))
        is_there = numpy.isfinite(begins).all(axis=1) & numpy.isfinite(ends).all(axis=1)
        is_long = (abs(ends - begins) > LONG).any(axis=1)
        column, row = (numpy.where(is_there[:, None], begins, 0) * SQUARES).astype(numpy.int64).T
        short = len(KINDS) + (kinds * SQUARES + row.clip(0, SQUARES - 1)) * SQUARES
        short += column.clip(0, SQUARES - 1)
        return numpy.where(is_there, numpy.where(is_long, kinds, short), -1)

    def near(self, kind: int, zoom: int, corner: Integers) -> Floats:
        """The ends (n, 4) of the pieces of a kind that are in a tile or near it, in tiles from its
        corner."""
        scale, margin = 2.0**zoom, BEYOND / SIDE
        # A short piece ends at most half of a square from where it begins.
        (left, top), (right, bottom) = (
            numpy.floor((corner + side) * (SQUARES / scale) + more).astype(numpy.int64).clip(
                0, SQUARES - 1)
            for side, more in ((-margin, -0.5), (1 + margin, 0.5)))
        rows = len(KINDS) + (kind * SQUARES + numpy.arange(top, bottom + 1)) * SQUARES
        firsts, lasts = (
            numpy.append(kind, rows + column).astype(numpy.int32) for column in (left, right))
        begins, stops = self.keys.searchsorted(firsts), self.keys.searchsorted(lasts, "right")
        steps = self.steps[ranges(begins, stops - begins)].astype(numpy.int64)
        places = self.lines.places
        ends = numpy.hstack([world(places[some]) * scale - corner for some in (steps, steps + 1)])
        one, other = ends[:, :2], ends[:, 2:]
        low, high = numpy.minimum(one, other), numpy.maximum(one, other)
        found: Floats = ends[((low <= 1 + margin) & (high >= -margin)).all(axis=1)]
        return found

    @functools.lru_cache(KEPT_TILES)
    def tile(self, zoom: int, x: int, y: int) -> str:
        """The text of a tile."""
        found, count = [], 0
        for kind in reversed(range(len(KINDS))):
            if zoom < KINDS[kind][1]:
                break
            ends = self.near(kind, zoom, numpy.array([x, y]))
            count += len(ends)
            if count > MOST:
                break
            found.append((KINDS[kind], path_of(ends)))
        width = min(1.6, max(0.35, 1.28 ** (zoom - 14)))
        borders, roads = [], []
        for (_, _, colour, border, pixels), line in reversed(found):
            wide = pixels * width
            if wide < NARROW:
                roads.append(stroke(line, border, max(LEAST, 0.6 * wide)))
            else:
                borders.append(stroke(line, border, wide + 2 * BORDER))
                roads.append(stroke(line, colour, wide))
        return "".join([
            f'<svg xmlns="http://www.w3.org/2000/svg" width="{SIDE}" height="{SIDE}" viewBox="0 0 '
            f'{SIDE * FINE} {SIDE * FINE}" ',
            'fill="none" stroke-linecap="round" stroke-linejoin="round">', *borders, *roads,
            "</svg>"])


def path_of(ends: Floats) -> str:
    """Pieces of roads, from end to end in tiles, as an SVG path in the units of a tile."""
    numbers = numpy.round(ends * SIDE * FINE).astype(int)
    listed = numpy.unique(numbers, axis=0).tolist() if len(ends) else []
    return svg.path([((a, b), (c, d)) for a, b, c, d in listed])


def stroke(line: str, colour: str, pixels: float) -> str:
    return (
        f'<path d="{line}" stroke="{colour}" stroke-width="{pixels * FINE:.1f}"/>' if line else "")
