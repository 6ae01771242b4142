"""Lines on the earth in flat arrays: their lengths, parts of them, and the point of all lines that
is nearest to a place.

Distances are compared in Mercator's projection. It keeps angles, so that the nearest point there is
the nearest on the ground.
"""
from __future__ import annotations

import math
from collections.abc import Sequence
from typing import TYPE_CHECKING, Any, NamedTuple

import numpy

from chtab._engine.walks import ranges
from chtab._roads import sphere
from chtab._roads.leaving import narrow
from chtab._roads.sphere import points

if TYPE_CHECKING:
    from numpy.typing import ArrayLike
    from chtab.typing import Floats, Integers, Marks, Point

# The latitudes up to which the projection is used; at the poles it is infinite.
STEEPEST = 89.9
# The pieces of lines with the nearest middles, where the nearest step is looked for first.
NEIGHBOURS = 16


def mercator(longitudes: ArrayLike, latitudes: ArrayLike) -> Floats:
    """Projects degrees to the plane."""
    y = numpy.radians(numpy.minimum(numpy.maximum(latitudes, -STEEPEST), STEEPEST))
    return numpy.array([numpy.radians(longitudes), numpy.arcsinh(numpy.tan(y))]).T


def degrees(x: Floats, y: Floats) -> tuple[Floats, Floats]:
    """Projects the plane back to degrees."""
    return numpy.degrees(x), numpy.degrees(numpy.arctan(numpy.sinh(y)))


def metres_between(
    longitudes: ArrayLike, latitudes: ArrayLike, others: ArrayLike, other_latitudes: ArrayLike,
) -> Floats:
    """The metres between each pair of places, along the sphere; columns of one length."""
    count = len(numpy.asarray(longitudes))
    columns = (longitudes, others), (latitudes, other_latitudes)
    both = points(*map(numpy.concatenate, columns)).T
    x, y, z = both[:, :count] - both[:, count:]
    return sphere.metres_of(numpy.sqrt(x * x + y * y + z * z))


def tidied(lines: Sequence[Floats]) -> list[tuple[list[Point], float]]:
    """The places of lines (n, 2), rounded and without repeated ones, and the metres along each."""
    if not lines:
        return []
    places, owner = numpy.concatenate(lines), numpy.repeat(range(len(lines)), [*map(len, lines)])
    is_new = numpy.ones(len(places), bool)
    is_new[1:] = (owner[1:] != owner[:-1]) | (places[1:] != places[:-1]).any(axis=1)
    places, owner = places[is_new], owner[is_new]
    steps = metres_between(*places[:-1].T, *places[1:].T) * (owner[1:] == owner[:-1])
    metres = numpy.bincount(owner[1:], steps, len(lines)).astype(float).tolist()
    rounded = list(zip(*places.round(6).T.tolist()))
    cuts = numpy.searchsorted(owner, numpy.arange(len(lines) + 1)).tolist()
    return [(rounded[start:end], each) for start, end, each in zip(cuts, cuts[1:], metres)]


class OnLine(NamedTuple):
    """A point of a line: the line, its part there, from 0 to 1, and longitude and latitude."""

    line: int
    part: float
    longitude: float
    latitude: float


class Stretches(NamedTuple):
    """The places of parts of lines (n, 2), how many each has, and how far along each is, 0 to 1."""

    places: Floats
    counts: Integers
    shares: Floats


class Lines:
    """Lines: line k has two or more `places[firsts[k]:firsts[k + 1]]` in degrees, which are at the
    `parts` of it, from 0 to 1, and the length `metres[k]`."""

    def __init__(self, counts: Integers, places: Floats) -> None:
        self.places = places
        self.firsts = numpy.concatenate([[0], numpy.cumsum(counts)])
        steps = numpy.zeros(len(places))
        if len(places):
            steps[1:] = numpy.nan_to_num(metres_between(*places[:-1].T, *places[1:].T))
        steps[self.firsts[:-1]] = 0
        sums = numpy.cumsum(steps)
        along = sums - numpy.repeat(sums[self.firsts[:-1]], counts)
        self.metres = along[self.firsts[1:] - 1]
        self.parts = along / numpy.repeat(numpy.where(self.metres > 0, self.metres, 1), counts)
        self.pieces: Pieces | None = None

    @property
    def index(self) -> Pieces:
        """What finds the lines that are near a place, made when it is first asked for."""
        if self.pieces is None:
            self.pieces = Pieces(self)
        return self.pieces

    def __len__(self) -> int:
        return len(self.metres)

    def of(self, line: int) -> Floats:
        """The places of a line (n, 2)."""
        return self.places[self.firsts[line]:self.firsts[line + 1]]

    def stretch(self, line: int, start: float, end: float) -> Floats:
        """The places of a line from one part of it to another (n, 2)."""
        places, parts = self.of(line), self.parts[self.firsts[line]:self.firsts[line + 1]]
        ends = min(start, end), max(start, end)
        inner = places[parts.searchsorted(ends[0], "right"):parts.searchsorted(ends[1])]
        outer = numpy.array([numpy.interp(ends, parts, column) for column in places.T]).T
        found = numpy.vstack([outer[:1], inner, outer[1:]])
        return found if start <= end else found[::-1]

    def stretches(self, lines: Integers, starts: Floats, ends: Floats) -> Stretches:
        """The same of many lines, each from one part of it to another."""
        low, high = numpy.minimum(starts, ends), numpy.maximum(starts, ends)
        sizes = self.firsts[lines + 1] - self.firsts[lines]
        which = ranges(self.firsts[lines], sizes)
        parts, owners = self.parts[which], numpy.repeat(numpy.arange(len(lines)), sizes)
        is_above, is_below = parts > low[owners], parts < high[owners]
        is_inside = is_above & is_below
        counts = 2 + numpy.bincount(owners[is_inside], minlength=len(lines))
        lasts = numpy.cumsum(counts) - 1
        firsts, is_end = lasts + 1 - counts, numpy.zeros(counts.sum(), bool)
        is_end[firsts] = is_end[lasts] = True
        places, along = numpy.empty((len(is_end), 2)), numpy.empty(len(is_end))
        places[~is_end], along[~is_end] = self.places[which[is_inside]], parts[is_inside]
        for at, part, passed in (firsts, low, ~is_above), (lasts, high, (parts <= high[owners])):
            before = self.firsts[lines] + numpy.bincount(owners[passed], minlength=len(lines)) - 1
            places[at], along[at] = self.between(before, self.firsts[lines + 1] - 1, part), part
        owners = numpy.repeat(numpy.arange(len(lines)), counts)
        order = numpy.arange(len(is_end))
        order = numpy.where((starts > ends)[owners], (firsts + lasts)[owners] - order, order)
        lengths = high - low
        shares = abs(along[order] - starts[owners]) / numpy.where(lengths > 0, lengths, 1)[owners]
        # A part without length ends with its last place.
        shares = numpy.where(lengths[owners] > 0, shares, order == lasts[owners])
        return Stretches(places[order], counts, shares)

    def between(self, before: Integers, lasts: Integers, parts: Floats) -> Floats:
        """The points at parts of lines, between a place and the next one or at the last one."""
        after = numpy.minimum(before + 1, lasts)
        wide = self.parts[after] - self.parts[before]
        shares = (parts - self.parts[before]) / numpy.where(wide > 0, wide, 1)
        return self.places[before] + shares[:, None] * (self.places[after] - self.places[before])

    def joined(self, lines: Integers, is_back: Marks) -> Floats:
        """The places of some lines one after the other (n, 2), reversed where `is_back` is True."""
        counts = self.firsts[lines + 1] - self.firsts[lines]
        which = ranges(self.firsts[lines], counts)
        turned = numpy.repeat(2 * self.firsts[lines] + counts - 1, counts) - which
        return self.places[numpy.where(numpy.repeat(is_back, counts), turned, which)]

    def nearest(
        self, longitudes: Floats, latitudes: Floats,
    ) -> tuple[Integers, Floats, Floats, Floats]:
        """The nearest point of all lines to each place: lines, parts, longitudes, latitudes."""
        steps, shares, at = self.index.nearest(mercator(longitudes, latitudes))
        return *self.along(steps, shares), *degrees(*at.T)

    def along(self, steps: Integers, shares: Floats) -> tuple[Integers, Floats]:
        """The lines of steps, and the parts of these at shares of the steps."""
        before, after = self.parts[steps], self.parts[steps + 1]
        lines = numpy.searchsorted(self.firsts, steps, "right") - 1
        return lines, before + shares * (after - before)

    def nearest_few(self, longitudes: Floats, latitudes: Floats) -> list[OnLine]:
        """The same for a few places, one by one, without arrays of a few items."""
        found = self.index.nearest_few(mercator(longitudes, latitudes))
        steps = [step for step, _, _ in found]
        lines = numpy.searchsorted(self.firsts, steps, "right").tolist()
        ends = zip(*(self.parts.take([step + more for step in steps]).tolist() for more in (0, 1)))
        points = []
        for line, (low, high), (_, share, (x, y)) in zip(lines, ends, found):
            place = math.degrees(x), math.degrees(math.atan(math.sinh(y)))
            points.append(OnLine(line - 1, low + share * (high - low), *place))
        return points


def foot(
    x: float, y: float, step: int, begin: Sequence[float], end: Sequence[float],
) -> tuple[float, int, float, tuple[float, float]]:
    """The nearest point of a step to one of the plane: distance squared, step, share, point."""
    (a, b), (east, north) = begin, end
    east, north = east - a, north - b
    u, v = x - a, y - b
    share = min(max((east * u + north * v) / (east * east + north * north or 1), 0.0), 1.0)
    u, v = u - east * share, v - north * share
    return u * u + v * v, step, share, (a + east * share, b + north * share)


def tree_of(middles: Floats) -> Any:
    """The k-d tree of some points of the plane."""
    from scipy.spatial import cKDTree

    return cKDTree(middles, balanced_tree=False)


class Pieces:
    """The steps of lines, cut into pieces of at most a length, whose middles are in a k-d tree."""

    def __init__(self, lines: Lines) -> None:
        plane = self.plane = numpy.ascontiguousarray(mercator(*lines.places.T))
        is_step = numpy.ones(len(plane), bool)
        is_step[lines.firsts[1:] - 1] = False
        is_finite = numpy.isfinite(plane).all(axis=1)
        is_step[:-1] &= is_finite[:-1] & is_finite[1:]
        steps = numpy.flatnonzero(is_step)
        ways = self.ways_of(steps)
        lengths = numpy.sqrt(ways[:, 0] * ways[:, 0] + ways[:, 1] * ways[:, 1])
        most = lengths.mean() or 1.0
        counts = numpy.maximum(numpy.ceil(lengths / most), 1).astype(int)
        self.steps = narrow(numpy.repeat(steps, counts))
        shares = (ranges(numpy.zeros(len(steps), int), counts) + 0.5) / numpy.repeat(counts, counts)
        self.middles = self.at(self.steps, shares)
        self.tree = tree_of(self.middles)
        # The largest distance of a point of a piece from its middle.
        self.reach = float((lengths / counts).max() / 2)

    def nearest(self, places: Floats) -> tuple[Integers, Floats, Floats]:
        """The nearest step to each point of the plane, the share of it there, and the point."""
        count = min(NEIGHBOURS, len(self.steps))
        steps, shares, left = self.nearest_among(places, count)
        while len(left):
            count = min(4 * count, len(self.steps))
            steps[left], shares[left], unsure = self.nearest_among(places[left], count)
            left = left[unsure]
        return steps, shares, self.at(steps, shares)

    def nearest_few(self, places: Floats) -> list[tuple[int, float, Point]]:
        """The same for a few points, as (step, share, point)."""
        count, found = min(NEIGHBOURS, len(self.steps)), list[Any]()
        distances, near = self.around(places, count)
        for place, pieces, most in zip(places.tolist(), near, distances[:, -1].tolist()):
            apart, *best = self.nearest_of(place, pieces)
            number = count
            while number < len(self.steps) and self.is_unsure(apart, most):
                number = min(4 * number, len(self.steps))
                distances, pieces = self.tree.query(place, number)
                apart, *best = self.nearest_of(place, pieces)
                most = float(distances[-1])
            found.append(tuple(best))
        return found

    def around(self, places: Floats, count: int) -> tuple[Floats, Integers]:
        """The pieces whose middles are nearest to places (n, `count`), with their distances."""
        distances, near = self.tree.query(places, count)
        return distances.reshape(len(places), count), near.reshape(len(places), count)

    def nearest_of(
        self, place: Sequence[float], pieces: Integers,
    ) -> tuple[float, int, float, Point]:
        """The nearest point to a place among those of some pieces, as `foot` gives it."""
        steps = self.steps.take(pieces)
        ends = (self.plane.take(some, axis=0).tolist() for some in (steps, steps + 1))
        return min(foot(place[0], place[1], *row) for row in zip(steps.tolist(), *ends))

    def is_unsure(self, apart: Any, farthest: Any) -> Any:
        """Whether a piece so far away may have a nearer point than one at a distance squared."""
        return apart**0.5 * (1 + 1e-9) + self.reach + 1e-12 >= farthest

    def nearest_among(self, places: Floats, count: int) -> tuple[Integers, Floats, Integers]:
        """The nearest steps around places, their shares, and places with perhaps nearer ones."""
        distances, near = self.around(places, count)
        among = self.steps.take(near)
        along, apart = self.feet(among, places[:, None])
        least = apart.min(axis=1)
        # Of equally near steps the first.
        firsts = numpy.where(apart == least[:, None], among, len(self.plane)).argmin(axis=1)
        best = firsts + count * numpy.arange(len(places))
        are_all = count == len(self.steps)
        unsure = numpy.flatnonzero(self.is_unsure(least, distances[:, -1]) & (not are_all))
        return among.reshape(-1)[best], along.reshape(-1)[best], unsure

    def feet(self, steps: Integers, places: Floats) -> tuple[Floats, Floats]:
        """The nearest points of steps to places, one for each: shares, distances squared."""
        begins, ways = self.plane.take(steps, axis=0), self.ways_of(steps)
        east, north = ways[..., 0], ways[..., 1]
        x, y = places[..., 0] - begins[..., 0], places[..., 1] - begins[..., 1]
        squares = east * east + north * north
        squares[squares == 0] = 1
        shares = numpy.minimum(numpy.maximum((east * x + north * y) / squares, 0), 1)
        x, y = x - east * shares, y - north * shares
        apart: Any = x * x + y * y
        return shares, apart

    def at(self, steps: Integers, shares: Floats) -> Floats:
        """The points of the plane so far along steps."""
        found: Floats = self.plane.take(steps, axis=0) + self.ways_of(steps) * shares[:, None]
        return found

    def ways_of(self, steps: Integers) -> Floats:
        """How far steps lead east and north in the plane."""
        return self.plane.take(steps + 1, axis=0) - self.plane.take(steps, axis=0)
