"""Matches tracks to roads: finds the likeliest points of roads for the places of a track, by a
hidden Markov model (Newson and Krumm 2009).

A point is likelier the nearer it is to its place, and a way between two points the closer its
length is to the straight line between the places. A place is left out if no way to it has about
that length. The track is split if many places in a row are left out, or if much time passes.
"""
from __future__ import annotations

from collections.abc import Iterable, Sequence
from typing import TYPE_CHECKING, NamedTuple

import numpy

from chtab._roads.legs import legs_between
from chtab._roads.lines import metres_between
from chtab._roads.snapping import Spots
from chtab_server.osrm import nearby

if TYPE_CHECKING:
    from chtab._roads.snapping import Roads
    from chtab._roads.trips import Trips
    from chtab.typing import Floats, Integers

# The default precision of a place in metres, the multiple of it within which roads are candidates,
# and the most candidates.
PRECISION, TIMES, MOST_ROADS = 5.0, 3.0, 6
# The mean and the largest difference in metres between ways and straight lines, and how many legs
# are asked for together.
BETA, MOST_OFF, BATCH = 10.0, 1_000.0, 1_024
# How many places in a row may be left out before the track is split, and the seconds of a gap.
MOST_LEFT_OUT, GAP = 10, 60
# The metres and seconds from the place before within which a place adds little.
TIDY_METRES, TIDY_SECONDS = 15.0, 5
# The means and widths of Laplace distributions of the logarithm of a match's length divided by the
# track's, for right and for wrong matches, and the share of right ones, as OSRM has measured them.
RIGHT, WRONG, SHARE_RIGHT = (0.005986, 0.016646), (0.054385, 0.458432), 0.696774


class Track(NamedTuple):
    """A track: its places in degrees (n, 2), the precision of each in metres (`radiuses`), infinite
    if it isn't given, the seconds of each, or None, and the direction in which each was driven
    over, with how many degrees off it are taken, or None."""

    places: Floats
    radiuses: Sequence[float]
    timestamps: list[int] | None
    bearings: Sequence[tuple[int, int] | None] = ()


class Part(NamedTuple):
    """A connected part of a track: the numbers of its places, their points on roads, how many other
    roads were near each, and its confidence, from 0 to 1."""

    places: list[int]
    spots: Spots
    others: list[int]
    confidence: float


def matched(
    trips: Trips, track: Track, is_parted: bool = True, is_tidied: bool = False,
) -> list[Part]:
    """The parts of a track, each of at least two places."""
    kept = tidied(track) if is_tidied else list(range(len(track.places)))
    model = Model(trips, track)
    model.look_up(kept)
    left = [place for place in kept if len(model.spots[place])]
    chains: list[Chain] = []
    while left:
        chain, left = begun(model, left, is_parted)
        chains.append(chain)
    return [chain.part() for chain in chains if len(chain.places) > 1]


def begun(model: Model, places: list[int], is_parted: bool) -> tuple[Chain, list[int]]:
    """The chain that starts at the first of some places, and the places that are left for the next
    one."""
    chain = Chain(model, places[0])
    for at, place in enumerate(places[1:], 1):
        if is_parted and is_gap(model.track, places[at - 1], place):
            return chain, [*chain.left_out, *places[at:]]
        if not chain.take(place) and len(chain.left_out) > MOST_LEFT_OUT:
            return chain, [*chain.left_out, *places[at + 1:]]
    return chain, chain.left_out if len(chain.left_out) > 1 else []


def tidied(track: Track) -> list[int]:
    """The places without those that are near the one before, in space or time."""
    kept, steps = [0], track.places
    for place in range(1, len(steps)):
        (x, y), (u, v) = steps[kept[-1]], steps[place]
        is_far = metres_between(*map(numpy.atleast_1d, (x, y, u, v)))[0] >= TIDY_METRES
        is_later = (
            track.timestamps is None
            or track.timestamps[place] - track.timestamps[kept[-1]] >= TIDY_SECONDS)
        if is_far and is_later:
            kept.append(place)
    return kept


def is_gap(track: Track, before: int, place: int) -> bool:
    return track.timestamps is not None and track.timestamps[place] - track.timestamps[before] > GAP


class Model:
    """The candidates of a track: the points on roads near each place, and the ways between those of
    two places."""

    def __init__(self, trips: Trips, track: Track) -> None:
        self.trips, self.track = trips, track
        self.ways: dict[tuple[int, int], Floats] = {}
        self.spreads = [
            radius if numpy.isfinite(radius) and radius > 0 else PRECISION
            for radius in track.radiuses]
        self.spots = [self.near(place) for place in range(len(track.places))]

    def near(self, place: int) -> Spots:
        (x, y), roads = self.track.places[place], self.trips.roads
        bearing = self.track.bearings[place] if self.track.bearings else None
        found = (
            nearby.find_some(roads, x, y, MOST_ROADS) if bearing is None
            else facing(roads, x, y, MOST_ROADS, bearing))
        return found[found.metres <= TIMES * self.spreads[place]]

    def emission(self, place: int) -> Floats:
        """The logarithms of the likelihood of each point, by its distance."""
        return -0.5 * (self.spots[place].metres / self.spreads[place]) ** 2

    def look_up(self, kept: Iterable[int]) -> None:
        """Finds the ways between consecutive places with roads near them."""
        there = [place for place in kept if len(self.spots[place])]
        self.find(list(zip(there, there[1:])))

    def find(self, pairs: Sequence[tuple[int, int]]) -> None:
        """Finds the metres of the ways between the points of pairs of places, infinite if there is
        no way."""
        of_starts: list[Spots] = []
        of_ends: list[Spots] = []
        for before, place in pairs:
            one, other = self.spots[before], self.spots[place]
            of_starts.append(one[numpy.repeat(numpy.arange(len(one)), len(other))])
            of_ends.append(other[numpy.tile(numpy.arange(len(other)), len(one))])
        if not pairs:
            return
        starts, ends = together(of_starts), together(of_ends)
        metres = numpy.empty(len(starts))
        for first in range(0, len(starts), BATCH):
            some = slice(first, first + BATCH)
            legs = legs_between(self.trips, starts[some], ends[some])
            metres[some] = numpy.where(legs.weights >= 0, legs.metres, numpy.inf)
        at = 0
        for before, place in pairs:
            shape = len(self.spots[before]), len(self.spots[place])
            self.ways[before, place] = metres[at:at + shape[0] * shape[1]].reshape(shape)
            at += shape[0] * shape[1]

    def transition(self, before: int, place: int) -> Floats:
        """The logarithms of the likelihood of each way between two places; minus infinity if its
        length is too different from the straight line."""
        if (before, place) not in self.ways:
            self.find([(before, place)])
        off = abs(self.ways[before, place] - self.straight(before, place))
        return numpy.where(off <= MOST_OFF, -off / BETA, -numpy.inf)

    def straight(self, before: int, place: int) -> float:
        """The metres between two places of the track."""
        (x, y), (u, v) = self.track.places[before], self.track.places[place]
        return float(metres_between(*map(numpy.atleast_1d, (x, y, u, v)))[0])


class Chain:
    """Places that are connected by ways, with the best way to each point of each place (Viterbi
    1967)."""

    def __init__(self, model: Model, place: int) -> None:
        self.model, self.places = model, [place]
        self.left_out: list[int] = []
        self.scores = [model.emission(place)]
        self.before: list[Integers] = []

    def take(self, place: int) -> bool:
        """Adds a place if a way leads to it, and returns whether one does."""
        total = self.scores[-1][:, None] + self.model.transition(self.places[-1], place)
        best = total.max(axis=0)
        if not numpy.isfinite(best).any():
            self.left_out.append(place)
            return False
        self.before.append(total.argmax(axis=0))
        self.scores.append(best + self.model.emission(place))
        self.places.append(place)
        self.left_out = []
        return True

    def part(self) -> Part:
        """The likeliest points."""
        picked = [int(self.scores[-1].argmax())]
        for before in reversed(self.before):
            picked.append(int(before[picked[-1]]))
        picked.reverse()
        steps = list(zip(self.places, self.places[1:]))
        metres = sum(
            float(self.model.ways[step][one, other])
            for step, one, other in zip(steps, picked, picked[1:]))
        straight = sum(self.model.straight(*step) for step in steps)
        spots = together([
            self.model.spots[place][[pick]] for place, pick in zip(self.places, picked)])
        others = [len(self.model.spots[place]) - 1 for place in self.places]
        return Part(self.places, spots, others, confidence(straight, metres))


def confidence(straight: float, metres: float) -> float:
    """The likelihood that a match with this length is right for a track with that length."""
    if not straight or not metres:
        return 1.0 if straight == metres else 0.0

    def density(middle: float, width: float) -> float:
        return numpy.exp(-abs(numpy.log(metres / straight) - middle) / width) / (2 * width)

    right, wrong = SHARE_RIGHT * density(*RIGHT), (1 - SHARE_RIGHT) * density(*WRONG)
    return round(float(right / (right + wrong)), 6)


def facing(
    roads: Roads, longitude: float, latitude: float, most: int, bearing: tuple[int, int],
) -> Spots:
    """The spots of a place on its nearest roads that lead in a direction, at most `most` of them,
    the nearest first."""
    found: list[Spots] = []
    while len(found) < most:
        one = nearby.find_facing(
            roads, longitude, latitude, *bearing, [int(each.roads[0]) for each in found])
        if not len(one):
            break
        found.append(one)
    return together(found) if found else roads.find_any([longitude], [latitude])[:0]


def together(parts: Sequence[Spots]) -> Spots:
    """Joins spots, one after the other."""
    return Spots.joined(parts)
