"""The roads nearest to one place: several of them, or those that lead in a direction."""
from __future__ import annotations

from collections.abc import Callable, Sequence
from dataclasses import replace
from typing import TYPE_CHECKING

import numpy

from chtab._roads.lines import degrees, mercator
from chtab._roads.snapping import BACKWARD, FORWARD, NONE, Roads, Spots

if TYPE_CHECKING:
    from chtab._roads.lines import Pieces
    from chtab.typing import Floats, Integers, Marks

# The least part of a road between its end and a spot that is not at the end.
INSIDE = 1e-9


def one_sided(spots: Spots, sides: Integers) -> Spots:
    """The same spots, which trips leave and reach only in some directions of their roads."""
    # Who drives forward comes from `first` and goes to `last`.
    backward, forward = ((sides & side == 0)[:, None] for side in (BACKWARD, FORWARD))
    # A road may have more nodes into it than out of it.
    closed = numpy.repeat(numpy.hstack([backward, forward]), spots.out_nodes.shape[1] // 2, axis=1)
    shut = numpy.repeat(numpy.hstack([forward, backward]), spots.in_nodes.shape[1] // 2, axis=1)
    out_nodes, out_weights = (
        numpy.where(closed, NONE, column) for column in (spots.out_nodes, spots.out_weights))
    in_nodes, in_weights = (
        numpy.where(shut, NONE, column) for column in (spots.in_nodes, spots.in_weights))
    return replace(
        spots, out_nodes=out_nodes, out_weights=out_weights, in_nodes=in_nodes,
        in_weights=in_weights, sides=sides)


def find_some(roads: Roads, longitude: float, latitude: float, most: int) -> Spots:
    """Takes one place to at most `most` of its nearest roads, the nearest first."""
    roads.see_that_some()
    lines, place = roads.lines, mercator([longitude], [latitude])
    steps, shares, at = nearest_some(lines.index, place, most, lines.firsts)
    numbers, parts = lines.along(steps, shares)
    longitudes, latitudes = numpy.full((2, len(steps)), [[longitude], [latitude]])
    return roads.spots_at(longitudes, latitudes, numbers, parts, *degrees(*at.T))


def find_facing(
    roads: Roads, longitude: float, latitude: float, bearing: float, within: float,
    but: Sequence[int] = (),
) -> Spots:
    """Takes one place to the nearest point at which a road, but for some, leads in a direction.

    The direction is in degrees clockwise from north, and the road may lead `within` degrees off it.
    Trips leave the spot and arrive at it in that direction alone. If no road leads that way, there
    are no spots.
    """
    def fits(steps: Integers) -> Marks:
        found = facing(roads, steps, bearing, within) > 0
        numbers = numpy.searchsorted(roads.lines.firsts, steps, "right") - 1
        return found & ~numpy.isin(numbers, but) if but else found

    place = mercator([longitude], [latitude])
    steps, share, at = nearest_fitting(roads.lines.index, place, fits)
    numbers, parts = roads.lines.along(steps, share)
    # A spot at an end of its road would be left by any other road.
    parts = parts.clip(INSIDE, 1 - INSIDE)
    places = numpy.full((len(steps), 2), (longitude, latitude))
    spots = roads.spots(places, *degrees(*at.T), numbers, parts)
    return one_sided(spots, facing(roads, steps, bearing, within))


def facing(roads: Roads, steps: Integers, bearing: float, within: float) -> Integers:
    """For each step of a line, the open directions along its road that lead in a direction."""
    ways = roads.lines.index.ways_of(steps)
    leads = numpy.degrees(numpy.arctan2(ways[:, 0], ways[:, 1])) % 360
    numbers = numpy.searchsorted(roads.lines.firsts, steps, "right") - 1
    found = numpy.zeros(len(steps), numpy.int64)
    for side, off, weights in (FORWARD, 0, roads.forward), (BACKWARD, 180, roads.backward):
        is_near = abs((leads + off - bearing + 180) % 360 - 180) <= within
        found |= numpy.where(is_near & (weights[numbers] != NONE), side, 0)
    return found


def nearest_some(
    pieces: Pieces, place: Floats, most: int, firsts: Integers,
) -> tuple[Integers, Floats, Floats]:
    """The nearest step of each of the lines nearest to a place, which start at `firsts`."""
    def best_of(steps: Integers) -> tuple[Integers, Floats, Floats]:
        """The nearest step of each line, in order; of equally near ones the first."""
        shares, apart = pieces.feet(steps, place)
        lines = numpy.searchsorted(firsts, steps, "right")
        order = numpy.lexsort([steps, apart])
        order = order[numpy.sort(numpy.unique(lines[order], return_index=True)[1])][:most]
        return steps[order], shares[order], apart[order]

    count, found = 4 * most, numpy.zeros(0, numpy.int64)
    while len(found) < most:
        _, near = pieces.tree.query(place[0], min(count, len(pieces.steps)))
        found, _, apart = best_of(pieces.steps[numpy.atleast_1d(near)])
        if count >= len(pieces.steps):
            break
        count *= 2
    # A point as near as the last of these may be on a piece whose middle is farther away.
    radius = numpy.sqrt(apart[-1:]) * (1 + 1e-9) + pieces.reach + 1e-12
    [near] = pieces.tree.query_ball_point(place, radius)
    steps, shares, _ = best_of(pieces.steps[numpy.asarray(near, int)])
    return steps, shares, pieces.at(steps, shares)


def nearest_fitting(
    pieces: Pieces, place: Floats, fits: Callable[[Integers], Marks],
) -> tuple[Integers, Floats, Floats]:
    """The nearest step to one place among those for which `fits` holds, by arrays of these."""
    count, found = 16, numpy.zeros(0, int)
    while not len(found):
        distances, near = pieces.tree.query(place[0], min(count, len(pieces.steps)))
        distances, near = numpy.atleast_1d(distances), numpy.atleast_1d(near)
        steps = numpy.unique(pieces.steps[near])
        steps = steps[fits(steps)]
        shares, apart = pieces.feet(steps, place)
        # The steps that were not checked are at least this far away.
        least = numpy.inf if count >= len(pieces.steps) else distances[-1] - pieces.reach
        found = numpy.lexsort([steps, apart])[:1]
        found = found[numpy.sqrt(apart[found]) <= least]
        if count >= len(pieces.steps):
            break
        count *= 4
    return steps[found], shares[found], pieces.at(steps[found], shares[found])
