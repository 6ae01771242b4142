"""Places at the curb: a driver reaches them, and leaves them, on the side of the road where they
lie, and need not cross it."""
from __future__ import annotations

from dataclasses import replace
from typing import TYPE_CHECKING

import numpy

from chtab._roads.lines import mercator
from chtab._roads.snapping import BACKWARD, FORWARD, NONE
from chtab_server.osrm.nearby import INSIDE, one_sided

if TYPE_CHECKING:
    from chtab._roads.snapping import Roads, Spots
    from chtab.typing import Floats, Integers


def at_curb(roads: Roads, spots: Spots, places: Floats, is_left: bool) -> Spots:
    """The same spots, left and reached in the direction in which a place (n, 2) lies on the side of
    the road that is driven on. A place on the line of its road lies on both sides, and a road that
    is open in one direction alone has no other side to come from."""
    inside = spots.parts.clip(INSIDE, 1 - INSIDE)
    made = roads.spots(spots.places, spots.longitudes, spots.latitudes, spots.roads, inside)
    is_one_way = (roads.forward[spots.roads] == NONE) | (roads.backward[spots.roads] == NONE)
    side = sides_of(roads, replace(made, parts=inside), places) * (-1 if is_left else 1)
    wanted = numpy.where(
        is_one_way | (side == 0), FORWARD | BACKWARD, numpy.where(side > 0, FORWARD, BACKWARD))
    return one_sided(made, wanted & spots.sides)


def sides_of(roads: Roads, spots: Spots, places: Floats) -> Integers:
    """On which side of their roads places lie, as seen by one who drives forward: 1 on the right,
    -1 on the left, 0 on the line."""
    lines, found = roads.lines, numpy.zeros(len(spots), numpy.int64)
    at, there = mercator(spots.longitudes, spots.latitudes), mercator(*places.T)
    for number, (road, part) in enumerate(zip(spots.roads.tolist(), spots.parts.tolist())):
        first = int(lines.firsts[road])
        parts = lines.parts[first:lines.firsts[road + 1]]
        step = first + min(
            max(int(numpy.searchsorted(parts, part, "right")) - 1, 0), len(parts) - 2)
        (x, y), (u, v) = mercator(*lines.places[step:step + 2].T)
        east, north = there[number] - at[number]
        found[number] = numpy.sign((u - x) * -north + (v - y) * east)
    return found
