"""Lengths on the earth as a sphere with a radius of 6,371,008.8 metres, as in the converter."""
from __future__ import annotations

import math
from typing import TYPE_CHECKING

if TYPE_CHECKING:
    from numpy.typing import ArrayLike
    from chtab.typing import Floats

RADIUS = 6_371_008.8


def point(longitude: float, latitude: float) -> tuple[float, float, float]:
    """The point of the sphere of radius 1."""
    x, y = math.radians(longitude), math.radians(latitude)
    return math.cos(y) * math.cos(x), math.cos(y) * math.sin(x), math.sin(y)


def points(longitudes: ArrayLike, latitudes: ArrayLike) -> Floats:
    """The points of the sphere of radius 1, a row for each place."""
    import numpy

    x, y = (
        numpy.radians(numpy.asarray(part, float)).reshape(-1) for part in (longitudes, latitudes))
    flat = numpy.cos(y)
    return numpy.array([flat * numpy.cos(x), flat * numpy.sin(x), numpy.sin(y)]).T


def metres(chord: float) -> float:
    """The metres along the earth of a straight distance on a sphere of radius 1."""
    return 2 * RADIUS * math.asin(min(1.0, chord / 2))


def metres_from(longitude: float, latitude: float, other: float, other_latitude: float) -> float:
    """The metres between two places."""
    (a, b, c), (u, v, w) = point(longitude, latitude), point(other, other_latitude)
    return metres(math.sqrt((a - u) * (a - u) + (b - v) * (b - v) + (c - w) * (c - w)))


def metres_of(chords: Floats) -> Floats:
    """The same for an array of straight distances."""
    import numpy

    return 2 * RADIUS * numpy.arcsin(numpy.minimum(1, chords / 2))
