"""What is reached from a spot: polygons around the roads that are reached within a limit, as
GeoJSON.

Roads are sampled onto a grid of squares, each with the least weight of the points in it. A polygon
consists of the squares up to a weight and of those around them, smoothed. Its border is therefore
as exact as a square is wide. Making it takes time by the length of the roads, not by their bends.
"""
from __future__ import annotations

from collections.abc import Sequence
from typing import TYPE_CHECKING, Any

import numpy
from scipy.ndimage import minimum_filter
from shapely.geometry import MultiPolygon, Polygon, box
from shapely.ops import unary_union

from chtab._engine.walks import ranges
from chtab._files.showing import OnMap
from chtab._roads import sphere
from chtab._roads.lines import degrees, mercator
from chtab._roads.snapping import NONE

if TYPE_CHECKING:
    from chtab._roads.snapping import Roads, Spots
    from chtab.typing import Floats, Integers, Marks, Point

# Squares along the longer side of what is reached, and the least width of one in metres.
SQUARES, NARROWEST = 320, 40.0
# A polygon ends this many metres from the roads, or one square if squares are wider.
AROUND = 90.0
# Holes and islands with fewer squares are left out.
FEW = 8


def samples(network_roads: Roads, times: Integers, spacing: float) -> tuple[Floats, Floats]:
    """Points of roads in the plane, at most `spacing` apart, and the weights up to there."""
    are_reached = (network_roads.road_of != NONE) & (times[network_roads.tails - 1] >= 0)
    arcs, ends, parts = network_roads.segments(are_reached.nonzero()[0])
    kept = ~numpy.isnan(ends).any(axis=1)
    arcs, ends, parts = arcs[kept], ends[kept], parts[kept]
    firsts = times[network_roads.tails[arcs] - 1]
    starts, stops = mercator(*ends[:, :2].T), mercator(*ends[:, 2:].T)
    lengths = numpy.hypot(*(stops - starts).T)
    counts = numpy.maximum(1, numpy.ceil(lengths / spacing)).astype(int) + 1
    segment = numpy.repeat(numpy.arange(len(arcs)), counts)
    step = ranges(numpy.zeros(len(counts), int), counts) / (counts[segment] - 1)
    part = parts[segment, 0] + (parts[segment, 1] - parts[segment, 0]) * step
    at = starts[segment] + (stops - starts)[segment] * step[:, None]
    return at, firsts[segment] + part * network_roads.weights[arcs[segment]]


def start_samples(network_roads: Roads, spot: Spots, spacing: float) -> tuple[Floats, ...]:
    """The same points for the road that the spot itself is on."""
    road, part = spot.roads[0], spot.parts[0]
    found = []
    for end, weight in (0.0, network_roads.backward[road]), (1.0, network_roads.forward[road]):
        if weight == NONE:
            end = part
        line = mercator(*network_roads.lines.stretch(road, part, end).T)
        steps = numpy.concatenate([[0.0], numpy.cumsum(numpy.hypot(*numpy.diff(line, axis=0).T))])
        wanted = numpy.linspace(0, steps[-1], int(steps[-1] / spacing) + 2)
        at = numpy.column_stack([numpy.interp(wanted, steps, line[:, axis]) for axis in (0, 1)])
        found.append((at, abs(end - part) * max(weight, 0) * wanted / (steps[-1] or 1.0)))
    return tuple(numpy.concatenate(column) for column in zip(*found))


def grid_of(at: Floats, weights: Floats, width: float) -> tuple[Floats, Floats]:
    """The least weight in each square, four empty ones on each side, and the first corner."""
    corner = at.min(axis=0) - 4 * width
    square = ((at - corner) / width).astype(int)
    grid = numpy.full(square.max(axis=0) + 5, numpy.inf)
    order = numpy.argsort(-weights)
    grid[tuple(square[order].T)] = weights[order]
    return grid, corner


def outline(inside: Marks, corner: Floats, width: float) -> list[Any]:
    """The squares that are inside, as polygons in the plane."""
    edges = numpy.diff(numpy.pad(inside, ((0, 0), (1, 1))).astype(numpy.int8), axis=1)
    runs = zip(numpy.argwhere(edges == 1), numpy.argwhere(edges == -1)[:, 1])
    corners = [((row, low), (row + 1, high)) for (row, low), high in runs]
    united = unary_union([box(*(corner + width * numpy.array(both)).flat) for both in corners])
    return list(united.geoms) if isinstance(united, MultiPolygon) else [united]


def smooth(ring: Any, width: float) -> list[Point]:
    """The ring of a polygon with its stairs cut off and its corners rounded (Chaikin 1974)."""
    line = numpy.array(Polygon(ring).simplify(0.75 * width).exterior.coords)[:-1]
    for _ in range(2):
        after = numpy.roll(line, -1, axis=0)
        corners = [0.75 * line + 0.25 * after, 0.25 * line + 0.75 * after]
        line = numpy.stack(corners, axis=1).reshape(-1, 2)
    places = zip(*degrees(*numpy.vstack([line, line[:1]]).T))
    return [(round(float(x), 6), round(float(y), 6)) for x, y in places]


class Isochrones(OnMap, dict):
    """A collection of GeoJSON: a MultiPolygon for each `limit`, the largest first."""

    shown_by = "limit"

    def to_geojson(self) -> dict:
        """Returns the collection as a plain dict.

        Returns
        -------
        dict
            The same collection.
        """
        return dict(self)

    def __repr__(self) -> str:
        limits = ", ".join(f"{each['properties']['limit']:g}" for each in self["features"])
        return f"<isochrones of {limits}>"


def polygons_of(inside: Marks, corner: Floats, width: float) -> list[list[list[Point]]]:
    """The coordinates of a GeoJSON MultiPolygon."""
    def is_large(ring: Any) -> bool:
        return Polygon(ring).area > FEW * width * width

    parts = [part for part in outline(inside, corner, width) if is_large(part.exterior)]
    rings = [[part.exterior, *filter(is_large, part.interiors)] for part in parts]
    return [[smooth(ring, width) for ring in own] for own in rings]


def polygons(
    network_roads: Roads, spot: Spots, times: Integers, limits: Sequence[float],
) -> list[Any]:
    """The coordinates of a MultiPolygon for each limit, the largest first, by `times` of nodes."""
    metre = 1 / (sphere.RADIUS * numpy.cos(numpy.radians(spot.latitudes[0])))
    near = numpy.flatnonzero((times >= 0) & (times <= limits[0]))
    start = spot.longitudes[0], spot.latitudes[0]
    places = mercator(*numpy.vstack([network_roads.places[near], start]).T)
    sizes = numpy.nanmax(places, axis=0) - numpy.nanmin(places, axis=0)
    width = max(NARROWEST * metre, numpy.nanmax(sizes) / SQUARES)
    of_roads = samples(network_roads, numpy.where(times <= limits[0], times, -1), width / 2)
    columns = zip(of_roads, start_samples(network_roads, spot, width / 2))
    at, weights = (numpy.concatenate(column) for column in columns)
    at, weights = at[weights <= limits[0]], weights[weights <= limits[0]]
    grid, corner = grid_of(at, weights, width)
    # Each square gets the least weight of those within reach of it.
    reach = max(1, round(AROUND * metre / width))
    grid, corner = numpy.pad(grid, 4, constant_values=numpy.inf), corner - 4 * width
    grid = minimum_filter(grid, 2 * reach + 1, mode="constant", cval=numpy.inf)
    return [polygons_of(grid <= limit, corner, width) for limit in limits]
