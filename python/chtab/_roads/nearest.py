"""Finds the nodes nearest to places: by scipy's k-d tree if scipy and numpy are installed, and
otherwise by a grid."""
from __future__ import annotations

import collections
import math
from collections.abc import Iterable, Iterator, Sequence
from typing import TYPE_CHECKING, Any

from chtab._roads import sphere

if TYPE_CHECKING:
    from numpy.typing import ArrayLike
    from chtab import files

# Nodes in a cell of the grid, on average.
CROWD = 16


class Tree:
    """The nodes in a k-d tree. Of several nodes at one point, the least numbered is found."""

    def __init__(self, coordinates: files.Coordinates) -> None:
        import numpy
        from scipy.spatial import cKDTree

        places = numpy.column_stack([coordinates.longitudes, coordinates.latitudes])
        nodes = numpy.flatnonzero(~numpy.isnan(places[:, 0]))
        keys = numpy.round(places[nodes] * 1e6).astype(numpy.int64) @ numpy.array([1 << 32, 1])
        self.nodes = nodes[numpy.unique(keys, return_index=True)[1]] + 1
        self.tree = cKDTree(sphere.points(*places[self.nodes - 1].T))

    def nearest(self, longitudes: ArrayLike, latitudes: ArrayLike) -> tuple[Any, Any]:
        """The nearest node to each place, and the metres between them, as arrays."""
        chords, found = self.tree.query(sphere.points(longitudes, latitudes))
        return self.nodes[found], sphere.metres_of(chords)


class Grid:
    """The nodes in cubes of equal size. The nearest one is in the shells around a place."""

    def __init__(self, coordinates: files.Coordinates) -> None:
        self.points = {node: sphere.point(*coordinates.of(node)) for node in coordinates.known()}
        spread = max(max(axis) - min(axis) for axis in zip(*self.points.values()))
        self.side = max(spread / math.sqrt(max(1, len(self.points) / CROWD)), 1e-9)
        self.cubes: dict[tuple[int, ...], list[int]] = collections.defaultdict(list)
        for node, at in self.points.items():
            self.cubes[self.cube(at)].append(node)

    def nearest(self, longitudes: Iterable[float], latitudes: Iterable[float]) -> tuple[Any, Any]:
        """The nearest node to each place, and the metres between them, as lists."""
        wanted = [sphere.point(*place) for place in zip(longitudes, latitudes)]
        found = [self.nearest_to(at) for at in wanted]
        apart = (math.dist(at, self.points[node]) for at, node in zip(wanted, found))
        return found, [*map(sphere.metres, apart)]

    def cube(self, at: Sequence[float]) -> tuple[int, ...]:
        return tuple(math.floor(part / self.side) for part in at)

    def shell(self, middle: Sequence[int], reach: int) -> Iterator[int]:
        """The nodes in cubes that are `reach` cubes away from this one."""
        x, y, z = middle
        steps = range(-reach, reach + 1)
        if (2 * reach + 1) ** 2 > len(self.cubes):
            for (u, v, w), nodes in self.cubes.items():
                if max(abs(u - x), abs(v - y), abs(w - z)) == reach:
                    yield from nodes
            return
        for a in steps:
            for b in steps:
                is_side = max(abs(a), abs(b)) == reach
                for c in steps if is_side else {-reach, reach}:
                    yield from self.cubes.get((x + a, y + b, z + c), ())

    def nearest_to(self, at: Sequence[float]) -> int:
        """The nearest node, of equally near ones the least numbered, in shells that grow."""
        middle, reach, best = self.cube(at), 0, (math.inf, 0)
        while best[0] > (reach - 1) * self.side:
            found = [(math.dist(at, self.points[node]), node) for node in self.shell(middle, reach)]
            best = min([best, *found])
            reach = reach + 1 if found or reach < 16 else max(reach + 1, self.nearest_cube(middle))
        return best[1]

    def nearest_cube(self, middle: Sequence[int]) -> int:
        return min(max(abs(a - b) for a, b in zip(middle, cube)) for cube in self.cubes)


def index_of(coordinates: files.Coordinates, plain: bool = False) -> Tree | Grid:
    """Finds nodes by places: by a tree, or by a grid if `plain` says so or scipy is missing."""
    try:
        return Grid(coordinates) if plain else Tree(coordinates)
    except ImportError:
        return Grid(coordinates)
