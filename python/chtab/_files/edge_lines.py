"""The lines of arcs as callers give them, such as shapely's, and the points between their ends."""
from __future__ import annotations

from collections.abc import Sequence
from typing import TYPE_CHECKING, Any, TypeAlias

import numpy

from chtab.errors import DataFault
from chtab._files.columns import refused, quoted

if TYPE_CHECKING:
    from chtab._files.node_labels import Labels
    from chtab.typing import Floats, Integers, Point

# Longitudes and latitudes, shape (n, 2).
Line: TypeAlias = "Floats"


def lines_in(name: str, column: Any, rows: int) -> list[Line | None] | None:
    """The lines of a column, arrays (n, 2) of places in degrees or None; None for no column."""
    if column is None:
        return None
    given = list(column)
    if len(given) != rows:
        raise DataFault(f"{name} has {len(given):,} rows, and there are {rows:,} arcs", name)
    lines = [line_in(name, row, line) for row, line in enumerate(given)]
    return None if all(line is None for line in lines) else lines


def line_in(name: str, row: int, line: Any) -> Line | None:
    """The line of one value of such a column."""
    if line is None or isinstance(line, float) and line != line:
        return None
    kind = getattr(line, "geom_type", "LineString")
    if kind != "LineString":
        text = "is no line; `explode()` of geopandas makes lines of lines of several parts"
        raise refused(name, row, f"a {kind} {text}")
    try:
        places = numpy.array(list(getattr(line, "coords", line)), float)[:, :2]
    except (TypeError, ValueError, IndexError):
        raise refused(name, row, f"{quoted(line)} is no line of longitudes and latitudes") from None
    if len(places) < 2 or not (abs(places) <= (180, 90)).all():
        text = "a line has two points or more, of longitudes from -180 to 180 and latitudes from"
        raise refused(name, row, f"{text} -90 to 90 degrees")
    return places


def ends_of(
    lines: Sequence[Line | None], tails: Integers, heads: Integers, labels: Labels,
) -> tuple[Floats, Floats]:
    """The longitudes and latitudes of all nodes, from the ends of the lines at them."""
    places = numpy.full((len(labels.values), 2), numpy.nan)
    for line, tail, head in zip(lines, tails.tolist(), heads.tolist()):
        if line is not None:
            places[tail - 1], places[head - 1] = line[0], line[-1]
    lacking = numpy.flatnonzero(numpy.isnan(places[:, 0]))
    if len(lacking):
        label = labels.values[lacking[:1]].tolist()[0]
        text = f"no line leads to the node {quoted(label)}, so that it has no place"
        raise DataFault(f"{text}: give `nodes`, `x` and `y`", "geometry")
    return places[:, 0], places[:, 1]


def bends_of(
    lines: Sequence[Line | None], tails: Integers, heads: Integers,
    places: tuple[Floats, Floats] | None,
) -> dict[int, list[Point]]:
    """The points between the ends of each arc that has some; its line may lead the other way."""
    if places is None:
        raise DataFault(
            "geometry is given and places are not: `nodes`, `x` and `y` are needed too", "geometry")
    bends = {}
    for arc, line in enumerate(lines):
        if line is not None and len(line) > 2:
            tail, head = ([axis[node - 1] for axis in places] for node in (tails[arc], heads[arc]))
            straight, turned = (
                abs(line[[0, -1]] - ends).sum() for ends in ((tail, head), (head, tail)))
            points = line[::-1] if turned < straight else line
            bends[arc] = [(x, y) for x, y in points[1:-1].tolist()]
    return bends
