"""Columns of arcs from GeoDataFrames of geopandas, which have a line for each."""
from __future__ import annotations

from collections.abc import Mapping
from typing import TYPE_CHECKING, Any

import numpy

from chtab.errors import DataFault
from chtab._files import arc_columns, edge_lines
from chtab._files.frames import WAYS, column_of, marks_of, ways_in
from chtab._files.showing import DEGREES
from chtab._roads.exporting import warn_of_parts
from chtab._roads.lines import metres_between

if TYPE_CHECKING:
    import geopandas
    from numpy.typing import NDArray
    from chtab.typing import Integers


def in_degrees(frame: geopandas.GeoDataFrame) -> geopandas.GeoDataFrame:
    """A GeoDataFrame in degrees, which one without a coordinate system is taken to be."""
    return frame if frame.crs is None or frame.crs == DEGREES else frame.to_crs(DEGREES)


def columns_of_geodataframe(
    edges: Any, nodes: Any, names: tuple[str, str, str | None], both_ways: Any,
    more: Mapping[str, Any],
) -> arc_columns.Columns:
    """The columns of a frame of lines, as `Network.from_geodataframe` explains them."""
    source, target, weight = names
    lines = edge_lines.lines_in("geometry", in_degrees(edges).geometry, len(edges))
    if lines is None or any(line is None for line in lines):
        row = 0 if lines is None else next(row for row, line in enumerate(lines) if line is None)
        raise DataFault(f"geometry[{row}]: there is no line", "geometry", row)
    has_ends = [name in edges.columns or name in edges.index.names for name in (source, target)]
    of_arcs = {**more, "both_ways": marks_of(edges, both_ways)}
    if all(has_ends):
        sources, targets = (column_of(edges, name) for name in (source, target))
        if nodes is not None:
            points = in_degrees(nodes).geometry
            of_arcs |= {"nodes": nodes.index, "x": points.x, "y": points.y}
    elif any(has_ends) or nodes is not None:
        text = f"the frame has no columns {source!r} and {target!r} for the ends of lines"
        raise DataFault(text, source if has_ends[1] else target)
    else:
        (sources, targets), own = by_ends(lines)
        of_arcs |= own
    weights = lengths_of(lines) if weight is None else column_of(edges, weight)
    if weight is None and of_arcs.get("unit") is None:
        of_arcs["unit"] = "metres"
    named = (str(source), str(target), "length" if weight is None else str(weight))
    keys = column_of(edges, "key").tolist() if "key" in edges.index.names else None
    ways = ways_in(edges[WAYS]) if WAYS in edges.columns else None
    if not any(has_ends):
        warn_of_parts(len(of_arcs["nodes"]), sources, targets)
    return arc_columns.Columns(
        sources, targets, weights, geometry=lines, names=named, keys=keys, ways=ways,
        index=edges.index, **of_arcs)


def by_ends(lines: Any) -> tuple[tuple[Integers, Integers], dict[str, Any]]:
    """The nodes at the ends of lines in millionths of a degree, from 1 on, with their places."""
    ends = numpy.round([(line[0], line[-1]) for line in lines], 6).reshape(-1, 2)
    places, found = numpy.unique(ends, axis=0, return_inverse=True)
    sources, targets = found.reshape(-1, 2).T + 1
    nodes = {"nodes": numpy.arange(1, len(places) + 1), "x": places[:, 0], "y": places[:, 1]}
    return (sources, targets), nodes


def lengths_of(lines: Any) -> NDArray[Any]:
    """The metres along each line."""
    counts = numpy.array([len(line) for line in lines])
    places = numpy.concatenate(lines)
    steps = metres_between(*places[:-1].T, *places[1:].T)
    owner = numpy.repeat(numpy.arange(len(lines)), counts)
    return numpy.bincount(owner[1:], steps * (owner[1:] == owner[:-1]), len(lines))
