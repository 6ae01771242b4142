"""Columns of arcs from frames, graphs of networkx and sparse matrices. Neither pandas nor networkx
is imported: only the methods of their objects are called."""
from __future__ import annotations

from collections.abc import Iterable, Mapping, Sequence
from typing import Any

import numpy

from chtab.errors import DataFault
from chtab._files import arc_columns, columns, row_index
from chtab._files.columns import quoted

# The attribute in which osmnx has the ways of an edge: one number, or a list of them.
WAYS = "osmid"


def ways_in(column: Iterable[Any]) -> list[list[int]] | None:
    """The ways of each edge; None unless each has a number or a list of numbers."""
    kinds = list, tuple, set, numpy.ndarray
    ways = [list(way) if isinstance(way, kinds) else [way] for way in column]
    are_numbers = all(map(columns.is_integer, {type(number) for way in ways for number in way}))
    return [list(map(int, way)) for way in ways] if are_numbers else None


def column_of(frame: Any, name: str) -> Any:
    """The column of a frame, or the level of its index, with a name."""
    if name in frame.columns:
        return frame[name]
    levels = getattr(getattr(frame, "index", None), "names", ())
    if name in levels:
        return frame.index.get_level_values(name)
    known = ", ".join(map(repr, [*frame.columns, *filter(None, levels)]))
    text = f"the frame has no column {name!r}; it has {known}; reset_index() makes columns of an"
    raise DataFault(f"{text} index without a name", str(name))


def columns_of_frame(
    frame: Any, names: Sequence[str], geometry: str | None, both_ways: Any, more: Mapping[str, Any],
) -> arc_columns.Columns:
    """The columns with these names, and further ones of `arc_columns.Columns`."""
    if not hasattr(frame, "columns"):
        raise TypeError(
            f"the frame is a DataFrame, as pandas.read_csv reads one, not {quoted(frame)}")
    lines = None if geometry is None else column_of(frame, geometry)
    sources, targets, weights = (column_of(frame, name) for name in names)
    index = getattr(frame, "index", None)
    return arc_columns.Columns(
        sources, targets, weights, both_ways=marks_of(frame, both_ways), geometry=lines,
        names=tuple(map(str, names)), index=index, **more)


def marks_of(frame: Any, both_ways: Any) -> Any:
    """The marks of rows that lead both ways, in a column of the frame or by its name."""
    column = column_of(frame, both_ways) if isinstance(both_ways, str) else both_ways
    if row_index.index_of(column) is not None:
        _, column = row_index.matched(("the frame", "both_ways"), (frame, column))
    return column


def arcs_of_networkx(
    graph: Any, weight: str, scale: float | str | None, unit: str | None,
    places: tuple[str | None, str | None], geometry: str | None,
) -> arc_columns.Arcs:
    """The arcs of a graph by the attributes of its edges, and places and lines if it has some."""
    nodes, edges = list(graph.nodes), list(graph.edges(data=weight))
    columns.see_that_labels("nodes", list(map(columns.whole_as_integer, nodes)))
    sources, targets, weights = (list(column) for column in zip(*edges)) if edges else ([], [], [])
    x, y = places_of(graph, nodes, places)
    has_lines = geometry is not None and x is not None
    lines = [line for _, _, line in graph.edges(data=geometry)] if has_lines else None
    # Without a unit these are the seconds and metres of osmnx, in thousandths.
    own = 1000 if unit is None else None
    if not isinstance(scale, str) or scale != "auto":
        own = arc_columns.scale_in(scale)  # type: ignore[arg-type, assignment]
    names = "from", "to", str(weight)
    known = [key for *_, key in graph.edges(keys=True)] if graph.is_multigraph() else []
    keys = known if known and all(type(key) in (int, str) for key in known) else None
    ways = ways_in(way for _, _, way in graph.edges(data=WAYS))
    given = arc_columns.Columns(
        sources, targets, weights, nodes, x, y, own, unit, not graph.is_directed(), lines, names,
        keys, ways)
    try:
        return arc_columns.arcs_of(given)
    except DataFault as fault:
        raise located(fault, graph, nodes, edges) from None


def places_of(
    graph: Any, nodes: Sequence[Any], names: tuple[str | None, str | None]
) -> Sequence[list[Any] | None]:
    """Two attributes of all nodes; None for both if no node has either."""
    if None in names:
        return None, None
    found = [[place for _, place in graph.nodes(data=name)] for name in names]
    is_there = any(place is not None for column in found for place in column)
    return found if is_there else (None, None)


def located(fault: DataFault, graph: Any, nodes: Sequence[Any], edges: Sequence[Any]) -> DataFault:
    """The fault of a column, with the node or edge of its row."""
    if fault.row is None:
        return fault
    if fault.column in ("nodes", "x", "y"):
        where = f"node {quoted(nodes[fault.row])}"
    else:
        where = "the edge from {} to {}".format(*map(quoted, edges[fault.row][:2]))
    crs, hint = str(graph.graph.get("crs", "4326")), ""
    if fault.column in ("x", "y", "geometry") and "4326" not in crs:
        hint = f"; the graph's places are of {crs}: `osmnx.project_graph(graph, to_crs=4326)` gives"
        hint += " degrees"
    return DataFault(f"{fault}, of {where}{hint}", fault.column, fault.row)
