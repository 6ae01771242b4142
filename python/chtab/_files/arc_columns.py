"""Makes the arcs of a graph from columns of labels and weights, and refuses what is no arc."""
from __future__ import annotations

import math
import numbers
from collections.abc import Sequence
from dataclasses import dataclass
from typing import TYPE_CHECKING, Any, cast

import numpy

from chtab.errors import DataFault
from chtab._files import columns, edge_lines, measures, row_index
from chtab._files.columns import refuse, quoted
from chtab._files.node_labels import Labels, Numbers, labels_of_ends, labels_of_nodes

if TYPE_CHECKING:
    from numpy.typing import NDArray
    from chtab.typing import Column, Floats, Integers, LabelArray, Marks, Point

# The limits of a graph: nodes, arcs, and nodes times weight.
MOST_NODES, MOST_ARCS, MOST_WEIGHT = 2**25, 2**27, 2**60
NAMES = "sources", "targets", "weights"


@dataclass(frozen=True)
class Columns:
    """The columns of a network as callers give them; `Network.from_arrays` explains each."""

    sources: Column
    targets: Column
    weights: Column
    nodes: Column | None = None
    x: Column | None = None
    y: Column | None = None
    scale: float | None = None
    unit: str | None = None
    both_ways: bool | Column = False
    geometry: object = None
    names: tuple[str, ...] = NAMES
    keys: list[Any] | None = None
    ways: list[list[int]] | None = None
    # The index of the rows, as pandas has it, or None.
    index: Any = None


@dataclass(frozen=True)
class Arcs:
    """The arcs of a graph between nodes from 1 on, and what a network knows of them."""

    labels: Labels | Numbers
    tails: Integers
    heads: Integers
    weights: Integers
    # The caller's weights, in this unit, were multiplied by `scale`, and rounded by so much.
    scale: float | None
    rounding: float
    unit: str | None
    # Longitudes and latitudes of nodes in degrees, and points of arcs between their ends.
    places: tuple[Floats, Floats] | None
    bends: dict[int, list[Point]]
    # The number of the caller's rows, and the row of each arc if it isn't arc modulo `rows`.
    rows: int
    arcs: Integers | None = None
    keys: list[Any] | None = None
    ways: list[list[int]] | None = None
    # The unit of the graph, files that are copied, what rows are called, comments about turns.
    base: str = ""
    beside: Any = None
    index: LabelArray | None = None
    turns: Sequence[str] = ()


def arcs_of(given: Columns) -> Arcs:
    """Makes arcs from columns. Whatever the program would refuse is refused here, with its row."""
    ends = zip(given.names, (given.sources, given.targets))
    sources, targets = (columns.column_labels_in(*end) for end in ends)
    weights, factor, scale, unit = weights_in(given)
    columns.see_that_long(given.names, [sources, targets, weights])
    labels, (tails, heads) = nodes_of(given, sources, targets)
    rows = len(sources)
    back = rows_back(given.both_ways, rows)
    nodes, arcs = len(labels.values), rows + len(back)
    if not nodes:
        raise DataFault("there is no node: a network has at least one", "nodes")
    if nodes > MOST_NODES or arcs > MOST_ARCS:
        raise DataFault(
            f"{nodes:,} nodes and {arcs:,} arcs: a graph has at most {MOST_NODES:,} nodes and "
            f"{MOST_ARCS:,} arcs", "nodes")
    weights, rounding = whole_weights(given.names[2], weights, factor, MOST_WEIGHT // nodes)
    lines = edge_lines.lines_in("geometry", given.geometry, rows)
    places = places_in(given, nodes)
    if places is None and lines is not None:
        places = edge_lines.ends_of(lines, tails, heads, labels)
    bends = {} if lines is None else edge_lines.bends_of(lines, tails, heads, places)
    if len(back):
        some = ((place, row) for place, row in enumerate(back.tolist()) if row in bends)
        bends |= {rows + place: bends[row][::-1] for place, row in some}
        tails, heads = numpy.append(tails, heads[back]), numpy.append(heads, tails[back])
        weights = numpy.append(weights, weights[back])
    of_arcs = None if len(back) in (0, rows) else numpy.append(numpy.arange(rows), back)
    return Arcs(
        labels, tails, heads, weights, scale, rounding, unit, places, bends, rows, of_arcs,
        given.keys, given.ways, measures.base_of(unit, scale),
        index=row_index.kept(given.index, rows))


def rows_back(both_ways: Any, rows: int) -> Integers:
    """The rows that lead back too, by a truth value or by a column of these."""
    if isinstance(both_ways, bool | numpy.bool_):
        return numpy.arange(rows if both_ways else 0)
    marks = columns.array_of("both_ways", both_ways)
    values = [] if isinstance(both_ways, str) else marks.reshape(-1).tolist()
    place = columns.first_of([not isinstance(value, bool | numpy.bool_) for value in values])
    if place is not None or marks.ndim != 1:
        what = quoted(both_ways) if place is None else quoted(values[place])
        text = f"both_ways is True, False, or a column of these, not {what}"
        raise DataFault(text, "both_ways", place)
    if len(marks) != rows:
        raise DataFault(
            f"both_ways has {len(marks):,} rows, and there are {rows:,} rows of arcs", "both_ways")
    return numpy.flatnonzero(marks.astype(bool))


def weights_in(given: Columns) -> tuple[NDArray[Any], float | None, float | None, str | None]:
    """Weights, durations as milliseconds; their factor, that of answers, and the caller's unit."""
    scale, unit = scale_in(given.scale), measures.unit_in(given.unit)
    durations = columns.durations_in(given.names[2], given.weights)
    if durations is None:
        scale = measures.scale_of(unit, scale)
        if scale is None and unit is not None:
            raise measures.unknown(unit)
        return columns.numbers_in(given.names[2], given.weights), scale, scale, unit
    unit = measures.TIME if unit is None else unit
    if scale is not None or unit not in measures.TIMES:
        raise DataFault(
            "durations have a unit of their own: leave `scale` out, and `unit` is one of "
            f"{', '.join(measures.TIMES)}", "scale")
    return durations, 1, measures.TIMES[unit], unit


def nodes_of(given: Columns, sources: LabelArray, targets: LabelArray) -> tuple[Labels, Any]:
    """The labels of all nodes, and the nodes of both columns of labels."""
    if given.nodes is None:
        return labels_of_ends(given.names, sources, targets)
    labels, ends = labels_of_nodes("nodes", given.nodes), zip(given.names, (sources, targets))
    return labels, [labels.nodes_of(name, column) for name, column in ends]


def scale_in(scale: float | None) -> float | None:
    """A scale: a whole number, a float, or None."""
    if scale is None:
        return None
    is_number = isinstance(scale, numbers.Real) and not isinstance(scale, bool)
    if not is_number or not 0 < scale < math.inf:
        raise DataFault(f"scale is a number above 0, not {quoted(scale)}", "scale")
    return int(scale) if int(scale) == scale else float(scale)


def whole_weights(
    name: str, weights: NDArray[Any], scale: float | None, most: int,
    hint: str = "; `unit` or `scale` says how it becomes one",
) -> tuple[Integers, float]:
    """The weights of a graph, none above `most`, and their largest rounding in its unit."""
    refuse(name, ~((weights >= 0) & (weights < numpy.inf)), lambda row: (
        f"{weights[row]} is {'below 0' if -numpy.inf < weights[row] < 0 else 'no weight'}"))
    if weights.dtype == numpy.int64 and isinstance(scale, int | None):
        factor = 1 if scale is None else scale
        see_that_small(name, weights, weights <= most // factor)
        return (weights * min(factor, most)).astype(numpy.int64, copy=False), 0.0
    scaled = weights.astype(numpy.longdouble) * numpy.longdouble(1 if scale is None else scale)
    whole: NDArray[Any] = numpy.rint(scaled)
    see_that_small(name, weights, whole <= most)
    apart = abs(whole - scaled)
    if scale is None:
        refuse(name, apart > 0, lambda row: f"{weights[row]} is not a whole number{hint}")
    return whole.astype(numpy.int64), float(apart.max(initial=0))


def see_that_small(name: str, weights: NDArray[Any], is_small: Marks) -> None:
    """Refuses the first weight that is too large."""
    text = "is too large: as in the graph, times the number of nodes, it is more than 2^60"
    refuse(name, ~is_small, lambda row: f"{weights[row]} {text}")


def places_in(given: Columns, count: int) -> tuple[Floats, Floats] | None:
    """Longitudes and latitudes of `count` nodes, or None if the caller gives none."""
    if given.x is None and given.y is None:
        return None
    for name, column in ("nodes", given.nodes), ("x", given.x), ("y", given.y):
        if column is None:
            raise DataFault(f"{name} is not given: `nodes`, `x` and `y` go together", name)
    x = columns.degrees_in("x", cast("Column", given.x), 180)
    y = columns.degrees_in("y", cast("Column", given.y), 90)
    columns.see_that_long(["nodes", "x", "y"], [range(count), x, y])
    return x, y
