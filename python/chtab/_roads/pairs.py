"""Pairs of nodes as callers name them, and sums of values along their routes."""
from __future__ import annotations

from collections.abc import Collection, Iterable
from typing import TYPE_CHECKING, Any

import numpy

from chtab.errors import DataFault
from chtab._files import row_index
from chtab._files.columns import EXACT, are_whole, numbers_in, refuse, see_that_flat
from chtab._roads.arc_names import ArcNames
from chtab._roads.snapping import Spots

if TYPE_CHECKING:
    from numpy.typing import NDArray
    from chtab._engine.in_process import InProcess
    from chtab._roads.layers import Layers
    from chtab.typing import Floats, Integers


def listed(name: str, given: Any) -> Any:
    """The argument, or a list of it if it is a set, a view of a dict, or an iterator."""
    if isinstance(given, Spots):
        text = f"{name} are labels of nodes, not Spots: `trip_table` and `trips` take these"
        raise TypeError(f"{text}, and `nearest_nodes` gives nodes")
    is_array = hasattr(given, "__array__") or hasattr(given, "__getitem__")
    return list(given) if not is_array and isinstance(given, Iterable | Collection) else given


def nodes_in(layers: Layers, name: str, given: Any) -> Integers:
    """The nodes of labels, as a column."""
    return layers.labels.nodes_of(name, listed(name, given)).reshape(-1)


def pairs_in(layers: Layers, pairs: Any, targets: Any) -> Integers:
    """Nodes (n, 2) from pairs of labels, or from two columns of one length."""
    if targets is not None:
        names = "sources", "targets"
        given = row_index.matched(names, (pairs, targets))
        columns = [nodes_in(layers, name, column) for name, column in zip(names, given)]
        if len(columns[0]) != len(columns[1]):
            text = f"there are {len(columns[0]):,} sources and {len(columns[1]):,} targets"
            raise ValueError(f"{text}, not one for each; `table` has all pairs")
        return numpy.column_stack(columns)
    nodes = layers.labels.nodes_of("pairs", listed("pairs", pairs))
    if nodes.size == 0:
        return nodes.reshape(0, 2)
    if nodes.ndim != 2 or nodes.shape[1] != 2:
        raise ValueError(f"pairs have the shape (n, 2), not {nodes.shape}: one pair is [(1, 3)]")
    return nodes


def with_ends(layers: Layers, pairs: Integers) -> Integers:
    """Pairs of nodes, with those where trips to the second ones end in place of these."""
    if not layers.has_turns:
        return pairs
    return numpy.column_stack([pairs[:, 0], layers.ends_of(pairs[:, 1])])


# Sums along routes.


def values_of_rows(layers: Layers, values: Any, name: str = "values") -> NDArray[Any]:
    """The finite values of all rows, in one or several columns, in the order of rows."""
    given = ArcNames(layers).in_rows(name, values) if hasattr(values, "iloc") else values
    found = numpy.asarray(given)
    if found.ndim != 2:
        columns = [(name, given)]
    else:
        columns = [(f"{name}[:, {place}]", found[:, place]) for place in range(found.shape[1])]
    made = [finite_numbers(*column) for column in columns]
    count = layers.row_count
    if len(found) != count:
        text = f"{name} has {len(found):,} rows, and there are {count:,} rows of arcs"
        raise DataFault(text, name)
    if found.ndim != 2:
        return made[0]
    return numpy.column_stack(made).astype(float) if made else numpy.zeros((count, 0))


def finite_numbers(name: str, column: Any) -> NDArray[Any]:
    """The numbers of a column: int64, or float64."""
    found = numbers_in(name, column)
    found = found if found.dtype == numpy.int64 else found.astype(float)
    refuse(name, ~numpy.isfinite(found), lambda row: f"{found[row]} is no value")
    return found


def along(engine: InProcess, layers: Layers, values: NDArray[Any], pairs: Integers) -> Floats:
    """The sums of values of rows along routes of pairs, (n,) or (n, c); NaN for no path."""
    nodes = with_ends(layers, pairs)
    if are_counts(values, engine.nodes):
        weights, totals = engine.sums(nodes, values.astype(numpy.uint64)[layers.rows])
        return numpy.where(weights < 0, numpy.nan, totals.astype(float))
    paths = engine.paths(nodes)
    owners = numpy.repeat(numpy.arange(len(nodes)), paths.counts)
    of_arcs = values[layers.rows_of(paths.arcs)].astype(float)
    width = 1 if values.ndim == 1 else values.shape[1]
    columns = of_arcs.reshape(len(owners), width).T
    sums = [numpy.bincount(owners, column, len(nodes)) for column in columns]
    found = numpy.array(sums, float).reshape(width, len(nodes)).T
    found[paths.weights < 0] = numpy.nan
    return found if values.ndim == 2 else found[:, 0]


def whole_values(layers: Layers, values: Any) -> NDArray[numpy.uint64]:
    """The whole values of all arcs of the graph, from one column of those of rows."""
    found = values_of_rows(layers, values)
    see_that_flat("values", found)
    are_right = found >= 0 if found.dtype == numpy.int64 else (found >= 0) & are_whole(found)
    text = "is not a whole number from 0 on, or is a float above 2^53"
    refuse("values", ~are_right, lambda row: f"{found[row]} {text}")
    # Handles of the library compare nothing where nobody can write to them.
    return numpy.frombuffer(found.astype(numpy.uint64)[layers.rows].tobytes(), numpy.uint64)


def are_counts(values: NDArray[Any], most: int) -> bool:
    """Whether values are whole numbers from 0 on, `most` of which add up exactly as floats."""
    if values.ndim != 1 or values.dtype.kind not in "iu" or not len(values):
        return False
    return int(values.min()) >= 0 and int(values.max()) * most <= EXACT
