"""Makes the arcs of a network of a caller's arrays, frames, graphs and matrices."""
from __future__ import annotations

import contextlib
import dataclasses
import warnings
from collections.abc import Iterator
from typing import TYPE_CHECKING, Any

import numpy

from chtab.errors import ChtabError, DataFault
from chtab._files import arc_columns, columns, row_index

if TYPE_CHECKING:
    from numpy.typing import NDArray
    from chtab.network import Network


def arcs_of_arrays(
    ends: tuple[Any, Any, Any], places: tuple[Any, Any, Any], scale: float | None, unit: str | None,
    both_ways: Any, geometry: Any, like: Network | None,
) -> arc_columns.Arcs:
    """The arcs of columns: sources, targets, weights; and labels and places of nodes or None."""
    names = *arc_columns.NAMES, "both_ways", "geometry"
    rows = row_index.matched(names, [listed(column) for column in (*ends, both_ways, geometry)])
    index = next(filter(lambda own: own is not None, map(row_index.index_of, rows)), None)
    nodes, x, y = nodes_in_order(*places)
    given = arc_columns.Columns(
        rows[0], rows[1], rows[2], nodes, x, y, scale, unit, rows[3], rows[4], index=index)
    return arcs_like(given, like)


def arcs_of_sparse(
    matrix: Any, places: tuple[Any, Any, Any], scale: float | None, unit: str | None,
    both_ways: bool, like: Network | None,
) -> arc_columns.Arcs:
    """The arcs of a sparse matrix of scipy."""
    if not hasattr(matrix, "tocsr") or matrix.ndim != 2 or matrix.shape[0] != matrix.shape[1]:
        raise DataFault("matrix is a sparse matrix of scipy with as many rows as columns", "matrix")
    rows, (nodes, x, y) = matrix.tocsr(copy=True), nodes_in_order(*places)
    rows.sum_duplicates()
    stored, count, is_like = rows.tocoo(), rows.shape[0], like is not None and nodes is None
    own = numpy.arange(count) if like is None else like.labels
    known = columns.column_labels_in("nodes", own if nodes is None else nodes)
    if len(known) != count:
        raise DataFault(f"nodes has {len(known):,} rows, and the matrix {count:,}", "nodes")
    labels = None if is_like else known
    given = arc_columns.Columns(
        known[stored.row], known[stored.col], stored.data, labels, x, y, scale, unit, both_ways)
    return arcs_like(given, like)


def arcs_like(given: arc_columns.Columns, like: Network | None) -> arc_columns.Arcs:
    """The arcs of columns, between the nodes of a network where these name none."""
    return arc_columns.arcs_of(with_nodes_of(given, like))


def listed(column: Any) -> Any:
    """A column itself, or a list of the items of an iterator, such as a generator."""
    return list(column) if hasattr(column, "__next__") else column


def nodes_in_order(nodes: Any, x: Any, y: Any) -> list[Any]:
    """The labels and places of nodes, columns of pandas in the order of the first one."""
    given = [listed(column) for column in (nodes, x, y)]
    nodes, *places = row_index.matched(("nodes", "x", "y"), given)
    if hasattr(nodes, "get_indexer") and nodes.is_unique:
        for place, column in enumerate(places):
            index = row_index.index_of(column)
            if index is None or len(index) != len(nodes) or not index.is_unique:
                continue
            if index.isin(nodes).all():
                places[place] = column.iloc[index.get_indexer(nodes)]
    return [nodes, *places]


@contextlib.contextmanager
def known_to_be_closed(network: Any) -> Iterator[None]:
    """Raises the fault of a closed network where its files went with it."""
    try:
        yield
    except FileNotFoundError:
        if network is None or not network._engine.is_closed:
            raise
        raise ChtabError("the network is closed") from None


def see_that_same_nodes(labels: NDArray[Any], own: NDArray[Any]) -> None:
    """Refuses labels that are not those of the network that they are given with."""
    if own is labels or numpy.array_equal(own, labels):
        return
    if len(own) != len(labels):
        raise DataFault(f"like has {len(labels):,} nodes, and there are {len(own):,} here", "nodes")
    pairs = enumerate(zip(own.tolist(), labels.tolist()))
    row, (one, other) = next(each for each in pairs if each[1][0] != each[1][1])
    text = f"node {columns.quoted(one)} is {columns.quoted(other)} in like"
    raise DataFault(f"{text}: both networks have the same nodes", "nodes", row)


def with_nodes_of(given: arc_columns.Columns, like: Any) -> arc_columns.Columns:
    """The same columns with the labels of a network, and its places if none are given."""
    if like is None or given.nodes is not None:
        return given
    given = dataclasses.replace(given, nodes=like.labels)
    layers = like._layers
    has_places = "coordinates" in layers.kept or layers.paths["coordinates"] is not None
    if not has_places or given.x is not None or given.y is not None:
        return given
    with known_to_be_closed(like):
        places = like.coordinates
    return dataclasses.replace(given, x=places.longitudes, y=places.latitudes)


def with_turns_of(arcs: arc_columns.Arcs, like: Any) -> arc_columns.Arcs:
    """The same arcs with restricted turns as a network has them; they have to lead to its ends."""
    if arcs.places is None or not like._layers.turns.turns():
        return arcs
    ends = like._layers.ends
    is_met = numpy.zeros(len(ends), bool)
    is_met[arcs.tails[arcs.heads == ends[arcs.tails]]] = True
    apart = columns.first_of((ends > 0) & ~is_met)
    if apart is not None:
        labels = like.labels[[apart - 1, int(ends[apart]) - 1]].tolist()
        node, end = map(columns.quoted, labels)
        text = f"turns are restricted in like, where trips to the node {node} end at the node {end}"
        hint = "give the arcs of `like.graph` with other weights, or leave `like` out"
        raise DataFault(f"{text}, and no arc leads there from it here: {hint}", "targets")
    return dataclasses.replace(arcs, turns=like.coordinates.turns())


def warn_of_scale(scale: float, level: int) -> None:
    """Warns that limits and answers are whole numbers, and not in the unit of the weights."""
    text = f"weights were multiplied by {scale:g}, and limits and answers are these whole numbers;"
    text += " name the unit of your weights, as unit='minutes', for limits and answers in it, as"
    text += " later versions will have them, or give raw=True"
    warnings.warn(text, FutureWarning, stacklevel=level)
