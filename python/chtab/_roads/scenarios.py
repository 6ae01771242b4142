"""The arcs of a network under other conditions: other weights, closed roads, new ones."""
from __future__ import annotations

import itertools
import os
from collections.abc import Mapping
from typing import TYPE_CHECKING, Any, NamedTuple

import numpy

from chtab._engine import customizing, making, opening
from chtab.errors import DataFault
from chtab._files import arc_columns, columns, edge_lines, measures
from chtab._files.columns import quoted
from chtab._files.frames import column_of
from chtab._roads.arc_names import ArcNames
from chtab._roads.snapping import Spots

if TYPE_CHECKING:
    from numpy.typing import NDArray
    from chtab._roads.layers import Layers
    from chtab.typing import Integers, Marks, Point

# What is said of a new weight that is no whole number.
NO_FRACTION = ", as the weights of this network are"


def arcs_of(
    layers: Layers, measure: measures.Measure, weights: Any, closed: Any, added: Any
) -> arc_columns.Arcs:
    """The arcs of a network that is changed, as `Network.changed` explains it."""
    weighing = weighing_of(layers, measure, weights is not None or added is not None)
    given = Given.of(layers)
    changed, rounding = given.reweighted(weights, weighing)
    kept = ~given.marked(closed)
    return changed.arcs(kept, given.added(added, weighing), rounding)


def weighing_of(layers: Layers, measure: measures.Measure, has_weights: bool) -> Weighing:
    """How new weights become those of the graph."""
    made = layers.labelling
    own = None if made is None else made.scale
    if (
        has_weights and made is not None and made.unit is None and own not in (None, 1)
        and layers.asked == measures.Asked()
    ):
        text = (
            f"the network was made with scale={own:g} and without a unit, so that new weights may "
            "be yours, or the graph's whole numbers")
        raise DataFault(
            f"{text}: make it with unit='seconds' or another unit, or with raw=True for whole "
            "numbers", "weights")
    is_rounded = own == 1 or made is not None and made.unit is not None
    whole = 1 if is_rounded and not layers.asked.raw else None
    most = arc_columns.MOST_WEIGHT // layers.counts[0]
    return Weighing(measure, whole if measure.is_whole else measure.factor, most)


class Weighing(NamedTuple):
    """How new weights become those of a graph: the network's unit, the factor for weights in it,
    None for whole numbers alone, and the most that a weight may be."""

    measure: measures.Measure
    scale: float | None
    most: int

    def whole(self, name: str, given: Any) -> tuple[Integers, float]:
        """The weights of the graph, and the largest rounding of one."""
        return arc_columns.whole_weights(
            name, self.numbers(name, given), self.scale, self.most, NO_FRACTION)

    def numbers(self, name: str, given: Any) -> NDArray[Any]:
        """Weights as numbers in the network's unit, to which durations are converted."""
        durations = columns.durations_in(name, given)
        if durations is None:
            return columns.numbers_in(name, given)
        if self.measure.unit not in measures.TIMES:
            raise DataFault(
                f"{name} has durations, and the network's unit is "
                f"{self.measure.unit or 'not known'}", name)
        return durations / measures.TIMES[self.measure.unit]


class New(NamedTuple):
    """Added arcs: their ends and weights, the row of each among those that are added, and their
    number; the lines of arcs or None, the keys of rows, and the largest rounding of a weight."""

    tails: Integers
    heads: Integers
    weights: Integers
    rows: Integers
    added: int
    lines: list[Any] | None
    keys: list[int]
    rounding: float


NOTHING = numpy.zeros(0, numpy.int64)


class Given(NamedTuple):
    """The arcs of a network in columns, each with its row, from which a scenario starts."""

    layers: Layers
    names: ArcNames
    tails: Integers
    heads: Integers
    weights: Integers
    rows: Integers

    @classmethod
    def of(cls, layers: Layers) -> Given:
        """The arcs of the files of a network."""
        graph = layers.graph
        columns = graph.tails, graph.heads, graph.weights
        tails, heads, weights = (numpy.array(each, numpy.int64) for each in columns)
        return cls(layers, ArcNames(layers), tails, heads, weights, layers.rows)

    @property
    def row_count(self) -> int:
        """The number of rows, including those whose arcs are closed."""
        return self.layers.row_count

    # What is closed.

    def marked(self, closed: Any) -> Marks:
        """Marks the arcs that a list of names or a column of rows closes."""
        is_closed = numpy.zeros(len(self.rows), bool)
        if closed is None:
            return is_closed
        if isinstance(closed, Mapping):
            text = "closed is a list of arcs, or a Series of True and False, and no dict of these"
            raise DataFault(text, "closed")
        if isinstance(closed, str) or not hasattr(closed, "__iter__"):
            what = "one way or street" if isinstance(closed, str) else "one row"
            raise DataFault(f"closed is a list: [{closed!r}] is {what}", "closed")
        if is_one_arc(closed):
            raise DataFault(
                f"closed is a list: [{closed!r}] is one arc, and {[*closed]!r} are rows", "closed")
        column = mask_in(closed)
        if column is None:
            self.see_that_no_flags(closed)
            is_closed[self.names.of("closed", closed).items] = True
            return is_closed
        if not hasattr(closed, "iloc") or column.ndim != 1:
            self.see_that_rows("closed", column)
            return column[self.rows]
        if (
            len(column) < self.names.row_labels.covered
            and self.names.rows_of_index("closed", closed.index) is not None
        ):
            self.see_that_rows("closed", column)
        found = self.names.of_index("closed", closed.index)
        self.see_that_once("closed", closed.index)
        is_closed[found.items[column[found.places]]] = True
        return is_closed

    def see_that_no_flags(self, closed: Any) -> None:
        """Refuses 0 or 1 for each row, because as names they are the rows 0 and 1."""
        flags = list(closed) if hasattr(closed, "__len__") and len(closed) == self.row_count else []
        are_flags = all(columns.is_integer(type(each)) and each in (0, 1) for each in flags)
        if are_flags and len(flags) > len({*flags}):
            text = "closed has 0 or 1 for each row, and numbers name rows: `== 1` marks rows"
            raise DataFault(text, "closed")

    def see_that_rows(self, name: str, column: NDArray[Any]) -> None:
        """Refuses a column that has not one value for each row."""
        if column.ndim != 1 or len(column) != self.row_count:
            raise DataFault(
                f"{name} has the shape {column.shape}, and there are {self.row_count:,} rows of "
                "arcs", name)

    def see_that_once(self, name: str, index: Any) -> None:
        """Refuses an index with a label twice, unless its places say which rows are meant."""
        if index.is_unique:
            return
        rows = self.names.rows_of_index(name, index)
        if rows is None or len(numpy.unique(rows.items)) < len(rows.items):
            place = int(index.duplicated().argmax())
            raise columns.refused(
                name, place, f"the label {quoted(index[place])} is in the index already")

    # What is weighed anew.

    def reweighted(self, weights: Any, weighing: Weighing) -> tuple[Given, float]:
        """These arcs with other weights, and the largest rounding of a weight."""
        if weights is None:
            return self, 0.0
        whole, rounding = weighing.whole(
            "weights", list(weights.values()) if isinstance(weights, Mapping) else weights)
        if isinstance(weights, Mapping):
            found = self.names.of_list("weights", list(weights))
            closed = columns.first_of(found.counts(len(weights)) == 0)
            if closed is not None:
                raise columns.refused(
                    "weights", closed, f"{quoted(list(weights)[closed])} has no arc that is open")
        elif hasattr(weights, "iloc"):
            found = self.names.of_index("weights", weights.index)
            self.see_that_once("weights", weights.index)
        else:
            self.see_that_rows("weights", whole)
            return self._replace(weights=whole[self.rows]), rounding
        changed = self.weights.copy()
        # Of several names of one arc the last one counts.
        changed[found.items] = whole[found.places]
        return self._replace(weights=changed), rounding

    # What is added.

    def added(self, given: Any, weighing: Weighing) -> New:
        """The added arcs, which all trips that arrive at their sources may take."""
        if given is None:
            return New(NOTHING, NOTHING, NOTHING, NOTHING, 0, None, [], 0.0)
        sources, targets, weights, lines = columns_of_added(given)
        own = self.layers.labels
        tails, heads = (
            self.layers.crossings[own.nodes_of(f"added {name}", ends)]
            for name, ends in (("source", sources), ("target", targets)))
        whole, rounding = weighing.whole("added weight", weights)
        columns.see_that_long(
            ("added source", "added target", "added weight"), (tails, heads, whole))
        found = edge_lines.lines_in("added geometry", lines, len(whole))
        keys = self.free_keys(tails, heads)
        # Arcs leave a node of restricted turns for those that start there, and the node where trips
        # to it end, to which each other arc leads.
        ends = self.layers.ends[tails]
        rows = numpy.append(numpy.arange(len(tails)), numpy.flatnonzero(ends))
        starts = numpy.append(tails, ends[ends > 0])
        return New(
            starts, heads[rows], whole[rows], rows, len(tails),
            found and [found[row] for row in rows.tolist()], keys, rounding)

    def free_keys(self, tails: Integers, heads: Integers) -> list[int]:
        """A key for each new edge, as networkx gives it; none if edges have no keys."""
        if self.names.keys is None:
            return []
        found = self.names.by_ends.of_each(self.names.key_of(tails, heads))
        taken: dict[tuple[int, int], set[Any]] = {}
        for place, key in zip(
            found.places.tolist(), self.names.keys[self.rows[found.items]].tolist()
        ):
            taken.setdefault((int(tails[place]), int(heads[place])), set()).add(key)
        keys = []
        for ends in zip(tails.tolist(), heads.tolist()):
            own = taken.setdefault(ends, set())
            keys.append(next(key for key in itertools.count(len(own)) if key not in own))
            own.add(keys[-1])
        return keys

    # All arcs together.

    def arcs(self, kept: Marks, new: New, rounding: float) -> arc_columns.Arcs:
        """The kept arcs, followed by the new ones."""
        layers, labelling = self.layers, self.layers.labelling
        scale, unit, before = (
            (None, None, 0.0) if labelling is None
            else (labelling.scale, labelling.unit, labelling.rounding))
        keys = None if self.names.keys is None else [*self.names.keys.tolist(), *new.keys]
        streets, ways = layers.streets, layers.ways
        if streets is not None:
            of_arcs = numpy.array(streets.of_arcs, numpy.int64)[kept]
            streets = streets._replace(of_arcs=[*of_arcs.tolist(), *[0] * len(new.tails)])
        if ways is not None:
            ways = numpy.append(ways[kept], numpy.zeros(len(new.tails), numpy.int64))
        tails, heads, weights = (
            numpy.append(column[kept], more) for column, more in (
                (self.tails, new.tails), (self.heads, new.heads), (self.weights, new.weights)))
        known = None if layers.paths["coordinates"] else layers.kept.get("coordinates")
        own = labelling and labelling.ways
        of_rows = None if own is None else own + [[]] * new.added
        return arc_columns.Arcs(
            layers.labels, tails, heads, weights, scale, max(before, rounding, new.rounding), unit,
            known and known[:2], self.bends(kept, new), self.row_count + new.added,
            self.rows_of(kept, new), keys, of_rows, layers.graph.unit,
            making.Beside(layers, streets, ways), layers.row_labels.labels,
            known.comments if known else ())

    def rows_of(self, kept: Marks, new: New) -> Integers | None:
        """The row of each arc; None if arcs have the same rows as by their numbers."""
        labelling = self.layers.labelling
        if kept.all() and not new.added and (labelling is None or labelling.arcs is None):
            return None
        return numpy.append(self.rows[kept], self.row_count + new.rows)

    def bends(self, kept: Marks, new: New) -> dict[int, list[Point]]:
        """The bends of the kept arcs, by their new numbers, and those of the new arcs."""
        numbers = numpy.cumsum(kept) - 1
        bends = {
            int(numbers[arc]): points for arc, points in self.layers.bends.of_arcs() if kept[arc]}
        if new.lines is None:
            return bends
        coordinates = self.layers.coordinates
        places = numpy.array(coordinates.longitudes), numpy.array(coordinates.latitudes)
        own = edge_lines.bends_of(new.lines, new.tails, new.heads, places)
        return bends | {arc + int(kept.sum()): points for arc, points in own.items()}


def order_of(layers: Layers, order: Any) -> bytes | str | None:
    """What names an order of the nodes: the path of a file, or its lines; or None."""
    if order is None:
        return None
    if isinstance(order, str | os.PathLike):
        path = os.path.abspath(order)
        opening.see_that_readable(path)
        return path
    nodes = layers.labels.nodes_of("order", order if hasattr(order, "__len__") else [*order])
    count = layers.counts[0]
    if nodes.ndim != 1 or not numpy.array_equal(numpy.sort(nodes), numpy.arange(1, count + 1)):
        raise DataFault(f"order does not have each of the {count:,} nodes once", "order")
    return customizing.lines_of(nodes)


def is_one_arc(closed: Any) -> bool:
    """Whether a list of names is rather one name: nodes in a tuple, or two numbers in a set."""
    if isinstance(closed, set | frozenset):
        return len(closed) == 2 and all(columns.is_integer(type(each)) for each in closed)
    are_parts = isinstance(closed, tuple) and len(closed) in (1, 2, 3)
    return are_parts and not any(isinstance(part, tuple | list | Spots) for part in closed)


def mask_in(closed: Any) -> NDArray[Any] | None:
    """The column of a list of names that is rather a column of True and False."""
    if not hasattr(closed, "__array__") or hasattr(closed, "get_level_values"):
        return None
    column = numpy.asarray(closed)
    if (
        column.dtype == object and column.ndim == 1 and len(column)
        and {*map(type, column)} <= {bool, numpy.bool_}
    ):
        column = column.astype(bool)
    return column if column.dtype == bool else None


def columns_of_added(given: Any) -> tuple[Any, Any, Any, Any]:
    """The sources, targets, weights and lines of added arcs; None for no lines."""
    if hasattr(given, "columns"):
        sources, targets, weights = (
            column_of(given, name) for name in ("source", "target", "weight"))
        return sources, targets, weights, given["geometry"] if "geometry" in given.columns else None
    rows = [tuple(row) for row in given]
    if any(len(row) not in (3, 4) for row in rows):
        raise DataFault(
            "added has rows of (source, target, weight), or of these and a line", "added")
    sources, targets, weights = ([row[axis] for row in rows] for axis in range(3))
    return sources, targets, weights, [row[3] if len(row) == 4 else None for row in rows]
