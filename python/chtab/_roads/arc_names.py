"""The arcs that are meant by their names: rows, pairs of nodes, edges with keys, nodes, places on
roads, ways and streets."""
from __future__ import annotations

import functools
import itertools
import re
from collections.abc import Callable, Iterable, Sequence
from typing import TYPE_CHECKING, Any

import numpy

from chtab._engine import forks
from chtab.errors import DataFault
from chtab._files import columns, row_index
from chtab._files.columns import refused, quoted
from chtab._roads.groups import Found, Groups
from chtab._roads.snapping import BACKWARD, FORWARD, NONE, Spots

if TYPE_CHECKING:
    from chtab._roads.layers import Layers
    from chtab.typing import Integers, LabelArray, Marks

# A way of OpenStreetMap, as the addresses of its pages have it.
WAY = re.compile(r"way/(-?\d+)", re.ASCII)
NAMES = (
    "a row, (source, target), (source, target, key), {node, node}, (node,), spots of `snap`, "
    "'way/NUMBER' or a street")
# The kinds of names: rows, spots, ways and streets; those of both directions between two nodes; and
# by their lengths those that name nodes.
ROW, SPOTS, WAYS, STREETS, BOTH = "row", "spots", "ways", "streets", "both"
NODE, PAIR, EDGE, OTHER = "node", "pair", "edge", "other"
BY_NODES = {1: NODE, 2: PAIR, 3: EDGE}
NOTHING = Found(*numpy.zeros((2, 0), numpy.int64))


def kind_of(name: Any) -> str:
    """The kind of a name."""
    if columns.is_integer(type(name)):
        return ROW
    if isinstance(name, str):
        return WAYS if WAY.fullmatch(name) else STREETS
    if isinstance(name, Spots):
        return SPOTS
    if isinstance(name, set | frozenset):
        return BOTH if len(name) == 2 else OTHER
    return BY_NODES.get(len(name), OTHER) if isinstance(name, tuple | list) else OTHER


class ArcNames:
    """Finds the arcs that names stand for, all of a kind together. A fault names its place."""

    def __init__(self, layers: Layers) -> None:
        self.layers, self.rows, self.row_labels = layers, layers.rows, layers.row_labels

    # Arcs by what is looked for. Arcs within a crossing, with which trips end there, are found by
    # their rows alone.

    @forks.computed_once
    def tails(self) -> Integers:
        """The crossings where arcs start."""
        return self.layers.crossings[numpy.array(self.layers.graph.tails, numpy.int64)]

    @forks.computed_once
    def heads(self) -> Integers:
        """The crossings where arcs end."""
        return self.layers.crossings[numpy.array(self.layers.graph.heads, numpy.int64)]

    @forks.computed_once
    def between(self) -> Integers:
        """The arcs that lead along roads."""
        return numpy.flatnonzero(~self.layers.are_inner)

    @forks.computed_once
    def by_row(self) -> Groups:
        return Groups.of(self.rows)

    @forks.computed_once
    def by_ends(self) -> Groups:
        return Groups.of(self.key_of(self.tails, self.heads)[self.between], self.between)

    @forks.computed_once
    def by_node(self) -> Groups:
        own = self.between
        return Groups.of(numpy.concatenate([self.tails[own], self.heads[own]]), numpy.tile(own, 2))

    def key_of(self, tails: Integers, heads: Integers) -> Integers:
        """A number for each pair of crossings."""
        return tails * len(self.layers.crossings) + heads

    # Names of any kind.

    def of(self, name: str, given: Any) -> Found:
        """The arcs that a list, an array or an index of names stands for."""
        if hasattr(given, "get_level_values"):
            return self.of_index(name, given)
        if isinstance(given, numpy.ndarray) and given.ndim == 1 and given.dtype.kind in "iu":
            return self.of_rows(name, numpy.arange(len(given)), given)
        return self.of_list(name, list(values_of(given)))

    def of_list(self, name: str, names: Sequence[Any]) -> Found:
        """The arcs of names, in the order of these."""
        by_kind: dict[str, list[int]] = {}
        for place, each in enumerate(names):
            by_kind.setdefault(kind_of(each), []).append(place)
        finders: dict[str, Callable[..., Found]] = {
            ROW: self.of_rows, SPOTS: self.of_spots, WAYS: self.of_ways, STREETS: self.of_streets,
            BOTH: self.of_both, NODE: self.of_nodes, PAIR: self.of_tuples, EDGE: self.of_tuples,
            OTHER: self.of_others}
        calls = (
            functools.partial(
                finders[kind], name, numpy.array(own), [names[place] for place in own])
            for kind, own in by_kind.items())
        arcs, places = (numpy.concatenate(column) for column in zip(NOTHING, *all_of(calls)))
        order = numpy.argsort(places, kind="stable")
        return Found(arcs[order], places[order])

    def of_index(self, name: str, index: Any) -> Found:
        """The arcs that an index of pandas names: rows of the frame, or else as a list does."""
        rows = self.rows_of_index(name, index)
        if rows is not None:
            return self.by_row.of_each(rows.items).through(rows.places)
        if not row_index.is_of_levels(index):
            try:
                return self.of_list(name, index.tolist())
            except DataFault as fault:
                raise DataFault(
                    f"{fault}; values in the order of rows are an array, as `to_numpy()` gives it",
                    name, fault.row) from None
        if index.nlevels > 3:
            text = f"{name} has an index of {index.nlevels} levels; those of arcs are source and"
            raise DataFault(f"{text} target, or these and key", name)
        return self.of_ends(name, numpy.arange(len(index)), *levels_of(index))

    def rows_of_index(self, name: str, index: Any) -> Found | None:
        """The rows that the labels of an index of pandas name; None if these are other names."""
        found = self.row_labels.found(name, index)
        if found is None and len(index) == self.row_labels.count and self.are_in_order(index):
            found = Found(numpy.arange(len(index)), numpy.arange(len(index)))
        return found

    def are_in_order(self, index: Any) -> bool:
        """Whether an index has the ends of rows with arcs, and keys if there are some, in order."""
        if not row_index.is_of_levels(index) or index.nlevels > 3:
            return False
        (*ends, keys), nodes_of = [*levels_of(index), None][:3], self.layers.labels.nodes_of
        try:
            tails, heads = (self.layers.crossings[nodes_of("index", each)] for each in ends)
        except (ValueError, TypeError):
            return False
        are_same = (self.tails == tails[self.rows]) & (self.heads == heads[self.rows])
        if keys is not None:
            are_same &= are_equal(self.keys, keys)[self.rows] if self.keys is not None else False
        return bool((numpy.bincount(self.rows, are_same) > 0)[self.rows].all())

    # Names of one kind, at some places of the list.

    def of_rows(self, name: str, places: Integers, rows: Any) -> Found:
        """The arcs of rows. A row whose arcs are closed has none."""
        count, column = self.row_labels.count, rows
        if not isinstance(rows, numpy.ndarray):
            column = numpy.array([row if 0 <= row < count else -1 for row in rows], numpy.int64)
        outside = columns.first_of((column < 0) | (column >= count))
        if outside is not None:
            raise refused(
                name, int(places[outside]),
                f"there is no row {rows[outside]} of arcs; they are from 0 to {count - 1:,}")
        self.row_labels.see_that_plain(name, places, column)
        return self.by_row.of_each(column).through(places)

    def of_others(self, name: str, places: Integers, names: Sequence[Any]) -> Found:
        """Refuses what is no name."""
        raise refused(name, int(places[0]), f"{quoted(names[0])} names no arc; names are {NAMES}")

    def of_nodes(self, name: str, places: Integers, names: Sequence[Any]) -> Found:
        """The arcs to and from nodes."""
        crossings = self.crossings_of(name, places, [label for label, in names])
        return self.by_node.of_each(crossings).through(places)

    def of_both(self, name: str, places: Integers, names: Sequence[Any]) -> Found:
        """The arcs between two nodes in either direction, of which there may be one alone."""
        ends = [list(column) for column in zip(*map(tuple, names))]
        one, other = (self.crossings_of(name, places, labels) for labels in ends)
        found = self.by_ends.of_each(numpy.append(self.key_of(one, other), self.key_of(other, one)))
        found = Found(found.items, found.places % len(places))
        return complete(name, places, found, lambda place: (
            f"there is no arc between the nodes of {quoted(names[place])}"))

    def of_tuples(self, name: str, places: Integers, names: Sequence[Any]) -> Found:
        """The arcs between two nodes, or the edges with keys, all of one length."""
        sources, targets, *keys = ([each[part] for each in names] for part in range(len(names[0])))
        return self.of_ends(name, places, sources, targets, *map(columns.objects_of, keys))

    def of_ends(
        self, name: str, places: Integers, sources: Any, targets: Any,
        keys: LabelArray | None = None,
    ) -> Found:
        """The arcs from nodes to others; with keys all arcs of the rows of these edges."""
        def named(place: int) -> str:
            some = [column[place:place + 1] for column in parts]
            return quoted(tuple(values_of(column)[0] for column in some))

        parts = [sources, targets] + [keys] * (keys is not None)
        tails, heads = all_of(
            functools.partial(self.crossings_of, name, places, ends) for ends in (sources, targets))
        found = self.by_ends.of_each(self.key_of(tails, heads))
        if keys is not None and len(places):
            if self.keys is None:
                text = f"{named(0)} has a key, and the arcs of the network have none"
                raise refused(name, int(places[0]), text)
            is_its = are_equal(self.keys[self.rows[found.items]], keys[found.places])
            found = Found(found.items[is_its], found.places[is_its])
        arcs = complete(name, places, found, lambda place: f"there is no arc {named(place)}")
        if keys is None:
            return arcs
        return self.by_row.of_each(self.rows[arcs.items]).through(arcs.places)

    @forks.computed_once
    def keys(self) -> LabelArray | None:
        """The keys of rows, or None."""
        keys = None if self.layers.labelling is None else self.layers.labelling.keys
        return None if keys is None else columns.objects_of(keys)

    def crossings_of(self, name: str, places: Integers, labels: Any) -> Integers:
        """The crossings of labels; one of several nodes is called by the first."""
        return self.layers.crossings[self.nodes_of(name, places, labels)]

    def nodes_of(self, name: str, places: Integers, labels: Any) -> Integers:
        """The nodes of labels."""
        own = self.layers.labels
        if isinstance(labels, numpy.ndarray) or not {bool, numpy.bool_} & set(map(type, labels)):
            try:
                return own.nodes_of(name, labels).reshape(len(places))
            except (ValueError, TypeError):
                pass
        # One of them is refused: the first of these is looked for.
        nodes = numpy.zeros(len(places), numpy.int64)
        for number, (place, label) in enumerate(zip(places.tolist(), values_of(labels))):
            try:
                [nodes[number]] = own.nodes_of(name, [label])
            except ValueError as fault:
                raise refused(name, place, str(fault).removeprefix(f"{name}[0]: ")) from None
            except TypeError:
                kind = getattr(own, "kind", columns.INTEGERS)
                text = f"{quoted(label)} is no label; labels are {kind}"
                raise refused(name, place, text) from None
        return nodes

    def of_spots(self, name: str, places: Integers, given: Sequence[Spots]) -> Found:
        """The arcs along roads of spots, in open directions; at a crossing, all of its arcs."""
        roads, own = self.layers.roads, []
        for place, spots in zip(places.tolist(), given):
            found, are_here = roads.same_points(spots)
            for index in numpy.flatnonzero(~are_here)[:1]:
                text = f"spot {index} lies on no road of this network: `snap` of this one gives its"
                raise refused(name, place, f"{text} own")
            own.append(found)
        owners = numpy.repeat(places, [len(spots) for spots in own])
        numbers, parts, sides = (
            numpy.concatenate([getattr(spots, part) for spots in own])
            for part in ("roads", "parts", "sides"))
        is_at_end = (parts == 0) | (parts == 1)
        arcs = numpy.flatnonzero(roads.road_of != NONE)
        along = Groups.of(roads.road_of[arcs], arcs).of_each(numbers[~is_at_end])
        directions = numpy.where(roads.is_back[along.items], BACKWARD, FORWARD)
        is_open = directions & sides[~is_at_end][along.places] > 0
        nodes = numpy.where(parts == 0, roads.firsts[numbers], roads.lasts[numbers])[is_at_end]
        at_crossings = self.by_node.of_each(self.layers.crossings[nodes]).through(owners[is_at_end])
        along = Found(along.items[is_open], along.places[is_open]).through(owners[~is_at_end])
        return Found(*(numpy.concatenate(pair) for pair in zip(along, at_crossings)))

    def of_ways(self, name: str, places: Integers, names: Sequence[str]) -> Found:
        """The arcs that are parts of ways of OpenStreetMap."""
        numbers = [int(way[1]) for way in map(WAY.fullmatch, names) if way]
        labelling, ways = self.layers.labelling, self.layers.ways
        if ways is not None:
            parts = numpy.flatnonzero(ways != 0)
            # Numbers of ways have at most 64 bits, and no arc is a part of any other, nor of 0.
            known = [number if abs(number) < 2**63 else 0 for number in numbers]
            found = Groups.of(ways[parts], parts).of_each(numpy.array(known, numpy.int64))
        elif labelling is not None and labelling.ways is not None:
            found = self.of_items(self.layers.rows_by_way, numbers, self.by_row)
        else:
            why = "`osm_to_gr.py` writes a file of ways beside its graph, and edges of osmnx have"
            text = f"nothing says which arcs are parts of way {numbers[0]} of OpenStreetMap"
            raise refused(name, int(places[0]), f"{text}: {why} `osmid`")
        return complete(name, places, found, lambda place: (
            f"no arc is a part of way {numbers[place]} of OpenStreetMap"))

    def of_streets(self, name: str, places: Integers, names: Sequence[str]) -> Found:
        """The arcs of all streets that have these names, or these numbers."""
        streets = self.layers.streets
        if streets is None:
            text = f"{quoted(names[0])} names no arc, as streets have no names here"
            raise refused(name, int(places[0]), f"{text}; names are {NAMES}")
        by_name: dict[str, list[int]] = {}
        for number, street in enumerate(streets.streets, 1):
            for word in {street.name, *street.ref.split(", ")} - {""}:
                by_name.setdefault(word, []).append(number)
        found = self.of_items(by_name, names, Groups.of(numpy.array(streets.of_arcs, numpy.int64)))
        return complete(name, places, found, lambda place: (
            f"no street of the map is called {quoted(names[place])}"))

    def of_items(
        self, numbers_by: dict[Any, list[int]], wanted: Sequence[Any], arcs: Groups,
    ) -> Found:
        """The arcs of what has several numbers each, as a way has rows and a name has streets."""
        numbers = [numbers_by.get(each, []) for each in wanted]
        owners = numpy.repeat(numpy.arange(len(wanted)), [*map(len, numbers)])
        return arcs.of_each(numpy.array([*itertools.chain(*numbers)], numpy.int64)).through(owners)

    # Columns with a value for each row.

    def in_rows(self, name: str, column: Any) -> Any:
        """Values of rows in their order: a column of pandas goes by its index, or is refused."""
        if not hasattr(column, "iloc"):
            return column
        found = self.rows_of_index(name, column.index)
        if found is None:
            arcs = self.of_index(name, column.index)
            found = Found(self.rows[arcs.items], arcs.places)
        place_of = numpy.full(self.row_labels.count, -1)
        place_of[found.items] = found.places
        twice = columns.first_of(place_of[found.items] != found.places)
        if twice is not None:
            text = f"there is another value for row {found.items[twice]}"
            raise refused(name, int(found.places[twice]), text)
        lacking = columns.first_of(place_of[self.rows] < 0)
        if lacking is not None:
            text = f"{name} has {len(column):,} rows, and there are {len(place_of):,} rows of arcs"
            raise DataFault(f"{text}: row {self.rows[lacking]} has no value", name)
        if numpy.array_equal(place_of, numpy.arange(len(column))):
            return column
        return column.iloc[numpy.maximum(place_of, 0)]


def all_of(calls: Iterable[Callable[[], Any]]) -> list[Any]:
    """The values of some calls; of several faults, the first by its place in the list."""
    values, faults = [], []
    for call in calls:
        try:
            values.append(call())
        except DataFault as fault:
            faults.append(fault)
    if faults:
        raise min(faults, key=lambda fault: fault.row or 0)
    return values


def complete(name: str, places: Integers, found: Found, text: Callable[[int], str]) -> Found:
    """What was found for names at these places of a list; a name without anything is refused."""
    missing = columns.first_of(found.counts(len(places)) == 0)
    if missing is not None:
        raise refused(name, int(places[missing]), text(missing))
    return found.through(places)


def levels_of(index: Any) -> list[Any]:
    """The levels of an index of pandas, in arrays."""
    return [numpy.asarray(index.get_level_values(level)) for level in range(index.nlevels)]


def values_of(column: Any) -> Sequence[Any]:
    """The values of a column in a list."""
    return column.tolist() if isinstance(column, numpy.ndarray) else column


def are_equal(keys: LabelArray, others: Any) -> Marks:
    """Which keys of two columns are equal."""
    return numpy.asarray(keys == others, bool)
