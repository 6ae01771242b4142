"""The files of a network, each read when it is first needed and then kept: the arcs, the places and
labels of nodes, the roads."""
from __future__ import annotations

import array
import itertools
import os
import pathlib
import threading
from collections.abc import Callable
from typing import TYPE_CHECKING, Any, Generic, TypeVar

import numpy

from chtab import files
from chtab._engine import forks, making
from chtab._engine.made import Made
from chtab._engine.stamps import Stamps
from chtab.errors import ChtabError
from chtab._files import measures, node_labels
from chtab._files.forms import columns
from chtab._files.node_labels import fixed
from chtab._roads import nearest
from chtab._roads.bends import Bends, bends_in

if TYPE_CHECKING:
    from chtab._engine.opening import Opening
    from chtab._roads.row_labels import RowLabels
    from chtab._roads.snapping import Roads
    from chtab.typing import Integers, Marks, Point

Value = TypeVar("Value")
# What is said of turns where there is no file of places.
NO_TURNS = files.Coordinates(array.array("d"), array.array("d"), [])


class Kept(Generic[Value]):
    """A property of layers that is made when it is first needed, by one thread, and then kept."""

    def __init__(self, make: Callable[[Any], Value], is_of_files: bool = False) -> None:
        self.make, self.is_of_files, self.name = make, is_of_files, make.__name__
        self.__doc__ = make.__doc__

    def __get__(self, layers: Layers, _: Any = None) -> Value:
        with layers.lock:
            if self.name not in layers.kept:
                found = self.make(layers)
                if self.is_of_files and found is not None:
                    layers.stamps.see_that_same()
                layers.kept[self.name] = found
            return layers.kept[self.name]


def of_files(make: Callable[[Any], Value]) -> Kept[Value]:
    """A property that is read of files, none of which may have changed since they were opened."""
    return Kept(make, True)


class Layers:
    """The files of a network, which threads may share; pickled, it has their names alone. Of arcs
    in memory all is known without their files."""

    def __init__(self, files_of: Opening | Made) -> None:
        self.files_of, self.asked = files_of, files_of.asked
        self.kept: dict[str, Any] = {}
        # Paths, or the contents of files that are in memory.
        self.paths: dict[str, Any]
        if isinstance(files_of, Made):
            arcs, opened, self.stamps = files_of.arcs, files_of.opened, Stamps()
            self.path = opened.setting.graph if opened else f"a network of {len(arcs.tails):,} arcs"
            places, names = (None, None) if arcs.beside is None else arcs.beside.contents
            self.paths = {"coordinates": places, "names": names, "bends": files_of.bends}
            self.kept |= making.known_of(arcs)
        else:
            base, self.path = os.path.splitext(files_of.setting.graph)[0], files_of.setting.graph
            self.paths = {
                "coordinates": files_of.coordinates or beside(base + ".co"),
                "bends": files_of.bends or beside(base + ".bends"), "labelling": files_of.labelling,
                "streets": beside(base + ".names"), "ways": beside(base + ".ways")}
            self.stamps = Stamps(self.path, *self.paths.values())
            self.paths["names"] = beside(base + ".nodes")
        self.leave_parent()
        forks.FOLLOWED.add(self)

    def leave_parent(self) -> None:
        """Resets to a free lock, at first and in each forked process."""
        self.lock = threading.RLock()

    def __reduce__(self) -> tuple[Any, ...]:
        own = self.files_of
        return Layers, (own.opening() if isinstance(own, Made) else own,)

    @of_files
    def graph(self) -> files.Graph:
        """The arcs, as `files.read_graph` gives them, in arrays that can't be written to."""
        found = files.read_graph(self.path)
        columns = {name: fixed(getattr(found, name)) for name in ("tails", "heads", "weights")}
        return found._replace(**columns)

    @of_files
    def counts(self) -> tuple[int, int]:
        """How many nodes and arcs there are."""
        graph = self.kept.get("graph")
        return files.counts_in(self.path) if graph is None else (graph.nodes, len(graph.tails))

    @of_files
    def contents(self) -> list[bytes | None]:
        """The files of the places and of the names of nodes, for networks with the same nodes."""
        paths = self.paths["coordinates"], self.paths["names"]
        return [pathlib.Path(it).read_bytes() if isinstance(it, str) else it for it in paths]

    @of_files
    def streets(self) -> files.Streets | None:
        """What the arcs are called; None without a file of names beside the graph."""
        path = self.paths["streets"]
        return None if path is None else files.read_streets(path, self.counts[1])

    @of_files
    def ways(self) -> Integers | None:
        """The way of each arc in OpenStreetMap; None without a file of ways beside the graph."""
        path = self.paths["ways"]
        if path is None:
            return None
        return numpy.asarray(files.read_ways(path, self.counts[1]), numpy.int64)

    @Kept
    def rows_by_way(self) -> dict[int, list[int]]:
        """The rows of each way of OpenStreetMap; a row may have several ways."""
        labelling = self.labelling
        found: dict[int, list[int]] = {}
        for row, own in enumerate((labelling and labelling.ways) or ()):
            for number in own:
                found.setdefault(number, []).append(row)
        return found

    @Kept
    def crossings(self) -> Integers:
        """The first node of each node's crossing, from place 1 on."""
        found = numpy.arange(self.counts[0] + 1)
        for copy, node in self.turns.copies().items():
            self.see_that_node(copy, node)
            found[copy] = node
        return found

    @Kept
    def all_nodes(self) -> Integers:
        """The nodes that are no copies of others: a node for each crossing."""
        return numpy.flatnonzero(self.crossings == numpy.arange(len(self.crossings)))[1:]

    @Kept
    def ends(self) -> Integers:
        """The node where trips to each node end, from place 1 on; 0 for the node itself."""
        found = numpy.zeros(self.counts[0] + 1, numpy.int64)
        for node, end in self.turns.ends().items():
            self.see_that_node(node, end)
            found[node] = end
        return found

    @of_files
    def turns(self) -> files.Coordinates:
        """What the file of places says about nodes where turns are restricted."""
        known, path = self.kept.get("coordinates"), self.paths["coordinates"]
        return known or (NO_TURNS if path is None else files.read_turns(path))

    def see_that_node(self, *nodes: int) -> None:
        """Refuses the places of another graph, which name nodes that are not there."""
        if max(nodes) > self.counts[0]:
            raise files.FileFault(
                f"{self.paths['coordinates']}: node {max(nodes):,} is not in {self.path}: these "
                "are the places of another graph")

    def ends_of(self, nodes: Integers) -> Integers:
        """The nodes where trips to some nodes end, in their shape."""
        if not self.has_turns:
            return nodes
        return numpy.where(self.ends[nodes] > 0, self.ends[nodes], nodes)

    @Kept
    def has_turns(self) -> bool:
        """Whether turns are restricted at some nodes, so that trips to them end at others."""
        return bool(self.turns.turns())

    @property
    def are_inner(self) -> Marks:
        """Which arcs only lead to where trips end: they are along no road, and of no way."""
        tails, heads, weights = (numpy.array(column, numpy.int64) for column in self.graph[1:4])
        is_of_none = weights == 0 if self.ways is None else self.ways == 0
        return (self.ends[tails] == heads) & is_of_none

    @Kept
    def rows(self) -> Integers:
        """The row of the caller's columns of each arc, from 0 on; of a file its line."""
        return self.rows_of(numpy.arange(len(self.graph.tails)))

    def rows_of(self, arcs: Integers) -> Integers:
        """The same of some arcs, by their numbers from 0 on."""
        if self.known_rows is not None:
            return self.known_rows[arcs]
        labelling = self.labelling
        return arcs if labelling is None or not labelling.rows else arcs % labelling.rows

    @Kept
    def known_rows(self) -> Integers | None:
        """The row of each arc, where the file of labels has it."""
        arcs = None if self.labelling is None else self.labelling.arcs
        return None if arcs is None else numpy.array(arcs, numpy.int64)

    @property
    def row_count(self) -> int:
        """The number of rows of arcs, including those whose arcs are closed."""
        count = None if self.labelling is None else self.labelling.rows
        return self.counts[1] if count is None else count

    @Kept
    def row_labels(self) -> RowLabels:
        """What rows are called in the frame that the network was made of."""
        from chtab._files import columns as given, row_index
        from chtab._roads.row_labels import RowLabels

        labelling = self.labelling
        if labelling is None or labelling.row_labels is None:
            # Version 1.1 kept neither the rows nor what they were called.
            is_known = labelling is None or labelling.rows is not None
            return RowLabels(None if is_known else row_index.UNKNOWN, self.row_count)
        return RowLabels(given.column_labels_in("index", labelling.row_labels), self.row_count)

    @of_files
    def coordinates(self) -> files.Coordinates:
        """The nodes' places, as `files.read_coordinates` gives them."""
        path = self.paths["coordinates"]
        if not path:
            hint = "no file of coordinates beside it; name one by `coordinates`"
            if isinstance(self.files_of, Made):
                hint = "no places of its nodes; `x` and `y` give them"
            raise ChtabError(f"{self.path} has {hint}")
        longitudes, latitudes, comments = files.read_coordinates(path)
        self.see_that_node(len(longitudes))
        return files.Coordinates(fixed(longitudes), fixed(latitudes), comments)

    @of_files
    def labelling(self) -> files.Labelling | None:
        """What `files.read_labels` gives; None if nodes are called by their numbers."""
        path = self.paths["labelling"]
        return None if path is None else making.read_labelling(path, self.path)

    @of_files
    def measure(self) -> measures.Measure:
        """The unit of limits and answers."""
        graph, labelling, asked = self.kept.get("graph"), self.labelling, self.asked
        base = files.read_unit(self.path) if graph is None else graph.unit
        if asked.raw:
            return measures.Measure(base)
        own = (None, None) if labelling is None else (labelling.unit, labelling.scale)
        return measures.asked_for(asked.unit, asked.scale, base, *own)

    @Kept
    def labels(self) -> node_labels.Labels | node_labels.Numbers:
        """What the nodes are called, as `node_labels.Labels` or `node_labels.Numbers`."""
        found = self.labelling
        if found is None or found.labels is None:
            return node_labels.Numbers(self.counts[0])
        return node_labels.labels_of_nodes("labels", found.labels)

    @Kept
    def index(self) -> nearest.Tree | nearest.Grid:
        """Finds nodes by their places."""
        return nearest.index_of(self.coordinates)

    @of_files
    def roads(self) -> Roads:
        """The roads between nodes, as `snapping.Roads`."""
        from chtab._roads.snapping import Roads

        return Roads(self.graph, self.coordinates, self.bends)

    @of_files
    def bends(self) -> Bends:
        """The points of arcs between their ends; none without a file of these."""
        path = self.paths["bends"]
        found = columns(path, b"b", 3)[0] if isinstance(path, str) else path or [[], [], []]
        return bends_in(found, self.counts[1], str(path))

    def lines_of(self, starts: Integers, counts: Integers, arcs: Integers) -> list[list[Point]]:
        """The places along routes, with bends if known: route k has `counts[k]` of the arcs."""
        if self.paths["bends"] is None:
            heads = iter(numpy.asarray(self.graph.heads)[arcs].tolist())
            return [
                [self.coordinates.of(node) for node in (start, *itertools.islice(heads, count))]
                for start, count in zip(starts.tolist(), counts.tolist())]
        from chtab._roads.lines import tidied

        return [line for line, _ in tidied(self.roads.lines_of(starts, counts, arcs))]


def layers_of(files_of: Opening | Made) -> Layers:
    """The layers of files or of arcs, with labels and the unit."""
    layers = Layers(files_of)
    layers.labels, layers.measure
    return layers


def beside(path: str) -> str | None:
    return path if os.path.exists(path) else None
