"""Routes between nodes and trips between spots, as callers get them."""
from __future__ import annotations

import collections.abc
from typing import TYPE_CHECKING, Any, NamedTuple

import numpy

from chtab._engine import forks
from chtab.errors import ProgramFault
from chtab._files import geojson, showing
from chtab.files import Answer

if TYPE_CHECKING:
    import pandas
    from numpy.typing import NDArray
    from chtab._engine.walks import Paths
    from chtab._roads.layers import Layers
    from chtab.typing import Integers


class Routes(showing.OnMap, collections.abc.Sequence):
    """Routes in the order of the pairs.

    Each is a `files.Answer` with `source`, `target`, `weight`, `nodes` and `weights`, the last
    three None where no path leads. Nodes are called as the network calls them, and weights are in
    its `unit`. GeoPandas takes routes as they are: `GeoDataFrame.from_features(routes)`.

    Examples
    --------
    >>> routes = network.routes([(1, 3), (3, 1)])                    # doctest: +SKIP
    >>> routes[0].weight, routes[0].nodes                            # doctest: +SKIP
    (9, [1, 2, 3])
    """

    # What colours a map.
    shown_by, _is_framed = "weight", True

    def __init__(self, pairs: Integers, paths: Paths, layers: Layers) -> None:
        # The pairs of nodes by their numbers, their paths, and the files of the network.
        self.pairs, self.paths, self.layers = pairs, paths, layers
        graph = layers.graph
        self.heads = numpy.asarray(graph.heads)[paths.arcs]
        self.arc_weights = numpy.asarray(graph.weights)[paths.arcs]
        self.firsts = numpy.append(0, numpy.cumsum(paths.counts))
        sums = numpy.diff(numpy.append(0, numpy.cumsum(self.arc_weights))[self.firsts])
        if (sums != paths.weights)[paths.weights >= 0].any():
            raise ProgramFault(f"{layers.path} has changed since it was opened", 1)

    def __getitem__(self, place: Any) -> Any:
        return self.answers[place]

    @forks.computed_once
    def answers(self) -> list[Answer]:
        """The routes with the labels of their nodes and with weights in the network's unit."""
        labels, measure = self.layers.labels, self.layers.measure
        sources, targets = (labels.of(column).tolist() for column in self.pairs.T)
        heads = labels.of(self.heads).tolist()
        weights = measure.in_unit(self.arc_weights).tolist()
        firsts = self.firsts.tolist()
        found = zip(sources, targets, self.paths.weights.tolist(), firsts, firsts[1:])
        return [
            Answer(source, target, None, None, None) if weight < 0 else Answer(
                source, target, measure.one(weight), [source, *heads[first:last]],
                weights[first:last]) for source, target, weight, first, last in found]

    def __len__(self) -> int:
        return len(self.pairs)

    def __repr__(self) -> str:
        return f"<{len(self):,} routes on {self.layers.path}>"

    def rows(self) -> list[NDArray[numpy.int64] | None]:
        """Returns the arcs of the routes, as rows of the columns or frame that the network was made
        of.

        Returns
        -------
        list of array of int64
            For each pair the rows of the arcs in the order of its route, from 0 on, as `frame.iloc`
            counts them and `graph.edges` of networkx has them; of files the lines of the graph.
            None where no path leads.
        """
        found = numpy.split(self.layers.rows_of(self.paths.arcs), self.firsts[1:-1])
        is_there = (self.paths.weights >= 0).tolist()
        return [rows if is_own else None for rows, is_own in zip(found, is_there)]

    def edges(self) -> list[list[tuple] | None]:
        """Returns the arcs of the routes by their nodes, as networkx and osmnx name edges.

        Returns
        -------
        list of list of tuple
            For each pair its edges in the order of the route: (source, target, key) where the
            network was made of a graph whose edges have keys, and else (source, target). None where
            no path leads.
        """
        labelling = self.layers.labelling
        keys = None if labelling is None else labelling.keys
        found: list[list[tuple] | None] = []
        for answer, rows in zip(self, self.rows()):
            if answer.nodes is None or rows is None:
                found.append(None)
                continue
            ends = zip(answer.nodes, answer.nodes[1:])
            found.append(
                [(*pair, keys[row]) for pair, row in zip(ends, rows.tolist())] if keys
                else list(ends))
        return found

    def to_frame(self, metres: bool = False) -> pandas.DataFrame:
        """Returns the routes as a frame.

        Parameters
        ----------
        metres : bool
            Whether the frame has a column of the metres along each route.

        Returns
        -------
        pandas.DataFrame
            A row for each pair, called by its place, `query`: source, target, weight (NA where no
            path leads), how many arcs (NA), the metres (NaN) if they are wanted, and the list of
            nodes (empty).

        Raises
        ------
        ImportError, ChtabError
            pandas is not installed; or metres are wanted, and the network has no places of nodes.
        """
        import pandas

        rows = [(each.source, each.target, each.nodes or []) for each in self]
        is_missing = self.paths.weights < 0
        frame = pandas.DataFrame(rows, columns=["source", "target", "nodes"])
        frame.insert(2, "weight", self.layers.measure.series(self.paths.weights))
        counts = pandas.arrays.IntegerArray(self.paths.counts.copy(), is_missing)
        frame.insert(3, "arcs", pandas.Series(counts))
        if metres:
            frame.insert(4, "metres", numpy.where(is_missing, numpy.nan, self._lengths()))
        return frame.rename_axis("query")

    def _lengths(self) -> NDArray[numpy.float64]:
        """The metres along each route with its bends if they are known; 0 where no path leads."""
        of_arcs = self.layers.roads.nanometres[self.paths.arcs].astype(numpy.int64)
        return numpy.diff(numpy.append(0, numpy.cumsum(of_arcs))[self.firsts]) * 1e-9

    def to_geojson(self, names: dict | None = None) -> dict:
        """Returns the routes as lines on a map, which follow the bends of roads if the network
        knows them.

        Parameters
        ----------
        names : dict of node to str, optional
            The names of nodes, for the properties `from_name` and `to_name`.

        Returns
        -------
        dict
            A collection of GeoJSON with a feature for each pair, in their order: `query` (its
            place), `source`, `target`, `weight` and `arcs`, with `from` and `to` as other names of
            both ends. Where no path leads the geometry, the weight and the arcs are null.

        Raises
        ------
        ChtabError
            The network has no places of nodes.
        """
        is_there = self.paths.weights >= 0
        sources, counts = self.pairs[is_there, 0], self.paths.counts[is_there]
        lines = iter(self.layers.lines_of(sources, counts, self.paths.arcs))
        return geojson.collection(
            geojson.query_feature(place, each, next(lines) if each.nodes else None, names or {})
            for place, each in enumerate(self))


class Trip(NamedTuple):
    """A route between two spots. `weight`, `metres` and the `line` of (longitude, latitude),
    rounded to millionths of a degree, are None if no path leads; `nodes` are the nodes along it."""

    weight: float | None
    metres: float | None
    line: list | None
    nodes: list

    def to_geojson(self, properties: dict | None = None) -> dict:
        """Returns the trip as a line on a map.

        Parameters
        ----------
        properties : dict, optional
            Further properties.

        Returns
        -------
        dict
            A feature of GeoJSON with these properties, the weight and the metres; its line is None
            where there is no way.
        """
        return geojson.feature(self.line, self.properties(properties))

    def to_text(self, properties: dict | None = None) -> str:
        """Returns the same as text of JSON, in a third of the time."""
        return geojson.line_text(self.line, self.properties(properties))

    def properties(self, more: dict | None) -> dict[str, Any]:
        """The properties of the feature."""
        metres = self.metres and round(self.metres, 1)
        return {**(more or {}), "weight": self.weight, "metres": metres}


class TripRoutes(showing.OnMap, list):
    """Trips in the order of their spots: a list of `Trip`, in frames, GeoJSON and pictures."""

    shown_by, _is_framed = "weight", True

    def __repr__(self) -> str:
        return f"<{len(self):,} trips>"

    def to_geojson(self) -> dict:
        """Returns the trips as lines on a map.

        Returns
        -------
        dict
            A collection of GeoJSON with a feature for each trip, in their order: `query` (its
            place), `weight` and `metres`. Where there is no way the geometry and both are null.
        """
        return geojson.collection(
            each.to_geojson({"query": place}) for place, each in enumerate(self))

    def to_frame(self) -> pandas.DataFrame:
        """Returns the trips as a frame.

        Returns
        -------
        pandas.DataFrame
            A row for each trip, called by its place, `query`: weight and metres (NaN where there is
            no way), and the list of nodes.

        Raises
        ------
        ImportError
            pandas is not installed.
        """
        import pandas

        rows = [(each.weight, each.metres, each.nodes) for each in self]
        return pandas.DataFrame(rows, columns=["weight", "metres", "nodes"]).rename_axis("query")
