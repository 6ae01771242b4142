"""A road network for Python. It takes nodes, places and limits in arrays, and returns distances,
tables, routes and reach.

    with Network.open("roads.gr", saved="roads.ch", unit="minutes") as network:
        nodes, metres = network.nearest_nodes([9.5209, 9.6079], [47.1410, 47.1020])
        minutes = network.distances([(nodes[0], nodes[1])])

Weights are whole numbers in the graph's unit, mostly milliseconds, or floats in the unit that the
caller names. Where no path leads, a distance is -1 among whole numbers, because int64 has no other
mark, and NaN among floats. The argument `missing` of a call replaces both.

Columns that go together, such as sources and targets, have one length. Those of pandas go by their
index: they may be in any order if they have the same labels, and are refused otherwise.
"""
from __future__ import annotations

import dataclasses
import difflib
import functools
import inspect
import os
from collections.abc import Callable, Iterable, Mapping
from typing import TYPE_CHECKING, Any, Self, TypeVar, cast

import numpy
from numpy.typing import ArrayLike, NDArray

from chtab import files
from chtab._engine import deadlines, opening
from chtab._engine.customizing import Customizing
from chtab._engine.in_process import InProcess
from chtab._engine.made import Made, made
from chtab._engine.progress import Asked as Progress
from chtab._engine.walks import NO_WALK
from chtab.errors import ChtabError
from chtab._files import frames, geojson, row_index
from chtab._files.measures import Asked, Limit
from chtab._files.showing import table_text
from chtab._near import blocks, questions
from chtab._near.found import Near, Nearest
from chtab._roads import equilibrium as traffic, exporting, flows as of_flows, from_arcs, geoframes
from chtab._roads import pairs as of_pairs, scenarios
from chtab._roads.layers import layers_of
from chtab._roads.routes import Routes, TripRoutes
from chtab._roads.snapping import Roads, Spots, metres_in, places_in, see_that_near
from chtab._roads.trips import Trips, limits_in
from chtab.typing import Direction, Path

if TYPE_CHECKING:
    import distributed
    import geopandas
    import matplotlib.axes
    import networkx
    import pandas
    import scipy.sparse
    from chtab._engine.stamps import Stamps
    from chtab._files.arc_columns import Arcs
    from chtab._roads.reach import Isochrones

Nodes = ArrayLike | Iterable
Call = TypeVar("Call", bound=Callable[..., Any])
# Up to this many pairs are asked for without arrays.
FEW = 16
# The columns of trips, which go together.
DEMANDED = "origins", "destinations", "demand"


# What all calls have in common.


def timed(call: Call) -> Call:
    """Decorates a call of a network, whose `timeout` runs from its start. Calls that it makes in
    turn share this time."""
    @functools.wraps(call)
    def within_time(self: Network, *given: Any, **named: Any) -> Any:
        with deadlines.of_call(self._engine.setting.timeout):
            return call(self, *given, **named)

    return cast(Call, within_time)


def with_hints(call: Call) -> Call:
    """Decorates a call with many arguments: for a misspelt one the nearest is named."""
    known = list(inspect.signature(call).parameters)[1:]

    @functools.wraps(call)
    def hinting(*given: Any, **named: Any) -> Any:
        for name in set(named).difference(known):
            near = difflib.get_close_matches(name, known, 1, 0.5) or known
            text = f"{call.__name__} has no argument {name!r}; it has {', '.join(near)}"
            raise TypeError(text)
        return call(*given, **named)

    return cast(Call, hinting)


class Network:
    """A road network. `Network.open` opens files; `Network.from_arrays`, `from_frame`,
    `from_geodataframe`, `from_networkx` and `from_sparse` make a network of your own arcs.

    Nodes of files are called by their numbers, from 1 on. Nodes of your own arcs keep their labels,
    which are integers, strings or tuples; calls take and return these labels. On a map with
    restricted turns, a crossing is called by one node, in all calls.

    Threads and forked processes share a network in memory, and it can be pickled. A process that
    unpickles it loads it once for itself. The network is closed by `close`, at the end of a `with`,
    when it is no longer used, and at the end of the interpreter. A process keeps the last four
    networks that it unpickled.
    """

    def __init__(self, files_of: opening.Opening | Made) -> None:
        if not isinstance(files_of, opening.Opening | Made):
            text = "Network is not called: Network.open(\"roads.gr\") opens files"
            raise TypeError(f"{text}, and Network.from_frame and others make one of arcs")
        self._files, self._of_arcs = files_of, files_of if isinstance(files_of, Made) else None
        self._layers = layers_of(files_of)
        self._measure, self._has_turns = self._layers.measure, self._layers.has_turns
        self._engine = InProcess(files_of.setting, self._of_arcs)
        self._trips = Trips(self._engine, self._layers)
        self._customizing: Customizing | None = None

    @property
    def _opened(self) -> opening.Opening:
        """The opening of the files. Those of arcs in memory are written first."""
        return self._files.opening() if isinstance(self._files, Made) else self._files

    # Networks of files, and of a caller's own arcs.

    @classmethod
    @with_hints
    def open(
        cls, graph: Path, saved: Path | None = None, *, coordinates: Path | None = None,
        bends: Path | None = None, unit: str | None = None, scale: float | None = None,
        raw: bool = False, program: Path | None = None, workers: int = 1,
        timeout: float | None = None, load: bool = True, library: Path | bool | None = None,
    ) -> Self:
        """Loads a graph, and returns once it can answer: after building its hierarchy, or after
        checking the one in `saved`.

        That takes from a fraction of a second for a town to some minutes for a country, and less
        than half of that with `saved`.

        Parameters
        ----------
        graph : str or path
            The graph (`.gr`), or the folder of a network that was made with `folder=`.
        saved : str or path, optional
            A hierarchy that `chtab save` wrote for this graph.
        coordinates, bends : str or path, optional
            The files of the nodes' places and of the points between them; by default those beside
            the graph (`.co`, `.bends`), if they exist.
        unit : str, optional
            The unit of limits and answers: `milliseconds`, `seconds`, `minutes` or `hours` of a
            graph in milliseconds, `metres` or `kilometres` of one in metres. By default it is the
            unit of the graph, or the one that the network of a folder was made with.
        scale : float, optional
            How many of the graph's weights make one of the unit, if the graph doesn't say so.
        raw : bool
            Whether limits and answers are the whole numbers of the graph, even if the folder was
            made with a unit.
        program : str or path, optional
            The program chtab, which builds by several workers and says how far it is; by default
            the one beside the package, beside the running script, or on the path.
        workers : int
            How many threads build a hierarchy, and answer a large question, 1 to 64.
        timeout : float, optional
            The most seconds that a call may take, not counting the loading of the network; no limit
            by default. It is checked between parts of a call, each of some hundredths of a second.
        load : bool
            Whether to load the graph now and not with the first question.
        library : str or path, optional
            The library for C, which answers; by default the one beside the program.

        Raises
        ------
        ProgramFault
            A file is refused.
        FileFault, DataFault
            The labels of the folder, or the places beside the graph, are those of another graph; or
            nothing says how many of the graph's weights make one of the unit.
        ChtabError, OSError
            There is no program or no library, or a file can't be opened.
        """
        asked = Asked(unit, scale, raw)
        running = opening.Running(program, workers, timeout, load, library, asked)
        network = cls(opening.opening_of(graph, saved, coordinates, bends, running))
        made = network._layers.labelling
        if made is not None and made.scale is not None and made.unit is None and asked == Asked():
            from_arcs.warn_of_scale(made.scale, 4)
        if load:
            network._engine.load()
        return network

    @classmethod
    @with_hints
    def from_arrays(
        cls, sources: ArrayLike, targets: ArrayLike, weights: ArrayLike, *,
        nodes: ArrayLike | None = None, x: ArrayLike | None = None, y: ArrayLike | None = None,
        scale: float | None = None, unit: str | None = None, both_ways: bool | ArrayLike = False,
        geometry: ArrayLike | None = None, raw: bool = False, folder: Path | None = None,
        like: Network | None = None, fresh: int = 5, progress: Progress = None,
        program: Path | None = None, workers: int = 1, timeout: float | None = None,
        load: bool = True, library: Path | bool | None = None,
    ) -> Self:
        """Makes a network of arcs: arc k leads from `sources[k]` to `targets[k]`, and its weight is
        `weights[k]`.

        Several arcs may lead from one node to another; the one of least weight counts. Columns may
        be arrays, lists, or columns of a frame.

        Parameters
        ----------
        sources, targets : array of labels, shape (m,)
            The labels of both ends: all integers of any size (also as whole floats), all strings,
            or all tuples of these.
        weights : array of int, float or duration, shape (m,)
            Whole numbers from 0 on; with `unit` or `scale` any numbers from 0 on. In the graph a
            weight times the number of nodes is at most 2^60.
        nodes : array of labels, shape (n,), optional
            The labels of all nodes, each once; by default those of `sources` and `targets`, in
            ascending order.
        x, y : array of float, shape (n,), optional
            Longitudes and latitudes of `nodes` in degrees, for `nearest`, `snap`, `trips`, `reach`
            and maps.
        scale : float, optional
            Weights are multiplied by this and rounded once to whole numbers; `rounding` says by how
            much. A unit of time or length needs no scale.
        unit : str, optional
            The unit of the weights, of limits and of answers, which are floats unless it is that of
            the graph. `milliseconds`, `seconds`, `minutes` and `hours` become whole milliseconds in
            the graph, `metres` and `kilometres` whole millimetres.
        both_ways : bool, or array of bool, shape (m,)
            Whether each arc leads back too, at the same weight.
        geometry : array of lines, shape (m,), optional
            The lines of arcs in degrees, from shapely or as lists of points, or None. Routes and
            `snap` follow them.
        raw : bool
            Whether limits and answers are the whole numbers of the graph, whatever the unit is.
        folder : str or path, optional
            A new or empty folder for the files and the hierarchy, which `Network.open(folder)`
            opens quickly. By default they are written when another process needs them, for pickle,
            into a temporary folder that goes with the network.
        like : Network, optional
            A network of the same nodes. The new network takes its order, in about half of the time
            of building by depth. The nodes, labels and places of `like` are taken unless others are
            given, and so are the nodes where turns are restricted.
        fresh : int
            With `like`, how many per cent of the nodes are ordered afresh, from 0 to 100.
        progress : bool or callable, optional
            True reports the building on standard error; a callable gets how many steps of a stage
            are done, and their total.
        program, workers, timeout, load, library : as `open` has them
            What builds the network, and how it answers.

        Raises
        ------
        DataFault
            A value is refused, such as a label 1.5, a weight NaN, or a missing row; `column` and
            `row` say where. Nothing was written.
        FileExistsError
            `folder` exists and is not empty.
        ProgramFault, ChtabError, OSError
            As `Network.open` raises them. A folder is complete or doesn't exist.

        Examples
        --------
        >>> ends = ["inn", "inn"], ["farm", "mill"]  # doctest: +SKIP
        >>> network = Network.from_arrays(*ends, [2.5, 4.0], unit="minutes")  # doctest: +SKIP
        """
        running = opening.Running(
            program, workers, timeout, load, library, Asked(raw=raw), progress, like, fresh)
        arcs = from_arcs.arcs_of_arrays(
            (sources, targets, weights), (nodes, x, y), scale, unit, both_ways, geometry, like)
        return cls._made(arcs, folder, running)

    @classmethod
    @with_hints
    def from_frame(
        cls, frame: pandas.DataFrame, source: str = "source", target: str = "target",
        weight: str = "weight", *, geometry: str | None = None, nodes: ArrayLike | None = None,
        x: ArrayLike | None = None, y: ArrayLike | None = None, scale: float | None = None,
        unit: str | None = None, both_ways: bool | str | ArrayLike = False, raw: bool = False,
        folder: Path | None = None, like: Network | None = None, fresh: int = 5,
        progress: Progress = None, program: Path | None = None, workers: int = 1,
        timeout: float | None = None, load: bool = True, library: Path | bool | None = None,
    ) -> Self:
        """Makes a network of a frame with a row for each arc, such as a DataFrame of pandas.

        Parameters
        ----------
        frame : pandas.DataFrame
            The arcs.
        source, target, weight : str
            The names of the columns, or of levels of the index, with the labels of both ends and
            the weight: as `from_arrays` takes them.
        geometry : str, optional
            The name of the column with the lines of arcs.
        nodes, x, y, scale, unit : optional
            As `from_arrays` takes them.
        both_ways : bool, str, or array of bool, shape (m,)
            Whether each arc leads back too; or the name of a column of bools that says which do.
        raw, folder, like, fresh, progress, program, workers, timeout, load, library : optional
            As `from_arrays` takes them: units, files, what builds the network, how it answers.

        Raises
        ------
        DataFault
            The frame lacks a column, or a value is refused: `row` of the error is its place in the
            frame, as `frame.iloc` counts.
        FileExistsError, ProgramFault, ChtabError, OSError
            As `from_arrays` raises them.

        Examples
        --------
        >>> roads = pandas.read_csv("roads.csv")  # doctest: +SKIP
        >>> network = Network.from_frame(roads, "a", "b", "min", unit="minutes")  # doctest: +SKIP
        """
        running = opening.Running(
            program, workers, timeout, load, library, Asked(raw=raw), progress, like, fresh)
        nodes, x, y = from_arcs.nodes_in_order(nodes, x, y)
        given = frames.columns_of_frame(
            frame, (source, target, weight), geometry, both_ways,
            {"nodes": nodes, "x": x, "y": y, "scale": scale, "unit": unit})
        return cls._made(from_arcs.arcs_like(given, like), folder, running)

    @classmethod
    @with_hints
    def from_networkx(
        cls, graph: networkx.Graph, weight: str = "travel_time", scale: float | str | None = "auto",
        *, unit: str | None = None, x: str | None = "x", y: str | None = "y",
        geometry: str | None = "geometry", raw: bool = False, folder: Path | None = None,
        like: Network | None = None, fresh: int = 5, progress: Progress = None,
        program: Path | None = None, workers: int = 1, timeout: float | None = None,
        load: bool = True, library: Path | bool | None = None,
    ) -> Self:
        """Makes a network of a graph of networkx, such as one of osmnx as it is, simplified or not.

        An edge of a graph without directions leads both ways. Of several edges from one node to
        another the one of least weight counts.

        Parameters
        ----------
        graph : networkx.Graph, DiGraph, MultiGraph or MultiDiGraph
            The graph, whose nodes are all integers, all strings, or all tuples.
        weight : str
            The attribute of edges with their weight. `travel_time` of osmnx is in seconds, and
            `length` in metres.
        scale : float, optional
            As `from_arrays` takes it. "auto", the default, is that of `unit`, and 1000 if there is
            no unit: from seconds to milliseconds, or from metres to millimetres.
        unit : str, optional
            The unit of the weights, such as `seconds` or `metres`: as `from_arrays` takes it.
        x, y : str, optional
            The attributes of nodes with longitude and latitude in degrees. Where no node has them,
            or for None, the network has no places.
        geometry : str, optional
            The attribute of edges with their lines, where edges have some, as those of a simplified
            graph of osmnx do.
        raw, folder, like, fresh, progress, program, workers, timeout, load, library : optional
            As `from_arrays` takes them: units, files, what builds the network, how it answers.

        Returns
        -------
        Network
            Its labels are the graph's nodes, in their order.

        Raises
        ------
        DataFault
            A node or an edge lacks an attribute, or has a value that is refused. The text names it.
        FileExistsError, ProgramFault, ChtabError, OSError
            As `from_arrays` raises them.

        Examples
        --------
        >>> streets = osmnx.add_edge_travel_times(osmnx.add_edge_speeds(streets))  # doctest: +SKIP
        >>> network = Network.from_networkx(streets, unit="seconds")  # doctest: +SKIP
        """
        running = opening.Running(
            program, workers, timeout, load, library, Asked(raw=raw), progress, like, fresh)
        arcs = frames.arcs_of_networkx(graph, weight, scale, unit, (x, y), geometry)
        return cls._made(arcs, folder, running)

    @classmethod
    @with_hints
    def from_geodataframe(
        cls, edges: geopandas.GeoDataFrame, nodes: geopandas.GeoDataFrame | None = None,
        source: str = "u", target: str = "v", weight: str | None = None, *,
        scale: float | None = None, unit: str | None = None,
        both_ways: bool | str | ArrayLike = False, raw: bool = False, folder: Path | None = None,
        like: Network | None = None, fresh: int = 5, progress: Progress = None,
        program: Path | None = None, workers: int = 1, timeout: float | None = None,
        load: bool = True, library: Path | bool | None = None,
    ) -> Self:
        """Makes a network of a GeoDataFrame with a line for each arc, such as `osmnx.graph_to_gdfs`
        gives, or a layer of roads.

        Parameters
        ----------
        edges : geopandas.GeoDataFrame
            The arcs, each with a line from its first node to its last. Other coordinates than
            degrees are projected.
        nodes : geopandas.GeoDataFrame, optional
            The nodes: labels in the index, and points. Without it places are the ends of lines.
        source, target : str
            The columns, or levels of the index, with the labels of both ends. Where there is
            neither, lines that end at one point, in millionths of a degree, meet there, and nodes
            are called 1, 2, .. by longitude and latitude.
        weight : str, optional
            The column of weights. Without it a weight is the metres along the line.
        scale, unit, both_ways : optional
            As `from_frame` takes them.
        raw, folder, like, fresh, progress, program, workers, timeout, load, library : optional
            As `from_arrays` takes them: units, files, what builds the network, how it answers.

        Raises
        ------
        DataFault
            The frame lacks a column or a line, or a value is refused. The text names it.
        FileExistsError, ProgramFault, ChtabError, OSError
            As `from_arrays` raises them.

        Examples
        --------
        >>> roads = geopandas.read_file("roads.gpkg")  # doctest: +SKIP
        >>> network = Network.from_geodataframe(roads, both_ways=True)  # doctest: +SKIP
        """
        running = opening.Running(
            program, workers, timeout, load, library, Asked(raw=raw), progress, like, fresh)
        given = geoframes.columns_of_geodataframe(
            edges, nodes, (source, target, weight), both_ways, {"scale": scale, "unit": unit})
        return cls._made(from_arcs.arcs_like(given, like), folder, running)

    @classmethod
    @with_hints
    def from_sparse(
        cls, matrix: scipy.sparse.spmatrix, *, nodes: ArrayLike | None = None,
        x: ArrayLike | None = None, y: ArrayLike | None = None, scale: float | None = None,
        unit: str | None = None, both_ways: bool = False, raw: bool = False,
        folder: Path | None = None, like: Network | None = None, fresh: int = 5,
        progress: Progress = None, program: Path | None = None, workers: int = 1,
        timeout: float | None = None, load: bool = True, library: Path | bool | None = None,
    ) -> Self:
        """Makes a network of a sparse matrix, as `scipy.sparse.csgraph` takes it: what is stored in
        row i and column j is the arc from i to j.

        Parameters
        ----------
        matrix : sparse matrix or array of scipy, shape (n, n)
            The weights. A 0 that is stored is an arc of weight 0.
        nodes : array of labels, shape (n,), optional
            The labels of rows and columns. Without it these are those of `like`, or 0, 1, ..
        x, y, scale, unit, both_ways : optional
            As `from_arrays` takes them: places, the unit, and whether arcs lead back.
        raw, folder, like, fresh, progress, program, workers, timeout, load, library : optional
            As `from_arrays` takes them: units, files, what builds the network, how it answers.

        Raises
        ------
        DataFault
            The matrix has not as many rows as columns, or a value is refused.
        FileExistsError, ProgramFault, ChtabError, OSError
            As `from_arrays` raises them.

        Examples
        --------
        >>> network = Network.from_sparse(csr_matrix([[0, 4], [5, 0]]))  # doctest: +SKIP
        """
        running = opening.Running(
            program, workers, timeout, load, library, Asked(raw=raw), progress, like, fresh)
        arcs = from_arcs.arcs_of_sparse(matrix, (nodes, x, y), scale, unit, both_ways, like)
        return cls._made(arcs, folder, running)

    def changed(
        self, weights: ArrayLike | Mapping | pandas.Series | None = None,
        closed: Iterable | ArrayLike | None = None,
        added: Iterable | pandas.DataFrame | None = None, *,
        folder: Path | None = None, fresh: int = 5,
    ) -> Self:
        """Makes a network with the same nodes, labels, places and bends, and other arcs. This one
        goes on answering as it did.

        Names of arcs are:

        - a row of the columns or of the frame that the network was made of, from 0 on, or of files
          the arc's place in the graph;
        - `(source, target)`, all arcs from one node to another; `{node, node}`, all arcs between
          two nodes, in whichever directions there are some; `(source, target, key)`, the edge of a
          graph of networkx or osmnx with this key; `(node,)`, all arcs to and from a node;
        - spots of `snap`: at each place the road, in both directions, or the crossing if it is less
          than a metre away;
        - `"way/23456"`, a way of OpenStreetMap, or the name or the number of a street of a map that
          was imported with `--names`.

        A row that leads both ways is both arcs, also by the key of its edge. Where turns are
        restricted, a node is all nodes of its crossing. A Series, or an Index as `closed`, goes by
        its labels in any order: those of the frame's index, or else names. In a list, an array or a
        dict a number is a row, and is refused if the frame calls another row so: `frame.index[[7]]`
        is row 7.

        Parameters
        ----------
        weights : array, Series or dict, optional
            New weights in the network's `unit`, or with `raw=True` those of the graph: one for each
            row, or of some arcs by their names, of which the last one of an arc counts. A row whose
            arcs are closed stays closed, and as a name in a dict it is refused.
        closed : list of arcs, spots, Index, or array or Series of bool, optional
            The arcs that are no longer there, or for each row whether it is closed. Nodes stay.
        added : list of (source, target, weight) or pandas.DataFrame, optional
            Further arcs between nodes of the network, with the columns source, target and weight,
            and optionally geometry. Each leads one way, from all roads that lead to its source.
            Their rows follow those of the network, and edges have the keys of networkx.
        folder : str or path, optional
            As `Network.from_arrays` takes it.
        fresh : int
            How many per cent of the nodes are ordered afresh, from 0 to 100. More of them make
            building slower, and answers faster if the weights differ much. The answers themselves
            are the same. It has no effect where weights are customized.

        Returns
        -------
        Network
            The changed network. It is built in the order of this one, in about half of the time of
            building by depth. If this network is `customizable` and no arcs are added, its weights
            are customized, which takes a small part of that, and so is what is changed later.

        Raises
        ------
        DataFault
            A name stands for nothing, a node has no such label, or a weight is refused: the text
            names it, and nothing was written. Or the network was made with `scale`, and neither
            with a unit nor with `raw=True`, so that new weights may be either.
        FileExistsError, ProgramFault, ChtabError, OSError
            As `Network.from_arrays` raises them, or the network is closed.

        Examples
        --------
        >>> without_bridge = network.changed(closed=[("inn", "mill")])  # doctest: +SKIP
        >>> without_road = network.changed(closed=network.snap(9.52, 47.14))  # doctest: +SKIP
        >>> at_eight = network.changed(weights=frame["minutes at 8:00"])  # doctest: +SKIP
        >>> with_tunnel = network.changed(added=[("farm", "school", 2.5)])  # doctest: +SKIP
        """
        self._engine.see_that_open()
        with from_arcs.known_to_be_closed(self):
            arcs = scenarios.arcs_of(self._layers, self._measure, weights, closed, added)
        setting = self._engine.setting
        customizing = self._topology() if added is None else None
        running = opening.Running(
            setting.program, setting.workers, setting.timeout, True, setting.library,
            self._layers.asked, like=self, fresh=fresh,
            customizing=customizing and customizing.with_ends(arcs.tails, arcs.heads))
        return self._made(arcs, folder, running)

    def customizable(self, order: Path | Iterable | None = None) -> Self:
        """Prepares this network for new weights, and returns it: from here on `changed` customizes
        them, in the network's unit, in a small part of the time of building, unless arcs are added.

        This finds an order of the nodes and the legs that there may be in it, whatever the weights
        are. It takes some microseconds for each node. The order is kept in the folder of the
        network, if it has one, and serves each network that is opened from there. Answers are as
        exact as before.

        Parameters
        ----------
        order : path, or list of nodes, optional
            The order: a file that `chtab save` wrote, or its lines `p` and `o` alone; or each node
            once, from the least important on. By default a nested dissection order is found.

        Raises
        ------
        DataFault
            There are more than 40 triangles a node in this order, so that customizing would take
            too long, or the list does not have each node once. Roads with the small cuts of real
            maps have fewer. The network stays as it was.
        ProgramFault, ChtabError, OSError
            The file is refused, the network is closed, or a file can't be read or written.

        Examples
        --------
        >>> network = Network.open("roads.gr").customizable()  # doctest: +SKIP
        >>> for minute, weights in traffic:  # doctest: +SKIP
        ...     with network.changed(weights=weights) as now:
        ...         times = now.table(depots, customers)
        """
        self._engine.see_that_open()
        with from_arcs.known_to_be_closed(self):
            customizing = self._customized_in(scenarios.order_of(self._layers, order))
            customizing.opened()
            if self._of_arcs is not None:
                self._of_arcs.customize(customizing)
            elif self._opened.labelling is not None:
                path = customizing.keep(os.path.dirname(self._opened.setting.graph))
                self._files = dataclasses.replace(self._opened, order=path)
        self._customizing = customizing
        return self

    def _customized_in(self, order: bytes | str | None) -> Customizing:
        """What customizes weights of the arcs of this network, in an order."""
        graph = self._layers.graph
        tails, heads = (numpy.asarray(each, numpy.int64) for each in (graph.tails, graph.heads))
        return Customizing(self._engine.calls, self.nodes, tails, heads, order)

    def _topology(self) -> Customizing | None:
        """What customizes weights of the arcs of this network, if it was made customizable."""
        order = self._opened.order if self._of_arcs is None else None
        if self._customizing is None and order is not None:
            self._customizing = self._customized_in(order)
        return self._customizing

    @classmethod
    def _made(cls, arcs: Arcs, folder: Path | None, running: opening.Running) -> Self:
        """Builds the network of these arcs, and writes its files into a folder if one is named."""
        # Whoever changes a network was warned when it was made.
        if arcs.scale is not None and arcs.unit is None and arcs.beside is None:
            if running.asked == Asked():
                from_arcs.warn_of_scale(arcs.scale, 5)
        with from_arcs.known_to_be_closed(running.like):
            if running.like is not None:
                from_arcs.see_that_same_nodes(running.like.labels, arcs.labels.values)
                arcs = from_arcs.with_turns_of(arcs, running.like)
            found, handle = made(arcs, folder, running)
        try:
            network = cls(found)
            network._customizing = running.customizing
            if handle is not None:
                network._engine.begin_with(handle)
            if running.load:
                network._engine.load()
        except BaseException:
            found.close()
            raise
        return network

    # Between nodes.

    def distances(
        self, pairs: Nodes, targets: Nodes | None = None, *, missing: float | None = None,
        progress: Progress = None,
    ) -> NDArray:
        """Returns the distances of pairs of nodes.

        Parameters
        ----------
        pairs : array of labels, shape (n, 2)
            Pairs of nodes; with `targets`, the sources, shape (n,).
        targets : array of labels, shape (n,), optional
            The targets.
        missing : int or float, optional
            The value where no path leads; by default -1, or NaN if answers are floats. `numpy.inf`
            makes them floats.
        progress : bool or callable, optional
            True reports progress on standard error; a callable gets how much is done, and the
            total.

        Returns
        -------
        array of int64 or float64, shape (n,)
            The weights in the network's `unit`.

        Raises
        ------
        ValueError
            A label is that of no node. For labels of your own the error is a `DataFault`.
        ProgramFault, TimedOut
            The library has no memory, or the call took longer than `timeout` of the network.

        Examples
        --------
        >>> network.distances([(1, 3), (3, 1)])  # doctest: +SKIP
        array([ 9, -1])
        """
        found = None
        if type(pairs) is list and 0 < len(pairs) <= FEW and targets is None is progress:
            found = self._few_distances(pairs)
        if found is None:
            found = self._all_distances(pairs, targets, progress)
        return self._measure.in_unit(found, missing)

    @timed
    def _all_distances(
        self, pairs: Nodes, targets: Nodes | None, progress: Progress,
    ) -> NDArray[numpy.int64]:
        """The distances of any number of pairs."""
        asked = of_pairs.pairs_in(self._layers, pairs, targets)
        return self._engine.distances(of_pairs.with_ends(self._layers, asked), progress)

    def _few_distances(self, pairs: list[Any]) -> NDArray[numpy.int64] | None:
        """The distances of few pairs, without arrays, in microseconds. None if these are no pairs
        of known labels, or if trips may end at other nodes."""
        if self._has_turns or not all(type(pair) is tuple and len(pair) == 2 for pair in pairs):
            return None
        nodes = self._layers.labels.few([label for pair in pairs for label in pair])
        if nodes is None:
            return None
        found = self._engine.few_distances(nodes[0::2], nodes[1::2])
        return None if found is None else numpy.array(found, numpy.int64)

    @timed
    def table(
        self, sources: Nodes, targets: Nodes, *, within: Limit = None, missing: float | None = None,
        progress: Progress = None,
    ) -> NDArray:
        """Returns the distances from each source to each target, of any number of these.

        Parameters
        ----------
        sources, targets : array of labels, shape (k,) and (l,)
            Nodes, which may repeat.
        within : number or duration, optional
            A limit in the network's `unit`, from 0 to 2^60 of the graph's weights.
        missing : int or float, optional
            The value where no path leads, or none of at most `within`, as `distances` takes it.
        progress : bool or callable, optional
            As `distances` takes it.

        Returns
        -------
        array of int64 or float64, shape (k, l)
            The weights in the network's `unit`.

        Raises
        ------
        TypeError
            A limit is no number.
        ValueError, ProgramFault, TimedOut
            As `distances` raises them; or a limit is out of its range.
        """
        return self._measure.in_unit(self._table(sources, targets, within, progress), missing)

    def _table(
        self, sources: Nodes, targets: Nodes, within: Limit, progress: Progress,
    ) -> NDArray[numpy.int64]:
        """The same in the unit of the graph."""
        limit = self._measure.limit("within", within)
        rows = of_pairs.nodes_in(self._layers, "sources", sources)
        columns = self._layers.ends_of(of_pairs.nodes_in(self._layers, "targets", targets))
        return self._engine.table(rows, columns, limit, progress)

    @timed
    def frame(
        self, sources: Nodes, targets: Nodes, *, within: Limit = None, progress: Progress = None,
    ) -> pandas.DataFrame:
        """Returns the table as a DataFrame of pandas.

        Parameters
        ----------
        sources, targets, within, progress : as `table` has them
            Nodes, and a limit.

        Returns
        -------
        pandas.DataFrame
            A row for each source and a column for each target, with NA where no path leads, or none
            of at most `within`. Columns are `Int64`, or float64 if the network's `unit` is not that
            of the graph.

        Raises
        ------
        ImportError
            pandas is not installed.
        TypeError, ValueError, ProgramFault, TimedOut
            As `table` raises them.
        """
        import pandas

        sources = of_pairs.listed("sources", sources)
        targets = of_pairs.listed("targets", targets)
        table = self._table(sources, targets, within, progress)
        labels = self._layers.labels
        index, columns = labels.index_of("source", sources), labels.index_of("target", targets)
        if not self._measure.is_whole:
            return pandas.DataFrame(self._measure.in_unit(table), index, columns)
        cells = {place: self._measure.series(column).array for place, column in enumerate(table.T)}
        return pandas.DataFrame(cells, index).set_axis(columns, axis=1)

    @timed
    def routes(
        self, pairs: Nodes, targets: Nodes | None = None, *, progress: Progress = None,
    ) -> Routes:
        """Returns the routes of pairs of nodes: paths of least weight, and among these one with the
        fewest arcs.

        Parameters
        ----------
        pairs, targets, progress : as `distances` has them
            Nodes, in an array of the shape (n, 2), or two of (n,).

        Returns
        -------
        chtab.Routes
            A sequence of `files.Answer`, in the order of the pairs, with `to_frame`, `to_geojson`
            and `to_geodataframe`. Weights are in the network's `unit`.

        Raises
        ------
        ValueError, ProgramFault, TimedOut
            As `distances` raises them.
        """
        asked = of_pairs.pairs_in(self._layers, pairs, targets)
        found = self._engine.paths(of_pairs.with_ends(self._layers, asked), progress)
        return Routes(asked, found, self._layers)

    @timed
    def along(
        self, values: ArrayLike, pairs: Nodes, targets: Nodes | None = None,
    ) -> NDArray[numpy.float64]:
        """Sums values along the routes of pairs of nodes, such as the metres or the toll of the
        fastest routes.

        Parameters
        ----------
        values : array of float, shape (m,) or (m, c)
            A value for each row of the arcs that the network was made of, or for each arc of a
            graph file, in one column or several. Columns of pandas go by their index, as in
            `changed`. Of several arcs between two nodes, a route takes the first of those with the
            least weight. A row that leads both ways has the same value in both directions, so that
            a climb needs two rows.
        pairs, targets : array of labels, shape (n, 2), or (n,) each
            As `distances` takes them.

        Returns
        -------
        array of float64, shape (n,) or (n, c)
            The sums, in the unit of the values; NaN where no path leads.

        Raises
        ------
        DataFault
            There are more or fewer values than rows, or a value is no number, or not finite.
        ValueError, ProgramFault, TimedOut
            As `distances` raises them.

        Examples
        --------
        >>> metres = network.along(frame["length"], [("inn", "school")])  # doctest: +SKIP
        """
        of_rows = of_pairs.values_of_rows(self._layers, values)
        asked = of_pairs.pairs_in(self._layers, pairs, targets)
        return of_pairs.along(self._engine, self._layers, of_rows, asked)

    # Flows.

    @timed
    def flows(
        self, origins: Nodes, destinations: Nodes, demand: ArrayLike = 1, *,
        scale: float | None = None, progress: Progress = None,
    ) -> pandas.Series:
        """Returns the flow on each road: the sum of the demands of the pairs whose routes take it.

        The routes are those of `routes`. Of several arcs between two nodes, the first of those with
        the least weight has the flow.

        Parameters
        ----------
        origins, destinations : array of labels, shape (n,) each
            The nodes of the pairs.
        demand : array of int or float, shape (n,), or number
            How much goes from each origin to its destination, at least 0, by their index in pandas;
            one number is for each pair.
        scale : float, optional
            How many whole units make one of the demand: 1000 rounds demands to thousandths. Demands
            with fractions need it. In these units a demand is at most 2^53, and all demands
            together are below 2^63.
        progress : bool or callable, optional
            As `distances` takes it.

        Returns
        -------
        pandas.Series
            A flow for each row of the arcs that the network was made of, with the labels of the
            frame; for each edge of a graph with keys that isn't closed, by (source, target, key);
            or for each arc of a graph file. Flows are whole numbers, or floats if demands are
            floats or have a scale, in the unit of the demands. A pair without a route adds nothing,
            and `attrs["pairs without a route"]` counts these pairs.

        Raises
        ------
        DataFault
            A demand is below 0, missing, no number or too large, or has a fraction, and there is no
            scale.
        ValueError, ProgramFault, TimedOut
            There are more or fewer destinations or demands than origins; or as `distances` raises
            them.

        Examples
        --------
        >>> flows = network.flows(trips["from"], trips["to"], trips["persons"])  # doctest: +SKIP
        """
        given = row_index.matched(DEMANDED, (origins, destinations, demand))
        pairs = of_pairs.pairs_in(self._layers, *given[:2])
        trips = of_flows.PairTrips(pairs, of_flows.demands_of(given[2], (len(pairs),), scale))
        return of_flows.flows_of_rows(self._engine, self._layers, trips, progress)

    @timed
    def flows_table(
        self, demand: ArrayLike | pandas.DataFrame, origins: Nodes | None = None,
        destinations: Nodes | None = None, *, scale: float | None = None, progress: Progress = None,
    ) -> pandas.Series:
        """Returns the flow on each road, as `flows` does, of each origin to each destination.

        A pair takes about the time of a cell of `table`, which is far less than by `flows`.

        Parameters
        ----------
        demand : DataFrame, array of int or float, shape (k, l), or number
            How much goes from each origin to each destination, as `flows` takes it. The index of a
            frame has the labels of the origins, and its columns those of the destinations.
        origins, destinations : array of labels, shape (k,) and (l,), optional
            The nodes, if the demand is no frame. They may repeat.
        scale, progress : optional
            As `flows` takes them.

        Returns
        -------
        pandas.Series
            As `flows` returns it, in the unit of the demand.

        Raises
        ------
        DataFault
            As `flows` raises it; `row` is that of the table.
        ValueError, ProgramFault, TimedOut
            The demand has another shape, or nodes are given twice or not at all; or as `distances`
            raises them.

        Examples
        --------
        >>> counts = trips.pivot_table("persons", "from", "to", "sum", 0)  # doctest: +SKIP
        >>> flows = network.flows_table(counts)  # doctest: +SKIP
        """
        trips = of_flows.table_in(self._layers, demand, origins, destinations, scale)
        return of_flows.flows_of_rows(self._engine, self._layers, trips, progress)

    @timed
    def assign(
        self, origins: Nodes | None = None, destinations: Nodes | None = None,
        demand: ArrayLike | pandas.DataFrame = 1, capacity: ArrayLike | None = None, *,
        alpha: ArrayLike = 0.15, beta: ArrayLike = 4.0,
        times: Callable[[NDArray[numpy.float64]], ArrayLike] | None = None,
        tolls: ArrayLike | None = None, value_of_time: float | None = None,
        method: str = traffic.BI_CONJUGATE, gap: float = 1e-4, steps: int = 100,
        scale: float | None = None, progress: Progress = None,
    ) -> traffic.Equilibrium:
        """Returns flows at user equilibrium: no trip has a faster route while the others stay.

        The time of a row with the flow v is its weight in the network, times
        1 + alpha * (v / capacity) ** beta (BPR), or what `times` says. Each step makes a network
        with these times, and takes all trips over its routes.

        Parameters
        ----------
        origins, destinations : array of labels, shape (n,) each
            The nodes of the pairs.
        demand : array of int or float, shape (n,), or number
            As `flows` takes it, for each pair. A frame or an array of two dimensions is a table, as
            `flows_table` takes it; then origins and destinations are those of the table.
        capacity, alpha, beta : number or array of float, shape (m,)
            For each row of the arcs, in the order of rows, or one number for all. Columns of pandas
            go by their index, as in `changed`. A capacity is above 0, in the unit of the demand.
        times : callable, optional
            Takes the flows of all rows, an array of float64, and returns their times in the
            network's unit: finite, at least 0, and no less with more flow on the row. Then
            `capacity`, `alpha` and `beta` aren't used.
        tolls : number or array of float, shape (m,), optional
            What a row costs beside its time.
        value_of_time : float, optional
            How much of the tolls' unit one unit of time is worth. Routes have the least time plus
            toll / value_of_time.
        method : str
            "msa", the method of successive averages; "frank-wolfe"; or "bi-conjugate", by
            Mitradjieva and Lindberg (2013), which takes the fewest steps.
        gap : float
            The relative gap at which it ends.
        steps : int
            The most steps.
        scale, progress : optional
            As `flows` takes them; progress is that of steps.

        Returns
        -------
        Equilibrium
            The flows, the times, and how near to an equilibrium they are.

        Raises
        ------
        DataFault
            A row leads both ways, a capacity or another number is refused, or `times` returns a
            time that is none; and as `flows` and `changed` raise it.
        ValueError, ProgramFault, TimedOut
            As `flows` raises them.

        Examples
        --------
        >>> found = network.assign(trips["from"], trips["to"], trips["cars"],
        ...                        roads["capacity"])  # doctest: +SKIP
        """
        traffic.see_that_known(method, gap, steps)
        rows = traffic.Rows(self._layers, self._measure)
        fixed = rows.fixed(tolls, value_of_time)
        curve: traffic.Bpr | traffic.Given
        curve = (
            rows.bpr(capacity, alpha, beta) if times is None else traffic.Given(times, rows.count))
        given = row_index.matched(DEMANDED, (origins, destinations, demand))
        trips = of_flows.trips_in(self._layers, given[0], given[1], given[2], scale)
        search = traffic.Search(method, curve, fixed, traffic.Trips(self, rows, trips))
        return traffic.equilibrium_of(rows, search, gap, steps, progress)

    # Nearness.

    @timed
    def near(
        self, sources: ArrayLike | Spots | None, targets: ArrayLike | Spots, *,
        count: int | None = None, within: Limit = None, direction: Direction = "to",
        values: ArrayLike | None = None, workers: int | distributed.Client = 1,
        progress: Progress = None,
    ) -> Near:
        """Finds the targets near each source: the first ones, or all, or those within a limit.

        Parameters
        ----------
        sources : array of labels, shape (n,), Spots, or None
            Nodes, which may repeat, or spots as `snap` gives them. None: all `crossings`.
        targets : array of labels, shape (l,), or Spots
            Nodes, which may repeat, or spots; each place of the list counts. A source that is a
            target has the weight 0 there.
        count : int, optional
            The most targets of a source, from 1 on. Of equally near ones, those that come first in
            the list are taken.
        within : number or duration, optional
            A limit in the network's `unit`. A target at exactly this weight counts as near.
        direction : {"to", "from"}
            Whether weights are those from the source to the target, or from the target to the
            source.
        values : array of int, shape (m,), optional
            Whole numbers from 0 on for the rows of the arcs, as `along` takes them, such as metres:
            their sums along the routes are asked for too. Not for spots.
        workers : int or distributed.Client
            How many threads work on blocks of the answer at a time, 1 by default; or a client of
            Dask, on whose workers the library answers. All machines need the files, the program
            and the library at the same paths. Spots are asked for by the network's own `workers`.
        progress : bool or callable, optional
            True reports progress on standard error; a callable gets how many blocks are done, and
            their total. By default only calls of several blocks and more than ten seconds report
            it.

        Returns
        -------
        chtab.Near
            The places and weights in compressed form, with `to_frame` and `to_sparse`. Spots are
            called by their places in their list, from 0 on.

        Raises
        ------
        DataFault
            A value is no whole number from 0 on, or there are more or fewer values than rows.
        TypeError, ValueError
            A limit or a count is no number; a label is that of no node; a number or `direction` is
            out of its range; a sum is 2^64 or more.
        ChtabError, ProgramFault, TimedOut
            The network is closed, the library has no memory, or the call took too long.

        Examples
        --------
        >>> near = network.near(None, hospitals, count=3, within=30)  # doctest: +SKIP
        >>> near.to_frame().groupby("source")["weight"].mean()  # doctest: +SKIP
        """
        asked = questions.asked(self._trips, sources, targets, direction)
        question = asked.near(count, self._measure.limit("within", within), values)
        rows = blocks.rows(self._engine, question, workers, progress)
        return Near(rows, *asked.labels(), self._measure.in_unit(rows.weights))

    @timed
    def nearest_targets(
        self, sources: ArrayLike | Spots | None, targets: ArrayLike | Spots, *, count: int = 1,
        within: Limit = None, direction: Direction = "to", missing: float | None = None,
        workers: int | distributed.Client = 1, progress: Progress = None,
    ) -> Nearest:
        """Finds the nearest targets of each source, in columns: as `near` does, with room for
        `count` targets of each.

        Where there is no further target, the place is -1, and the weight is -1 or NaN and masked.

        Parameters
        ----------
        sources, targets : array of labels, shape (n,) and (l,), Spots, or None
            Nodes or spots, as `near` takes them.
        count : int
            How many targets of each source, from 1 on.
        within, direction : as `near` has them
            A limit in the network's `unit`, and the direction of weights.
        missing : int or float, optional
            The weight where there is no further target, as `distances` takes it.
        workers, progress : int or distributed.Client, bool or callable
            As `near` takes them.

        Returns
        -------
        Nearest
            `places`, `weights` and `mask`, of the shape (n, count), or (n, l) if there are fewer
            targets; with `to_frame`, `plot` and `explore`, which have labels.

        Raises
        ------
        TypeError, ValueError, ChtabError, ProgramFault, TimedOut
            As `near` raises them.

        Examples
        --------
        >>> found = network.nearest_targets(None, hospitals, count=2)  # doctest: +SKIP
        >>> minutes = numpy.ma.array(found.weights, mask=found.mask)  # doctest: +SKIP
        """
        asked = questions.asked(self._trips, sources, targets, direction)
        most = blocks.count_in("count", count)
        question = asked.near(most, self._measure.limit("within", within))
        rows = blocks.rows(self._engine, question, workers, progress)
        # Nothing is in columns past the number of targets, and they would take memory.
        places, weights = numpy.full((2, len(rows), max(1, question.most())), NO_WALK)
        at = rows.owners(), rows.ranks()
        places[at], weights[at] = rows.places, rows.weights
        found = self._measure.in_unit(weights, missing)
        own = asked.sources.places if isinstance(asked.sources, Spots) else None
        return Nearest.of(places, found, *asked.labels(), self._layers, own)

    @timed
    def accessibility(
        self, values: ArrayLike | pandas.DataFrame | dict, within: Limit | list[Limit], *,
        sources: ArrayLike | Spots | None = None, targets: ArrayLike | Spots | None = None,
        aggregate: str = "sum", decay: str | Callable | None = None, direction: Direction = "to",
        workers: int | distributed.Client = 1, progress: Progress = None,
    ) -> NDArray[numpy.float64] | pandas.DataFrame:
        """Aggregates values over the targets within a limit, for each source: such as the jobs
        within 30 minutes.

        Parameters
        ----------
        values : array of float, shape (l,) or (l, c), float, or pandas.DataFrame
            The value of each target, in one column or several. A single number is the value of each
            target, and True is 1. Without `targets`, a Series, a frame or a dict has the labels of
            targets as its index, and an array has a value for each of `crossings`. A Series of
            values goes by its index with one of targets, or with a list of the same labels.
        within : number, duration, or list of these, length m
            A limit in the network's `unit`, or several. A target at exactly the limit counts.
        sources : array of labels, shape (n,), or Spots, optional
            Nodes or spots, which may repeat; by default all `crossings`.
        targets : array of labels, shape (l,), or Spots, optional
            Nodes or spots; each place of the list counts.
        aggregate : {"sum", "mean", "median", "count", "std", "min", "max"}
            The aggregate. `count` is how many targets are near, and `std` the standard deviation of
            their values as a whole population.
        decay : {"linear", "exponential"} or callable, optional
            The share of a value that counts at the weight w within the limit R: 1 - w / R, e^(-w /
            R), or what a callable gives for an array of weights. It applies to sums, means, counts
            and standard deviations.
        direction, workers, progress : as `near` has them
            The direction of weights, and what works on the answer.

        Returns
        -------
        array of float64, shape (n,), (n, m), (n, c) or (n, c, m)
            The aggregates, with an axis for several columns and for a list of limits; for a frame
            of values a frame, with the sources as index and the same columns. Where no target is
            near, sums and counts are 0, and the others NaN.

        Raises
        ------
        DataFault
            A value is missing or not finite, or there are more or fewer values than targets.
        TypeError, ValueError, ChtabError, ProgramFault, TimedOut
            As `near` raises them; or `aggregate` or `decay` is unknown; or a limit is 0 where a
            decay divides by it.

        Examples
        --------
        >>> network.accessibility(frame["jobs"], [15, 30], targets=frame["node"])  # doctest: +SKIP
        >>> network.accessibility(rents, 15, targets=nodes, aggregate="mean")  # doctest: +SKIP
        """
        asked = questions.values_asked(self._trips, values, sources, targets, aggregate, direction)
        limits = questions.limits_in(self._measure, within)
        return questions.aggregated(
            self._engine, asked, limits, aggregate, decay, workers, progress)

    # Between places.

    def nearest_nodes(
        self, longitudes: ArrayLike, latitudes: ArrayLike, max_metres: float | None = 1_000.0,
    ) -> tuple[NDArray, NDArray]:
        """Finds the nearest node to each place.

        Parameters
        ----------
        longitudes, latitudes : array of float, shape (n,)
            Places in degrees, from -180 to 180 and from -90 to 90.
        max_metres : float, optional
            The largest distance of a place from its node; None for any distance.

        Returns
        -------
        array of labels, shape (n,)
            The nodes.
        array of float, shape (n,)
            The metres from each place to its node.

        Raises
        ------
        TooFar
            A place is farther away than `max_metres`.
        ValueError, ChtabError
            A number is no degree, such as NaN; or the network has no places of nodes.
        """
        most = metres_in(max_metres)
        longitudes, latitudes = places_in(longitudes, latitudes)
        found = self._layers.index.nearest(longitudes, latitudes)
        nodes, metres = numpy.asarray(found[0], numpy.int64), numpy.asarray(found[1], float)
        see_that_near(longitudes, latitudes, metres, most, "node")
        return self._layers.labels.of(nodes), metres

    def snap(
        self, longitudes: ArrayLike, latitudes: ArrayLike, max_metres: float | None = 1_000.0,
    ) -> Spots:
        """Takes places to the nearest points of roads.

        Parameters
        ----------
        longitudes, latitudes, max_metres : as `nearest_nodes` has them
            Places in degrees, and the largest distance of one from the nearest road.

        Returns
        -------
        chtab.Spots
            An item for each place. It calls nodes by number: node k is `labels[k - 1]`. A scenario
            of this network finds the places of spots anew on its own roads, and any other network
            refuses them.

        Raises
        ------
        TooFar
            Places are farther from each road than `max_metres`; `places` of the error has all of
            them.
        ValueError, ChtabError
            A number is no degree, such as NaN; or the network has no places of nodes, or no roads.
        """
        return self.roads.find(longitudes, latitudes, max_metres)

    @timed
    def trips(self, starts: Spots, ends: Spots, *, missing: float | None = None) -> NDArray:
        """Returns the weights of trips between spots on roads.

        Parameters
        ----------
        starts, ends : chtab.Spots
            n spots each, as `snap` gives them: trip k leads from `starts[k]` to `ends[k]`.
        missing : int or float, optional
            The value where no path leads, as `distances` takes it.

        Returns
        -------
        array of int64 or float64, shape (n,)
            The weights in the network's `unit`.

        Raises
        ------
        ProgramFault, TimedOut
            As `distances` raises them.
        """
        return self._measure.in_unit(self._trips.weights(*self._trips.pairs(starts, ends)), missing)

    @timed
    def trip_table(
        self, starts: Spots, ends: Spots, *, within: Limit = None, missing: float | None = None,
    ) -> NDArray:
        """Returns the weights of trips from each start to each end.

        Parameters
        ----------
        starts, ends : chtab.Spots
            k and l spots.
        within, missing : as `table` has them
            A limit, and the value where no path leads.

        Returns
        -------
        array of int64 or float64, shape (k, l)
            The weights in the network's `unit`.

        Raises
        ------
        ValueError, ProgramFault, TimedOut
            As `table` raises them.
        """
        limit, roads = self._measure.limit("within", within), self.roads
        table = self._trips.table(roads.own("starts", starts), roads.own("ends", ends), limit)
        return self._measure.in_unit(table, missing)

    @timed
    def trip_routes(self, starts: Spots, ends: Spots) -> TripRoutes:
        """Returns the routes of trips between spots on roads.

        Parameters
        ----------
        starts, ends : chtab.Spots
            n spots each: trip k leads from `starts[k]` to `ends[k]`.

        Returns
        -------
        list of Trip
            n trips, with `weight` in the network's `unit`, `metres`, `line` and `nodes`; the list
            has `to_frame`, `to_geojson` and `to_geodataframe`.

        Raises
        ------
        ProgramFault, TimedOut
            As `distances` raises them.
        """
        found, measure = self._trips.routes(*self._trips.pairs(starts, ends)), self._measure
        return TripRoutes(trip._replace(weight=measure.one(trip.weight)) for trip in found)

    @timed
    def reach(self, spot: Spots, within: Limit = None, *, missing: float | None = None) -> NDArray:
        """Returns the weights at which nodes are reached from a spot.

        Parameters
        ----------
        spot : chtab.Spots
            One spot, as `snap` gives it.
        within, missing : as `table` has them
            A limit, and the value of a node that is not reached within it.

        Returns
        -------
        array of int64 or float64, shape (n,)
            The weights of all `crossings`, in the network's `unit`.

        Raises
        ------
        TypeError, ValueError, ProgramFault, TimedOut
            There is no spot, or there are several; or as `table` raises them.
        """
        limit = self._measure.limit("within", within)
        found = self._trips.reach(self._trips.one("spot", spot), limit)
        if self._has_turns:
            found = found[self._layers.ends_of(self._layers.all_nodes) - 1]
        return self._measure.in_unit(found, missing)

    @timed
    def isochrones(self, spot: Spots, limits: ArrayLike) -> Isochrones:
        """Returns polygons of what is reached from a spot within each limit, as a picture.

        A polygon has all that is reached, and some 100 m around it: some nodes in it are not
        reached. `reach` says which are, to count what is there.

        Parameters
        ----------
        spot : chtab.Spots
            One spot, as `snap` gives it.
        limits : list of numbers or durations
            Limits above 0 in the network's `unit`.

        Returns
        -------
        dict
            A collection of GeoJSON with a MultiPolygon for each limit, the largest first, whose
            property `limit` is the limit. It has `to_geodataframe`, `plot` and `explore`.

        Raises
        ------
        ImportError
            shapely is not installed.
        TypeError, ValueError, ProgramFault, TimedOut
            A limit is not above 0; or as `reach` raises them.
        """
        from chtab._roads.reach import Isochrones

        spot, asked = self._trips.one("spot", spot), limits_in(self._measure, limits)
        areas = self._trips.isochrones(spot, [limit for limit, _ in asked])
        features = [
            geojson.feature(area, {"limit": limit}, "MultiPolygon")
            for (_, limit), area in zip(asked, areas)]
        return Isochrones(geojson.collection(features))

    # Properties of the network. Those that need a file read it when they are first used.

    @property
    def nodes(self) -> int:
        """How many nodes there are, each of the copies of a crossing among them."""
        return self._engine.nodes

    @property
    def labels(self) -> NDArray:
        """The labels of a `Network`."""
        return self._layers.labels.values

    @property
    def crossings(self) -> NDArray:
        """The labels that `sources=None` stands for: all `labels`, without the copies of nodes
        where turns are restricted."""
        return self._layers.labels.of(self._layers.all_nodes) if self._has_turns else self.labels

    @property
    def scale(self) -> float | None:
        """The factor that weights were multiplied by before they were rounded; None if they were
        taken as they are."""
        return self._layers.labelling and self._layers.labelling.scale

    @property
    def rounding(self) -> float | None:
        """The largest difference between an arc's weight and the caller's weight times `scale`, at
        most 0.5; None for a network of files.

        The weight of a path of k arcs therefore differs by at most k times as much.
        """
        return self._layers.labelling and self._layers.labelling.rounding

    @property
    def graph(self) -> files.Graph:
        """The arcs, as `files.read_graph` returns them, between nodes by their numbers: node k is
        `labels[k - 1]`. The arrays are read-only."""
        return self._layers.graph

    @property
    def unit(self) -> str:
        """The unit of limits and answers: the one that was named, or that of the graph,
        `milliseconds` or `metres` if its first comments say so, and otherwise empty."""
        return self._measure.unit

    @property
    def answers_by(self) -> str:
        """Who answers: `library`, the library for C in this process."""
        return "library"

    @property
    def coordinates(self) -> files.Coordinates:
        """The places of nodes by their numbers, as `files.read_coordinates` returns them, in
        read-only arrays. Raises a `ChtabError` if the network has no such file."""
        return self._layers.coordinates

    @property
    def roads(self) -> Roads:
        """The roads between nodes; these are called by their numbers."""
        return self._layers.roads

    # The network in frames.

    def to_geodataframe(
        self, flows: ArrayLike | pandas.Series | None = None, *, widest: float = 6.0,
    ) -> geopandas.GeoDataFrame:
        """Returns the arcs as a GeoDataFrame, with flows if there are some.

        Parameters
        ----------
        flows : array of float, shape (m,), or Series, optional
            A number from 0 on for each row of the arcs, as `flows` returns it. Columns of pandas go
            by their index, as in `changed`.
        widest : float
            The width of the arc with the largest flow.

        Returns
        -------
        geopandas.GeoDataFrame
            A row for each arc between crossings, in their order: source, target, the row of the
            frame or columns that it was made of, its weight in the network's `unit`, the metres of
            its road, and its line in degrees (EPSG:4326), None for a loop without bends. With flows
            also the flow and, in proportion, the width to draw it with.

        Raises
        ------
        DataFault
            There are more or fewer flows than rows, or one is below 0 or none.
        ImportError
            geopandas is not installed.
        ValueError, ChtabError
            The widest is no number above 0; or the network has no places of nodes.
        """
        if flows is None:
            return exporting.edges_of(self._layers, self._measure)
        return exporting.edges_with_flows(self._layers, self._measure, flows, widest)

    def plot(
        self, flows: ArrayLike | pandas.Series, ax: matplotlib.axes.Axes | None = None, *,
        widest: float = 6.0, **style: Any,
    ) -> matplotlib.axes.Axes:
        """Draws flows by matplotlib: each road as wide as its flow, and those without one thin.

        Parameters
        ----------
        flows : array of float, shape (m,), or Series
            As `to_geodataframe` takes them.
        ax : matplotlib.axes.Axes, optional
            The axes to draw in; by default those of a new figure.
        widest : float
            The width of the road with the largest flow, in points.
        **style
            Arguments of the collections of matplotlib, such as `cmap` or `alpha`.

        Returns
        -------
        matplotlib.axes.Axes
            The axes, in longitudes and latitudes, which are degrees.

        Raises
        ------
        DataFault, ValueError, ChtabError, ImportError
            As `to_geodataframe` raises them; or matplotlib is not installed.
        """
        frame = exporting.edges_with_flows(self._layers, self._measure, flows, widest)
        return exporting.drawn_edges(frame, ax, style)

    def nodes_to_geodataframe(
        self, values: ArrayLike | pandas.Series | pandas.DataFrame | None = None,
    ) -> geopandas.GeoDataFrame:
        """Returns the nodes as a GeoDataFrame, with values such as those of `accessibility`.

        Parameters
        ----------
        values : array of float, shape (n,) or (n, c), Series or DataFrame, optional
            A value for each of `crossings`, in one column or several; those of pandas go by their
            index.

        Returns
        -------
        geopandas.GeoDataFrame
            A row for each of `crossings`, by its label: the columns of values, and its place in
            degrees (EPSG:4326).

        Raises
        ------
        DataFault
            There are more or fewer values than nodes, or their index has other labels.
        ImportError, ChtabError
            As `to_geodataframe` raises them.
        """
        return exporting.nodes_of(self._layers, values)

    def components(self) -> NDArray[numpy.int64]:
        """Returns the strongly connected components: nodes between which paths lead both ways.

        Returns
        -------
        array of int64, shape (n,)
            The component of each of `crossings`, whatever the unit of weights: 0 for the largest
            component, 1 for the next one, and so on.

        Raises
        ------
        ImportError
            scipy is not installed.
        """
        return exporting.components_of(self._layers)

    # The network as an object of Python.

    def __reduce__(self) -> tuple[Any, ...]:
        opened = self._opened
        return reopened, (opened, (self._of_arcs or self._layers).stamps)

    def __repr__(self) -> str:
        setting = self._engine.setting
        saved = "" if setting.saved is None else f" by {setting.saved}"
        files_of = setting.graph or f"of {len(self.graph.tails):,} arcs"
        closed = ", closed" * self._engine.is_closed
        return f"<chtab.Network {files_of}{saved}: {self.nodes:,} nodes{closed}>"

    def _repr_html_(self) -> str:
        row = {"nodes": f"{self.nodes:,}", "unit": self.unit or "not known"}
        return table_text(repr(self), [row])

    def close(self) -> None:
        """Closes the network, and removes its temporary folder if it has one. A call that is under
        way in another thread ends with the part that it asks the library for."""
        self._engine.close()
        if self._of_arcs is not None:
            self._of_arcs.close()

    def __enter__(self) -> Self:
        return self

    def __exit__(self, *_: object) -> None:
        self.close()


# The networks that this process unpickled, one for each opening: a pool's tasks share it.
REOPENED: dict[opening.Opening, Network] = {}
MOST_REOPENED = 4


def reopened(opened: opening.Opening, stamps: Stamps) -> Network:
    """The network of an opening, in a process that unpickles it. It is loaded with the first
    question. Raises a `ProgramFault` if one of its files was written anew since it was pickled."""
    try:
        stamps.see_that_same(is_elsewhere=True)
    except FileNotFoundError as fault:
        text = "The network that was pickled is closed, or its file was removed"
        raise FileNotFoundError(fault.errno, text, fault.filename) from None
    network = REOPENED.pop(opened, None)
    if network is None or network._engine.is_closed:
        network = Network(opened)
    REOPENED[opened] = network
    for oldest in list(REOPENED)[:-MOST_REOPENED]:
        REOPENED.pop(oldest, None)
    return network
