"""A network as frames of geopandas, and the parts that it falls into."""
from __future__ import annotations

import itertools
import math
import numbers
import warnings
from collections.abc import Mapping
from typing import TYPE_CHECKING, Any

import numpy

from chtab.errors import DataFault
from chtab._files import geojson, row_index
from chtab._files.columns import first_of
from chtab._files.showing import drawn, with_geometry
from chtab._roads.pairs import values_of_rows
from chtab._roads.snapping import NONE

if TYPE_CHECKING:
    import geopandas
    import matplotlib.axes
    from chtab._files.measures import Measure
    from chtab._roads.layers import Layers
    from chtab.typing import Integers

# A network of lines falls apart if its largest part has less than this share of the nodes.
WHOLE = 0.9


def edges_of(layers: Layers, measure: Measure) -> geopandas.GeoDataFrame:
    """A row for each arc between crossings, as `Network.to_geodataframe` explains them."""
    import pandas
    from shapely.geometry import LineString

    roads, labels = layers.roads, layers.labels
    arcs = numpy.flatnonzero(~layers.are_inner)
    own, is_back = roads.road_of[arcs], roads.is_back[arcs]
    metres = numpy.append(roads.lines.metres, 0.0)[own]
    ends = [layers.crossings[column[arcs]] for column in (roads.tails, roads.heads)]
    columns = {
        "source": labels.of(ends[0]), "target": labels.of(ends[1]), "row": layers.rows_of(arcs),
        "weight": measure.in_unit(roads.weights[arcs]), "metres": metres}
    lines = [
        None if road == NONE else LineString(roads.lines.of(road)[::-1 if back else 1])
        for road, back in zip(own.tolist(), is_back.tolist())]
    return with_geometry(pandas.DataFrame(columns), lines)


def edges_with_flows(
    layers: Layers, measure: Measure, flows: Any, widest: float,
) -> geopandas.GeoDataFrame:
    """The same rows with flows, and widths in proportion up to the widest."""
    is_number = isinstance(widest, numbers.Real) and not isinstance(widest, bool)
    if not is_number or not 0 < float(widest) < math.inf:
        raise ValueError(f"widest is a number above 0, not {widest!r}")
    frame = edges_of(layers, measure)
    own = values_of_rows(layers, flows, "flows")[frame["row"].to_numpy(numpy.int64)].astype(float)
    below = first_of(own < 0)
    if below is not None:
        raise DataFault(f"flows: {own[below]} is below 0", "flows")
    most = own.max(initial=0.0)
    widths = {"flow": own, "width": own * (float(widest) / most) if most else own}
    return frame.assign(**widths)[[*frame.columns.drop("geometry"), *widths, "geometry"]]


def drawn_edges(
    frame: geopandas.GeoDataFrame, ax: Any, style: Mapping[str, Any],
) -> matplotlib.axes.Axes:
    """Draws rows with flows as lines of their widths, and all roads thin below."""
    has_line = frame[frame.geometry.notna()]
    rows = zip(has_line.geometry, has_line["flow"])
    features = [geojson.feature(list(line.coords), {"flow": flow}) for line, flow in rows]
    ax = drawn(features, "flow", ax, {"linewidths": 0.4, "alpha": 0.5})
    busy = has_line["flow"].to_numpy() > 0
    some, widths = list(itertools.compress(features, busy)), has_line["width"].to_numpy()[busy]
    return drawn(some, "flow", ax, {"linewidths": widths, **style}) if some else ax


def nodes_of(layers: Layers, values: Any) -> geopandas.GeoDataFrame:
    """A row for each crossing by its label: columns of values, and its place in degrees."""
    import pandas
    from shapely.geometry import Point

    nodes, coordinates = layers.all_nodes, layers.coordinates
    index = layers.labels.index_of("node", layers.labels.of(nodes))
    found = pandas.DataFrame(values)
    if isinstance(values, pandas.Series):
        found = values.to_frame("value" if values.name is None else values.name)
    if row_index.index_of(values) is not None:
        _, found = row_index.matched(("nodes", "values"), (pandas.Series(0, index), found))
    elif values is None:
        found = pandas.DataFrame(index=index)
    elif len(found) != len(index):
        text = f"values has {len(found):,} rows, and there are {len(index):,} nodes"
        raise DataFault(f"{text}: those of `crossings`", "values")
    elif list(found.columns) == [0]:
        found = found.set_axis(["value"], axis=1)
    frame = found.set_axis(index, axis=0)
    places = zip(*(numpy.asarray(column)[nodes - 1].tolist() for column in coordinates[:2]))
    return with_geometry(frame, [Point(place) for place in places])


def components_of(layers: Layers) -> Integers:
    """The strongly connected component of each crossing, 0 for the largest, 1 for the next, .."""
    nodes = layers.all_nodes
    ends = (layers.crossings[numpy.asarray(column)] for column in layers.graph[1:3])
    tails, heads = (nodes.searchsorted(column) for column in ends)
    return by_size(len(nodes), tails, heads, "strong")


def by_size(count: int, tails: Integers, heads: Integers, kind: str) -> Integers:
    """The component of each node, numbered by size, and by their least nodes."""
    from scipy.sparse import coo_matrix
    from scipy.sparse.csgraph import connected_components

    marks = numpy.ones(len(tails), bool), (tails, heads)
    _, found = connected_components(coo_matrix(marks, (count, count)).tocsr(), True, kind)
    _, firsts, numbers, sizes = numpy.unique(found, True, True, True)
    ranks = numpy.empty(len(sizes), numpy.int64)
    ranks[numpy.lexsort([firsts, -sizes])] = numpy.arange(len(sizes))
    return ranks[numbers]


def warn_of_parts(count: int, tails: Integers, heads: Integers) -> None:
    """Warns if lines that meet at their ends make a network that falls apart, if scipy is there."""
    try:
        found = by_size(count, tails - 1, heads - 1, "weak")
    except ImportError:
        return
    share = float((found == 0).mean()) if count else 1.0
    if share < WHOLE:
        parts = f"{int(found.max()) + 1:,} parts between which no line leads"
        text = f"the lines make {parts}, of which the largest has {share:.0%} of the nodes: lines"
        text += " meet at their ends alone, so cut them where they cross; `components()` says which"
        text += " node is in which part"
        warnings.warn(text, UserWarning, stacklevel=5)
