"""Flows on roads: the sum of the demands of the pairs of nodes whose routes take each road
(*all-or-nothing assignment*)."""
from __future__ import annotations

import math
import numbers
from typing import TYPE_CHECKING, Any, NamedTuple

import numpy

from chtab.errors import DataFault
from chtab._files import columns
from chtab._files.arc_columns import scale_in
from chtab._files.columns import refuse
from chtab._files.measures import EXACT
from chtab._roads.arc_names import ArcNames
from chtab._roads.pairs import nodes_in, pairs_in, with_ends

if TYPE_CHECKING:
    import pandas
    from numpy.typing import NDArray
    from chtab._engine.in_process import InProcess
    from chtab._engine.progress import Asked as Progress
    from chtab._roads.layers import Layers
    from chtab.typing import Integers

    Unsigned = NDArray[numpy.uint64]

# The sum of all demands is below this, so that no flow is more than int64 holds.
LIMIT = 2**63
# The word of `Series.attrs` for the number of pairs without a route.
MISSED = "pairs without a route"


class PairTrips(NamedTuple):
    """Pairs of nodes, and the demand of each."""

    pairs: Integers
    demands: Demands

    def flows(
        self, engine: InProcess, layers: Layers, progress: Progress = None,
    ) -> tuple[int, Unsigned]:
        """How many pairs have no route, and the flow on each arc of the graph."""
        pairs, lines = with_ends(layers, self.pairs), layers.counts[1]
        return engine.flows(pairs, self.demands.whole, lines, progress)


class TableTrips(NamedTuple):
    """The nodes of origins and destinations, and the demand of each origin to each destination."""

    origins: Integers
    destinations: Integers
    demands: Demands

    def flows(
        self, engine: InProcess, layers: Layers, progress: Progress = None,
    ) -> tuple[int, Unsigned]:
        """How many pairs have no route, and the flow on each arc of the graph."""
        ends, lines = layers.ends_of(self.destinations), layers.counts[1]
        return engine.flows_table(self.origins, ends, self.demands.whole, lines, progress)


def trips_in(
    layers: Layers, origins: Any, destinations: Any, demand: Any, scale: float | None,
) -> PairTrips | TableTrips:
    """The trips of a table if the demand is one, and otherwise those of pairs."""
    if getattr(demand, "ndim", 1) == 2:
        return table_in(layers, demand, origins, destinations, scale)
    if origins is None or destinations is None:
        text = "origins and destinations are needed, or a frame of demands whose index and columns"
        raise ValueError(f"{text} have them")
    pairs = pairs_in(layers, origins, destinations)
    return PairTrips(pairs, demands_of(demand, (len(pairs),), scale))


def table_in(
    layers: Layers, demand: Any, origins: Any, destinations: Any, scale: float | None,
) -> TableTrips:
    """The trips of a frame of demands by its index and columns, or of an array with both beside."""
    if hasattr(demand, "iloc"):
        if demand.ndim != 2 or origins is not None or destinations is not None:
            text = "a frame of demands has origins in its index and destinations in its columns"
            raise ValueError(f"{text}, and these come with no other demand of pandas")
        origins, destinations = demand.index, demand.columns
    elif origins is None or destinations is None:
        raise ValueError("an array of demands needs origins and destinations beside it")
    rows = nodes_in(layers, "origins", origins)
    columns = nodes_in(layers, "destinations", destinations)
    return TableTrips(rows, columns, demands_of(demand, (len(rows), len(columns)), scale))


def flows_of_rows(
    engine: InProcess, layers: Layers, trips: PairTrips | TableTrips, progress: Progress,
) -> pandas.Series:
    """The flow on each row of the arcs, with what `attrs` says of pairs without a route."""
    missed, flows = trips.flows(engine, layers, progress)
    by_row = numpy.zeros(layers.row_count, numpy.uint64)
    numpy.add.at(by_row, layers.rows, flows)
    return series_of(layers, trips.demands.in_unit(by_row), missed)


class Demands(NamedTuple):
    """Demands in whole units, `scale` of which make one of the caller's, if it isn't None."""

    whole: Unsigned
    scale: float | None

    def in_unit(self, flows: Unsigned) -> NDArray[Any]:
        """Flows in the caller's unit."""
        return flows.astype(numpy.int64) if self.scale is None else flows / self.scale


def demands_of(demand: Any, shape: tuple[int, ...], scale: float | None) -> Demands:
    """The demands of so many pairs, or of the cells of a table: a number for all, or for each."""
    scale, count = scale_in(scale), math.prod(shape)
    is_one = isinstance(demand, numbers.Number | numpy.number)
    given = [demand] * count if is_one else in_one_column(demand, shape)
    try:
        whole, is_float = whole_demands(given, count, scale)
    except DataFault as fault:
        if len(shape) == 1 or fault.row is None:
            raise
        row, column = divmod(fault.row, shape[1])
        text = str(fault).replace(f"[{fault.row}]", f"[{row}, {column}]", 1)
        raise DataFault(text, fault.column, row) from None
    # The halves of numbers of at most 2^53 add up exactly.
    high, low = whole >> numpy.uint64(32), whole & numpy.uint64(2**32 - 1)
    if (int(high.sum()) << 32) + int(low.sum()) >= LIMIT:
        text = "the sum of all demands is 2^63 or more of the units that are counted"
        raise DataFault(text, "demand")
    return Demands(whole.reshape(shape), 1.0 if scale is None and is_float else scale)


def in_one_column(demand: Any, shape: tuple[int, ...]) -> Any:
    """The demands of a table row after row, and those of pairs as they are."""
    if len(shape) == 1:
        return demand
    if hasattr(demand, "iloc"):
        # Numbers of several types become no others.
        demand = (demand if len(set(demand.dtypes)) == 1 else demand.astype(object)).to_numpy()
    elif not hasattr(demand, "__array__"):
        demand = numpy.array(demand, object)
    if demand.shape != shape:
        text = f"{shape[0]:,} origins and {shape[1]:,} destinations"
        raise ValueError(f"demand has the shape {demand.shape}, and there are {text}")
    return demand.reshape(-1)


def whole_demands(demand: Any, count: int, scale: float | None) -> tuple[Unsigned, bool]:
    """The demands in whole units, and whether they are floats."""
    given = columns.numbers_in("demand", demand)
    if given.ndim != 1 or len(given) != count:
        raise ValueError(f"demand has the shape {given.shape}, and there are {count:,} pairs")
    refuse("demand", ~((given >= 0) & (given < numpy.inf)), lambda row: (
        f"{given[row]} is {'below 0' if -numpy.inf < given[row] < 0 else 'no demand'}"))
    scaled = given.astype(numpy.longdouble) * numpy.longdouble(1 if scale is None else scale)
    rounded = numpy.rint(scaled)
    if scale is None:
        text = "is not a whole number; `scale` says how many parts of one are counted"
        refuse("demand", rounded != scaled, lambda row: f"{given[row]} {text}")
    refuse("demand", rounded > EXACT, lambda row: (
        f"{given[row]} is too large: it is more than 2^53 of the units that are counted"))
    return rounded.astype(numpy.uint64), given.dtype.kind == "f"


def series_of(layers: Layers, by_row: NDArray[Any], missed: int) -> pandas.Series:
    """Values of rows, called as the caller's rows are."""
    import pandas

    flows = pandas.Series(by_row, name="flow")
    labelling = layers.labelling
    if labelling is not None and labelling.keys is not None:
        names = ArcNames(layers)
        rows, firsts = numpy.unique(layers.rows, return_index=True)
        own = layers.labels
        ends = [own.listed(column[firsts].tolist()) for column in (names.tails, names.heads)]
        keys = [labelling.keys[row] for row in rows.tolist()]
        index = pandas.MultiIndex.from_arrays([*ends, keys], names=["source", "target", "key"])
        flows = flows.iloc[rows].set_axis(index)
    else:
        flows.index = index_of_rows(layers)
    flows.attrs[MISSED] = missed
    return flows


def index_of_rows(layers: Layers) -> pandas.Index:
    """The labels of rows in the caller's frame, None for added ones; or the numbers of rows."""
    import pandas

    labels, count = layers.row_labels.labels, layers.row_count
    if labels is None or not len(labels):
        return pandas.RangeIndex(count)
    names = labels.tolist()
    if len(names) == count:
        return pandas.Index(names)
    every = [*names, *[None] * (count - len(names))]
    return pandas.Index(every, dtype=object, tupleize_cols=False)
