"""Answers on nearness: the targets near each source in compressed form, or in columns."""
from __future__ import annotations

import operator
from typing import TYPE_CHECKING, Any, NamedTuple

import numpy
from numpy.typing import NDArray

from chtab._engine.walks import NO_WALK
from chtab._files import geojson
from chtab._files.columns import objects_of
from chtab._files.showing import SHOWN, OnMap, table_of

if TYPE_CHECKING:
    import pandas
    import scipy.sparse
    from chtab._near.rows import Rows
    from chtab._roads.layers import Layers


class Near:
    """The targets near each source, in compressed form.

    The targets of source k are the items `offsets[k]` to `offsets[k + 1] - 1` of the two other
    columns, the nearest first. Equally near ones are in the order of the list of targets.

    Attributes
    ----------
    offsets : array of int64, shape (n + 1,)
        The place where the targets of each source start.
    places : array of int64, shape (p,)
        The positions of the targets in the list `targets`, counted from 0.
    weights : array of int64 or float64, shape (p,)
        Their weights, in the network's `unit`.
    sums : array of uint64, shape (p,), or None
        The sums of the values along their routes, if values were given.
    sources, targets : array of labels, shape (n,) and (l,)
        The nodes of the question.

    Examples
    --------
    >>> near = network.near([1, 3], [2, 3], count=1)           # doctest: +SKIP
    >>> near.targets[near.places], near.weights                # doctest: +SKIP
    (array([2, 3]), array([4, 0]))
    """

    def __init__(self, rows: Rows, sources: NDArray, targets: NDArray, weights: NDArray) -> None:
        self.offsets, self.places, self.sums = rows.offsets, rows.places, rows.sums
        self.sources, self.targets, self.weights = sources, targets, weights

    def __len__(self) -> int:
        return len(self.sources)

    def __getitem__(self, source: int) -> tuple[NDArray[numpy.int64], NDArray]:
        """The positions and the weights of the targets of the source at a position, counted from
        0."""
        source = range(len(self))[operator.index(source)]
        some = slice(self.offsets[source], self.offsets[source + 1])
        return self.places[some], self.weights[some]

    def __repr__(self) -> str:
        return f"<{len(self.places):,} targets near {len(self):,} sources>"

    def _repr_html_(self) -> str:
        sources, targets = self.sources[self.owners()[:SHOWN]], self.targets[self.places[:SHOWN]]
        return table_of(repr(self), source=sources, target=targets, weight=self.weights)

    def owners(self) -> NDArray[numpy.int64]:
        """Returns the place of the source of each target.

        Returns
        -------
        array of int64, shape (p,)
            Places in `sources`, from 0 on.
        """
        return numpy.repeat(numpy.arange(len(self)), numpy.diff(self.offsets))

    def to_frame(self) -> pandas.DataFrame:
        """Returns the same as a frame.

        Returns
        -------
        pandas.DataFrame
            A row for each target of a source, with the columns source, target, place and weight,
            and the column sum if values were given.

        Raises
        ------
        ImportError
            pandas is not there.
        """
        import pandas

        columns = {"source": self.sources[self.owners()], "target": self.targets[self.places]}
        columns |= {"place": self.places, "weight": self.weights}
        return pandas.DataFrame(columns if self.sums is None else columns | {"sum": self.sums})

    def to_sparse(self) -> scipy.sparse.csr_matrix:
        """Returns the same as a sparse matrix.

        Returns
        -------
        scipy.sparse.csr_matrix of int64 or float64, shape (n, l)
            A row for each source and a column for each target. A weight 0 is stored too; where
            nothing is stored, the target is not near.

        Raises
        ------
        ImportError
            scipy is not there.
        """
        from scipy.sparse import csr_matrix

        shape = len(self.sources), len(self.targets)
        matrix = csr_matrix((self.weights.copy(), self.places.copy(), self.offsets), shape)
        matrix.sort_indices()
        return matrix


class Columns(NamedTuple):
    """The columns of `Nearest`."""

    places: NDArray[numpy.int64]
    weights: NDArray
    mask: NDArray[numpy.bool_]


class Nearest(OnMap, Columns):
    """The nearest targets of each source, in columns from the nearest on: arrays of the shape (n,
    count).

    `places` are places in the list of targets, int64, and `weights` the weights of the paths, int64
    or float64 in the network's `unit`. Where there is no further target, a place is -1, a weight is
    -1 or NaN, and `mask` is True, as in masked arrays of numpy.
    """

    shown_by = "weight"
    # The question, and the files of the network.
    sources: NDArray
    targets: NDArray
    layers: Layers
    # The places of sources in degrees (n, 2), if these are spots, and else None.
    at: NDArray | None

    @classmethod
    def of(
        cls, places: NDArray[numpy.int64], weights: NDArray, sources: NDArray, targets: NDArray,
        layers: Layers, at: NDArray | None = None,
    ) -> Nearest:
        """The columns, with the labels of the question."""
        found = cls(places, weights, places == NO_WALK)
        found.sources, found.targets, found.layers, found.at = sources, targets, layers, at
        return found

    def __repr__(self) -> str:
        count, targets = self.places.shape[1], len(self.targets)
        return f"<the nearest {count:,} of {targets:,} targets of {len(self.sources):,} sources>"

    def labels(self, place: int) -> NDArray:
        """Returns the labels of the targets at a rank, None where there is no target.

        Parameters
        ----------
        place : int
            The rank, from 0 on.

        Returns
        -------
        array of object, shape (n,)
        """
        found: NDArray = numpy.full(len(self.sources), None, numpy.object_)
        is_there = ~self.mask[:, place]
        found[is_there] = objects_of(self.targets[self.places[is_there, place]].tolist())
        return found

    def to_frame(self) -> pandas.DataFrame:
        """Returns the same as a frame.

        Returns
        -------
        pandas.DataFrame
            A row for each source and rank: source, rank (from 1 on), target, place and weight, the
            last three NA where there is no further target.

        Raises
        ------
        ImportError
            pandas is not there.
        """
        import pandas

        owners, ranks = (column.reshape(-1) for column in numpy.indices(self.places.shape))
        places, weights, mask = (column.reshape(-1) for column in self)
        targets = numpy.full(len(places), None, object)
        targets[~mask] = self.targets[places[~mask]]
        columns = {"source": self.sources[owners], "rank": ranks + 1, "target": targets}
        columns |= {"place": masked(places, mask), "weight": masked(weights, mask)}
        frame = pandas.DataFrame(columns)
        return frame.astype({"target": "Int64"}) if self.targets.dtype == numpy.int64 else frame

    def to_geojson(self) -> dict:
        """Returns the sources as points on a map.

        Returns
        -------
        dict
            A collection of GeoJSON with a point for each source: `source`, and `target` and
            `weight` of its nearest target, null where there is none.

        Raises
        ------
        ChtabError
            The network has no places of nodes.
        """
        return geojson.collection(self._shown(len(self.sources)))

    def _shown(self, count: int) -> list:
        sources = self.sources[:count].tolist()
        if self.at is not None:
            at = [(x, y) for x, y in self.at[:count].tolist()]
        else:
            nodes = self.layers.labels.nodes_of("sources", sources).tolist()
            at = [self.layers.coordinates.of(node) for node in nodes]
        weights = self.weights[:, 0].astype(object)
        weights[self.mask[:, 0]] = None
        rows = zip(sources, self.labels(0), weights)
        properties = [dict(zip(("source", "target", "weight"), row)) for row in rows]
        return [geojson.feature(place, own, "Point") for place, own in zip(at, properties)]

    def _repr_html_(self) -> str:
        sources, weights = self.sources[:SHOWN].tolist(), self.weights[:, 0].tolist()
        return table_of(repr(self), source=sources, target=self.labels(0), weight=weights)


def masked(values: NDArray, mask: NDArray[numpy.bool_]) -> Any:
    """A column of pandas, NA where the mask is True; whole numbers become `Int64`."""
    import pandas

    if values.dtype == numpy.int64:
        return pandas.arrays.IntegerArray(values.copy(), mask.copy())
    return numpy.where(mask, numpy.nan, values)
