"""Questions on nearness: callers' sources, targets, values and limits as nodes and numbers."""
from __future__ import annotations

from collections.abc import Callable, Sequence
from dataclasses import dataclass
from typing import TYPE_CHECKING, Any, NamedTuple

import numpy

from chtab._files import measures
from chtab._near import blocks, sums
from chtab._near.question import NearQuestion, Question, SpotQuestion
from chtab._roads.pairs import nodes_in, whole_values
from chtab._roads.snapping import Spots

if TYPE_CHECKING:
    from chtab._engine.in_process import InProcess
    from chtab._files.measures import Measure
    from chtab._roads.layers import Layers
    from chtab._roads.trips import Trips
    from chtab.typing import Floats, Integers, LabelArray

DIRECTIONS = "to", "from"


@dataclass(frozen=True)
class Asked:
    """The sources, None for all nodes, and the targets of a question."""

    trips: Trips
    sources: Integers | Spots | None
    targets: Integers | Spots
    is_from: bool

    @property
    def layers(self) -> Layers:
        """The files of the network."""
        return self.trips.layers

    def near(self, count: int | None, within: int | None, values: Any = None) -> Question:
        """The question to the library, where trips end at other nodes with these."""
        most = max(1, len(self.targets))
        count = None if count is None else min(blocks.count_in("count", count), most)
        sources, targets, layers = self.sources, self.targets, self.layers
        if isinstance(sources, Spots) or isinstance(targets, Spots):
            if values is not None:
                raise ValueError("values are summed along routes of nodes, and not of spots")
            nodes = layers.all_nodes if sources is None else sources
            ends = self.spots_of(nodes, 0), self.spots_of(targets, 1)
            return SpotQuestion(*ends, count, within, self.is_from, trips=self.trips)
        if layers.has_turns and self.is_from:
            sources = None if sources is None else layers.ends_of(sources)
        elif layers.has_turns:
            targets = layers.ends_of(targets)
        values = None if values is None else whole_values(layers, values)
        return NearQuestion(sources, targets, count, within, self.is_from, values)

    def spots_of(self, nodes: Integers | Spots, side: int) -> Spots:
        """Spots at nodes, or spots as they are. Nodes of both sides are on no road together."""
        if isinstance(nodes, Spots):
            return nodes
        return self.layers.roads.at_nodes(nodes, self.layers.ends_of(nodes), side)

    def source_labels(self) -> LabelArray:
        """The labels of sources, or the places of spots in their list."""
        if self.sources is None and not self.layers.has_turns:
            return self.layers.labels.values
        return self.labels_of(self.layers.all_nodes if self.sources is None else self.sources)

    def labels_of(self, nodes: Integers | Spots) -> LabelArray:
        """The labels of nodes, or the places of spots in their list."""
        if isinstance(nodes, Spots):
            return numpy.arange(len(nodes))
        return self.layers.labels.of(nodes)

    def labels(self) -> tuple[LabelArray, LabelArray]:
        """The labels of sources and targets."""
        return self.source_labels(), self.labels_of(self.targets)


class Values(NamedTuple):
    """The question of an aggregate: nodes, values (l, c), names of columns or None, if several."""

    asked: Asked
    values: Floats
    names: list[Any] | None
    are_several: bool


class Limits(NamedTuple):
    """Limits of the graph, of the caller, as they were given; and whether that was a list."""

    whole: list[int]
    numbers: list[Any]
    given: list[Any]
    are_listed: bool
    measure: Measure


def asked(trips: Trips, sources: Any, targets: Any, direction: str) -> Asked:
    """The nodes or spots of a question. For no sources these are all nodes that are no copies."""
    return Asked(
        trips, sources_in(trips, sources), ends_in(trips, "targets", targets), is_from(direction))


def sources_in(trips: Trips, sources: Any) -> Integers | Spots | None:
    """The nodes of labels, or spots; for None all nodes, None for these where none is a copy."""
    if sources is None:
        return trips.layers.all_nodes if trips.layers.has_turns else None
    return ends_in(trips, "sources", sources)


def ends_in(trips: Trips, name: str, given: Any) -> Integers | Spots:
    """The nodes of labels, or spots of the network."""
    if isinstance(given, Spots):
        return trips.roads.own(name, given)
    return nodes_in(trips.layers, name, given)


def is_from(direction: str) -> bool:
    """Whether weights are those from the targets to the sources."""
    if direction not in DIRECTIONS:
        raise ValueError(f"a direction is 'to' or 'from', not {direction!r}")
    return direction == "from"


def limits_in(measure: Measure, within: Any) -> Limits:
    """One limit or a list of limits. No weight is above the largest, which stands for infinity."""
    listed = measures.listed(within)
    if any(each is None for each in listed):
        raise TypeError("within is a number, or a list of numbers, not None")
    found = [measure.limit("within", each) for each in listed]
    whole = [measures.MOST if limit is None else limit for limit in found]
    numbers = [measure.number("within", each) for each in listed]
    return Limits(whole, numbers, listed, numpy.ndim(within) == 1, measure)


def values_asked(
    trips: Trips, values: Any, sources: Any, targets: Any, aggregate: str, direction: str,
) -> Values:
    """The question of an aggregate."""
    if aggregate not in sums.KINDS:
        raise ValueError(f"aggregate is one of {', '.join(sums.KINDS)}, not {aggregate!r}")

    def nodes_of(name: str, given: Any) -> Integers:
        found = ends_in(trips, name, given)
        return numpy.arange(len(found)) if isinstance(found, Spots) else found

    nodes, found, names = sums.values_in(
        values, targets, nodes_of, trips.layers.all_nodes, aggregate != "sum")
    ends = ends_in(trips, "targets", targets) if isinstance(targets, Spots) else nodes
    own = Asked(trips, sources_in(trips, sources), ends, is_from(direction))
    return Values(own, found, names, numpy.ndim(values) == 2)


def aggregated(
    engine: InProcess, of: Values, limits: Limits, aggregate: str, decay: str | Callable | None,
    workers: Any, progress: Any,
) -> Any:
    """The aggregates in the form that the caller gave values and limits in."""
    share = sums.share_by(decay, aggregate, limits.whole)
    question = of.asked.near(None, max(limits.whole, default=0))
    asked_for = sums.Asked(
        aggregate, of.values, limits.whole, limits.numbers, share, limits.measure)
    found = sums.aggregates(engine, question, asked_for, workers, progress)
    if of.names is not None:
        return frame_of(found, of.asked, of.names, limits)
    found = found if of.are_several else found[:, 0]
    return found if limits.are_listed else found[..., 0]


def frame_of(found: Floats, own: Asked, names: Sequence[Any], limits: Limits) -> Any:
    """Aggregates (n, c, m) as a frame with the sources as index."""
    import pandas

    index = own.layers.labels.index_of("source", own.source_labels())
    columns: Any = names
    if limits.are_listed:
        columns = pandas.MultiIndex.from_product([names, limits.given], names=[None, "within"])
    return pandas.DataFrame(found.reshape(len(found), -1), index, columns)
