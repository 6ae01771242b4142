"""Trips between spots on roads, and what is reached from a spot. `legs.py` has the ways from spot
to spot."""
from __future__ import annotations

import math
from collections.abc import Sequence
from typing import TYPE_CHECKING, Any

import numpy

from chtab._engine.walks import NO_WALK
from chtab._files import measures
from chtab._near import blocks
from chtab._near.question import NearQuestion
from chtab._roads.legs import FAR, best_ways, legs_between, table_ways
from chtab._roads.routes import Trip
from chtab._roads.snapping import Spots

if TYPE_CHECKING:
    from chtab._engine.in_process import InProcess
    from chtab._files.measures import Measure
    from chtab._roads.layers import Layers
    from chtab._roads.snapping import Roads
    from chtab.typing import Integers

# How many routes of trips are asked for together.
BATCH = 256


class Trips:
    """Trips on one network: `engine` answers between nodes, `layers` has its roads and labels."""

    def __init__(self, engine: InProcess, layers: Layers) -> None:
        self.engine, self.layers = engine, layers

    @property
    def roads(self) -> Roads:
        return self.layers.roads

    def pairs(self, starts: Spots, ends: Spots) -> tuple[Spots, Spots]:
        """As many starts as ends, on the roads of this network."""
        found = self.roads.own("starts", starts), self.roads.own("ends", ends)
        if len(starts) != len(ends):
            text = f"there are {len(starts):,} starts and {len(ends):,} ends, not one for each"
            raise ValueError(f"{text}; `trip_table` has all pairs")
        return found

    def one(self, name: str, spot: Spots) -> Spots:
        """A single spot on the roads of this network, and nothing else."""
        if not isinstance(spot, Spots):
            text = "reach starts at a spot, as `snap` gives one, not at"
            raise TypeError(f"{text} {type(spot).__name__}")
        if len(spot) != 1:
            text = f"reach starts at one spot, not at {len(spot)}"
            raise ValueError(f"{text}: take one of them, as spots[:1]")
        return self.roads.own(name, spot)

    def weights(self, starts: Spots, ends: Spots) -> Integers:
        """The answer of `Network.trips`."""
        best, _ = best_ways(self, starts, ends)
        return numpy.where(best < FAR, best, NO_WALK)

    def table(self, starts: Spots, ends: Spots, within: int | None = None) -> Integers:
        """The answer of `Network.trip_table`, with a limit in the unit of the graph."""
        best, _ = table_ways(self, starts, ends, within)
        return numpy.where(best < FAR, best, NO_WALK)

    def routes(self, starts: Spots, ends: Spots) -> list[Trip]:
        """The answer of `Network.trip_routes`, with weights in the unit of the graph."""
        found: list[Trip] = []
        for first in range(0, len(starts), BATCH):
            some = slice(first, first + BATCH)
            found += self.some_routes(starts[some], ends[some])
        return found

    def some_routes(self, starts: Spots, ends: Spots) -> list[Trip]:
        """The same for trips that are asked for together."""
        found = legs_between(self, starts, ends)
        there = numpy.flatnonzero(found.weights >= 0).tolist()
        traces, listed = found.traces(there), self.layers.labels.listed
        places, firsts = list(map(tuple, traces.places.tolist())), traces.firsts.tolist()
        trips = [Trip(None, None, None, []) for _ in range(len(found))]
        for leg, first, last in zip(there, firsts, firsts[1:]):
            weight, metres = int(found.weights[leg]), float(found.metres[leg])
            trips[leg] = Trip(weight, metres, places[first:last], listed(found.nodes(leg)))
        return trips

    def reach(self, spot: Spots, within: int | None = None) -> Integers:
        """The answer of `Network.reach`, with a limit in the unit of the graph."""
        outs = spot.out_nodes[0] > 0
        nodes, added = spot.out_nodes[0][outs], spot.out_weights[0][outs]
        limit = FAR - 1 if within is None else within
        found = self.from_nodes(nodes, added, within)
        return numpy.where(found <= limit, found, NO_WALK)

    def from_nodes(self, nodes: Integers, added: Integers, within: int | None) -> Integers:
        """The least weights at which nodes are reached over some; `FAR` for unreached ones."""
        found = numpy.full(len(self.roads.places), FAR)
        own = None if within is None else within - int(added.min(initial=0))
        if not len(nodes) or own is not None and own < 0:
            return found
        question = NearQuestion(None, nodes, within=own, is_from=True)
        for start, rows in blocks.rows_by(self.engine, question):
            owners = numpy.flatnonzero(rows.counts())
            if len(owners):
                weights = rows.weights + added[rows.places]
                found[start + owners] = numpy.minimum.reduceat(weights, rows.offsets[owners])
        return found

    def isochrones(self, spot: Spots, limits: Sequence[int]) -> list[Any]:
        """The polygons of `Network.isochrones` for limits of the graph in descending order."""
        from chtab._roads import reach

        return reach.polygons(self.roads, spot, self.reach(spot, limits[0]), limits)


def limits_in(measure: Measure, limits: Any) -> list[tuple[int, float]]:
    """Limits above 0 in the unit of the graph and in that of the caller, the largest first."""
    given = measures.listed(limits)
    wholes = [measure.limit("limits", limit) or 0 for limit in given]
    if not given or min(wholes) <= 0:
        raise ValueError("limits are one or several numbers above 0, and none is infinite")
    numbers = [measure.number("limits", limit) for limit in given]
    shown = [int(each) if each == math.floor(each) else float(each) for each in numbers]
    return sorted(zip(wholes, shown), reverse=True)
