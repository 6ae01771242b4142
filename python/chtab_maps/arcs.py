"""Roads as arcs between nodes.

A node is where roads meet or end, or each bend of a road. An arc is a road between two nodes, in
one direction. At a closed barrier each road ends in a node of its own, and so does each road at the
border of the map.
"""
from __future__ import annotations

import collections
import itertools
import math
from collections.abc import Sequence
from math import asin, cos, radians, sin, sqrt
from typing import TYPE_CHECKING, Any

from chtab._roads.sphere import RADIUS

if TYPE_CHECKING:
    from chtab._engine.progress import Progress
    from chtab_maps.ways import Road, Survey
    from chtab.typing import Point

HALF_DEGREE, DEGREE = radians(0.5), 2 * radians(0.5)
QUARTER_TURN = math.pi / 2
DIAMETER = 2 * RADIUS
# The piece and the way of an arc that is no road.
NO_PIECE, NO_WAY = -1, 0


class Network:
    """Nodes and arcs, both numbered from 0 in the order in which they were added.

    Node k is the map's node `names[k]`, at `places[k]`; several nodes may be the same one of the
    map. Arc k leads from `tails[k]` to `heads[k]`, has the weight `weights[k]`, and is one
    direction of piece `pieces[k]`, which is part of way `ways[pieces[k]]`. `bends` has the places
    between the ends of each arc, and `streets` the number of its street or None; both are None
    unless they are wanted. Where turns are restricted, `ends` has the node where trips to a node
    end, {end: node}, and `copies` the other copies of a node, {copy: node}. `ferries` are the
    pieces of ferries, and `lit` the arcs that lead to a traffic light.
    """

    def __init__(self, with_bends: bool = False, with_names: bool = False) -> None:
        self.names: list[int] = []
        self.places: list[Point] = []
        self.tails: list[int] = []
        self.heads: list[int] = []
        self.weights: list[int] = []
        self.pieces: list[int] = []
        self.ways: list[int] = []
        self.bends: list[list[Point] | None] | None = [] if with_bends else None
        self.streets: list[int | None] | None = [] if with_names else None
        self.ends: dict[int, int] = {}
        self.copies: dict[int, int] = {}
        self.ferries: set[int] = set()
        self.lit: set[int] = set()

    def add_node(self, name: int, place: Point) -> int:
        self.names.append(name)
        self.places.append(place)
        return len(self.names) - 1

    def add_copy(self, node: int) -> int:
        """Adds another node for the same node of the map."""
        return self.add_node(self.names[node], self.places[node])

    def add_arc(
        self, tail: int, head: int, weight: int, piece: int, bends: list[Point] | None,
        street: int | None = None,
    ) -> None:
        self.tails.append(tail)
        self.heads.append(head)
        self.weights.append(weight)
        self.pieces.append(piece)
        if self.bends is not None:
            self.bends.append(bends)
        if self.streets is not None:
            self.streets.append(street)

    def add_piece(
        self, ends: tuple[int, int], weights: tuple[int | None, int | None],
        are_lit: tuple[bool, bool], road: Road, bends: list[Point] | None,
    ) -> None:
        """Adds the arcs of a road between two of its nodes, first along it and then against it, if
        they have weights; and whether they lead to a light."""
        piece, (tail, head), streets = len(self.ways), ends, road.streets or (None, None)
        self.ways.append(road.number)
        if road.rule.is_ferry:
            self.ferries.add(piece)
        for side, (weight, is_lit) in enumerate(zip(weights, are_lit)):
            if weight is not None:
                if is_lit:
                    self.lit.add(len(self.tails))
                pair, points = (
                    ((head, tail), bends and bends[::-1]) if side else ((tail, head), bends))
                self.add_arc(*pair, weight, piece, points, streets[side])

    def way_of(self, arc: int) -> int:
        """The map's number of the way that an arc is part of; `NO_WAY` for an arc that is no
        road."""
        piece = self.pieces[arc]
        return NO_WAY if piece == NO_PIECE else self.ways[piece]


def crossings(survey: Survey) -> set[int]:
    """The nodes at which roads meet or end: those that occur twice, and the two ends of each
    road."""
    uses = collections.Counter(survey.nodes())
    ends = itertools.chain.from_iterable((road.nodes[0], road.nodes[-1]) for road in survey.roads)
    return {node for node, count in uses.items() if count > 1}.union(ends)


class Builder:
    """Makes a network from the roads of a survey. `cuts` are the nodes between arcs (None: all
    nodes), and `closed` those with a barrier."""

    def __init__(
        self, survey: Survey, cuts: set[int] | None, closed: set[int], in_metres: bool = False,
        with_bends: bool = False,
    ) -> None:
        self.report, self.cuts, self.closed, self.in_metres = survey.report, cuts, closed, in_metres
        self.lights = survey.lights
        self.network = Network(with_bends, survey.streets is not None)
        self.nodes: dict[int, int] = {}
        self.missing: set[int] = set()

    def node_at(self, number: int, longitude: float, latitude: float) -> int:
        """The network's node where a piece of road starts or ends, which is always a new one at a
        barrier."""
        node = self.nodes.get(number)
        if node is None:
            node = self.network.add_node(number, (longitude, latitude))
            if number not in self.closed:
                self.nodes[number] = node
        return node

    def runs(self, road: Road) -> list[Any]:
        """The runs of two or more nodes of a road without a gap in the map: their numbers,
        longitudes and latitudes."""
        nodes, longitudes = road.nodes.tolist(), road.longitudes.tolist()
        columns: tuple[list[Any], ...] = nodes, longitudes, road.latitudes.tolist()
        if not math.isnan(sum(longitudes)):
            return [columns]
        is_missing = list(map(math.isnan, longitudes))
        self.missing.update(itertools.compress(nodes, is_missing))
        runs = (
            list(run)
            for is_gap, run in itertools.groupby(range(len(nodes)), is_missing.__getitem__)
            if not is_gap)
        return [[column[run[0]:run[-1] + 1] for column in columns] for run in runs if len(run) > 1]

    def add_road(self, road: Road) -> None:
        runs = self.runs(road)
        for run in runs:
            self.add_run(road, *run)
        if not runs:
            self.report.note("short", "", "way", road.number)

    def add_run(
        self, road: Road, nodes: list[int], longitudes: list[float], latitudes: list[float],
    ) -> None:
        """Adds the arcs of a run of nodes of a road. The duration of a ferry applies if the run is
        the whole road."""
        metres = metres_between(longitudes, latitudes)
        forward, backward, seconds, _ = road.rule
        length = math.fsum(metres) if seconds and len(nodes) == len(road.nodes) else 0
        if length:
            forward, backward = (
                length * 3.6 / seconds if speed else 0 for speed in (forward, backward))
        network = self.network
        for start, end in itertools.pairwise(self.ends_of(nodes)):
            tail = self.node_at(nodes[start], longitudes[start], latitudes[start])
            head = self.node_at(nodes[end], longitudes[end], latitudes[end])
            bends = (
                None if network.bends is None
                else list(zip(longitudes[start + 1:end], latitudes[start + 1:end])))
            length = math.fsum(metres[start:end])
            along = self.weight(length, forward)
            against = along if backward == forward else self.weight(length, backward)
            are_lit = self.is_lit(nodes[end], "forward"), self.is_lit(nodes[start], "backward")
            network.add_piece((tail, head), (along, against), are_lit, road, bends)

    def is_lit(self, number: int, side: str) -> bool:
        """Whether a node has a light that counts in a direction of its way."""
        return side in self.lights.get(number, ())

    def ends_of(self, nodes: list[int]) -> Sequence[int]:
        """The places in a run of nodes where its pieces start and end."""
        last = len(nodes) - 1
        return (
            range(last + 1) if self.cuts is None
            else [0, *[at for at in range(1, last) if nodes[at] in self.cuts], last])

    def weight(self, metres: float, speed: float) -> int | None:
        """The weight of a length: metres, or milliseconds at a speed in kilometres an hour, rounded
        once, and at least 1 unless the length is 0; None if the road is closed."""
        if not speed:
            return None
        return (round(metres if self.in_metres else metres * 3600 / speed) or 1) if metres else 0


def network_of(
    survey: Survey, closed: set[int], more: set[int] | None, in_metres: bool, with_bends: bool,
    progress: Progress,
) -> tuple[Network, dict[int, int]]:
    """The network of a survey's roads, which `progress` counts, and its nodes by the map's numbers,
    except those at barriers. `more` are nodes besides crossings at which arcs end; None: all do."""
    cuts = None if more is None else crossings(survey) | closed | more
    builder = Builder(survey, cuts, closed, in_metres, with_bends)
    for road in progress.each(survey.roads):
        builder.add_road(road)
    for number in sorted(builder.missing):
        survey.report.note("missing", "", "node", number)
    return builder.network, builder.nodes


def metres_between(longitudes: Sequence[float], latitudes: Sequence[float]) -> list[float]:
    """The metres from each of the places, in degrees, to the next, by the haversine formula."""
    found = []
    x, y = longitudes[0], latitudes[0]
    narrow = cos(DEGREE * y)
    for u, v in zip(longitudes[1:], latitudes[1:]):
        up, across, after = sin((v - y) * HALF_DEGREE), sin((u - x) * HALF_DEGREE), cos(DEGREE * v)
        chord = sqrt(up * up + narrow * after * across * across)
        found.append(DIAMETER * (asin(chord) if chord < 1 else QUARTER_TURN))
        x, y, narrow = u, v, after
    return found
