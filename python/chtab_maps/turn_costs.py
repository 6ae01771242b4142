"""Costs of turns, by the formula of OSRM's car.lua: a turn costs by its angle and by the side of
the road that is driven on, and more at a traffic light and for turning back.

https://github.com/Project-OSRM/osrm-backend/blob/v5.24.0/profiles/car.lua

The graph is that of the ends of roads. Each arc of the network has a node where it begins and one
where it ends, both of which are copies of crossings. It leads from the one to the other, and each
turn that is open leads from the end of an arc to the beginning of another. Trips start at the
crossing itself, and end at one more copy, as `turns` has them: neither start nor end is a turn.
"""
from __future__ import annotations

from collections.abc import Iterable, Iterator, Mapping, Sequence
from math import atan2, cos, degrees, exp, radians, sin
from typing import TYPE_CHECKING

from chtab_maps.arcs import NO_PIECE, Network, metres_between
from chtab_maps.turning_back import branches_of, outs_of

if TYPE_CHECKING:
    from chtab.typing import Point

# The most seconds of a turn by its angle, how the cost grows with the angle, and by how much turns
# to the side that is driven on are easier.
MOST, GROWTH, BIAS = 7.5, 13, 1.075
# The seconds of turning back, added to those by the angle, and of a traffic light.
BACK, LIGHT = 20, 2
# The direction of a road at its end is that of the point this many metres along it.
AHEAD = 10.0
MILLISECONDS, HALF = 1_000, 180
# The digits of an angle in degrees.
DIGITS = 6


def seconds_by(angle: float, side: str) -> float:
    """The seconds of a turn by this angle, in degrees to the right from straight on, for those who
    drive on a side of the road."""
    bias = BIAS if side == "right" else 1 / BIAS
    eased = bias if angle >= 0 else 1 / bias
    return MOST / (1 + exp(GROWTH / 2 * eased - GROWTH / eased * abs(angle) / HALF))


def direction(line: Sequence[Point]) -> float:
    """The direction in degrees, clockwise from north, in which a line leaves its first place: that
    to the point `AHEAD` metres along it, or to its end if it is shorter."""
    rest = AHEAD
    ahead = line[-1]
    for (x, y), (u, v) in zip(line, line[1:]):
        [metres] = metres_between((x, u), (y, v))
        if metres >= rest:
            ahead = x + (u - x) * rest / metres, y + (v - y) * rest / metres
            break
        rest -= metres
    (x, y), (u, v) = (tuple(map(radians, place)) for place in (line[0], ahead))
    north = cos(y) * sin(v) - sin(y) * cos(v) * cos(u - x)
    return degrees(atan2(sin(u - x) * cos(v), north))


def angle_of(comes: float, goes: float) -> float:
    """The angle of a turn in degrees, from above -180 to 180. Those that differ by less than the
    rounding of directions are the same, as the cost has a step where left begins."""
    found = round((goes - comes) % (2 * HALF), DIGITS)
    return found if found <= HALF else found - 2 * HALF


class Costs:
    """The costs of turns from arc to arc of a network that knows its bends."""

    def __init__(self, network: Network, side: str) -> None:
        self.network, self.side, self.branches = network, side, branches_of(network)
        # The directions in which each arc leaves its tail, and comes to its head.
        self.goes, self.comes = [], []
        for arc in range(len(network.tails)):
            line = self.line(arc)
            self.goes.append(direction(line))
            self.comes.append(direction(line[::-1]) + HALF)

    def line(self, arc: int) -> list[Point]:
        """The places of an arc."""
        network = self.network
        inner = network.bends[arc] if network.bends else None
        ends = network.places[network.tails[arc]], network.places[network.heads[arc]]
        return [ends[0], *(inner or ()), ends[1]]

    def milliseconds(self, one: int, other: int) -> int:
        """The cost of the turn from an arc to another that leaves its head."""
        network = self.network
        piece, ahead = network.pieces[one], network.pieces[other]
        is_back = piece == ahead and one != other
        found = float(LIGHT) if one in network.lit else 0.0
        is_other_mode = (piece in network.ferries) != (ahead in network.ferries)
        if self.branches[network.heads[one]] > 2 or is_other_mode or is_back:
            angle = HALF if is_back else angle_of(self.comes[one], self.goes[other])
            found += seconds_by(angle, self.side)
        return round(MILLISECONDS * (found + BACK * is_back))


def turns_of(network: Network, forbidden: Mapping[int, set[int]]) -> Iterator[tuple[int, int]]:
    """The open turns, as (arc in, arc out)."""
    outs = outs_of(network)
    for one, node in enumerate(network.heads):
        closed = forbidden.get(one, ())
        yield from ((one, other) for other in outs[node] if other not in closed)


def with_costs(network: Network, forbidden: Mapping[int, set[int]], side: str) -> Network:
    """The graph of the ends of roads of a network that knows its bends, in which turns cost time.
    Those of `forbidden`, {arc in: {arcs out}}, are not there."""
    costs = Costs(network, side)
    turns = [(*turn, costs.milliseconds(*turn)) for turn in turns_of(network, forbidden)]
    made = Network(True, network.streets is not None)
    made.names, made.places, made.ways = network.names, network.places, network.ways
    begins, stops = copies_of(made, network.tails), copies_of(made, network.heads)
    ends = {node: made.add_copy(node) for node in sorted(set(network.heads))}
    made.copies = dict(zip([*begins, *stops], [*network.tails, *network.heads]))
    made.ends = {end: node for node, end in ends.items()}
    add_roads(made, network, begins, stops)
    add_others(made, ((stops[one], begins[other], cost) for one, other, cost in turns))
    add_others(made, ((tail, begin, 0) for tail, begin in zip(network.tails, begins)))
    add_others(made, ((stop, ends[head], 0) for head, stop in zip(network.heads, stops)))
    add_others(made, ((node, end, 0) for node, end in ends.items()))
    return made


def copies_of(made: Network, nodes: Iterable[int]) -> list[int]:
    """Adds a copy of each node, as often as it occurs."""
    return [made.add_copy(node) for node in nodes]


def add_roads(made: Network, network: Network, begins: Sequence[int], stops: Sequence[int]) -> None:
    """Adds the arcs of a network, each from its own copy of a node to its own copy."""
    streets = network.streets or [None] * len(network.tails)
    bends = network.bends or [None] * len(network.tails)
    columns = zip(begins, stops, network.weights, network.pieces, bends, streets)
    for begin, stop, weight, piece, points, street in columns:
        made.add_arc(begin, stop, weight, piece, points, street)


def add_others(made: Network, arcs: Iterable[tuple[int, int, int]]) -> None:
    """Adds arcs that are part of no road: (tail, head, weight)."""
    for tail, head, weight in arcs:
        made.add_arc(tail, head, weight, NO_PIECE, None)
