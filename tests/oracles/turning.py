"""Costs of turns by the rules of docs/MAPS.md. It is independent of the package: it shares no code.

Directions are found in space: roads are followed as lines between points of the globe, and a
direction is that of a chord, by its parts to the east and to the north.
"""
import collections
import math

from oracles import mapping

AHEAD = 10


def lights(world):
    """The nodes with traffic lights, and the direction in which each counts, None for both."""
    found = {}
    for number, node in world.nodes.items():
        tags = world.tags(node)
        if tags.get("highway") == "traffic_signals":
            side = tags.get("traffic_signals:direction")
            found[number] = side if side in ("forward", "backward") else None
    return found


def point(world, number):
    """A node in degrees, as an exact reader has it."""
    return float(world.nodes[number].get("lon")), float(world.nodes[number].get("lat"))


def bearing(world, numbers):
    """The direction in degrees, clockwise from north, in which a line of nodes begins."""
    far, goal = 0.0, point(world, numbers[-1])
    for one, other in zip(numbers, numbers[1:]):
        step = world.metres(one, other)
        if far + step >= AHEAD:
            part = (AHEAD - far) / step
            goal = tuple((1 - part) * a + part * b for a, b in zip(point(world, one), point(world, other)))
            break
        far += step
    (x, y), (u, v) = (tuple(map(math.radians, each)) for each in (point(world, numbers[0]), goal))
    chord = math.cos(v) * math.cos(u), math.cos(v) * math.sin(u), math.sin(v)
    east = -math.sin(x), math.cos(x), 0
    north = -math.sin(y) * math.cos(x), -math.sin(y) * math.sin(x), math.cos(y)
    to_east, to_north = (sum(map(float.__mul__, map(float, axis), chord)) for axis in (east, north))
    return math.degrees(math.atan2(to_east, to_north)) if math.hypot(to_east, to_north) > 1e-14 else 0.0


def by_angle(angle, is_left_hand):
    """OSRM's process_turn of car.lua, line by line; the angle is above 0 to the right."""
    turn_penalty, turn_bias = 7.5, 1 / 1.075 if is_left_hand else 1.075
    if angle >= 0:
        return turn_penalty / (1 + math.exp(-((13 / turn_bias) * angle / 180 - 6.5 * turn_bias)))
    return turn_penalty / (1 + math.exp(-((13 * turn_bias) * -angle / 180 - 6.5 / turn_bias)))


class Turns:
    """The arcs of a map's roads, as `mapping.arcs` has them, and the costs in milliseconds, not
    rounded, of the turns between them that are open: {(arc in, arc out): cost}."""

    def __init__(self, text, each_bend=False, everywhere=False, is_left_hand=False):
        self.world = mapping.Map(text, "car")
        self.lights = lights(self.world)
        self.world.cuts = set(self.lights)
        self.lines = [piece[2] for piece in mapping.pieces(self.world, each_bend)]
        self.arcs = mapping.arcs(self.world, each_bend)
        self.branches, self.is_left_hand = mapping.branches_of(self.arcs), is_left_hand
        ways = self.world.ways
        self.ferries = {way.get("id") for way in ways if self.world.is_ferry(self.world.tags(way))}
        leaving = collections.defaultdict(list)
        for b, arc in enumerate(self.arcs):
            leaving[arc[0]].append(b)
        never = mapping.forbidden(self.world, self.arcs)
        never |= mapping.turned_back(self.arcs, never, everywhere)
        pairs = ((a, b) for a, arc in enumerate(self.arcs) for b in leaving[arc[1]])
        self.leads = [self.ways(arc) for arc in self.arcs]
        self.costs = {pair: self.cost(*pair) for pair in pairs if pair not in never}

    def ways(self, arc):
        """The directions in which an arc begins, and in which it ends."""
        line = self.lines[arc[4]] if arc[5] else self.lines[arc[4]][::-1]
        return bearing(self.world, line), bearing(self.world, line[::-1]) + 180

    def cost(self, a, b):
        """The cost of the turn from one arc into another."""
        one, other = self.arcs[a], self.arcs[b]
        is_back, seconds = one[4] == other[4] and a != b, 0.0
        if one[1][0] in self.lights:
            side = self.lights[one[1][0]]
            seconds += 2 * (side is None or (side == "forward") == one[5])
        if self.branches[one[1]] > 2 or is_back or (one[3] in self.ferries) != (other[3] in self.ferries):
            off = math.remainder(self.leads[b][0] - self.leads[a][1], 360)
            angle = 180 if is_back or abs(off) > 180 - 5e-7 else 0 if abs(off) < 5e-7 else off
            seconds += by_angle(angle, self.is_left_hand)
        return 1000 * (seconds + 20 * is_back)

    def following(self, costs=None, is_open=lambda arc: True):
        """For each arc those that follow on it, each with its weight and the whole cost of the turn."""
        found = [[] for _ in self.arcs]
        for (a, b), cost in (self.costs if costs is None else costs).items():
            if is_open(b):
                found[a].append((b, round(cost) + self.arcs[b][2]))
        return found

    def distances(self, start, costs=None):
        """The least weights from a node to all others, over arcs with whole costs of turns."""
        return mapping.distances(self.arcs, self.following(costs), start)
