"""Trips between points of roads, by Dijkstra's algorithm on the arcs of a graph: what the best ones weigh, and how long they are. It is independent
of the package: it shares no code with it.

A road is the straight line between the two nodes of an arc.
"""
import heapq
import math
from collections import defaultdict
from typing import NamedTuple

from oracles.telling import metres

# A spot less than a metre from an end of its road is at that end; and places are rounded to millionths of a degree. Both in metres.
NEAR, SAME = 1.3, 0.2


class Spot(NamedTuple):
    """A point of a road: the two nodes of the road, the smaller one first, and which part of the road leads from this one to the point, 0 to 1."""

    road: tuple
    part: float


class Trip(NamedTuple):
    """The weight of the best trips, and the metres of the shortest and of the longest of them."""

    weight: int
    least: float
    most: float

    def behind(self, weight, length):
        """The trips that go on from here."""
        return Trip(self.weight + weight, self.least + length, self.most + length)


def better(one, other):
    """The best of some trips, each of which may be None, and of others to the same end."""
    if one is None or other is None or one.weight != other.weight:
        return min(filter(None, (one, other)), default=None, key=lambda trip: trip.weight)
    return Trip(one.weight, min(one.least, other.least), max(one.most, other.most))


class Driving:
    """The roads of arcs (from, to, weight), whose weights are above 0, between nodes at places in degrees: {node: (longitude, latitude)}."""

    def __init__(self, places, arcs):
        self.places, self.weights, self.ahead = places, {}, defaultdict(list)
        for tail, head, weight in arcs:
            assert weight > 0, (tail, head)
            self.weights[tail, head] = min(weight, self.weights.get((tail, head), weight))
        for (tail, head), weight in self.weights.items():
            self.ahead[tail].append((head, weight, self.length(tail, head)))

    def length(self, one, other):
        """The metres between two nodes."""
        return metres(self.places[one], self.places[other])

    def ends(self, spot, is_left):
        """The nodes over which trips leave the road of a spot, or come to it, with the weights and the metres of the path there."""
        (low, high), part = spot
        if part in (0, 1):
            return [(high if part else low, 0, 0.0)]
        found, length = [], self.length(low, high)
        for node, other, share in (low, high, part), (high, low, 1 - part):
            weight = self.weights.get((other, node) if is_left else (node, other))
            if weight is not None:
                found.append((node, round(share * weight), share * length))
        return found

    def reached(self, start):
        """The best trips from a spot to each node: {node: Trip}."""
        best, ended = {}, set()
        for node, weight, length in self.ends(start, True):
            best[node] = better(best.get(node), Trip(weight, length, length))
        queue = [(trip.weight, node) for node, trip in best.items()]
        heapq.heapify(queue)
        while queue:
            _, node = heapq.heappop(queue)
            if node in ended:
                continue
            ended.add(node)
            for head, weight, length in self.ahead[node]:
                if head not in ended:
                    before, best[head] = best.get(head), better(best.get(head), best[node].behind(weight, length))
                    if before is None or best[head].weight < before.weight:
                        heapq.heappush(queue, (best[head].weight, head))
        return best

    def trip(self, start, reached, end):
        """The best trips from a spot, by what is reached from there, to another; None if there is none."""
        found = None
        for node, weight, length in self.ends(end, False):
            if node in reached:
                found = better(found, reached[node].behind(weight, length))
        if start.road == end.road:
            (low, high), off = start.road, end.part - start.part
            weight = self.weights.get((low, high) if off > 0 else (high, low)) if off else 0
            if weight is not None:
                length = abs(off) * self.length(low, high)
                found = better(found, Trip(round(abs(off) * weight), length, length))
        return found

    def along(self, start, line, end):
        """What the lightest trip along a line of places weighs, from a spot at its start over nodes at the others to a spot at its end; None if there
        is none."""
        last, best, queue = len(line) - 1, {}, []

        def reach(node, weight, place):
            for at in place, place + 1:
                if at <= last and self.is_at(node, line[at], at in (0, last)) and weight < best.get((node, at), math.inf):
                    best[node, at] = weight
                    heapq.heappush(queue, (weight, node, at))

        for node, weight, _ in self.ends(start, True):
            reach(node, weight, 0)
        while queue:
            weight, node, at = heapq.heappop(queue)
            for head, more, _ in self.ahead[node] if weight == best[node, at] else ():
                reach(head, weight + more, at)
        ends = [(node, more) for node, more, _ in self.ends(end, False)]
        found = [weight + more for (node, at), weight in best.items() for other, more in ends if node == other and at >= last - 1]
        direct = self.trip(start, {}, end) if last <= 1 else None
        return min([*found, *([direct.weight] if direct else [])], default=None)

    def is_at(self, node, place, is_spot):
        """Whether a node is at a place, which may also be that of a spot less than a metre away."""
        return metres(self.places[node], place) < (NEAR if is_spot else SAME)

    def table(self, spots):
        """The best trips from each spot to each."""
        return [[self.trip(start, reached, end) for end in spots] for start in spots for reached in [self.reached(start)]]
