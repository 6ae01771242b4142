"""Contracts graphs, in an order of its own or in a given one, and writes saved hierarchies.

A shortcut is left out where Dijkstra's algorithm finds a way as good among the first few nodes that it settles. Nodes are numbered
from 1. An arc is (from, to, weight); a leg is (from, to, weight, arcs, middle), where no middle is 0.
"""
import heapq
from itertools import product

from oracles.checking import LIMIT, plus

# How many nodes a search for a way as good settles at most.
SETTLED = 40


class Remaining:
    """What is left of the graph: for each node the legs to others and from others, each a cost (weight, arcs) and a middle."""

    def __init__(self, nodes, arcs):
        self.nodes = nodes
        self.out = {node: {} for node in range(1, nodes + 1)}
        self.into = {node: {} for node in range(1, nodes + 1)}
        for start, end, weight in arcs:
            self.put(start, end, (weight, 1), 0)

    def put(self, start, end, cost, middle):
        """A leg, where there is none that costs as little."""
        if start != end and (end not in self.out[start] or cost < self.out[start][end][0]):
            self.out[start][end] = self.into[end][start] = (cost, middle)

    def known_from(self, start, without, most):
        """Costs of ways from a node that avoid another, none of them above `most`: the least of those that few nodes make."""
        known, queue, settled = {start: (0, 0)}, [(0, 0, start)], set()
        while queue and len(settled) < SETTLED:
            weight, count, node = heapq.heappop(queue)
            if node in settled:
                continue
            settled.add(node)
            for end, ((more, arcs), _) in self.out[node].items():
                cost = (weight + more, count + arcs)
                if end != without and cost <= most and (end not in known or cost < known[end]):
                    known[end] = cost
                    heapq.heappush(queue, (*cost, end))
        return known

    def shortcuts(self, node):
        """The ways over a node for which there is none as good without it: (from, to, cost)."""
        found = []
        for start, ((weight, count), _) in self.into[node].items():
            ways = {end: (weight + more, count + arcs) for end, ((more, arcs), _) in self.out[node].items() if end != start}
            ways = {end: cost for end, cost in ways.items() if cost[0] <= LIMIT and cost[1] < self.nodes}
            known = self.known_from(start, node, max(ways.values())) if ways else {}
            found += [(start, end, cost) for end, cost in ways.items() if end not in known or known[end] > cost]
        return found

    def take(self, node):
        """Takes a node out, with shortcuts in its place. Its legs, which are all to nodes that stay: (from, to, cost, middle)."""
        for start, end, cost in self.shortcuts(node):
            self.put(start, end, cost, node)
        out, into = self.out.pop(node), self.into.pop(node)
        for end in out:
            del self.into[end][node]
        for start in into:
            del self.out[start][node]
        return [(node, end, *leg) for end, leg in out.items()] + [(start, node, *leg) for start, leg in into.items()]


def contract(nodes, arcs):
    """The nodes by their number of legs and their depth, in order of level, and the legs."""
    remaining, depth = Remaining(nodes, arcs), [0] * (nodes + 1)

    def rank(node):
        return 2 * len(remaining.out[node]) * len(remaining.into[node]) + depth[node]

    queue, order, legs = [(rank(node), node) for node in remaining.out], [], []
    heapq.heapify(queue)
    while queue:
        key, node = heapq.heappop(queue)
        if node not in remaining.out or key != rank(node):
            continue
        taken = remaining.take(node)
        order.append(node)
        legs += [(start, end, *cost, middle) for start, end, cost, middle in taken]
        for other in {end for leg in taken for end in leg[:2]} - {node}:
            depth[other] = max(depth[other], depth[node] + 1)
            heapq.heappush(queue, (rank(other), other))
    return order, legs


def contract_in_order(nodes, arcs, order):
    """The legs of a hierarchy with this order: each pair of legs of a contracted node gets a shortcut where no leg is cheaper."""
    left = {}
    for start, end, weight in arcs:
        if start != end and (weight, 1) < left.get((start, end), (LIMIT + 1, 0))[:2]:
            left[start, end] = (weight, 1, 0)
    legs = []
    for node in order:
        into = [(pair, leg) for pair, leg in left.items() if pair[1] == node]
        out = [(pair, leg) for pair, leg in left.items() if pair[0] == node]
        for pair, leg in into + out:
            legs.append((*pair, *leg))
            del left[pair]
        for ((start, _), one), ((_, end), other) in product(into, out):
            cost = plus(one, other)
            if start != end and cost[0] <= LIMIT and cost[1] < nodes and cost < left.get((start, end), (LIMIT + 1, 0))[:2]:
                left[start, end] = (*cost, node)
    return legs


def text_of(nodes, order, legs):
    """The saved file, with the legs in this order."""
    lines = [f"p ch {nodes} {len(legs)}", *(f"o {node}" for node in order), *(" ".join(map(str, ("l", *leg))) for leg in legs)]
    return "".join(f"{line}\n" for line in lines)
