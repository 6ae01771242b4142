#!/usr/bin/python3
"""Writes a synthetic road network, the same bytes for the same number of nodes.

  roads.py NODES FILE

Crossings stand on a grid with moved corners. Of the roads between neighbours a random spanning tree is kept, and 60 % of
the others; every 16th line of the grid is a main road and every 64th a motorway, all of which are kept. Each road is cut
by 0 to 4 nodes of degree two, and 3 % of the roads outside the tree are one-way. Weights are times of travel in
milliseconds. There are about 2.4 arcs for each node, and each node reaches each other one.
"""
import math
import random
import sys

# A crossing keeps 1.63 roads on average, and a road has 1.2 nodes of degree two.
NODES_OF_A_CROSSING = 1 + 1.2 * 1.63
# How many of the streets outside the tree are kept, and how many of these are one-way.
KEPT, ONE_WAY = 0.60, 0.03
# How many nodes cut a road, each as likely as the others.
CUTS = (0, 0, 1, 1, 1, 2, 2, 1, 4, 0)
SPEEDS = ((20, 30, 30, 50, 50), (70, 80, 100), (120, 130))


def kind_of(line):
    """A street (0), a main road (1) or a motorway (2)."""
    return 2 if line % 64 == 32 else 1 if line % 16 == 8 else 0


def candidates(draw, side):
    """The roads of the grid, each with a key: motorways and main roads come first, streets in random order."""
    for y in range(side):
        for x in range(side):
            here = y * side + x
            for there, line, is_inside in ((here + 1, y, x + 1 < side), (here + side, x, y + 1 < side)):
                if is_inside:
                    kind = kind_of(line)
                    yield draw.random() - kind, here, there, kind


def kept(draw, side):
    """The roads that are kept: (from, to, kind, whether it is one-way)."""
    root = list(range(side * side))

    def find(node):
        while root[node] != node:
            root[node] = root[root[node]]
            node = root[node]
        return node

    roads = []
    for _, here, there, kind in sorted(candidates(draw, side)):
        a, b = find(here), find(there)
        if a != b:
            root[a] = b
            roads.append((here, there, kind, False))
        elif kind or draw.random() < KEPT:
            roads.append((here, there, kind, kind == 0 and draw.random() < ONE_WAY))
    return sorted(roads)


def cuts_of(draw, roads, wanted):
    """How many nodes cut each road, `wanted` in all."""
    cuts = [draw.choice(CUTS) for _ in roads]
    have = sum(cuts)
    while have != wanted:
        road = draw.randrange(len(roads))
        if have < wanted:
            cuts[road] += 1
            have += 1
        elif cuts[road]:
            cuts[road] -= 1
            have -= 1
    return cuts


def numbered(side, roads, cuts):
    """The number of each crossing, and of the first node that cuts each road: those of a road follow its crossing."""
    crossing, first, number, road = {}, [], 0, 0
    for here in range(side * side):
        crossing[here] = number
        number += 1
        while road < len(roads) and roads[road][0] == here:
            first.append(number)
            number += cuts[road]
            road += 1
    return crossing, first, number


def network(nodes):
    """The number of nodes, that of arcs, and the arcs one after the other."""
    draw = random.Random(f"roads {nodes} 1")
    side = max(2, int(math.sqrt(nodes / NODES_OF_A_CROSSING)))
    places = [(200.0 * x + draw.uniform(-60, 60), 200.0 * y + draw.uniform(-60, 60)) for y in range(side) for x in range(side)]
    roads = kept(draw, side)
    cuts = cuts_of(draw, roads, nodes - side * side)
    crossing, first, count = numbered(side, roads, cuts)
    arcs = sum((cut + 1) * (1 if is_one_way else 2) for (*_, is_one_way), cut in zip(roads, cuts))
    return count, arcs, arcs_of(draw, places, roads, cuts, crossing, first)


def arcs_of(draw, places, roads, cuts, crossing, first):
    """The arcs of each road in turn."""
    for (here, there, kind, is_one_way), cut, inner in zip(roads, cuts, first):
        length = math.dist(places[here], places[there]) * draw.uniform(1.0, 1.3)
        time = length / draw.choice(SPEEDS[kind]) * 3600
        chain = [crossing[here], *range(inner, inner + cut), crossing[there]]
        parts = [draw.uniform(0.5, 1.5) for _ in range(cut + 1)]
        if is_one_way and draw.random() < 0.5:
            chain.reverse()
        for a, b, part in zip(chain, chain[1:], parts):
            weight = max(1, round(time * part / sum(parts)))
            yield a + 1, b + 1, weight
            if not is_one_way:
                yield b + 1, a + 1, weight


def main():
    nodes, count, arcs = network(int(sys.argv[1]))
    with open(sys.argv[2], "w") as file:
        print("p sp", nodes, count, file=file)
        for arc in arcs:
            print("a", *arc, file=file)


if __name__ == "__main__":
    main()
