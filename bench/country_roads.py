#!/usr/bin/python3
"""Writes a synthetic road network of the size of a country, the same bytes for the same number of nodes.

  country_roads.py NODES FILE

It is of the kind of the networks of roads.py, with the same figures: a grid with moved corners, a random spanning tree and 60 % of the other
streets, main roads and motorways, nodes of degree two, one-way streets, and times of travel in milliseconds. There are about 2.4 arcs for
each node, and each node reaches each other one. The roads are drawn by numpy, and arcs are written while they are drawn: 24 million nodes take
less than a minute of processor and 1 GB of memory. What differs from roads.py:
  the tree   each crossing but the first is joined to its left or its upper neighbour: by the road of the greater kind, and of two of one
             kind by a random one. That is a tree, since each crossing has one way left and up to the first; random trees have other forms too
  numbers    the nodes of a road follow the later one of its two crossings, not the earlier one
  cuts       no road is cut by more than 4 nodes
NODES are 1,000 at least. It needs Debian's package python3-numpy, of whose generators only PCG64's numbers between 0 and 1 are used.
"""
import sys
import typing

import numpy

import roads

LEAST_NODES = 1_000
SPACE, MOVED = 200.0, 60.0
ROADS_AT_ONCE = 1 << 16
# Four digits of each number below 10,000, and the least number that has a digit at each of eight places: the last one is always written.
FOUR_DIGITS = numpy.frombuffer(b"".join(b"%04d" % number for number in range(10_000)), numpy.uint8).reshape(-1, 4)
LEAST_WITH_DIGIT = numpy.array([*(10**place for place in range(7, 0, -1)), 0], numpy.int32)
LINE = numpy.frombuffer(b"a 00000000 00000000 00000000\n", numpy.uint8)
PLACES_IN_LINE = 2, 11, 20


class Roads(typing.NamedTuple):
    """The roads that are kept, by the later one of their crossings; of two to the same one, that from the left comes first."""
    later: numpy.ndarray
    earlier: numpy.ndarray
    kind: numpy.ndarray
    is_one_way: numpy.ndarray


class Network(typing.NamedTuple):
    """The place and the number of each crossing, and for each road how many nodes cut it, and the number of the first."""
    places: numpy.ndarray
    crossing: numpy.ndarray
    roads: Roads
    cuts: numpy.ndarray
    first: numpy.ndarray


def chosen(draw, values, count):
    """So many of the values, each as likely as the others."""
    return numpy.array(values)[(draw.random(count) * len(values)).astype(numpy.int8)]


def kept(draw, side):
    """The roads that are kept."""
    lines = numpy.array([roads.kind_of(line) for line in range(side)], numpy.int8)
    kinds = numpy.stack(numpy.broadcast_arrays(lines[:, None], lines), axis=-1)
    keys = draw.random(kinds.shape) - kinds
    keys[:, 0, 0] = keys[0, :, 1] = numpy.inf
    is_inside = keys < numpy.inf
    is_up = keys[..., 1] < keys[..., 0]
    is_outside_tree = numpy.stack([is_up, ~is_up], axis=-1)
    is_street = is_outside_tree & (kinds == 0)
    is_kept = is_inside & (~is_street | (draw.random(kinds.shape) < roads.KEPT))
    is_one_way = is_street & (draw.random(kinds.shape) < roads.ONE_WAY)
    numbers = numpy.flatnonzero(is_kept)
    later = (numbers // 2).astype(numpy.int32)
    earlier = later - numpy.array([1, side], numpy.int32)[numbers % 2]
    return Roads(later, earlier, kinds[is_kept], is_one_way[is_kept])


def cuts_of(draw, count, wanted):
    """How many nodes cut each of so many roads, `wanted` in all."""
    cuts = chosen(draw, roads.CUTS, count).astype(numpy.int8)
    missing = wanted - int(cuts.sum(dtype=numpy.int64))
    others = numpy.flatnonzero(cuts < max(roads.CUTS) if missing > 0 else cuts > 0)
    cuts[others[draw.random(len(others)).argsort()[:abs(missing)]]] += numpy.sign(missing)
    return cuts


def network(draw, nodes):
    """A network of so many nodes."""
    side = int((nodes / roads.NODES_OF_A_CROSSING) ** 0.5)
    places = SPACE * numpy.indices((side, side)).reshape(2, -1).T + MOVED * (2 * draw.random((side * side, 2)) - 1)
    own = kept(draw, side)
    cuts = cuts_of(draw, len(own.later), nodes - side * side)
    before = numpy.cumsum(cuts, dtype=numpy.int32) - cuts
    crossings = numpy.arange(side * side, dtype=numpy.int32)
    crossing = crossings + before[numpy.searchsorted(own.later, crossings)]
    return Network(places, crossing, own, cuts, own.later + before + 1)


def times_of(draw, places, part):
    """The times of travel on these roads, in milliseconds."""
    x, y = (places[part.later] - places[part.earlier]).T
    speeds = numpy.empty(len(part.kind))
    for kind, values in enumerate(roads.SPEEDS):
        is_kind = part.kind == kind
        speeds[is_kind] = chosen(draw, values, numpy.count_nonzero(is_kind))
    return numpy.sqrt(x * x + y * y) * (1.0 + 0.3 * draw.random(len(x))) / speeds * 3600


def arcs_of(draw, made, piece):
    """The tails, heads and weights of the arcs of a piece of the roads."""
    part = Roads(*(column[piece] for column in made.roads))
    links = made.cuts[piece] + 1
    ends = numpy.cumsum(links)
    road = numpy.repeat(numpy.arange(len(links)), links)
    heads = made.first[piece][road] + numpy.arange(len(road)) - (ends - links)[road]
    tails = heads - 1
    tails[ends - links], heads[ends - 1] = made.crossing[part.later], made.crossing[part.earlier]
    shares = 0.5 + draw.random(len(road))
    times = times_of(draw, made.places, part) / numpy.add.reduceat(shares, ends - links)
    weights = numpy.maximum(1, numpy.rint(times[road] * shares)).astype(numpy.int64)
    is_up = draw.random(len(links)) < 0.5
    is_open = ~part.is_one_way[:, None] | numpy.stack([is_up, ~is_up], axis=1)
    both_ways = ((tails, heads), (heads, tails), (weights, weights))
    return [numpy.stack(columns, axis=1)[is_open[road]] for columns in both_ways]


def text_of(columns):
    """The lines of arcs: numbers with eight digits each, of which those before the first that counts are left out."""
    text = numpy.tile(LINE, (len(columns[0]), 1))
    is_written = numpy.ones(text.shape, bool)
    for place, numbers in zip(PLACES_IN_LINE, columns):
        text[:, place:place + 4], text[:, place + 4:place + 8] = FOUR_DIGITS[numbers // 10_000], FOUR_DIGITS[numbers % 10_000]
        is_written[:, place:place + 8] = numbers[:, None] >= LEAST_WITH_DIGIT
    return text[is_written]


def main():
    nodes = int(sys.argv[1])
    if nodes < LEAST_NODES:
        raise SystemExit(f"country_roads.py makes networks of {LEAST_NODES:,} nodes at least")
    draw = numpy.random.Generator(numpy.random.PCG64(nodes))
    made = network(draw, nodes)
    count = int(((made.cuts + 1) * (2 - made.roads.is_one_way)).sum(dtype=numpy.int64))
    with open(sys.argv[2], "wb") as file:
        file.write(b"p sp %d %d\n" % (nodes, count))
        for start in range(0, len(made.cuts), ROADS_AT_ONCE):
            tails, heads, weights = arcs_of(draw, made, slice(start, start + ROADS_AT_ONCE))
            file.write(text_of((tails + 1, heads + 1, weights)))


if __name__ == "__main__":
    main()
