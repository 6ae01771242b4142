#!/usr/bin/python3
"""Writes a synthetic road network with the small cuts of real maps: cities, sparse country, and rivers with few bridges.

  cities.py NODES FILE

55 % of the crossings are in cities, which have sizes as in Zipf's law and are denser in the middle, the others anywhere. Roads are a shortest
spanning tree and 60 % of the others of a Gabriel graph, but rivers cut all roads without a bridge. Shortest ways between the greatest cities are
fast roads. Three nodes cut a road on average. Weights are times of travel in milliseconds, and 3 % of the slow roads are one-way. There are about
as many nodes as NODES says, and each reaches each other one but for one-way roads. The bytes are the same for the same NODES and the same scipy. It
needs Debian's package python3-scipy.
"""
import sys

import numpy
from scipy.sparse import csr_matrix
from scipy.sparse.csgraph import connected_components, dijkstra, minimum_spanning_tree
from scipy.spatial import Delaunay

# A crossing keeps 1.55 roads, each of which is cut by so many nodes of degree two on average.
CUTS = 3.0
NODES_OF_A_CROSSING = 1 + 1.55 * CUTS
IN_CITIES, KEPT, ONE_WAY = 0.55, 0.60, 0.03
# Crossings of a square kilometre and of a city, and the metres between those in the middle of a city.
DENSITY, CITY, SPACE = 12, 4_000, 70.0
# How many of the greatest cities fast roads join, and the speeds in kilometres an hour: of streets, main streets and fast roads.
JOINED, SPEEDS = 24, (30.0, 50.0, 100.0)


def crossings_of(draw, count):
    """The places of crossings in metres, and those of cities, the greatest first."""
    side = 1000.0 * (count / DENSITY) ** 0.5
    cities = side * draw.random((max(4, count // CITY), 2))
    shares = 1.0 / numpy.arange(1, len(cities) + 1) ** 0.9
    city = draw.choice(len(cities), int(count * IN_CITIES), p=shares / shares.sum())
    radius = SPACE * (3 * numpy.bincount(city, minlength=len(cities))) ** 0.5
    away, angle = radius[city] * draw.random(len(city)) ** 0.75, 2 * numpy.pi * draw.random(len(city))
    inside = cities[city] + away[:, None] * numpy.stack([numpy.cos(angle), numpy.sin(angle)], axis=1)
    places = numpy.concatenate([inside, side * draw.random((count - len(city), 2))]).clip(0, side)
    return numpy.unique(places.round(2), axis=0), cities, side


def gabriel(places):
    """The pairs of crossings with no third one in the circle over them."""
    corners = Delaunay(places).simplices
    pairs = numpy.concatenate([corners[:, [0, 1]], corners[:, [1, 2]], corners[:, [0, 2]]])
    opposite = places[numpy.concatenate([corners[:, 2], corners[:, 0], corners[:, 1]])]
    is_inside = numpy.einsum("ij,ij->i", opposite - places[pairs[:, 0]], opposite - places[pairs[:, 1]]) < 0
    pairs, number = numpy.unique(numpy.sort(pairs, axis=1), axis=0, return_inverse=True)
    return pairs[numpy.bincount(number.ravel(), is_inside, len(pairs)) == 0]


def over_rivers(draw, places, pairs, side):
    """Which pairs a river parts without a bridge: there is a bridge each 900 metres where crossings are near, otherwise each 6 kilometres."""
    parted = numpy.zeros(len(pairs), bool)
    gaps = numpy.where(lengths_of(places, pairs) < 150, 900.0, 6_000.0)
    for _ in range(max(2, int(len(places) ** 0.5 / 80))):
        angle, offset = numpy.pi * draw.random(), 1.2 * side * (draw.random() - 0.5)
        along, across = ((places - side / 2) @ numpy.array([[numpy.cos(angle), -numpy.sin(angle)], [numpy.sin(angle), numpy.cos(angle)]])).T
        bends, wave = 0.03 * side * (1 + draw.random()), side * (0.2 + 0.3 * draw.random())
        is_beyond = across > offset + bends * numpy.sin(2 * numpy.pi * along / wave)
        crossing = numpy.flatnonzero(is_beyond[pairs[:, 0]] != is_beyond[pairs[:, 1]])
        stretch = numpy.floor(along[pairs[crossing]].mean(axis=1) / gaps[crossing]) * 2 + (gaps[crossing] > 1_000)
        parted[numpy.delete(crossing, numpy.unique(stretch, return_index=True)[1])] = True
    return parted


def lengths_of(places, pairs):
    """The metres between the crossings of each pair."""
    return numpy.hypot(*(places[pairs[:, 0]] - places[pairs[:, 1]]).T)


def matrix_of(values, pairs, count):
    """A matrix with a value for each pair, in both directions."""
    tails, heads = numpy.concatenate([pairs, pairs[:, ::-1]]).T
    return csr_matrix((numpy.concatenate([values, values]), (tails, heads)), shape=(count, count))


def roads_of(draw, count):
    """The places of crossings that are joined by roads, those of cities, and the roads as pairs of crossings."""
    places, cities, side = crossings_of(draw, count)
    pairs = gabriel(places)
    pairs = pairs[~over_rivers(draw, places, pairs, side)]
    tree = minimum_spanning_tree(matrix_of(lengths_of(places, pairs), pairs, len(places))).tocoo()
    in_tree = numpy.sort(numpy.stack([tree.row, tree.col], axis=1), axis=1) @ numpy.array([len(places), 1])
    pairs = pairs[numpy.isin(pairs @ numpy.array([len(places), 1]), in_tree) | (draw.random(len(pairs)) < KEPT)]
    component = connected_components(matrix_of(numpy.ones(len(pairs)), pairs, len(places)))[1]
    is_kept = component == numpy.bincount(component).argmax()
    return places[is_kept], cities, (numpy.cumsum(is_kept) - 1)[pairs[is_kept[pairs[:, 0]]]]


def speeds_of(draw, places, cities, pairs):
    """The speed on each road: shortest ways between neighbours of the greatest cities are fast."""
    speeds = numpy.where(draw.random(len(pairs)) < 0.12, SPEEDS[1], SPEEDS[0])
    number = matrix_of(numpy.arange(1, len(pairs) + 1), pairs, len(places))
    lengths = matrix_of(lengths_of(places, pairs), pairs, len(places))
    middles = [int(numpy.hypot(*(places - city).T).argmin()) for city in cities[:JOINED]]
    for middle in middles:
        distances, before = dijkstra(lengths, indices=middle, return_predecessors=True)
        for node in sorted(middles, key=distances.__getitem__)[1:5]:
            while node != middle:
                speeds[number[before[node], node] - 1] = SPEEDS[2]
                node = before[node]
    return speeds


def main():
    draw = numpy.random.Generator(numpy.random.PCG64(int(sys.argv[1])))
    places, cities, pairs = roads_of(draw, int(int(sys.argv[1]) / NODES_OF_A_CROSSING))
    speeds = speeds_of(draw, places, cities, pairs)
    times = lengths_of(places, pairs) * (0.95 + 0.3 * draw.random(len(pairs))) / speeds * 3600
    is_one_way = (draw.random(len(pairs)) < ONE_WAY) & (speeds == SPEEDS[0])
    cuts = draw.poisson(CUTS, len(pairs))
    road = numpy.repeat(numpy.arange(len(pairs)), cuts + 1)
    ends = numpy.cumsum(cuts + 1)
    heads = len(places) + numpy.arange(len(road)) - road
    tails = heads - 1
    tails[ends - cuts - 1], heads[ends - 1] = pairs.T
    weights = numpy.maximum(1, times[road] / (cuts + 1)[road]).astype(int)
    back = ~is_one_way[road]
    arcs = numpy.concatenate([numpy.stack([tails, heads, weights], axis=1), numpy.stack([heads, tails, weights], axis=1)[back]])
    arcs = arcs[numpy.lexsort((arcs[:, 1], arcs[:, 0]))] + (1, 1, 0)
    with open(sys.argv[2], "w") as file:
        print("p sp", len(places) + int(cuts.sum()), len(arcs), file=file)
        numpy.savetxt(file, arcs, "a %d %d %d")


if __name__ == "__main__":
    main()
