"""Prints the text that `chtab dist` owes for a graph and a list of queries, by Dijkstra's algorithm.

  python3 -m oracles.dijkstra GRAPH QUERIES

Run it in tests/, or with tests/ in PYTHONPATH.
"""
import heapq
import math
import sys
from collections import defaultdict

from oracles.reading import graph_of, queries_of


def arcs_ahead(arcs):
    """For each node the arcs from it: (to, weight)."""
    ahead = defaultdict(list)
    for start, end, weight in arcs:
        ahead[start].append((end, weight))
    return ahead


def least_costs(source, ahead):
    """The least cost (weight, number of arcs) of a walk from the source to each node that it reaches."""
    least, queue = {}, [(0, 0, source)]
    while queue:
        weight, count, node = heapq.heappop(queue)
        if node not in least:
            least[node] = (weight, count)
            for end, step in ahead[node]:
                if end not in least:
                    heapq.heappush(queue, (weight + step, count + 1, end))
    return least


def distances_from(source, ahead):
    """The least weight of a walk from the source to each node that it reaches."""
    return reached([(0, source)], lambda node: ahead[node])


def reached(begun, following, most=math.inf):
    """The least weights at which things are reached, up to a limit. `begun` has pairs (weight, thing), and a call gives (thing, weight) of those
    that follow on one. Arcs that follow on arcs, with their weights and those of turns, are searched as nodes are."""
    best, queue = {}, [*begun]
    heapq.heapify(queue)
    while queue:
        weight, here = heapq.heappop(queue)
        if weight <= most and here not in best:
            best[here] = weight
            for there, step in following(here):
                if there not in best:
                    heapq.heappush(queue, (weight + step, there))
    return best


def main():
    graph, queries = sys.argv[1:]
    nodes, arcs = graph_of(graph)
    ahead = arcs_ahead(arcs)
    for source, target in queries_of(queries, nodes):
        print("d", source, target, distances_from(source, ahead).get(target, "-"))


if __name__ == "__main__":
    main()
