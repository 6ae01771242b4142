"""Prints the text that `chtab near` owes for a graph and lists, by Dijkstra's algorithm from each node.

  python3 -m oracles.nearest [--count K] [--within R] [--from] GRAPH SOURCES TARGETS
  python3 -m oracles.nearest [--count K] [--within R] [--from] --all GRAPH TARGETS

Run it in tests/, or with tests/ in PYTHONPATH.
"""
import argparse

from oracles.dijkstra import arcs_ahead, distances_from
from oracles.reading import graph_of, list_of


def near_text(weights, sources, targets, most=None, count=None):
    """For each source a line with the targets that it has a weight to of at most `most`, in order of the weight and then of the place in the
    list, and no more than `count` of them. `weights` has for each source the weights of the targets."""
    lines = []
    for source in sources:
        found = [(weights[source][target], place) for place, target in enumerate(targets) if target in weights[source]]
        first = sorted(pair for pair in found if most is None or pair[0] <= most)[:count]
        words = [word for weight, place in first for word in (targets[place], weight)]
        lines.append(" ".join(map(str, ("n", source, len(first), *words))))
    return "".join(f"{line}\n" for line in lines)


def main():
    given = argparse.ArgumentParser()
    given.add_argument("--count", type=int)
    given.add_argument("--within", type=int)
    given.add_argument("--from", action="store_true", dest="is_from")
    given.add_argument("--all", action="store_true", dest="has_all")
    given.add_argument("graph")
    given.add_argument("lists", nargs="+")
    given = given.parse_args()
    nodes, arcs = graph_of(given.graph)
    if given.is_from:
        arcs = [(end, start, weight) for start, end, weight in arcs]
    ahead = arcs_ahead(arcs)
    *sources, targets = [list_of("targets", path, nodes) for path in given.lists]
    sources = range(1, nodes + 1) if given.has_all else sources[0]
    weights = {source: distances_from(source, ahead) for source in sources}
    print(near_text(weights, sources, targets, given.within, given.count), end="")


if __name__ == "__main__":
    main()
