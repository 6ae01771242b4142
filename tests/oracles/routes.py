"""Checks each route of a text that `chtab dist --routes` wrote for a graph, and prints how many it checked.

  python3 -m oracles.routes GRAPH TEXT

The arcs of a route are arcs of the graph, they join from the query's first node to its second, and their weights add up to the
distance. That the distance is the least is checked by oracles/dijkstra.py. Run it in tests/, or with tests/ in PYTHONPATH.
"""
import sys

from oracles.reading import graph_of


def check_route(arcs, start, end, weight, steps):
    """The lines `a` of a route, split into words, are a walk from start to end of this weight; `arcs` is the set of the graph's."""
    node = start
    for letter, *numbers in steps:
        assert letter == "a", letter
        arc = tuple(map(int, numbers))
        assert arc in arcs, f"no arc of the graph: {arc}"
        assert arc[0] == node, f"{arc} does not begin at {node}"
        node = arc[1]
        weight -= arc[2]
    assert node == end, f"the route ends at {node} and not at {end}"
    assert weight == 0, f"the weights are off by {weight}"


def checked(arcs, text):
    """The lines `d` of a text, once each of its routes was checked: (from, to, weight, number of arcs), the last two None for `-`."""
    lines = [line.split() for line in text.splitlines()]
    found, place = [], 0
    while place < len(lines):
        letter, start, end, weight = lines[place]
        assert letter == "d", lines[place]
        place += 1
        if weight == "-":
            found.append((int(start), int(end), None, None))
            continue
        letter, count = lines[place]
        assert letter == "r", lines[place]
        steps = lines[place + 1:place + 1 + int(count)]
        assert len(steps) == int(count), "a route is cut short"
        check_route(arcs, int(start), int(end), int(weight), steps)
        found.append((int(start), int(end), int(weight), int(count)))
        place += 1 + int(count)
    return found


def main():
    graph, text = sys.argv[1:]
    with open(text) as file:
        found = checked(set(graph_of(graph)[1]), file.read())
    print(sum(weight is not None for *_, weight, _ in found), "routes")


if __name__ == "__main__":
    main()
