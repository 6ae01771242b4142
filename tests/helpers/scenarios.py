"""For the tests of networks that are made of others: both ways to make them, a small network, a map where turns are restricted, and right answers."""
import contextlib
import functools
import pathlib

import pytest

from helpers import maps
from helpers.running import PROGRAM
from helpers.science import numpy
from oracles import dijkstra
import chtab
from chtab import files

# Two parallel roads from an inn to a mill, a bridge from there to a school, and a way round.
ARCS = ["inn", "inn", "mill", "inn", "farm"], ["mill", "mill", "school", "farm", "school"], [2.0, 3.0, 1.5, 4.0, 4.5]
PLACES = {"nodes": ["farm", "inn", "mill", "school"], "x": [9.48, 9.50, 9.52, 9.54], "y": [47.09, 47.10, 47.11, 47.12]}


@pytest.fixture(params=["built", "customized"])
def each_way(request, monkeypatch):
    """Changed networks are built in the order of the one that was there, or their weights are customized where that can be done."""
    if request.param == "customized":
        changed = chtab.Network.changed

        @functools.wraps(changed)
        def customized(self, *given, **named):
            # An order with too many triangles, and a closed network, are left as they are.
            with contextlib.suppress(chtab.ChtabError):
                self.customizable()
            return changed(self, *given, **named)

        monkeypatch.setattr(chtab.Network, "changed", customized)
    return request.param


def of_roads(**more):
    return chtab.Network.from_arrays(*ARCS, **{"unit": "minutes", "program": PROGRAM, **PLACES, **more})


def by_nodes(count):
    """What arcs on a line of so many nodes, 0.01 degrees apart, take beside their columns."""
    return {"nodes": range(count), "x": 9.5 + 0.01 * numpy.arange(count), "y": [47.1] * count, "program": PROGRAM}


def grid_map(size, turns, name, *words):
    """The files of a square grid of so many roads, where turns (way in, node, way out, word) are forbidden; the numbers of its nodes by those of the map,
    and the ends of its ways."""
    nodes = {1 + size * y + x: (x, y) for y in range(size) for x in range(size)}
    ends = [(1 + size * y + x, 2 + size * y + x) for y in range(size) for x in range(size - 1)]
    ends += [(1 + size * y + x, 1 + size + size * y + x) for y in range(size - 1) for x in range(size)]
    number = {pair: place for place, pair in enumerate(ends, 1)}
    relations = [
        ([("way", number[one], "from"), ("node", via, "via"), ("way", number[other], "to")], {"type": "restriction", "restriction": word})
        for one, via, other, word in turns
    ]
    pathlib.Path(f"{name}.osm").write_text(maps.osm(nodes, [([*pair], maps.ROAD) for pair in ends], relations))
    maps.tool("osm_to_gr", "--quiet", "--turns", "--bends", *words, f"{name}.osm", name)
    return [int(name) for name in files.read_names(f"{name}.nodes").values()], number


def with_turns():
    """The files of a grid of roads where turns are restricted: of some roads one turn, and of one road all of them. The numbers of the map's nodes."""
    turns = ((4, 5), 5, (5, 8), "no_left_turn"), ((2, 5), 5, (5, 6), "only_right_turn"), ((8, 9), 9, (6, 9), "no_right_turn"), ((8, 9), 9, (8, 9), "no_u_turn")
    return grid_map(3, turns, "turns")[0]


def trips_of(arcs, names, nodes):
    """The weights of trips between all nodes of the map, from where they start to where they end, by Dijkstra's algorithm; -1 where none leads."""
    ahead, ends = dijkstra.arcs_ahead(arcs), files.read_coordinates("turns.co").ends()
    begins = [names.index(node) + 1 for node in nodes]
    rows = [dijkstra.distances_from(begin, ahead) for begin in begins]
    return [[row.get(ends.get(target, target), -1) for target in begins] for row in rows]


def trips_between(network, names, nodes):
    """The weights of trips between all nodes of the map in a network of it; `names` are those of its nodes."""
    places = (network.coordinates.of(names.index(node) + 1) for node in nodes)
    spots = network.snap(*zip(*places))
    return network.trip_table(spots, spots).tolist()


def after(network, pairs, **change):
    """The distances of pairs in a network that is made of another one, -1 where no path leads."""
    with network.changed(**change) as other:
        return other.distances(pairs, missing=-1).tolist()
