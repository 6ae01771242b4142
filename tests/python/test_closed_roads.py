"""Tests roads that are closed at places, at crossings, and by the numbers of their ways in OpenStreetMap, against other searches on what is left."""
import os

import pytest

from helpers.columns import least_of
from helpers.commands import raises
from helpers.running import PROGRAM
from helpers.scenarios import after, by_nodes, each_way, grid_map, trips_between, trips_of, with_turns  # noqa: F401
from helpers.science import networkx, numpy
from oracles import dijkstra
import chtab
from chtab_server.osrm.nearby import find_facing

pytestmark = pytest.mark.usefixtures("each_way")


def ladder(seed):
    """Six nodes in a line, and between each two of them a straight road, one over the north and one over the south: arcs and lines."""
    draw, arcs, lines = numpy.random.default_rng(seed), [], []
    for place in range(5):
        start, end = (round(9.5 + 0.01 * place, 6), 47.1), (round(9.51 + 0.01 * place, 6), 47.1)
        for bend in None, 47.104, 47.096:
            arcs.append((place, place + 1, int(draw.integers(1, 60))))
            lines.append([start, *[(round(start[0] + 0.005, 6), bend)] * (bend is not None), end])
    return draw, arcs, lines


def of_ladder(arcs, lines, **more):
    return chtab.Network.from_arrays(*zip(*arcs), geometry=lines, **by_nodes(6), **more)


def in_both(arcs):
    return [arc for tail, head, weight in arcs for arc in ((tail, head, weight), (head, tail, weight))]


def on_line(line):
    """A place on the first piece of a line, at a third of it."""
    (x, y), (u, v) = line[:2]
    return x + (u - x) / 3, y + (v - y) / 3


@pytest.mark.parametrize("seed", range(6))
def test_roads_are_closed_at_places(seed):
    """Just the road at a place is closed, in both directions, and none that is parallel to it; against scipy on the roads that are left."""
    (draw, arcs, lines), is_both = ladder(seed), bool(seed % 2)
    nodes = range(6)
    with of_ladder(arcs, lines, both_ways=is_both) as network:
        before, rows = network.table(nodes, nodes), draw.choice(len(arcs), 4, replace=False).tolist()
        spots = network.snap(*zip(*(on_line(lines[row]) for row in rows)))
        left = [arc for row, arc in enumerate(arcs) if row not in rows]
        for closed in spots, [spots[0], *rows[1:3], spots[3:]], [spots]:
            with network.changed(closed=closed) as other:
                assert numpy.array_equal(other.table(nodes, nodes), least_of(6, in_both(left) if is_both else left)), rows
                assert other.labels.tolist() == [*nodes] and other.coordinates == network.coordinates
                routes = other.routes([(place, place + 1) for place in range(5)])
                for found, own in zip(routes.to_geojson()["features"], routes.rows()):
                    assert own is None or own[0] not in rows and found["geometry"]["coordinates"] == lines[own[0]], (rows, found)
        assert numpy.array_equal(network.table(nodes, nodes), before)


def test_a_crossing_is_closed():
    """A place less than a metre from a crossing closes all of its roads, and so does the node; a spot that one leaves in one direction closes that."""
    _, arcs, lines = ladder(3)
    arcs[0] = (0, 1, 1)
    with of_ladder(arcs, lines, both_ways=True) as network:
        for closed in network.snap(9.520005, 47.1), [(2,)]:
            with network.changed(closed=closed) as other:
                assert numpy.array_equal(other.table(range(6), range(6)), least_of(6, in_both([arc for arc in arcs if 2 not in arc[:2]])))
        facing = find_facing(network.roads, *on_line(lines[0]), 90, 30)
        assert after(network, [(0, 1), (1, 0)], closed=facing) == [min(weight for _, _, weight in arcs[1:3]), 1]


def test_spots_of_another_scenario_close_their_own_roads():
    """Roads have other numbers after a change: a spot closes the road on which it lies, and is refused where that is closed already."""
    _, arcs, lines = ladder(5)
    with of_ladder(arcs, lines) as network, network.changed(closed=[0]) as other:
        spots = network.snap(*zip(*(on_line(lines[each]) for each in (6, 14, 0))))
        with other.changed(closed=spots[:2]) as again, other.changed(closed=[6, 14]) as owed:
            assert numpy.array_equal(again.table(range(6), range(6)), owed.table(range(6), range(6)))
        for kept in spots[2], spots:
            fault = raises(chtab.DataFault, other.changed, None, [5, kept], told="lies on no road of this network")
            assert fault.row == 1 and "closed[1]" in str(fault)
        assert after(network, [(2, 3)], closed=network.snap(*on_line(lines[6]))) == [min(weight for _, _, weight in arcs[7:9])]
        assert [len(each) for each in spots] == [1, 1, 1] and len(spots[-1]) == 1
        raises(IndexError, lambda: spots[3])


def test_ways_of_maps_are_closed():
    """All arcs of a way are closed, of whichever copies of its crossings, and so are those of a road at a place or between two nodes; against Dijkstra's
    algorithm on the arcs that are left. What was changed keeps the numbers of ways."""
    turns = ((1, 2), 2, (2, 6), "no_left_turn"), ((2, 6), 6, (6, 7), "no_right_turn"), ((10, 11), 11, (7, 11), "only_right_turn")
    names, number = grid_map(4, turns, "grid")
    node, at = {name: place for place, name in reversed([*enumerate(names, 1)])}, {name: ((name - 1) % 4, (name - 1) // 4) for name in names}
    with chtab.Network.open("grid.gr", program=PROGRAM) as network:
        graph, every = network.graph, range(1, network.graph.nodes + 1)
        arcs, stops = list(zip(*(column.tolist() for column in graph[1:4]))), network.coordinates.ends()
        assert len(names) > 16 and 0 in graph.weights and stops

        def ends(arc):
            return names[arc[0] - 1], names[arc[1] - 1]

        def without(is_closed):
            ahead = dijkstra.arcs_ahead([arc for arc in arcs if not is_closed(*ends(arc))])
            rows = [dijkstra.distances_from(source, ahead) for source in every]
            return [[row.get(stops.get(target, target), -1) for target in every] for row in rows]

        before = network.table(every, every).tolist()
        assert before == without(lambda tail, head: False)
        for pair in number:
            (x, y), (u, v) = at[pair[0]], at[pair[1]]
            spots = network.snap((x + 0.4 * (u - x)) / 1_000, (y + 0.4 * (v - y)) / 1_000)
            for closed, is_closed in (
                ([f"way/{number[pair]}"], lambda *ends: sorted(ends) == [*pair]), (spots, lambda *ends: sorted(ends) == [*pair]),
                ([(node[pair[0]], node[pair[1]])], lambda *ends: ends == pair), ([(node[pair[1]],)], lambda *ends: pair[1] in ends and ends[0] != ends[1]),
            ):
                with network.changed(closed=closed) as other:
                    assert other.table(every, every).tolist() == without(is_closed), (pair, closed)
        with network.changed({"way/1": 7}, ["way/2"], [(node[13], node[16], 3)], folder="own") as other, other.changed(closed=["way/3"]) as again:
            arcs = [(*arc[:2], 7 if set(ends(arc)) == {1, 2} else arc[2]) for arc in arcs] + [(node[13], node[16], 3)]
            assert other.table(every, every).tolist() == without(lambda *ends: set(ends) == {2, 3}) and other.unit == network.unit == "milliseconds"
            assert again.table(every, every).tolist() == without(lambda *ends: set(ends) in ({2, 3}, {3, 4}))
            raises(chtab.DataFault, again.changed, None, ["way/2"], told="closed[0]: no arc is a part of way 2 of OpenStreetMap")
            # Added arcs, and those with which trips end, are parts of no way.
            for way in 0, -1, 2**70:
                raises(chtab.DataFault, other.changed, None, [0, f"way/{way}"], told="closed[1]: no ")
        assert network.table(every, every).tolist() == before
    with chtab.Network.open("own", program=PROGRAM) as network, network.changed(closed=["way/3"]) as again:
        assert again.table(every, every).tolist() == without(lambda *ends: set(ends) in ({2, 3}, {3, 4}))
    os.remove("grid.ways")
    with chtab.Network.open("grid.gr", program=PROGRAM) as network:
        raises(chtab.DataFault, network.changed, None, [0, "way/3"], told="closed[1]: nothing says which arcs are parts of way 3 of OpenStreetMap: `osm_to_gr.py`")


def test_roads_are_added_where_turns_are_restricted():
    """Whoever arrives at a crossing may go on by a new road, also where no other turn is open, and trips arrive by it; so in scenarios of scenarios."""
    names = with_turns()
    nodes = sorted(set(names))
    begin = {node: names.index(node) + 1 for node in nodes}
    with chtab.Network.open("turns.gr", program=PROGRAM) as network:
        arcs, coordinates = list(zip(*(column.tolist() for column in network.graph[1:4]))), network.coordinates
        ends = coordinates.ends()
        # By one road all that arrive at node 9 have to stay there.
        assert {names[end - 1] for end in ends.values()} == {5, 9} and len(names) > 12
        assert trips_between(network, names, nodes) == trips_of(arcs, names, nodes)
        for tail, head in (9, 1), (5, 7), (5, 5), (3, 9), (9, 5):
            copies = [number for number, name in enumerate(names, 1) if name == tail]
            wanted = trips_of([*arcs, *((copy, begin[head], 5) for copy in copies)], names, nodes)
            left = [arc for arc in arcs if (names[arc[0] - 1], names[arc[1] - 1]) != (tail, head) or tail == head]
            for source in {begin[tail], copies[-1]}:
                closed = [(begin[tail], begin[head])] if tail != head else [len(arcs)]
                with network.changed(added=[(source, begin[head], 5)]) as other, other.changed(closed=closed) as again:
                    assert trips_between(other, names, nodes) == wanted and trips_between(again, names, nodes) == trips_of(left, names, nodes), (tail, head)
                    # Where trips to the head end elsewhere, the last arc leads there.
                    rows = other.routes([(begin[tail], begin[head])]).rows()[0].tolist()
                    assert rows[:1] == [len(arcs)] and len(rows) == 1 + (begin[head] in ends) or tail == head, rows
            pair = begin[head], ends.get(begin[tail], begin[tail])
            assert head == tail or after(network, [pair], closed=[(begin[tail],)], added=[(begin[head], begin[tail], 5)]) == [5]


def test_ways_of_osmnx_are_closed():
    """Edges of a graph have the numbers of their ways, one or several each; those that lack one have none."""
    graph = networkx.MultiDiGraph()
    for tail, head, length, osmid in (1, 2, 5, 70), (1, 2, 7, [70, 71]), (1, 2, 11, 72), (2, 3, 1, [72, 71]), (3, 1, 2, 73):
        graph.add_edge(tail, head, length=length, osmid=osmid)
    more = {"unit": "metres", "program": PROGRAM}
    with chtab.Network.from_networkx(graph, "length", folder="own", **more) as network:
        for way, apart in {70: [11, 1], 71: [5, -1], 72: [5, -1], 73: [5, 1]}.items():
            assert after(network, [(1, 2), (2, 3)], closed=[f"way/{way}"]) == apart, way
        raises(chtab.DataFault, network.changed, None, ["way/7"], told="no arc is a part of way 7")
    with chtab.Network.open("own", program=PROGRAM) as network, network.changed({"way/73": 4}, ["way/70"], [(2, 1, 3)]) as other:
        assert other.distances([(1, 2), (2, 3), (3, 1), (2, 1)]).tolist() == [11, 1, 4, 3]
        assert after(other, [(1, 2), (2, 3), (2, 1)], closed=["way/71"]) == [11, -1, 3]
    graph.add_edge(3, 2, length=1)
    with chtab.Network.from_networkx(graph, "length", **more) as network:
        raises(chtab.DataFault, network.changed, None, ["way/70"], told="nothing says which arcs are parts of way 70")
