"""Tests networks that are made of others: other weights, closed roads and new ones, against scipy's distances on the changed arcs.

The network that was there answers as before, and labels, places and bends are the same in both.
"""
import json
import pathlib
import warnings

import pytest

from helpers.columns import least_of
from helpers.commands import raises, temporary
from helpers.running import PROGRAM, ROOT
from helpers.scenarios import ARCS, after, each_way, of_roads  # noqa: F401
from helpers.science import networkx, numpy, pandas
import chtab
from chtab import files

pytestmark = pytest.mark.usefixtures("each_way")
MINUTES = {"unit": "minutes", "program": PROGRAM}
METRES = {"unit": "metres", "program": PROGRAM}


def changed_at_random(draw, labels, rows, total):
    """A change, the rows that are left of so many, each with its arcs, and how many rows there are then."""
    change, rows = {}, dict(rows)
    if draw.random() < 0.6:
        new = draw.integers(1, 40, total)
        some = draw.choice(list(rows), min(3, len(rows)), replace=False).tolist() if rows and draw.random() < 0.6 else range(total)
        series = pandas.Series(new).iloc[draw.permutation(total)]
        in_part = {row: int(new[row]) for row in some} if draw.random() < 0.5 else series[series.index.isin(some)]
        change["weights"] = in_part if len(some) < total else [new, series][draw.integers(2)]
        rows |= {row: [(*arc[:2], int(new[row])) for arc in rows[row]] for row in set(some) & set(rows)}
    if draw.random() < 0.6 and rows:
        some = draw.choice(list(rows), min(4, len(rows)), replace=False).tolist()
        if draw.random() < 0.5:
            mask = pandas.Series(numpy.isin(numpy.arange(total), some))
            change["closed"] = [some, numpy.array(some), mask.to_numpy(), mask.iloc[draw.permutation(total)]][draw.integers(4)]
            rows = {row: own for row, own in rows.items() if row not in some}
        else:
            pair = rows[some[0]][0][:2]
            change["closed"] = [tuple(labels[[*pair]].tolist())]
            rows = {row: left for row, own in rows.items() if (left := [arc for arc in own if arc[:2] != pair])}
    if draw.random() < 0.6:
        more = [tuple(arc) for arc in numpy.column_stack([*draw.integers(0, len(labels), (2, 3)), draw.integers(1, 40, 3)]).tolist()]
        change["added"] = [(str(labels[tail]), str(labels[head]), weight) for tail, head, weight in more]
        rows, total = rows | {total + place: [arc] for place, arc in enumerate(more)}, total + 3
    return change, rows, total


@pytest.mark.parametrize("seed", range(12))
def test_random_changes_answer_as_scipy(seed):
    """Weights by row, by a dict and by a Series of all rows or of some; arcs closed by row, by mask and by pair; arcs added; shares of nodes that are
    ordered afresh; and changes of what was changed before."""
    draw, is_both = numpy.random.default_rng(seed), bool(seed % 2)
    count, total = int(draw.integers(5, 25)), int(draw.integers(5, 80))
    tails, heads, weights = (draw.integers(*ends, total).tolist() for ends in ((0, count), (0, count), (1, 40)))
    labels = numpy.array([f"node {number}" for number in range(count)])
    network = chtab.Network.from_arrays(labels[tails], labels[heads], weights, nodes=labels, both_ways=is_both, program=PROGRAM)
    rows = {row: [arc, *[(arc[1], arc[0], arc[2])] * is_both] for row, arc in enumerate(zip(tails, heads, weights))}
    for _ in range(3):
        before = network.table(labels, labels)
        change, rows, total = changed_at_random(draw, labels, rows, total)
        other = network.changed(**change, fresh=int(draw.choice([0, 5, 20, 60, 100])))
        assert numpy.array_equal(other.table(labels, labels), least_of(count, [arc for own in rows.values() for arc in own])), change
        assert numpy.array_equal(other.labels, network.labels) and numpy.array_equal(network.table(labels, labels), before), change
        pairs = labels[draw.integers(0, count, (10, 2))].tolist()
        assert [-1 if each.weight is None else each.weight for each in other.routes(pairs)] == other.distances(pairs).tolist()
        network.close()
        network = other
    network.close()


def test_an_arc_is_the_one_that_is_meant():
    """A row is one of several arcs between two nodes, a pair all of them, and a key one edge of a graph. An edge that leads both ways is one."""
    with of_roads() as network:
        for closed, wanted in ([0], 3), ([1], 2), ([0, 1], -1), ([("inn", "mill")], -1):
            assert after(network, [("inn", "mill")], closed=closed) == [wanted], closed
        assert network.routes([("inn", "school")]).edges() == [[("inn", "mill"), ("mill", "school")]]
        pairs = [("inn", "mill"), ("inn", "farm"), ("inn", "school")]
        assert after(network, pairs, weights={("inn", "mill"): 9, 3: 1.25}) == [9, 1.25, 5.75] and network.distances(pairs).tolist() == [2, 4, 3.5]
    graph = networkx.MultiDiGraph()
    graph.add_weighted_edges_from([(1, 2, 5), (1, 2, 7), (2, 3, 1)], "length")
    with chtab.Network.from_networkx(graph, "length", folder="own", **METRES) as network:
        assert after(network, [(1, 2)], closed=[(1, 2, 0)]) == [7] and after(network, [(1, 2)], closed=[(1, 2, 1)]) == [5]
        raises(chtab.DataFault, network.changed, None, [(1, 2, 5)], told="closed[0]: there is no arc (1, 2, 5)")
    with chtab.Network.open("own", program=PROGRAM) as network, network.changed({(1, 2, 0): 8.5}) as other:
        assert other.distances([(1, 3)]).tolist() == [8] and network.distances([(1, 3)]).tolist() == [6]
        assert network.routes([(1, 3), (3, 1), (2, 2)]).edges() == [[(1, 2, 0), (2, 3, 0)], None, []]
        assert other.routes([(1, 3)]).edges() == [[(1, 2, 1), (2, 3, 0)]] and all(edge in graph.edges for edge in other.routes([(1, 3)]).edges()[0])
    with chtab.Network.from_networkx(networkx.MultiGraph(graph), "length", **METRES) as network:
        for change in {"closed": [(1, 2, 0)]}, {"closed": [(2, 1, 0)]}, {"weights": {(1, 2, 0): 9}}, {"weights": {(2, 1, 0): 9}}:
            assert after(network, [(1, 2), (2, 1)], **change) == [7, 7], change


def test_added_edges_have_free_keys():
    """Keys are those that networkx gives, and name the added edge alone, also where edges were closed or added before."""
    graph = networkx.MultiDiGraph()
    for tail, head, key in (1, 2, 0), (2, 3, 1), (2, 3, "a"), (3, 1, 0):
        graph.add_edge(tail, head, key=key, length=10)
    added = [(1, 2, 5), (2, 3, 4), (1, 2, 3), (1, 3, 1), (3, 1, 2)]
    with chtab.Network.from_networkx(graph, "length", **METRES) as network, network.changed(added=added) as other:
        more = [(tail, head, graph.add_edge(tail, head, length=weight)) for tail, head, weight in added]
        assert other.routes([(1, 2), (2, 3), (1, 3), (3, 1)]).edges() == [[(1, 2, 2)], [(2, 3, 2)], [(1, 3, 0)], [(3, 1, 1)]]
        for edge in more:
            with other.changed({edge: 0.25}) as again:
                assert again.routes([edge[:2]])[0].weight == 0.25 and again.routes([edge[:2]]).edges() == [[edge]]
        with other.changed(closed=[(1, 2, 0), (3, 1, 0)]) as again:
            assert again.distances([(1, 2), (3, 1)]).tolist() == [3, 2] and after(again, [(1, 2), (3, 1)], closed=more) == [-1, -1]
        assert after(other, [(1, 2), (2, 3), (3, 1)], closed=more) == [10, 10, 10]


def test_new_weights_are_in_the_unit_of_those_that_were_given():
    """With a unit, with whole weights and with raw=True it is known what a number means; where weights were multiplied alone, new ones are refused."""
    graph = networkx.DiGraph()
    graph.add_weighted_edges_from([(1, 2, 5), (2, 3, 1.5)], "length")
    for more, unit, weight in (
        ({"unit": "metres"}, 1, 8.25), ({"unit": "kilometres"}, 1, 8.25), ({"raw": True}, 1_000, 8), ({"scale": 10, "unit": "steps"}, 1, 8.5),
        ({"scale": 1, "raw": True}, 1, 8), ({"unit": "milliseconds"}, 1, 8),
    ):
        with chtab.Network.from_networkx(graph, "length", program=PROGRAM, **more) as network:
            assert after(network, [(1, 2), (3, 1)], weights={(1, 2): weight}, added=[(3, 1, weight)]) == [weight, weight], more
            assert after(network, [(1, 3)], weights=[weight * 2, weight]) == [3 * weight] and network.distances([(1, 2)]).tolist() == [5 * unit], more
            if more.get("raw"):
                raises(chtab.DataFault, network.changed, {(1, 2): 8.5}, told="8.5 is not a whole number, as the weights of this network are")
    with pytest.warns(FutureWarning):
        network = chtab.Network.from_networkx(graph, "length", program=PROGRAM, folder="own")
    with network, warnings.catch_warnings():
        warnings.simplefilter("error")
        for change in {"weights": {(1, 2): 8}}, {"weights": [8, 8]}, {"added": [(1, 2, 8)]}, {"weights": {(1, 2): 8.5}, "closed": [0]}:
            fault = raises(chtab.DataFault, lambda: network.changed(**change), told="the network was made with scale=1000 and without a unit")
            assert "raw=True" in str(fault)
        assert after(network, [(1, 2), (2, 3)], closed=[(2, 3)]) == [5_000, -1]
    for more, weight in ({"raw": True}, 8_000), ({"scale": 1_000}, 8), ({"scale": 1_000, "unit": "metres"}, 8):
        with chtab.Network.open("own", program=PROGRAM, **more) as network:
            assert after(network, [(1, 2)], weights={(1, 2): weight}) == [weight]
    with pytest.warns(FutureWarning):
        network = chtab.Network.from_networkx(graph, "length", 1, program=PROGRAM)
    with network, network.changed({(1, 2): 8.25}) as other:
        assert other.distances([(1, 2)]).tolist() == [8] and 0.25 <= other.rounding <= 0.5


def test_labels_places_and_bends_stay():
    """A closed arc before others doesn't move their bends; a new road has its own; a folder keeps all of it. Neither needs the other's files."""
    def lines_of(network, *pairs):
        return [each["geometry"]["coordinates"] for each in network.routes(pairs).to_geojson()["features"]]

    bend, new = [(9.50, 47.10), (9.505, 47.13), (9.52, 47.11)], [(9.54, 47.12), (9.53, 47.15), (9.52, 47.11)]
    lines = [None, bend, None, None, [(9.48, 47.09), (9.51, 47.05), (9.54, 47.12)]]
    with temporary() as left:
        network = of_roads(geometry=lines)
        assert lines_of(network, ("inn", "mill")) == [[(9.50, 47.10), (9.52, 47.11)]]
        with network.changed(closed=[0], added=[("school", "mill", 3.0, new)], folder="changed") as other:
            assert other.labels.tolist() == network.labels.tolist() and other.coordinates == network.coordinates and other.unit == "minutes"
            network.close()
            assert lines_of(other, ("inn", "mill"), ("farm", "school"), ("school", "mill")) == [bend, lines[4], new]
            again = other.changed(closed=[1])
        # By the farm, the school and the new road.
        assert again.distances([("inn", "mill")], missing=-1).tolist() == [11.5] and again.coordinates.of(1) == (9.48, 47.09)
        again.close()
        assert left() == []
    with chtab.Network.open("changed", program=PROGRAM) as network:
        assert lines_of(network, ("farm", "school")) == [lines[4]] and network.distances([("inn", "mill"), ("school", "mill")]).tolist() == [3, 3]


def test_streets_of_a_map_are_closed_by_their_names():
    """All arcs of the streets with a name or a number are closed, and what is left goes on being called as it was."""
    files.write_graph("map.gr", 4, [(1, 2, 5), (2, 1, 5), (2, 3, 7), (3, 4, 1), (1, 4, 90)])
    streets = [files.Street("primary", "", "Bridge Street", "B1, 12"), files.Street("primary", "", "High Street", "12")]
    files.write_streets("map.names", files.Streets(streets, [1, 1, 2, 0, 0], "right"))
    with chtab.Network.open("map.gr", program=PROGRAM) as network:
        for closed, wanted in (["Bridge Street"], [90, -1, 7]), (["12"], [90, -1, -1]), (["B1"], [90, -1, 7]), (["High Street"], [90, 5, -1]), ([], [13, 5, 7]):
            assert after(network, [(1, 4), (1, 2), (2, 3)], closed=closed) == wanted, closed
        with network.changed({"High Street": 1}, [0], [(4, 1, 3)], folder="own") as other:
            assert other.distances([(2, 4), (4, 1), (2, 1)]).tolist() == [2, 3, 5]
            assert after(other, [(2, 3), (2, 1)], closed=["High Street"]) == [-1, 5]
        assert files.read_streets("own/network.names", 5) == files.Streets(streets, [1, 2, 0, 0, 0], "right")
        for word in "Nowhere", "", "Bridge":
            assert raises(chtab.DataFault, network.changed, None, [0, word], told="no street of the map is called").row == 1


@pytest.mark.parametrize("change, column, row, told", [
    ({"closed": [9]}, "closed", 0, "no row 9"), ({"closed": [-1]}, "closed", 0, "no row -1"), ({"closed": [0, ("inn", "x")]}, "closed", 1, "'x'"),
    ({"closed": [0, ("x",)]}, "closed", 1, "no node has the label 'x'"), ({"closed": [0, ("inn", "school")]}, "closed", 1, "there is no arc ('inn', 'school')"),
    ({"closed": [("inn", "mill", 0)]}, "closed", 0, "have none"), ({"closed": [True]}, "closed", 0, "True names no arc"),
    ({"closed": [()]}, "closed", 0, "names no arc"), ({"closed": "way/5"}, "closed", None, "['way/5'] is one way"),
    ({"closed": (0, 1)}, "closed", None, "[(0, 1)] is one arc, and [0, 1] are rows"), ({"closed": ("inn",)}, "closed", None, "[('inn',)] is one arc"),
    ({"closed": ["inn"]}, "closed", 0, "'inn' names no arc, as streets have no names here"),
    ({"closed": [0, "way/5"]}, "closed", 1, "nothing says which arcs are parts of way 5"),
    ({"closed": [("inn", "mill"), ("inn", "x"), 9]}, "closed", 1, "'x'"), ({"closed": [0, 5, ("x", "inn")]}, "closed", 1, "no row 5"),
    ({"weights": {1: 3, 0: 2.0**60}}, "weights", 1, "too large"), ({"weights": [1, 2]}, "weights", None, "there are 5 rows"), ({"weights": [1, 2, 3, 4, -5]}, "weights", 4, "below 0"),
    ({"weights": {0: 2.5, 1: numpy.nan}}, "weights", 1, "nan is no weight"), ({"weights": {"inn": 3}}, "weights", 0, "names no arc"),
    ({"added": [("inn", "x", 3)]}, "added target", 0, "no node has the label 'x'"), ({"added": [("inn", "mill")]}, "added", None, "rows of"),
    ({"added": [("inn", "mill", -1)]}, "added weight", 0, "below 0"),
])
def test_what_is_refused_is_named(change, column, row, told):
    """Rows, arcs and weights that are not there, each by its place; then nothing is left behind."""
    with temporary() as left, of_roads() as network:
        own, fault = left(), raises(chtab.DataFault, lambda: network.changed(**change), told=told)
        assert (fault.column, fault.row) == (column, row), (fault, fault.column, fault.row)
        assert left() == own and network.distances([("inn", "mill")]).tolist() == [2.0]


def test_columns_of_frames_go_by_their_index():
    """A Series is put in the order of the rows that its index has, and one with other labels is refused, because nothing says which rows these are."""
    minutes, is_closed = pandas.Series([5.0, 1.0, 4.0, 3.0, 2.0]), pandas.Series([True, False, False, True, False])
    more = pandas.DataFrame({"source": ["school"], "target": ["inn"], "weight": [0.5]})
    with of_roads() as network:
        for column in minutes.sort_values(), minutes.to_list(), minutes.set_axis([0.0, 1.0, 2.0, 3.0, 4.0]):
            assert after(network, [("inn", "mill"), ("mill", "school"), ("inn", "farm")], weights=column) == [1, 4, 3]
        for mask in is_closed.sort_values(), is_closed.to_numpy(), is_closed.astype("boolean"), is_closed.astype(object).sort_values():
            assert after(network, [("inn", "mill"), ("inn", "farm")], closed=mask) == [3, -1]
        assert after(network, [("inn", "mill"), ("school", "inn")], weights=minutes.iloc[[1]], added=more) == [1, 0.5]
        for index, told in (
            (list("abcde"), "weights[0]: 'a' names no arc"), ([1, 2, 3, 4, 5], "weights[4]: there is no row 5"),
            ([0, 1, 2, 3, 3], "weights[4]: the label 3 is in the index already"),
        ):
            raises(chtab.DataFault, network.changed, minutes.set_axis(index), told=told)
        # Truths as files have them are no rows.
        for flags in is_closed.astype(int), is_closed.astype(int).to_numpy(), [1, 0, 0, 1, 0]:
            raises(chtab.DataFault, network.changed, None, flags, told="closed has 0 or 1 for each row")
        raises(chtab.DataFault, network.changed, None, is_closed.iloc[:3], told="closed has the shape (3,)")
        raises(chtab.DataFault, network.changed, None, None, more.rename(columns={"weight": "minutes"}), told="no column 'weight'")


ROAD_PARTS = pandas.MultiIndex.from_tuples([("a", 1), ("a", 2), ("b", 1), ("b", 2), ("c", 1)], names=["road", "part"])


@pytest.mark.parametrize("labels", [[1, 2, 3, 4, 5], [9, 2, 40, 0, 3], list("abcde"), ROAD_PARTS, numpy.arange(5) * 2**40])
def test_rows_are_those_of_the_frame_also_where_it_was_filtered(labels):
    """Labels from 1 on, labels with gaps, and names: columns of the frame, of parts of it and in another order change the same rows, also in a network
    of a folder and in a scenario. A number that is a row and the label of another one is refused."""
    draw, index = numpy.random.default_rng(2), pandas.Index(labels)
    frame = pandas.DataFrame(dict(zip("abt", ARCS)) | {"metres": [1.0, 2, 4, 8, 16]}, index=index)
    new, pairs = pandas.Series([5.0, 1.5, 4.0, 3.5, 2.5], index), [("mill", "school"), ("inn", "farm"), ("farm", "school")]
    made = [chtab.Network.from_frame(frame, "a", "b", "t", folder="own", **MINUTES), chtab.Network.from_arrays(frame["a"], frame["b"], frame["t"], **MINUTES)]
    made += [chtab.Network.open("own", program=PROGRAM), added := made[0].changed(added=[("school", "inn", 9)])]
    for network in made:
        for some in [0, 1, 2, 3, 4], draw.permutation(5), [1], draw.permutation(5)[:3], []:
            weights = numpy.array(ARCS[2])
            weights[some] = new.to_numpy()[some]
            assert after(network, [("inn", "mill"), *pairs], weights=new.iloc[some]) == [min(weights[:2]), *weights[2:]], some
            is_closed = pandas.Series(numpy.isin(numpy.arange(5), some), index)
            for closed in is_closed, is_closed.iloc[draw.permutation(5)], index[some]:
                with network.changed(closed=closed) as other:
                    assert [each.weight or -1 for each in other.routes(pairs)] == [-1 if row in some else ARCS[2][row] for row in (2, 3, 4)], some
        metres = numpy.append(frame["metres"], 0) if network is added else frame["metres"].iloc[draw.permutation(5)]
        assert network.along(metres, [("inn", "school"), ("inn", "farm")]).tolist() == [5, 8]
        raises(chtab.DataFault, network.changed, new.set_axis([11, 12, 13, 14, 15]), told="weights[0]: no row of the frame is called 11")
        raises(chtab.DataFault, network.changed, None, pandas.Index([77]), told="closed[0]: no row of the frame is called 77")
        for closed in ([3], numpy.array([3]), pandas.Series([3])) if index[0] in (1, 9) else ():
            raises(chtab.DataFault, network.changed, None, closed, told="3 is the number of a row, and what another one is called: frame.index[[3]]")
            raises(chtab.DataFault, network.changed, {3: 1.0}, told="weights[0]: 3 is the number of a row")
        assert after(network, [("inn", "mill")], closed=frame.index[network.routes([("inn", "mill")]).rows()[0]]) == [3]
    for network in made:
        network.close()


def test_rows_whose_labels_say_too_little_are_refused():
    """Labels that several rows have name these in the order of the frame alone; dates are not kept; nor are those of a folder of version 1.1."""
    frame = pandas.DataFrame(dict(zip("abt", ARCS)), index=[7, 7, 7, 9, 9])
    with chtab.Network.from_frame(frame, "a", "b", "t", **MINUTES) as network:
        assert after(network, [("inn", "mill"), ("farm", "school")], weights=frame["t"] * 2) == [4, 9]
        for change in {"weights": frame["t"].iloc[[0]]}, {"closed": frame.index[:1]}, {"closed": (frame["t"] > 2).sort_values(ascending=False)}:
            raises(chtab.DataFault, lambda: network.changed(**change), told="3 rows of the frame are called 7")
    days = frame.set_axis(pandas.date_range("2024-05-01", periods=5))
    with chtab.Network.from_frame(days, "a", "b", "t", folder="own", **MINUTES) as network:
        raises(chtab.DataFault, network.changed, days["t"], told="names no arc")
        raises(chtab.DataFault, network.changed, frame["t"].reset_index(drop=True), told="nothing says which row is called 0")
        assert after(network, [("inn", "mill")], weights=days["t"].to_numpy() * 2) == [4] and after(network, [("inn", "mill")], weights={0: 9}, closed=[1]) == [9]
    path = pathlib.Path("own/network.json")
    path.write_text(json.dumps({name: value for name, value in json.loads(path.read_text()).items() if name in ("labels", "scale", "rounding", "graph", "unit")}))
    with chtab.Network.open("own", program=PROGRAM) as network:
        raises(chtab.DataFault, network.changed, frame["t"].set_axis([1, 2, 3, 4, 5]).iloc[[1]], told="nothing says which row is called 2")


@pytest.mark.parametrize("kind", [networkx.MultiDiGraph, networkx.MultiGraph])
def test_edges_of_a_graph_go_by_their_index(kind):
    """A Series with the edges of a graph as its index, in any order and also after edges were closed, in weights, masks and sums along routes."""
    graph = kind()
    graph.add_weighted_edges_from([(1, 2, 5), (1, 2, 7), (2, 3, 1), (4, 3, 2), (4, 2, 30)], "length")
    edges = pandas.Series({tuple(edge): length for *edge, length in graph.edges(keys=True, data="length")})
    with chtab.Network.from_networkx(graph, "length", **METRES) as network, network.changed(closed=[(1, 2, 0)]) as other:
        for order in numpy.arange(5), numpy.random.default_rng(3).permutation(5):
            own = edges.iloc[order]
            assert after(network, [(1, 3), (4, 3)], weights=own * 2) == [12, 4] and network.along(own, [(1, 3), (4, 3)]).tolist() == [6, 2]
            assert after(network, [(1, 2), (4, 2), (4, 3), (2, 3)], closed=own < 6) == [7, 30, -1, -1]
        assert other.along(edges, [(1, 3)]).tolist() == [8]
        raises(chtab.DataFault, other.along, edges.iloc[::-1], [(1, 3)], told="there is no arc (1, 2, 0)")


def test_sums_along_routes_are_of_the_arcs_that_routes_take():
    """A second column is summed over the arcs of least weight, of equal ones the first; routes name their rows, also after arcs were closed."""
    arcs = pandas.DataFrame({"a": [1, 1, 1, 2, 2], "b": [2, 2, 2, 3, 3], "minutes": [7, 5, 5, 3, 3.5], "metres": [1.5, 10, 20, 100, 1000], "toll": [1, 2, 4, 8, 16]})
    pairs, nan = [(1, 3), (3, 1), (2, 2), (1, 4)], float("nan")
    with chtab.Network.from_frame(arcs, "a", "b", "minutes", nodes=[1, 2, 3, 4], both_ways=True, **MINUTES) as network:
        assert numpy.array_equal(network.along(arcs["metres"], pairs), [110, 110, 0, nan], equal_nan=True)
        assert network.along(arcs.sort_values("toll", ascending=False)["metres"], [(1, 3)]).tolist() == [110]
        assert network.along(arcs[["metres", "toll"]].to_numpy(), [1, 2], [3, 3]).tolist() == [[110, 10], [100, 8]]
        # Whole numbers are added up by the library, others here, and both come out the same.
        for tolls in arcs["toll"], arcs["toll"].astype(numpy.uint8), arcs["toll"].astype(float), arcs["toll"] + 2**60 - 2**60:
            assert numpy.array_equal(found := network.along(tolls, pairs), [10, 10, 0, nan], equal_nan=True) and found.dtype == numpy.float64
        assert network.along(arcs["toll"] + 2**60, [(1, 3)]).tolist() == [2.0**61]
        assert network.along(-arcs["toll"], [(1, 3)]).tolist() == [-10] and network.along(arcs["toll"], []).tolist() == []
        assert [None if each is None else each.tolist() for each in network.routes([(1, 3), (1, 4), (3, 1), (1, 1)]).rows()] == [[1, 3], None, [3, 1], []]
        with network.changed(closed=[1], added=[(1, 4, 2.0)]) as other:
            assert other.along([*arcs["metres"], 7], [(1, 3), (1, 4)]).tolist() == [120, 7] and other.along([*arcs["toll"], 7], [(1, 3), (1, 4)]).tolist() == [12, 7]
            assert [each.tolist() for each in other.routes([(1, 3), (1, 4)]).rows()] == [[2, 3], [5]]
            for values in arcs["toll"], arcs["metres"]:
                raises(chtab.DataFault, other.along, values, [(1, 3)], told="values has 5 rows, and there are 6 rows of arcs")
    with chtab.Network.open(ROOT / "examples" / "first.gr", program=PROGRAM) as network:
        assert network.along([0.25, 0.5], [(1, 3), (2, 3), (3, 1)], None).tolist()[:2] == [0.75, 0.5]
