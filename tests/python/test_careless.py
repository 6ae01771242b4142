"""Tests calls that a careless reader of the pages makes: each is answered as it is meant, or refused with what to do instead; none is wrong in
silence.
"""
import itertools
import os
import pathlib
import pickle
import shutil
import signal
import subprocess
import time

import pytest

from helpers.commands import needs, raises, temporary
from helpers.maps import COUNTRY, ROAD, osm
from helpers.packages import PYTHON
from helpers.running import PROGRAM, ROOT
from helpers.waiting import until
import chtab
from chtab import files

pytestmark = needs("python3-numpy", "python3-scipy", "python3-pandas")
GRAPH, FIRST = f"{COUNTRY}.gr", ROOT / "examples" / "first.gr"
VADUZ, SCHAAN, RUGGELL, MALBUN = (9.5209, 47.1410), (9.5101, 47.1558), (9.5280, 47.2390), (9.6079, 47.1020)
# Roads with a weight, a climb, and whether they lead both ways.
ENDS, TIMES, TWO_WAY = (["x", "y"], ["y", "z"]), [1.0, 2.0], [True, False]


def of_country(**more):
    return chtab.Network.open(GRAPH, unit="minutes", program=PROGRAM, **more)


def of_frame(frame, **more):
    return chtab.Network.from_frame(frame, "a", "b", "t", **{"unit": "minutes", "program": PROGRAM, **more})


def frame_of(**more):
    import pandas

    return pandas.DataFrame({"a": ENDS[0], "b": ENDS[1], "t": TIMES, **more})


def test_spots_are_found_anew_in_a_scenario():
    """Trips, tables, routes, reach and polygons of a scenario are those of spots that it finds by itself: with other weights, a closed road, and a new one."""
    import numpy

    draw = numpy.random.default_rng(3)
    with of_country() as network:
        ends = network.labels[draw.integers(0, network.nodes, 24)]
        x, y = (numpy.array([network.coordinates.of(node)[axis] for node in ends]) + draw.normal(0, 1e-3, 24) for axis in (0, 1))
        spots = network.snap(x, y)
        peak = network.changed(weights=numpy.asarray(network.graph.weights) / 60_000 * draw.uniform(1, 3, len(network.graph.weights)))
        closed = network.changed(closed=[*spots[:3]])
        longer = network.changed(added=[(int(ends[0]), int(ends[1]), 0.5), (int(ends[1]), int(ends[0]), 0.5)])
        for other in peak, closed, longer, closed.changed(closed=other_road(closed, spots)):
            own = other.snap(x, y)
            assert numpy.array_equal(other.trips(spots[:12], spots[12:]), other.trips(own[:12], own[12:]), equal_nan=True)
            assert numpy.array_equal(other.trip_table(spots, spots[:5]), other.trip_table(own, own[:5]), equal_nan=True)
            assert other.trip_routes(spots[:5], spots[5:10]) == other.trip_routes(own[:5], own[5:10])
            assert numpy.array_equal(other.reach(spots[0], 9), other.reach(own[0], 9), equal_nan=True)
            assert not numpy.array_equal(network.trip_table(spots, spots), other.trip_table(spots, spots))
            other.close()
    with of_country() as first, of_country() as again:
        # The same files twice are one network.
        spots = first.snap(*zip(VADUZ, MALBUN))
        assert again.trips(spots[:1], spots[1:]) == first.trips(spots[:1], spots[1:]) == pickle.loads(pickle.dumps(first)).trips(spots[:1], spots[1:])


def other_road(network, spots):
    """A spot on a road that a scenario has, too."""
    [place] = [place for place in range(3, len(spots)) if network.roads.same_points(spots[place])[1].all()][:1]
    return spots[place:place + 1]


def test_a_trip_from_a_closed_road_starts_on_the_nearest_open_one():
    with of_country() as network:
        x, y = zip(VADUZ, SCHAAN)
        spots = network.snap(x, y)
        with network.changed(closed=spots[1:]) as closed:
            own = closed.snap(x, y)
            assert closed.trips(spots[:1], spots[1:]) == closed.trips(own[:1], own[1:]) > network.trips(spots[:1], spots[1:])
            # A road that is closed already is not closed again, nor is the nearest other one.
            raises(chtab.DataFault, lambda: closed.changed(closed=spots[1:]), told="lies on no road of this network")
        near = network.snap(x, y, max_metres=float(spots.metres.max()) + 0.01)
        with network.changed(closed=near[1:]) as closed:
            assert {*raises(chtab.TooFar, closed.trips, near[:1], near[1:]).places} == {0}


def test_spots_of_another_map_are_refused():
    with of_country() as network:
        spots = network.snap(*zip(VADUZ, MALBUN))
        places = {"nodes": ["a", "b"], "x": [9.52, 9.53], "y": [47.14, 47.15], "unit": "minutes", "program": PROGRAM}
        with chtab.Network.from_arrays(["a"], ["b"], [2.0], both_ways=True, **places) as other:
            for call in (
                lambda: other.trips(spots[:1], spots[1:]), lambda: other.trip_table(spots, spots), lambda: other.trip_routes(spots, spots),
                lambda: other.reach(spots[0]), lambda: other.changed(closed=spots),
            ):
                raises(chtab.DataFault, call, told="`snap` of this one gives its own")
        for call in network.trips, network.trip_table, network.trip_routes:
            assert "as `snap` gives them" in str(raises(TypeError, call, [1], [2]))


def test_lengths_are_compared():
    """One start and several ends are no trips: nothing is answered by what fits only one of them."""
    with of_country() as network:
        spots = network.snap(*zip(VADUZ, MALBUN, RUGGELL))
        for starts, ends in (spots[:1], spots), (spots, spots[:1]), (spots[:0], spots[:1]):
            for call in network.trips, network.trip_routes:
                raises(ValueError, call, starts, ends, told="`trip_table` has all pairs")
        assert network.trips(spots[:0], spots[:0]).shape == (0,) and len(network.trip_routes(spots[:0], spots[:0])) == 0
        for call in network.distances, network.routes, lambda *ends: network.along([1] * len(network.graph.tails), *ends):
            raises(ValueError, call, [1], [2, 3], told="`table` has all pairs")
            raises(ValueError, call, [1, 2], [3], told="2 sources and 1 targets")


def test_columns_of_pandas_go_by_their_index():
    """Those that differ in order alone are put in one order; others are refused, and `to_numpy()` gives values in their order."""
    import pandas

    frame = pandas.DataFrame({"node": [1, 500, 9], "jobs": [100, 1, 7], "x": [9.52, 9.51, 9.53], "y": [47.14, 47.15, 47.24]}, index=[5, 3, 8])
    with of_country() as network:
        owed = network.accessibility(frame.jobs.to_numpy(), 1, sources=[1], targets=frame.node.to_numpy()).tolist()
        assert owed == [100] and network.accessibility(frame.jobs.sort_values(), 1, sources=[1], targets=frame.node).tolist() == owed
        assert network.accessibility(frame[["jobs"]].sort_values("jobs"), 1, sources=[1], targets=frame.node).values.tolist() == [owed]
        assert network.distances(frame.node, frame.node.sort_index()).tolist() == [0, 0, 0]
        owed = [column.tolist() for column in network.nearest_nodes(frame.x.to_numpy(), frame.y.to_numpy(), None)]
        assert [column.tolist() for column in network.nearest_nodes(frame.x, frame.y.sort_values(), None)] == owed
        spots = network.snap(frame.x.to_numpy(), frame.y.to_numpy(), None)
        assert network.snap(frame.x, frame.y.sort_values(), None).longitudes.tolist() == spots.longitudes.tolist()
        other = frame.set_axis([1, 2, 3])
        for call in (
            lambda: network.distances(frame.node, other.node), lambda: network.routes(frame.node, other.node), lambda: network.snap(frame.x, other.y),
            lambda: network.nearest_nodes(frame.x, other.y), lambda: network.accessibility(frame.jobs, 1, targets=other.node),
            lambda: chtab.Network.from_arrays(frame.node, other.node, frame.jobs),
            lambda: chtab.Network.from_arrays(frame.node, frame.node, other.jobs),
        ):
            raises(chtab.DataFault, call, told="`to_numpy()`")
    places = pandas.DataFrame({"x": [9.5, 9.6, 9.7], "y": [47.0, 47.1, 47.2]}, index=["x", "y", "z"])
    given = {"unit": "minutes", "program": PROGRAM}
    for nodes, x, y in (places.index, places.x.sort_values(ascending=False), places.y), (places.index.to_series(), places.x, places.y.iloc[::-1]):
        with chtab.Network.from_arrays(*ENDS, TIMES, nodes=nodes, x=x, y=y, **given) as network:
            assert network.coordinates.of(network.labels.tolist().index("z") + 1) == (9.7, 47.2)
    columns = frame_of().iloc[::-1]
    with chtab.Network.from_arrays(frame_of().a, columns.b, columns.t, **given) as network:
        assert network.table(["x"], ["y", "z"]).tolist() == [[1, 3]]


def test_values_called_as_nodes_go_with_these():
    """By the labels of a list of nodes. Other labels are refused, and numbers that may be those of rows."""
    import numpy
    import pandas

    jobs, order = pandas.Series([100, 1, 7], ["z", "x", "y"]), ["x", "y", "z"]
    with of_frame(frame_of()) as network:
        for targets in order, numpy.array(order), pandas.Index(order):
            assert network.accessibility(jobs, 0, targets=targets).tolist() == [1, 7, 100]
            assert network.accessibility(jobs.to_frame(), 0, targets=targets)[0].tolist() == [1, 7, 100]
        for other in jobs.set_axis(["z", "x", "w"]), jobs.set_axis(["z", "x", "x"]):
            raises(chtab.DataFault, lambda: network.accessibility(other, 0, targets=order), told="`to_numpy()`")
        assert network.accessibility(jobs.set_axis(["r", "s", "t"]), 0, targets=order).tolist() == jobs.tolist()
    with chtab.Network.from_arrays([0, 1], [1, 2], [1, 1], program=PROGRAM) as network:
        assert network.accessibility(pandas.Series([5, 6]), 0, targets=[2, 1]).tolist() == [0, 6, 5]
        assert network.accessibility(pandas.Series([5, 6], [2, 1]), 0, targets=[1, 2]).tolist() == [0, 6, 5]
        raises(chtab.DataFault, lambda: network.accessibility(jobs.set_axis([0, 1, 2]), 0, targets=[2, 0, 1]), told="`to_numpy()`")


def test_demands_go_with_their_trips():
    import pandas

    trips = pandas.DataFrame({"a": ["x", "y"], "b": ["z", "z"], "persons": [4, 1]})
    with of_frame(frame_of()) as network:
        for call in network.flows, lambda *given: network.assign(*given, capacity=10, scale=1).flows:
            assert call(trips.a, trips.b, trips.persons.sort_values()).tolist() == [4, 5]
            assert call(trips.a, trips.b.iloc[::-1], trips.persons.to_numpy()).tolist() == [4, 5]
            raises(chtab.DataFault, call, trips.a, trips.b, trips.persons.set_axis([5, 6]), told="`to_numpy()`")


def test_durations_keep_their_units():
    """Arrays of nanoseconds are no numbers, numbers among durations no nanoseconds, and none is too long for these."""
    import datetime
    import numpy

    short, minutes = datetime.timedelta(minutes=1), numpy.array([60, 180], "m8[s]").astype("m8[ns]")
    with of_frame(frame_of()) as network:
        assert network.accessibility(1, minutes, sources=["x"]).tolist() == [[2, 3]] == network.accessibility(1, [*minutes], sources=["x"]).tolist()
    for weights, told in (
        ([short, 5], "weights[1]: 5 is no duration"), ([short, datetime.timedelta(days=450_000)], "weights[1]: numpy.timedelta64("),
        (numpy.array([1, 450_000], "m8[D]"), "weights[1]: numpy.timedelta64(450000,'D') is too long"), (numpy.array([1, 2], "m8"), "weights[0]: numpy.timedelta64(1) has no unit"),
    ):
        raises(chtab.DataFault, lambda: chtab.Network.from_arrays(*ENDS, weights, program=PROGRAM), told=told)


def test_a_crossing_is_one_node_in_all_calls():
    """Where turns are restricted, trips to a crossing end at another node than they start from. Callers name the one, and rows have no copies."""
    import numpy

    from chtab_maps import converting, parts

    write_cross()
    with chtab.Network.open("cross.gr", unit="minutes", program=PROGRAM) as network:
        graph, coordinates = network.graph, network.coordinates
        [[node, end]] = coordinates.ends().items()
        copies = {*coordinates.copies()}
        plain = [label for label in network.labels.tolist() if label not in copies]
        assert network.crossings.tolist() == plain and len(plain) < network.nodes
        owed = numpy.array(network.table(plain, [end if label == node else label for label in plain]))
        assert numpy.isfinite(owed).all() and numpy.array_equal(network.table(plain, plain), owed)
        at = plain.index(node)
        others = [label for label in plain if label != node]
        assert network.distances([(label, node) for label in plain]).tolist() == owed[:, at].tolist()
        assert network.distances(plain * 3, [node] * 3 * len(plain)).tolist() == owed[:, at].tolist() * 3
        route = network.routes([(others[0], node)])
        assert (route[0].source, route[0].target, route[0].weight) == (others[0], node, owed[plain.index(others[0]), at])
        assert route.to_frame().target.tolist() == [node]
        assert numpy.allclose(network.along(numpy.asarray(graph.weights) / 60_000, [(others[0], node)]), owed[plain.index(others[0]), at])
        near = network.nearest_targets(None, [node])
        assert near.sources.tolist() == plain and near.weights[:, 0].tolist() == owed[:, at].tolist()
        assert network.nearest_targets(None, [node], direction="from").weights[:, 0].tolist() == owed[at].tolist()
        assert network.nearest_targets([node], others, direction="from").weights[0, 0] == min(owed[plain.index(label), at] for label in others)
        assert len(network.near(None, plain).sources) == len(plain) and network.near(None, plain).weights.size == len(plain) ** 2
        within = float(numpy.median(owed))
        assert network.accessibility(1, within).tolist() == (owed <= within).sum(axis=1).tolist()
        assert network.accessibility(1, within, direction="from").tolist() == (owed.T <= within).sum(axis=1).tolist()
        assert network.accessibility({node: 2}, within).tolist() == (2 * (owed[:, at] <= within)).tolist()
        assert raises(chtab.DataFault, network.accessibility, [1] * network.nodes, 5).column == "values"
        spot = network.snap(*coordinates.of(others[0]))
        assert network.reach(spot).tolist() == owed[plain.index(others[0])].tolist()
        assert parts and converting


def write_cross():
    """A cross of four roads, of which one turn is forbidden, and its longer way around, as files of a map."""
    from chtab_maps import converting

    nodes = {1: (0, 0), 2: (0, 1), 3: (1, 0), 4: (0, -1), 5: (-1, 0)}
    ways = [([2, 1], ROAD), ([1, 3], ROAD), ([4, 1], ROAD), ([1, 5], ROAD), ([3, 2], ROAD), ([3, 4], ROAD), ([5, 2], ROAD), ([5, 4], ROAD)]
    relations = [([("way", 1, "from"), ("node", 1, "via"), ("way", 2, "to")], {"type": "restriction", "restriction": "no_left_turn"})]
    pathlib.Path("cross.osm").write_text(osm(nodes, ways, relations))
    subprocess.run([PYTHON, ROOT / "tools" / "osm_to_gr.py", "--turns", "--part", "all", "cross.osm", "cross"], check=True, capture_output=True)
    assert converting


def test_rows_that_lead_both_ways():
    """All, none, or those of a column, by its name or by its values; nothing else is taken for a truth."""
    import numpy
    import pandas

    frame = frame_of(two_way=TWO_WAY)
    for both_ways in "two_way", TWO_WAY, numpy.array(TWO_WAY), frame.two_way, frame.two_way.iloc[::-1], numpy.array(TWO_WAY, object):
        with of_frame(frame, both_ways=both_ways) as network:
            assert str(network.table(["y", "z"], ["x", "y"]).tolist()) == "[[1.0, 0.0], [nan, nan]]", both_ways
            # A row that leads both ways is both arcs, and one that doesn't is one.
            assert network.along([5, 7], [("y", "x"), ("x", "z")]).tolist() == [5, 12]
            with network.changed(closed=[0]) as closed:
                assert str(closed.table(["x", "y"], ["y", "x"]).tolist()) == "[[nan, 0.0], [0.0, nan]]"
    for both_ways, there in (True, 1.0), (False, float("nan")), (numpy.True_, 1.0):
        with of_frame(frame, both_ways=both_ways) as network:
            assert numpy.array_equal(network.table(["y"], ["x"]), [[there]], equal_nan=True)
    for both_ways, told in ("none", "the frame has no column 'none'"), ("t", "1.0"), ([1, 0], "1"), ([True], "1 rows"), ([None, True], "None"), (2, "2"):
        raises((chtab.DataFault, ValueError), lambda: of_frame(frame, both_ways=both_ways), told=told)
    raises(chtab.DataFault, lambda: chtab.Network.from_arrays(*ENDS, TIMES, unit="minutes", both_ways="two_way", program=PROGRAM), told="True, False")
    for raw in "false", 1, None, []:
        raises(TypeError, lambda: of_frame(frame, raw=raw), told="raw is True or False")
        raises(TypeError, lambda: chtab.Network.open(FIRST, raw=raw, program=PROGRAM), told="raw is True or False")
    assert pandas.Series(TWO_WAY).equals(frame.two_way)


def test_arrays_that_are_handed_out_are_read_only():
    """Nothing that a caller writes changes what is answered later."""
    import numpy

    with of_country() as network:
        spots = network.snap(*zip(VADUZ, MALBUN))
        columns = [*network.graph[1:4], *network.coordinates[:2], network.labels, network.roads.weights, network.roads.places, spots.out_weights, spots.parts]
        for column in columns:
            assert not numpy.asarray(column).flags.writeable
            with pytest.raises(ValueError):
                numpy.asarray(column)[:1] = 5
        before = network.distances([(1, 500)])
        with network.changed(closed=[0]) as other:
            assert other.distances([(1, 500)]) == before


def test_what_comes_third_is_named():
    """Where calls differ in it."""
    with of_country() as network:
        spots = network.snap(*zip(VADUZ, MALBUN))
        for call, words in (
            (network.table, ([1], [2], 3)), (network.frame, ([1], [2], 3)), (network.trip_table, (spots, spots, 3)), (network.near, ([1], [2], 2)),
            (network.nearest_targets, ([1], [2], 2)), (network.accessibility, (1, 5, [500])),
        ):
            raises(TypeError, call, *words, told="positional arguments")


def test_library_is_no_choice():
    with pytest.warns(FutureWarning, match="no effect"):
        chtab.Network.open(FIRST, program=PROGRAM, library=False).close()


def test_sums_along_routes_are_of_finite_numbers():
    """A sum that is NaN means that no path leads, and nothing else. What a row is worth is the same in both directions, as the text says."""
    import numpy

    with of_frame(frame_of(), both_ways=True) as network:
        assert network.along([80.0, 0.0], [("x", "y"), ("y", "x")]).tolist() == [80, 80] and "the same value in both directions" in chtab.Network.along.__doc__
        for values in ([1, numpy.nan], [1, numpy.inf], [[1, 2], [numpy.nan, 3]], numpy.array([["1", "2"], ["3", "4"]]), [1j, 2], [[1j, 2], [2, 2]], ["1", "2"]):
            raises(chtab.DataFault, network.along, values, [("x", "y")], told="values[")


def test_places_are_degrees():
    """As in `snap`: a place that is far from each node, that is masked, or that is no number, is refused."""
    import numpy

    with of_country() as network:
        far = raises(chtab.TooFar, network.nearest_nodes, *reversed(VADUZ), told="longitude comes first")
        assert far.places[0] > 5e6 and network.nearest_nodes(*reversed(VADUZ), max_metres=None)[1][0] == far.places[0]
        for call, what in (network.nearest_nodes, "node"), (network.snap, "road"):
            fault = raises(chtab.TooFar, call, *zip(VADUZ, VADUZ[::-1], MALBUN, VADUZ[::-1]), told=f"is 5,467 km from the nearest {what}")
            assert list(fault.places) == [1, 3] and fault.places[3] > 5_000_000
        masked = numpy.ma.array([9.52, -99.0], mask=[0, 1])
        for call in network.nearest_nodes, network.snap:
            raises(chtab.DataFault, call, masked, [47.14, -9.0], told="longitudes[1]: the value is masked")
            for wrong in ["9.52"], [True], [None], "9.52", [181], [numpy.nan]:
                raises(chtab.DataFault, call, wrong, [47.14], told="longitudes[0]: ")
            for wrong in numpy.nan, 91:
                raises(chtab.DataFault, call, [9.5, 9.5], [47.14, wrong], told=f"latitudes[1]: {wrong} is not from -90 to 90 degrees")
            raises(chtab.DataFault, call, [9.52], [47.14, 47.2], told="longitudes has 1 rows and latitudes has 2")
            for wrong, kind in ("500", TypeError), (True, TypeError), (float("nan"), ValueError), (-1, ValueError):
                raises(kind, call, *VADUZ, wrong, told="max_metres is")
            assert len(call(*VADUZ, float("inf"))) and len(call(*VADUZ, None)) and len(call(9.52, 47.14))


def test_files_of_another_map_are_refused():
    """Places and bends, of which there are more than the graph has nodes and arcs."""
    shutil.copy(GRAPH, "own.gr")
    graph = files.read_graph(GRAPH)
    files.write_coordinates("own.co", [VADUZ] * (graph.nodes + 1))
    with chtab.Network.open("own.gr", program=PROGRAM) as network:
        for call in lambda: network.nearest_nodes(*VADUZ), lambda: network.snap(*VADUZ), lambda: network.coordinates:
            raises(chtab.FileFault, call, told="own.co: node 3,155 is not in")
    shutil.copy(f"{COUNTRY}.co", "own.co")
    files.write_bends("own.bends", {len(graph.tails): [VADUZ]})
    with chtab.Network.open("own.gr", program=PROGRAM) as network:
        raises(chtab.FileFault, network.snap, *VADUZ, told="own.bends: an arc is not from 1 to")


def test_a_pickled_network_is_that_of_its_file():
    shutil.copy(FIRST, "own.gr")
    with chtab.Network.open("own.gr", program=PROGRAM) as network:
        kept = pickle.dumps(network)
        assert pickle.loads(kept).distances([(1, 3)]) == [9]
    pathlib.Path("own.gr").write_text("p sp 3 1\na 1 3 7\n")
    raises(chtab.ProgramFault, pickle.loads, kept, told="own.gr has changed since it was opened")


def test_numbers_that_floats_cannot_tell_apart():
    import numpy

    with chtab.Network.from_arrays([2**53, 2**53 + 1], [2**53 + 1, 2**53], [4, 5], program=PROGRAM) as network:
        assert network.distances([(2**53, 2**53 + 1)]) == [4]
        raises(chtab.DataFault, network.distances, numpy.array([[float(2**53), 2.0**53]]), told="is no label")


def test_shares_of_a_decay_are_numbers_from_0_on():
    with of_country() as network:
        for decay in lambda w: w**-1.0, lambda w: w * float("nan"), lambda w: w - 5:
            raises(ValueError, lambda: network.accessibility(1, 5, sources=[1], decay=decay), told="a share is a number from 0 on")


def test_a_unit_is_known_or_has_a_scale():
    """A unit that is not known names those that are; with a scale it is any."""
    for unit in "min", "s", "Minutes", "second", "meters":
        raises(chtab.DataFault, lambda: chtab.Network.open(GRAPH, unit=unit, program=PROGRAM), told="milliseconds, seconds, minutes, hours")
        for weights in [1], [1.5]:
            raises(chtab.DataFault, lambda: chtab.Network.from_arrays([1], [2], weights, unit=unit, program=PROGRAM), told="metres, kilometres: any other unit needs `scale`")
    with chtab.Network.from_arrays([1], [2], [1.5], unit="euros", scale=100, program=PROGRAM) as network:
        assert network.distances([(1, 2)]) == [1.5] and network.unit == "euros"


@needs("python3-networkx")
def test_the_scale_of_a_graph_of_networkx_is_taken():
    import networkx

    graph = networkx.DiGraph()
    graph.add_edge(1, 2, w=0.26)
    with chtab.Network.from_networkx(graph, "w", 10, unit="minutes", program=PROGRAM) as network:
        assert network.scale == 10 and network.distances([(1, 2)]).tolist() == [0.3]
    with chtab.Network.from_networkx(graph, "w", unit="minutes", program=PROGRAM) as network:
        assert network.scale == 60_000 and network.distances([(1, 2)]).tolist() == [0.26]


def test_messages_name_the_argument_the_row_and_the_value():
    import numpy
    import pandas

    with of_country() as network:
        spots = network.snap(*zip(VADUZ, MALBUN))
        for call, kind, told in (
            (lambda: network.table(spots, spots), TypeError, "sources are labels of nodes, not Spots"),
            (lambda: network.distances(spots[:1], spots[1:]), TypeError, "sources are labels of nodes, not Spots"),
            (lambda: network.changed(closed=3), chtab.DataFault, "closed is a list: [3]"),
            (lambda: chtab.Network.from_frame("x.csv"), TypeError, "pandas.read_csv"),
            (lambda: network.distances([(1, 2), ("1", "2")]), chtab.DataFault, "pairs[1]: '1' is no node"),
            (lambda: network.table([1, None], [2]), chtab.DataFault, "sources[1]: None is no node"),
            (lambda: network.table([1, 2], [2, 4_000]), chtab.DataFault, "targets[1]: node 4000 is not from 1 to 3,154"),
        ):
            raises(kind, call, told=told)
        everything = network.table([1], [2, 9, 500])
        for limit in numpy.inf, float("inf"):
            assert numpy.array_equal(network.table([1], [2, 9, 500], within=limit), everything)
            assert network.near([1], [2, 9, 500], within=limit).weights.size == 3 and network.accessibility(1, limit, sources=[1], targets=[2, 9]) == [2]
        assert network.accessibility([[1, 2], [3, 4]], 60, sources=[1], targets=[2, 9]).tolist() == [[4, 6]]
    with chtab.Network.from_arrays((each for each in [1, 2]), iter([2, 1]), (each for each in [4, 5]), program=PROGRAM) as network:
        assert network.distances([(1, 2), (2, 1)]).tolist() == [4, 5]
    with of_frame(pandas.DataFrame({"a": [1], "b": [2], "t": [1.0]}), folder="below/of/it") as network:
        assert network.unit == "minutes"


@needs("python3-geopandas")
def test_a_frame_of_lines_without_a_coordinate_system_is_in_degrees():
    import geopandas
    from shapely.geometry import LineString

    for crs in None, "EPSG:4326":
        edges = geopandas.GeoDataFrame({"t": [1.0]}, geometry=[LineString([VADUZ, MALBUN])], crs=crs)
        with chtab.Network.from_geodataframe(edges, weight="t", unit="minutes", program=PROGRAM) as network:
            assert network.distances([(1, 2)]).tolist() == [1.0]


def test_a_count_past_the_targets_takes_no_memory():
    import numpy

    with of_country() as network:
        for count in 10**9, 2**50, 3:
            found = network.nearest_targets(None, [1, 500], count=count)
            assert found.weights.shape == (network.nodes, 2) and numpy.array_equal(found.weights, network.nearest_targets(None, [1, 500], count=2).weights, equal_nan=True)


def test_a_killed_process_leaves_no_building_behind():
    """Neither the program nor its folder, a temporary one or the caller's, however the process ends."""
    text = """if True:
        import sys, numpy
        sys.path.insert(0, sys.argv[1])
        import chtab
        at = numpy.arange(160_000).reshape(400, 400)
        ends = [numpy.concatenate([at[:, :-1].ravel(), at[:-1].ravel()]), numpy.concatenate([at[:, 1:].ravel(), at[1:].ravel()])]
        chtab.Network.from_arrays(*ends, numpy.ones(len(ends[0]), int), both_ways=True, program=sys.argv[2], folder=sys.argv[3] or None, workers=2)
    """

    def building():
        """The runs that build in the folder of temporary files."""
        found = []
        for name in filter(str.isdigit, os.listdir("/proc")):
            try:
                words = pathlib.Path(f"/proc/{name}/cmdline").read_bytes().split(b"\0")
            except OSError:
                continue
            if b"save" in words and any(os.environ["TMPDIR"].encode() in word for word in words):
                found.append(name)
        return found

    for number, name in itertools.product((signal.SIGTERM, signal.SIGKILL), ("", "own")):
        with temporary() as left:
            folder = name and os.path.join(os.environ["TMPDIR"], name)
            with subprocess.Popen([PYTHON, "-c", text, ROOT / "python", PROGRAM, folder]) as process:
                until(building)
                time.sleep(0.1)
                process.send_signal(number)
            until(lambda: not building(), building)
            until(lambda: not left(), left)


def test_workers_build_and_the_library_answers():
    """Several threads build a network and answer for it: without a folder of the caller's, and with each call."""
    import numpy

    with of_country(workers=4) as network, of_country() as one:
        draw = numpy.random.default_rng(5)
        some = draw.integers(1, network.nodes + 1, 20_000)
        assert network.answers_by == "library" and numpy.array_equal(network.distances(some, some[::-1]), one.distances(some, some[::-1]))
        assert numpy.array_equal(network.table(some[:1_500], some[-1_000:]), one.table(some[:1_500], some[-1_000:]))
        assert [each.nodes for each in network.routes(some[:5_000], some[-5_000:])] == [each.nodes for each in one.routes(some[:5_000], some[-5_000:])]
    with of_frame(frame_of(), workers=2) as network:
        assert network.table(["x"], ["z"]).tolist() == [[3]]
    for workers in 0, 65, 2.5, "2":
        raises((ValueError, TypeError), lambda: of_country(workers=workers), told="workers is")


def test_spots_are_near_as_trips_say():
    """Rows, nearest targets and aggregates between spots, and between spots and nodes, are those of tables of trips."""
    import numpy

    draw = numpy.random.default_rng(9)
    with of_country() as network:
        nodes = network.labels[draw.integers(0, network.nodes, 60)]
        x, y = (numpy.array([network.coordinates.of(node)[axis] for node in nodes]) + draw.normal(0, 1e-3, 60) for axis in (0, 1))
        homes, shops = network.snap(x[:40], y[:40]), network.snap(x[40:], y[40:])
        for direction, owed in ("to", network.trip_table(homes, shops)), ("from", network.trip_table(shops, homes).T):
            near = network.near(homes, shops, within=9, direction=direction)
            assert near.sources.tolist() == [*range(40)] and near.targets.tolist() == [*range(20)]
            table = numpy.full(owed.shape, numpy.nan)
            table[near.owners(), near.places] = near.weights
            assert numpy.array_equal(table, numpy.where(owed <= 9, owed, numpy.nan), equal_nan=True)
            found = network.nearest_targets(homes, shops, count=3, direction=direction)
            assert numpy.array_equal(found.weights, numpy.sort(owed, axis=1)[:, :3]) and numpy.array_equal(found.places[:, 0], owed.argmin(axis=1))
            jobs = draw.integers(1, 99, 20)
            for limit in 5, numpy.inf:
                sums = network.accessibility(jobs, limit, sources=homes, targets=shops, direction=direction)
                assert sums.tolist() == ((owed <= limit) * jobs).sum(axis=1).tolist()
            means = network.accessibility(jobs, [5, 9], sources=homes, targets=shops, aggregate="mean", direction=direction)
            assert means.shape == (40, 2) and numpy.allclose(means[:, 1], ((owed <= 9) * jobs).sum(axis=1) / (owed <= 9).sum(axis=1), equal_nan=True)
        features = network.nearest_targets(homes, shops).to_geojson()["features"]
        assert features[0]["geometry"]["coordinates"] == (x[0], y[0])
        # All nodes, and some, to spots and back.
        at_nodes = network.snap(*zip(*(network.coordinates.of(node) for node in nodes[:9])))
        owed = network.trip_table(at_nodes, shops)
        assert numpy.array_equal(network.nearest_targets(nodes[:9], shops, count=20).weights, numpy.sort(owed, axis=1))
        assert numpy.array_equal(network.nearest_targets(None, shops).weights[nodes[:9] - 1, 0], owed.min(axis=1))
        assert numpy.array_equal(network.nearest_targets(shops, nodes[:9], direction="from").weights[:, 0], owed.min(axis=0))
        with network.changed(closed=homes[:1]) as closed:
            own = closed.snap(x, y)
            assert numpy.array_equal(closed.nearest_targets(homes, shops).weights, closed.nearest_targets(own[:40], own[40:]).weights)


@needs("python3-geopandas")
def test_a_network_goes_back_to_frames():
    """Its edges with their metres, weights and rows, its nodes with values, and the parts that it falls into."""
    import geopandas
    import numpy
    import pandas
    from shapely.geometry import LineString

    with of_country() as network:
        edges, metres = network.to_geodataframe(), network.roads.lines.metres
        assert len(edges) == len(network.graph.tails) and edges.crs == "EPSG:4326" and [*edges.columns] == ["source", "target", "row", "weight", "metres", "geometry"]
        assert edges.source.tolist() == network.graph.tails.tolist() and edges.row.tolist() == [*range(len(edges))]
        assert numpy.array_equal(edges.weight, numpy.asarray(network.graph.weights) / 60_000) and numpy.array_equal(edges.metres, numpy.append(metres, 0)[network.roads.road_of])
        assert edges.geometry.isna().tolist() == (edges.source == edges.target).tolist()
        for edge in edges[edges.source != edges.target].sample(20, random_state=1).itertuples():
            ends = network.coordinates.of(edge.source), network.coordinates.of(edge.target)
            assert (edge.geometry.coords[0], edge.geometry.coords[-1]) == ends
        jobs = network.accessibility(1, 5)
        nodes = network.nodes_to_geodataframe(jobs)
        assert nodes.index.tolist() == network.crossings.tolist() and nodes.value.tolist() == jobs.tolist()
        series = pandas.Series(jobs, nodes.index, name="jobs")
        assert network.nodes_to_geodataframe(series.iloc[::-1]).jobs.tolist() == jobs.tolist() and [*network.nodes_to_geodataframe().columns] == ["geometry"]
        raises(chtab.DataFault, network.nodes_to_geodataframe, [1, 2], told="those of `crossings`")
        assert network.components().tolist() == [0] * network.nodes
    with chtab.Network.from_arrays([1, 2, 3, 3, 9], [2, 1, 1, 4, 9], [1] * 5, program=PROGRAM) as network:
        assert network.labels.tolist() == [1, 2, 3, 4, 9] and network.components().tolist() == [0, 0, 1, 2, 3]
    lines = [LineString([(0, 0), (0, 2)]), LineString([(0, 1), (1, 1)]), LineString([(1, 1), (1, 2)])]
    with pytest.warns(UserWarning, match="2 parts between which no line leads, of which the largest has 60% of the nodes"):
        chtab.Network.from_geodataframe(geopandas.GeoDataFrame(geometry=lines), both_ways=True, program=PROGRAM).close()


def test_routes_have_metres():
    import numpy

    with of_country() as network:
        lengths = numpy.append(network.roads.lines.metres, 0)[network.roads.road_of]
        pairs = [(1, 500), (500, 9), (7, 7)]
        frame = network.routes(pairs).to_frame(metres=True)
        assert [*frame.columns] == ["source", "target", "weight", "arcs", "metres", "nodes"]
        assert numpy.allclose(frame.metres, network.along(lengths, pairs), atol=1e-6) and frame.metres[2] == 0
        assert "metres" not in network.routes(pairs).to_frame()


def test_a_road_is_closed_in_whichever_directions_it_has():
    """By a set of its nodes: both directions, or the one that there is. A set, a dict or a truth is nothing else."""
    import numpy

    for both_ways, left in (True, [[0, -1, -1], [-1, 0, 2], [-1, 2, 0]]), (False, [[0, -1, -1], [-1, 0, 2], [-1, -1, 0]]):
        with of_frame(frame_of(), both_ways=both_ways) as network, network.changed(closed=[{"y", "x"}]) as closed:
            assert closed.table(["x", "y", "z"], ["x", "y", "z"], missing=-1).tolist() == left
            fault = raises(chtab.DataFault, network.changed, None, [0, {"x", "z"}], told="there is no arc between the nodes of")
            assert fault.row == 1
            raises(chtab.DataFault, network.changed, None, [{"x"}], told="names no arc")
    with chtab.Network.from_arrays([0, 1], [1, 0], [1, 1], program=PROGRAM) as network:
        for closed, told in ({0, 1}, "[{0, 1}] is one arc"), ({0: False, 1: True}, "no dict of these"):
            raises(chtab.DataFault, network.changed, None, closed, told=told)
        raises(chtab.DataFault, network.distances, [0, True], [1, 1], told="True")
    with chtab.Network.open(FIRST, program=PROGRAM) as network:
        for ends in ([1, True], [3, 3]), ([(1, 3), (True, 3)],), ([(1, 3), (numpy.True_, 3)],):
            assert raises(chtab.DataFault, network.distances, *ends, told="is no node").row == 1


def test_answers_print_shortly():
    with of_country() as network:
        spots = network.snap(*zip(VADUZ, MALBUN))
        assert repr(spots) == "<2 spots on roads>" and "<table>" in spots._repr_html_() and (spots == spots, spots == spots[:1]) == (True, False)
        assert len(repr(network.trip_routes(spots[:1], spots[1:]))) < 100


def test_polygons_say_what_they_are():
    assert "as a picture" in chtab.Network.isochrones.__doc__ and "`reach` says which are" in chtab.Network.isochrones.__doc__
