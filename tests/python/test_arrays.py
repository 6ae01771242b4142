"""Tests networks that are made of a caller's own arcs: arrays, frames, and graphs of networkx and osmnx.

What is refused has to name its row, and to leave nothing behind. `test_answers.py` compares the answers.
"""
import fractions
import gc
import json
import os
import pathlib
import pickle
import shutil

from helpers.columns import refusals
from helpers.commands import needs, raises, temporary
from helpers.in_process import make
from helpers.maps import COUNTRY
from helpers.running import PROGRAM
from helpers.science import networkx, numpy, pandas
import chtab
from chtab import files

# The arcs of most checks, and their labels: a ring with a way across.
RING = ["a", "b", "c", "a"], ["b", "c", "a", "c"], [4, 5, 1, 10]


def of_arrays(*columns, **more):
    return chtab.Network.from_arrays(*(columns or RING), program=PROGRAM, **more)


def of_frame(*columns, **more):
    return chtab.Network.from_frame(*columns, program=PROGRAM, **more)


def test_labels_come_from_the_ends():
    """Without a list of nodes the labels are those of both ends, in ascending order. They are a copy, which can't be written to."""
    with of_arrays([30, 10], [-20, 30], [1, 2]) as network:
        assert network.labels.tolist() == [-20, 10, 30] and network.distances([(10, -20)]).tolist() == [3]
        assert network.frame([10, 30], [-20]).loc[10, -20] == 3
    for names in ["", "a", "a\0", "a\0b", "a\0c", "b"], ["a", "\udc80", "\udc81"], ["10", "2", "A", "a"], ["e", "\u00e9", "\u4e2d"]:
        with of_arrays(names[::-1][:-1], names[::-1][1:], [1] * (len(names) - 1)) as network:
            assert network.labels.tolist() == sorted(names) and network.distances([(names[-1], names[0])]).tolist() == [len(names) - 1]
    given = numpy.array(["a", "b", "c"], object)
    with of_arrays() as network, of_arrays(nodes=given, both_ways=True) as other:
        given[:] = "c", "a", "b"
        assert network.labels.tolist() == ["a", "b", "c"] == other.labels.tolist() and other.table(["a", "b"], "c").tolist() == [[1], [5]]
        raises(ValueError, other.labels.__setitem__, 0, "x", told="read-only")
        routes = network.routes([("a", "c"), ("b", "c")])
        assert routes[0].nodes == routes.to_frame()["nodes"][0] == ["a", "b", "c"] and [each.source for each in routes[:]] == ["a", "b"]
        assert network.table("a", ["c", "b"]).tolist() == [[9, 4]] and len(other.graph.tails) == 8
    with of_arrays([], [], [], nodes=["alone", "too"]) as network:
        assert network.table(["alone", "too"], ["alone", "too"]).tolist() == [[0, -1], [-1, 0]]


def test_what_is_no_label_is_refused():
    """Its column and its row are named."""
    with of_arrays() as network, of_arrays([1, 2], [2, 3], [1, 1]) as other:
        for call, words, column, row, told in (
            (network.distances, [[("a", "x")]], "pairs", 0, "pairs[0]: no node has the label 'x'"), (network.distances, [[("a", None)]], "pairs", 0, "None is no label"),
            (network.distances, [[("a", 1)]], "pairs", 0, "pairs[0]: the label 1 is not one of strings"), (network.distances, [[(1.5, 2.0)]], "pairs", 0, "1.5 is no label"),
            (network.distances, [[(1, 2)]], "pairs", 0, "no node has the label 1; labels are strings"),
            (other.table, [[1, 2], [3, "3"]], "targets", 1, "targets[1]: the label '3' is not one of integers"),
            (other.distances, [[1, 4], [2, 3]], "sources", 1, "sources[1]: no node has the label 4"),
        ):
            fault = raises(chtab.DataFault, call, *words, told=told)
            assert (fault.column, fault.row) == (column, row), fault


def test_rounding_is_told():
    """Weights are rounded once, to the nearest whole number, and the most that one differs is told."""
    seconds = numpy.random.default_rng(114).random(500) * 1_000
    with of_arrays(range(500), range(1, 501), seconds, scale=1000) as network:
        exact = [fractions.Fraction(weight) * 1000 for weight in seconds.tolist()]
        most = max(abs(round(weight) - weight) for weight in exact)
        assert network.graph.weights.tolist() == list(map(round, exact)) and network.scale == 1000 and abs(network.rounding - most) < 1e-12
        assert abs(network.distances([(0, 500)])[0] - sum(exact)) <= 500 * network.rounding
        assert "multiplied by 1000 and rounded" in pathlib.Path(network._opened.setting.graph).read_text()
    half = 1 if 0.0005 > fractions.Fraction(5, 10_000) else 0
    for ends, weights, scale, wanted in ("abc", [0.0005, 2], 1000, 2_000 + half), ("abc", [2**53 + 1, 2.0], None, 2**53 + 3), ("ab", [2**59], None, 2**59):
        with of_arrays(list(ends[:-1]), list(ends[1:]), weights, scale=scale) as network:
            assert network.distances([(ends[0], ends[-1])]).tolist() == [wanted] and (scale or (network.rounding, network.scale) == (0.0, None))


def test_what_is_refused_names_its_row_and_writes_nothing():
    with temporary() as left:
        for (*columns, more), column, row, told in refusals():
            fault = raises(chtab.DataFault, lambda: chtab.Network.from_arrays(*columns, folder="own", program=PROGRAM, **more), told=told)
            assert (fault.column, fault.row) == (column, row) and "\n" not in str(fault) and len(str(fault)) < 250, (fault, fault.column, fault.row)
            assert isinstance(fault, ValueError) and vars(pickle.loads(pickle.dumps(fault))) == vars(fault)
            raises(chtab.DataFault, lambda: chtab.Network.from_arrays(*columns, program=PROGRAM, **more), told=told)
        # Nothing but the size makes this one too large.
        raises(chtab.DataFault, lambda: of_arrays([1], [2], [1], nodes=numpy.arange(2**25 + 1)), told="at most 33,554,432 nodes")
        assert os.listdir() == [] and left() == []


def test_faults_of_the_program_leave_nothing():
    """A program that fails, one that is not there, and words that it refuses."""
    pathlib.Path("fails").write_text("#!/bin/sh\n[ $1 = save ] || exit 0\necho p ch 1 1\necho 'chtab: out of memory' >&2\nexit 3\n")
    os.chmod("fails", 0o755)
    with temporary() as left:
        for more in {}, {"folder": "own"}:
            # With several workers the program builds.
            fails = {"program": "./fails", "library": make(), "workers": 2, **more}
            assert raises(chtab.ProgramFault, lambda: chtab.Network.from_arrays(*RING, **fails), told="out of memory").status == 3
            raises(chtab.ChtabError, lambda: chtab.Network.from_arrays(*RING, program="./none", **more), told="can't be run")
            raises(TypeError, lambda: of_arrays(wieght=1, **more), told="wieght")
        raises(FileExistsError, lambda: of_arrays(folder="fails/own"))
        assert os.listdir() == ["fails"] and left() == []


def test_a_folder_is_opened_again():
    """With labels, places and rounding; the folder that is there is not written over."""
    places = {"nodes": ["a", "b", "c"], "x": [9.5, 9.6, 9.7], "y": [47.0, 47.1, 47.2]}
    with of_arrays(*RING[:2], [4, 5, 1, 10.25], scale=10, folder="own", **places) as made:
        text = repr(made)
        assert sorted(os.listdir()) == ["own"] and len(os.listdir("own")) == 4
        raises(FileExistsError, lambda: of_arrays(folder="own"), told="not empty")
        assert made.distances([("a", "c")]).tolist() == [90] and made.rounding == 0.5
    with chtab.Network.open("own", program=PROGRAM) as network:
        assert repr(network) == text and network.labels.tolist() == made.labels.tolist() == ["a", "b", "c"] and (network.scale, network.rounding) == (10, 0.5)
        nodes, metres = network.nearest_nodes([9.51, 9.69], [47.0, 47.2])
        assert nodes.tolist() == ["a", "c"] and metres.max() < 1_000 and network.coordinates == made.coordinates
        [line] = network.routes([("a", "c")]).to_geojson()["features"]
        assert line["geometry"]["coordinates"] == [(9.5, 47.0), (9.6, 47.1), (9.7, 47.2)] and line["properties"]["from"] == "a"
        spots = network.snap([9.5, 9.7], [47.0, 47.2])
        trip = network.trip_routes(spots[:1], spots[1:])[0]
        assert trip.weight == 90 and trip.nodes == ["a", "b", "c"] and network.reach(spots[:1]).tolist() == [0, 40, 90]
    files.write_bends("own.bends", {0: [(9.55, 47.2)]})
    with chtab.Network.open("own", saved="own/network.ch", bends="own.bends", program=PROGRAM) as network:
        assert network.routes([("a", "b")]).to_geojson()["features"][0]["geometry"]["coordinates"] == [(9.5, 47.0), (9.55, 47.2), (9.6, 47.1)]
    raises(FileNotFoundError, lambda: chtab.Network.open("own", saved="none.ch", program=PROGRAM), told="none.ch")
    # Where a network of one folder was unpickled before, one that was made there later is not taken for it.
    for arcs, weight in (RING, 9), ((["a"], ["c"], [2]), 2):
        shutil.rmtree("own")
        os.mkdir("own")
        of_arrays(*arcs, folder="own").close()
        assert sorted(os.listdir("own")) == ["network.ch", "network.gr", "network.json"]
        assert pickle.loads(pickle.dumps(chtab.Network.open("own", program=PROGRAM))).distances([("a", "c")]).tolist() == [weight]


def test_labels_of_another_graph_are_refused():
    """Labels that were changed, and those of another network, are faults of their file."""
    for name, weights in ("one", RING[2]), ("other", [1, 1, 1, 1]):
        of_arrays(*RING[:2], weights, folder=name).close()
    path = pathlib.Path("one/network.json")
    right, other = json.loads(path.read_text()), pathlib.Path("other/network.json").read_text()
    changes = (
        {"labels": ["a", "b"]}, {"labels": ["a", "b", "b"]}, {"labels": ["a", "b", 3]}, {"labels": [1, 2, True]}, {"labels": [1.0, 2.0, 3.0]}, {"labels": "abc"},
        {"labels": {"a": 1}}, {"scale": "10"}, {"scale": -1}, {"rounding": None}, {"graph": ""}, {"graph": 5}, {"more": 1},
    )
    for text in other, "", "[]", "{}", "[" * 100_000, '{"labels": 1}', "\0", '"labels"', "\udcff\udcfe", *(json.dumps(right | change) for change in changes):
        path.write_text(text, errors="surrogateescape")
        raises(chtab.FileFault, lambda: chtab.Network.open("one", program=PROGRAM), told="network.json: not the labels of")
    os.mkdir("none")
    raises(FileNotFoundError, lambda: chtab.Network.open("none", program=PROGRAM), told="network.gr")


def test_temporary_files_go_with_the_network():
    """They are gone once it is closed or dropped, and what it answered stays."""
    for is_closed in True, False:
        with temporary() as left:
            network = of_arrays()
            routes, labels = network.routes([("a", "c")]), network.labels
            assert left() == [] and pickle.dumps(network) and len(left()) == 1
            network.close() if is_closed else None
            del network
            gc.collect()
            assert left() == [] and routes[0].nodes == ["a", "b", "c"] == labels.tolist()
            network = of_arrays()
            routes = network.routes([("a", "c")])
            network.close() if is_closed else None
            del network
            gc.collect()
            raises(chtab.ChtabError, pickle.dumps, routes, told="the network is closed")
            assert left() == []


def test_frames():
    frame = pandas.DataFrame({"u": RING[0], "v": RING[1], "minutes": [0.5, 1, 2, 3]}, index=[7, 7, 7, 9])
    with of_frame(frame, "u", "v", "minutes", scale=60_000, both_ways=True) as network:
        table = network.frame(["a", "b"], ["c"])
        assert table.loc["a", "c"] == 90_000 and table.index.name == "source" and table.columns.name == "target"
        assert network.rounding == 0.0 and network.table(frame["u"], frame["v"]).shape == (4, 4)
    assert "reset_index" in str(raises(chtab.DataFault, of_frame, frame, "u", "w", "minutes", told="no column 'w'; it has 'u', 'v', 'minutes'"))
    raises(TypeError, lambda: of_frame(frame, "u", "v", "minutes", scale=60, weights=1), told="weights")
    frame.loc[9, "minutes"] = None
    fault = raises(chtab.DataFault, lambda: of_frame(frame, "u", "v", "minutes", scale=60), told="minutes[3]: the value is missing")
    assert (fault.column, fault.row) == ("minutes", 3)
    raises(chtab.DataFault, of_frame, pandas.concat([frame, frame[["u"]]], axis=1), "u", "v", "minutes", told="u has the shape (4, 2)")


def test_what_a_graph_lacks_is_named():
    """The attribute and its row, with the edge or the node."""
    def refused(told, *words, of):
        return raises(chtab.DataFault, chtab.Network.from_networkx, of, *words, told=told)

    graph = networkx.path_graph(3, networkx.DiGraph)
    assert refused("travel_time[0]: there is none, of the edge from 0 to 1", of=graph).row == 0
    networkx.set_edge_attributes(graph, 1.5, "travel_time")
    graph.add_edge(2, 0, travel_time="soon")
    refused("travel_time[2]: 'soon' is neither an integer nor a float, of the edge from 2 to 0", of=graph)
    graph.edges[2, 0]["travel_time"] = 2
    refused("1.5 is not a whole number", "travel_time", None, of=graph)
    graph.nodes[1]["x"] = 5.0
    refused("x[0]: there is none, of node 0", of=graph)
    networkx.set_node_attributes(graph, {0: 538_000.0, 1: 5.0, 2: 6.0}, "x")
    networkx.set_node_attributes(graph, 5.0, "y")
    refused("x[0]: 538000 is not from -180 to 180 degrees, of node 0", of=graph)
    with chtab.Network.from_networkx(graph, x=None, program=PROGRAM) as network:
        assert network.distances([(0, 2)]).tolist() == [3_000]
    refused("of epsg:32632: `osmnx.project_graph", of=networkx.MultiDiGraph(graph, crs="epsg:32632"))
    refused("(0, 0)", of=networkx.grid_graph((2, 2)))
    refused("there is no node", of=networkx.Graph())


@needs("python3-osmnx", "python3-sklearn")
def test_osmnx_takes_the_map():
    """The shipped map by osmnx, as it is: distances as networkx finds them by whole weights, places and labels as osmnx has them."""
    import osmnx

    streets = osmnx.graph_from_xml(f"{COUNTRY}.osm.bz2")
    streets = osmnx.add_edge_travel_times(osmnx.add_edge_speeds(streets))
    draw = numpy.random.default_rng(12)
    for weight, scale in ("travel_time", 1000), ("length", 1):
        for _, _, edge in streets.edges(data=True):
            edge["whole"] = round(edge[weight] * scale)
        with chtab.Network.from_networkx(streets, weight, scale, program=PROGRAM) as network:
            assert network.labels.tolist() == list(streets.nodes) and 0 < network.rounding <= 0.5
            labels = draw.choice(network.labels, 40, replace=False).tolist()
            for source in labels[:4]:
                lengths = networkx.single_source_dijkstra_path_length(streets, source, weight="whole")
                for route, target in zip(network.routes([(source, target) for target in labels]), labels):
                    assert route.weight == lengths.get(target), (source, target)
                    arcs = [streets[tail][head].values() for tail, head in zip(route.nodes or [], (route.nodes or [])[1:])]
                    real = sum(min(edge[weight] for edge in between) for between in arcs) * scale
                    assert route.weight is None or abs(route.weight - real) <= (len(arcs) + 1) * network.rounding, (source, target)
            nodes, metres = network.nearest_nodes([9.5209], [47.1410])
            assert nodes[0] == osmnx.nearest_nodes(streets, 9.5209, 47.1410) and metres[0] < 200
            assert len(network.routes([(labels[0], labels[1])]).to_geojson()["features"]) <= 1
