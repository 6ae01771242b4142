"""Tests the Python package as a study uses it: places that are snapped once and compared in scenarios, units, what no path leads to, lines of arcs, frames
of pandas and geopandas, pictures, and what errors report.

Expected values are those of scipy, numpy and pandas, or are counted by hand.
"""
import datetime
import pathlib
import warnings

import pytest

from helpers import minutes
from helpers.columns import flows_owed
from helpers.commands import needs, raises
from helpers.minutes import of_minutes
from helpers.running import PROGRAM
from helpers.science import networkx, numpy, pandas, scipy
import chtab

NAN = float("nan")
# Crossings of a side, degrees between them, and how far numbers may be apart because each part of a road is rounded to milliseconds.
SIDE, APART, CLOSE = 7, 0.01, {"rtol": 0, "atol": 1e-3}


def town():
    """The streets between the crossings of a grid, a row for each direction; the places of the crossings; and places beside streets, each with its street
    and how far along it is."""
    draw, at = numpy.random.default_rng(11), numpy.arange(SIDE * SIDE).reshape(SIDE, SIDE)
    ends = numpy.concatenate([numpy.stack([at[:, :-1], at[:, 1:]], -1).reshape(-1, 2), numpy.stack([at[:-1], at[1:]], -1).reshape(-1, 2)])
    streets = pandas.DataFrame(numpy.concatenate([ends, ends[:, ::-1]]), columns=["from", "to"])
    streets["minutes"] = draw.uniform(1, 5, len(streets)).round(3)
    x, y = 9.5 + APART * (at.ravel() % SIDE), 47.1 + APART * (at.ravel() // SIDE)
    places = pandas.DataFrame({"street": draw.integers(1, len(ends), 60), "share": draw.uniform(0.1, 0.9, 60), "people": draw.integers(1, 99, 60)})
    for name, column in ("x", x), ("y", y):
        tails, heads = (column[ends[places.street, end]] for end in (0, 1))
        # A metre beside the street.
        places[name] = tails + (heads - tails) * places.share + 1e-5 * (tails == heads)
    return streets, ends, x, y, places


def owed_to(streets, ends, places):
    """By scipy, on streets that are cut at the places: the minutes between all crossings and places."""
    nodes, cut = SIDE * SIDE, []
    for row, tail, head, weight in streets.itertuples(name=None):
        is_back, here = row >= len(ends), places[places.street == (row % len(ends) if row < 2 * len(ends) else -1)]
        shares = (1 - here.share if is_back else here.share).sort_values()
        stops, parts = [tail, *(nodes + shares.index), head], numpy.diff([0, *shares, 1])
        cut += zip(stops, stops[1:], weight * parts)
    tails, heads, weights = zip(*cut)
    return scipy.sparse.csgraph.dijkstra(scipy.sparse.csr_array((weights, (tails, heads)), (nodes + len(places),) * 2))


def test_a_study_of_three_scenarios():
    """Places are snapped once. In the town as it is, at the peak hour, with a closed street and with a new road: tables, catchments, what is within
    minutes, reach and flows are those of scipy."""
    streets, ends, x, y, places = town()
    with chtab.Network.from_frame(streets, "from", "to", "minutes", unit="minutes", nodes=range(SIDE * SIDE), x=x, y=y, program=PROGRAM) as network:
        spots = network.snap(places.x, places.y)
        homes, shops, jobs = spots[:50], spots[50:], places.people[50:].to_numpy()
        nodes, metres = network.nearest_nodes(places.x, places.y)
        assert spots.metres.max() < 2 and metres.max() < 600
        # No place is beside street 0, so that each stays on its own street.
        closed = network.snap(*((column[ends[0]] @ [0.5, 0.5]) for column in (x, y)))
        peak = (streets.minutes * numpy.random.default_rng(12).uniform(1, 3, len(streets))).round(3)
        new = pandas.DataFrame({"from": [0, 48], "to": [48, 0], "minutes": [0.5, 0.75]})
        shut = streets.assign(minutes=streets.minutes.where(~streets.index.isin([0, len(ends)]), numpy.inf))
        for change, after in (
            ({}, streets), ({"weights": peak}, streets.assign(minutes=peak)), ({"closed": closed}, shut),
            ({"added": list(new.itertuples(index=False, name=None))}, pandas.concat([streets, new], ignore_index=True)),
        ):
            away = owed_to(after[numpy.isfinite(after.minutes)], ends, places)
            owed = away[-60:-10, -10:]
            with network.changed(**change) as other:
                numpy.testing.assert_allclose(other.trip_table(homes, shops), owed, **CLOSE)
                numpy.testing.assert_allclose(other.trips(homes[:10], shops), owed[:10].diagonal(), **CLOSE)
                nearest = other.nearest_targets(homes, shops)
                catchments = places.people[:50].groupby(nearest.places[:, 0]).sum().reindex(range(10), fill_value=0)
                assert catchments.tolist() == numpy.bincount(owed.argmin(axis=1), places.people[:50], 10).tolist()
                numpy.testing.assert_allclose(nearest.weights[:, 0], owed.min(axis=1), **CLOSE)
                for limit in 6, 12:
                    assert abs(owed - limit).min() > 1e-3
                    assert other.accessibility(jobs, limit, sources=homes, targets=shops).tolist() == ((owed <= limit) * jobs).sum(axis=1).tolist()
                    reached = numpy.where(away[-10, :SIDE * SIDE] <= limit, away[-10, :SIDE * SIDE], NAN)
                    numpy.testing.assert_allclose(other.reach(shops[:1], within=limit), reached, **CLOSE)
                trips = nodes[:50], nodes[50:][owed.argmin(axis=1)]
                arcs, people = (after["from"], after["to"], after.minutes), places.people[:50].tolist()
                assert other.flows(*trips, people).tolist() == flows_owed(SIDE * SIDE, *arcs, zip(*trips), people)[0]
                by_pairs = pandas.Series(places.people[:50].to_numpy(), pandas.MultiIndex.from_arrays(trips)).groupby(level=[0, 1]).sum().unstack(fill_value=0)
                assert other.flows_table(by_pairs).tolist() == other.flows(*trips, people).tolist()
        numpy.testing.assert_allclose(network.trip_table(homes, shops), owed_to(streets, ends, places)[-60:-10, -10:], **CLOSE)


def test_answers_are_in_the_unit_of_the_weights():
    """Every call takes limits and gives answers in minutes. A limit lets through what is just as far, and not what is past it by the last bit."""
    jobs, draw = {"mill": 10, "farm": 1}, numpy.random.default_rng(7)
    with of_minutes() as network:
        assert (network.unit, network.scale, network.rounding, network.graph.unit) == ("minutes", 60_000, 0.0, "milliseconds")
        assert network.distances([("farm", "mill"), ("mill", "mill")]).tolist() == [3.75, 0.0]
        for within, wanted in (2.5, 2.5), (numpy.nextafter(2.5, 0), -7), (datetime.timedelta(seconds=150), 2.5):
            assert network.table(["inn"], ["mill", "school"], within=within, missing=-7).tolist() == [[wanted, -7.0]]
        assert network.routes([("farm", "mill")])[0][2:] == (3.75, ["farm", "inn", "mill"], [1.25, 2.5])
        near = network.near(["inn"], ["mill", "farm", "school"], within=2.5)
        assert (near.weights.tolist(), near.targets[near.places].tolist()) == ([1.25, 2.5], ["farm", "mill"])
        assert network.nearest_targets(["inn"], ["mill", "farm"], count=2).weights.tolist() == [[1.25, 2.5]]
        for values, within, decay, wanted in (jobs, [1.25, 2.5], None, [[1, 11]]), ({"mill": 10}, 5, "linear", [5]), ({"mill": 10}, 5, lambda weights: weights, [25]):
            assert network.accessibility(values, within, sources=["inn"], decay=decay).tolist() == wanted
    weights = numpy.round(draw.random(60) * draw.choice([1, 10, 1_000], 60), 3)
    with chtab.Network.from_arrays(range(60), range(1, 61), weights, unit="minutes", program=PROGRAM) as network:
        for target, weight in enumerate(network.distances([(0, place) for place in range(1, 61)]).tolist(), 1):
            assert network.table([0], [target], within=weight).tolist() == [[weight]] and abs(weight - sum(weights[:target])) < 1e-6
            assert network.table([0], [target], within=numpy.nextafter(weight, -1), missing=-1).tolist() == [[-1]], weight


def test_units_are_known_or_told():
    """Files in milliseconds answer in hours and minutes, a scale says what no file says, and raw numbers are those of the file."""
    pathlib.Path("plain.gr").write_text("p sp 2 1\na 1 2 90000\n")
    pathlib.Path("timed.gr").write_text("c Weights are milliseconds.\np sp 2 1\na 1 2 90000\n")
    chtab.Network.from_arrays([1], [2], [1.5], unit="minutes", folder="own", program=PROGRAM).close()
    for path, more, wanted in (
        ("timed.gr", {}, 90_000), ("timed.gr", {"unit": "minutes"}, 1.5), ("timed.gr", {"unit": "hours"}, 0.025), ("plain.gr", {}, 90_000),
        ("plain.gr", {"unit": "francs", "scale": 100}, 900.0), ("timed.gr", {"unit": "minutes", "raw": True}, 90_000),
        ("own", {}, 1.5), ("own", {"raw": True}, 90_000), ("own", {"unit": "seconds"}, 90.0),
    ):
        with chtab.Network.open(path, program=PROGRAM, **more) as network:
            found = network.distances([(1, 2)])[0]
            assert found == wanted and isinstance(found.item(), type(wanted)), (path, more, found)
    for path, unit, told in (
        ("plain.gr", "minutes", "nothing says how many of the graph's weights make one of 'minutes'"), ("timed.gr", 60, "unit is a name"),
        ("timed.gr", "metres", "'metres' needs `scale`"),
    ):
        raises(chtab.DataFault, lambda: chtab.Network.open(path, unit=unit, program=PROGRAM), told=told)
    with chtab.Network.from_arrays([1, 2], [2, 3], [0.0104, 2.5], unit="kilometres", program=PROGRAM) as network:
        assert network.distances([(1, 3)])[0] == 2.5104 and network.rounding < 1e-9


def test_calls_of_the_last_version_go_on():
    """A scale without a unit gives whole numbers, as before, and a warning on the caller's line; a unit, or `raw`, gives none."""
    for more, count, wanted in (
        ({"scale": 60_000, "unit": None}, 1, 150_000), ({"scale": 60_000, "unit": None, "raw": True}, 0, 150_000), ({}, 0, 2.5), ({"scale": 1_000}, 0, 2.5),
    ):
        with warnings.catch_warnings(record=True) as caught:
            warnings.simplefilter("always")
            network = of_minutes(**more)
        assert [(each.category, each.filename) for each in caught] == [(FutureWarning, minutes.__file__)] * count
        assert network.table(["inn"], ["mill", "house"], within=wanted)[0, 0] == wanted, more
        network.close()


def test_no_mean_is_over_minus_one():
    """A frame has NA where no path leads, so that means and counts are those of the paths; arrays have what is asked for. GeoJSON keeps such a pair
    at its place, with no geometry and the properties of all others."""
    with of_minutes() as network, of_minutes(raw=True) as raw:
        wanted = pandas.DataFrame({"school": [6.5, 7.0], "house": [NAN] * 2}, pandas.Index(["inn", "farm"], name="source")).rename_axis("target", axis=1)
        pandas.testing.assert_frame_equal(network.frame(["inn", "farm"], ["school", "house"]), wanted)
        whole = raw.frame(["inn", "farm"], ["school", "house"], within=390_000)
        assert whole.dtypes.astype(str).tolist() == ["Int64"] * 2 and whole.isna().to_numpy().tolist() == [[False, True], [True, True]]
        assert whole.stack().mean() == 390_000 and whole.count().tolist() == [1, 0] and whole.loc["inn", "school"] == 390_000
        assert numpy.isnan(network.table(["inn"], ["house"])).all() and raw.table(["inn"], ["house"]).tolist() == [[-1]]
        for missing, kind in ((numpy.inf, float), (0, int), (-5, int)):
            found = raw.distances([("inn", "house"), ("inn", "mill")], missing=missing)
            assert found.tolist() == [missing, 150_000] and isinstance(found.tolist()[0], kind)
        for each in network, raw:
            found = each.routes([("inn", "house"), ("inn", "inn")]).to_frame()
            assert found.isna().to_numpy().tolist() == [[False, False, True, True, False], [False] * 5] and found.index.name == "query"
            assert found["weight"].mean() == 0 and found["nodes"].tolist() == [[], ["inn"]]
        nearest = network.nearest_targets(["inn", "house"], ["mill", "farm"], count=2)
        found = nearest.to_frame()
        assert found["weight"].mean() == (1.25 + 2.5) / 2 and found["target"].tolist()[:2] == ["farm", "mill"] and found["target"].isna().sum() == 2
        assert nearest.mask.tolist() == [[False, False], [True, True]] and nearest.places[1].tolist() == [-1, -1] and len(nearest) == 3
    names, x, y = ["farm", "house", "inn", "mill", "school"], [9.48, 9.6, 9.50, 9.52, 9.54], [47.09, 47.2, 47.10, 47.11, 47.12]
    with of_minutes(nodes=names, x=x, y=y) as network:
        features = network.routes([("inn", "house"), ("farm", "mill"), ("house", "inn")]).to_geojson()["features"]
        assert [each["geometry"] is None for each in features] == [True, False, True]
        assert features[1]["geometry"]["coordinates"] == [(9.48, 47.09), (9.50, 47.10), (9.52, 47.11)]
        assert [tuple(each["properties"][key] for key in ("query", "source", "target", "weight")) for each in features] == [
            (0, "inn", "house", None), (1, "farm", "mill", 3.75), (2, "house", "inn", None),
        ]
        assert all(each["properties"].keys() == features[0]["properties"].keys() for each in features)


LINE = [(9.50, 47.10), (9.51, 47.12), (9.52, 47.10)]


def test_a_simplified_graph_keeps_its_bends():
    """Routes and snapping follow the lines of edges, of whichever direction these are, and not the chords between crossings."""
    from shapely.geometry import LineString

    # As osmnx simplifies one: two crossings, a road with a bend between them, and a straight one that is longer.
    graph = networkx.MultiDiGraph(crs="epsg:4326")
    graph.add_node(10, x=9.50, y=47.10)
    graph.add_node(20, x=9.52, y=47.10)
    graph.add_edge(10, 20, length=4_700.5, geometry=LineString(LINE))
    graph.add_edge(20, 10, length=4_700.5, geometry=LineString(LINE[::-1]))
    graph.add_edge(10, 20, length=9_000.0)
    for case in graph, graph.to_undirected():
        with chtab.Network.from_networkx(case, weight="length", unit="metres", program=PROGRAM) as network:
            for pair, wanted in ((10, 20), LINE), ((20, 10), LINE[::-1]):
                [feature] = network.routes([pair]).to_geojson()["features"]
                assert feature["geometry"]["coordinates"] == wanted and feature["properties"]["weight"] == 4_700.5, feature
            spot = network.snap([9.51], [47.1199])
            assert spot.metres[0] < 30 and abs(spot.longitudes[0] - 9.51) < 1e-3 and 0.49 < spot.parts[0] < 0.51
            [trip] = network.trip_routes(spot, network.snap([9.52], [47.10]))
            assert 2_300 < trip.weight < 2_400 and trip.line[-1] == (9.52, 47.1)


def test_lines_are_turned_to_their_arcs():
    """Lines that lead from the target to the source are turned round; lists of points, heights and None are taken; others are refused by row."""
    line = [(*point, 400.0) for point in LINE]
    columns, nodes = ([1, 2], [2, 1], [5, 7]), {"nodes": [1, 2], "x": [9.50, 9.52], "y": [47.10, 47.10], "program": PROGRAM}
    with chtab.Network.from_arrays(*columns, geometry=[line, line], **nodes) as network:
        assert [each["geometry"]["coordinates"] for each in network.routes([(1, 2), (2, 1)]).to_geojson()["features"]] == [LINE, LINE[::-1]]
    with chtab.Network.from_arrays([1], [2], [5], both_ways=True, geometry=[line], folder="bent", program=PROGRAM) as network:
        assert network.coordinates.of(2) == (9.52, 47.1)
    with chtab.Network.open("bent", program=PROGRAM) as network:
        assert network.routes([(2, 1)]).to_geojson()["features"][0]["geometry"]["coordinates"] == LINE[::-1]
    for lines, row, told in (
        ([line, [(9.5, 47.1)]], 1, "two points or more"), ([line, 5], 1, "5 is no line"), ([[(500, 47.1), (9.5, 47.1)], None], 0, "degrees"),
        ([line], None, "geometry has 1 rows"),
    ):
        fault = raises(chtab.DataFault, lambda: chtab.Network.from_arrays(*columns, geometry=lines, **nodes), told=told)
        assert (fault.column, fault.row) == ("geometry", row)
    raises(chtab.DataFault, lambda: chtab.Network.from_arrays([1, 2], [2, 3], [1, 1], geometry=[line, None], program=PROGRAM), told="no line leads to the node 3")


@needs("python3-geopandas")
def test_geodataframes_go_in_and_out():
    """Lines alone, and the two frames of osmnx, make networks; a column `osmid` has the numbers of ways; answers come out as frames with shapes."""
    import geopandas
    from shapely.geometry import LineString, Point

    lines, more = [LineString(LINE), LineString([(9.52, 47.10), (9.54, 47.11)])], {"weight": "minutes", "unit": "minutes", "program": PROGRAM}
    edges = geopandas.GeoDataFrame({"minutes": [4.5, 1.0]}, geometry=lines, crs="EPSG:4326")
    with chtab.Network.from_geodataframe(edges, both_ways=True, **more) as network:
        assert network.labels.tolist() == [1, 2, 3] and network.coordinates.of(3) == (9.54, 47.11)
        frame = network.routes([(1, 3), (3, 1)]).to_geodataframe()
        assert frame.crs == "EPSG:4326" and frame["weight"].tolist() == [5.5, 5.5] and list(frame.geometry[0].coords) == [*LINE, (9.54, 47.11)]
        assert frame.columns.tolist() == ["source", "target", "weight", "arcs", "nodes", "geometry"]
        frame = network.isochrones(network.snap([9.50], [47.10]), [2, 5]).to_geodataframe()
        assert frame["limit"].tolist() == [5, 2] and [shape.contains(Point(9.52, 47.10)) for shape in frame.geometry] == [True, False]
        points = network.nearest_targets(None, [3]).to_geodataframe()
        assert points["weight"].tolist() == [5.5, 1.0, 0.0] and points["target"].tolist() == [3, 3, 3] and list(points.geometry[0].coords) == [LINE[0]]
    # The metres of lines, whatever they are projected to.
    with chtab.Network.from_geodataframe(edges.to_crs(3857), both_ways=True, program=PROGRAM) as network:
        metres = edges.to_crs("+proj=aeqd +lat_0=47.1 +lon_0=9.52 +ellps=sphere +R=6371008.8").length.sum()
        assert network.unit == "metres" and abs(network.distances([(1, 3)])[0] - metres) < 0.5
    nodes = geopandas.GeoDataFrame(geometry=[Point(9.54, 47.11), Point(9.52, 47.10), Point(9.50, 47.10)], index=["c", "b", "a"], crs="EPSG:4326")
    with chtab.Network.from_geodataframe(edges.assign(u=["a", "b"], v=["b", "c"], key=0).set_index(["u", "v", "key"]), nodes, **more) as network:
        assert network.distances([("a", "c")]).tolist() == [5.5] and network.labels.tolist() == ["c", "b", "a"]
    with chtab.Network.from_geodataframe(edges.assign(osmid=[11, [12, 13]]), both_ways=True, **more) as network:
        for way, apart in (11, [NAN, 1, 1]), (12, [4.5, NAN, NAN]), (13, [4.5, NAN, NAN]):
            with network.changed(closed=[f"way/{way}"]) as other:
                assert numpy.array_equal(other.distances([(1, 2), (2, 3), (3, 2)]), apart, equal_nan=True), way
    lost = edges.assign(geometry=[lines[0], None])
    assert raises(chtab.DataFault, lambda: chtab.Network.from_geodataframe(lost, program=PROGRAM), told="geometry[1]").row == 1


@needs("python3-matplotlib", "python3-folium")
def test_answers_are_shown():
    """Maps by matplotlib have a line, polygon or point for each that has a geometry; tables in notebooks and maps by folium show names as text."""
    import matplotlib

    matplotlib.use("Agg")
    names = ["<script>a</script>", "b&c"]
    with chtab.Network.from_arrays(names, names[::-1], [1, 2], nodes=names, x=[9.5, 9.6], y=[47.1, 47.2], program=PROGRAM) as network:
        routes, nearest = network.routes([names, names[::-1]]), network.nearest_targets(None, names[:1])
        isochrones = network.isochrones(network.snap([9.5], [47.1]), [1])
        assert len(routes.plot().collections[0].get_paths()) == 2 and len(isochrones.plot().collections) == 1
        assert len(nearest.plot().collections[0].get_offsets()) == 2
        for answer in routes, network.near(None, names), nearest, isochrones, network:
            text = answer._repr_html_()
            assert "<script>" not in text and text.count("<") > 2, text
        assert "&lt;script&gt;a&lt;/script&gt;" in routes._repr_html_() and "b&amp;c" in routes._repr_html_()
        for answer in routes, nearest:
            text = answer.explore().get_root().render()
            assert "&lt;script&gt;a" in text and "<script>a</script>" not in text.replace("\\u003c", "<").split("GeoJson")[0]


def test_what_is_common_is_taken():
    """Ids that are whole floats, tuples, durations, generators, sets and sparse matrices are taken for what they are."""
    with chtab.Network.from_arrays([1.0, 2.0], pandas.Series([2.0, 3.0]), [1, 2], program=PROGRAM) as network:
        assert network.labels.tolist() == [1, 2, 3] and network.distances([(1.0, 3)]).tolist() == [3]
        assert network.table((x for x in [1, 2]), {3}).tolist() == [[3], [2]]
        raises(chtab.DataFault, network.distances, [(1.5, 3)], told="1.5 is no label")
    corners = [(0, 0), (0, 1), (1, 1)]
    with chtab.Network.from_arrays(corners[:2], corners[1:], pandas.to_timedelta([1, 2], unit="s"), folder="corners", program=PROGRAM) as network:
        assert network.labels.tolist() == corners and network.unit == network.graph.unit == "milliseconds"
    with chtab.Network.open("corners", program=PROGRAM) as network:
        assert network.distances([(corners[0], corners[2])]).tolist() == [3_000] and network.routes([(corners[0], corners[2])])[0].nodes == corners
        assert network.frame(corners[:1], corners[1:]).loc[[corners[0]], [corners[2]]].to_numpy().tolist() == [[3_000]]
        assert network.near(None, corners[2:], count=1).to_frame()["source"].tolist() == corners
        raises(chtab.DataFault, network.distances, [(corners[0], (5, 5))], told="no node has the label (5, 5); labels are tuples")
    for durations in [datetime.timedelta(minutes=1.5)], numpy.array([90], "m8[s]"), pandas.Series([pandas.Timedelta("90s")]):
        with chtab.Network.from_arrays(["a"], ["b"], durations, unit="minutes", program=PROGRAM) as network:
            assert network.distances([("a", "b")]).tolist() == [1.5] and network.table(["a"], ["b"], within=datetime.timedelta(seconds=90)).tolist() == [[1.5]]
    raises(chtab.DataFault, lambda: chtab.Network.from_arrays(["a"], ["b"], [datetime.timedelta(1)], scale=5, program=PROGRAM), told="a unit of their own")
    with chtab.Network.from_sparse(scipy.sparse.csr_matrix(([4, 0, 5], ([0, 1, 0], [1, 2, 2])), (3, 3)), program=PROGRAM) as network:
        assert network.table([0, 1, 2], [0, 1, 2]).tolist() == [[0, 4, 4], [-1, 0, 0], [-1, -1, 0]]
    raises(chtab.DataFault, lambda: chtab.Network.from_sparse(scipy.sparse.csr_matrix((2, 3)), program=PROGRAM), told="as many rows as columns")


@pytest.mark.parametrize("kind, told, call", [
    (TypeError, 'Network.open("roads.gr")', lambda network: chtab.Network("roads.gr")), (TypeError, "it has both_ways", lambda network: of_minutes(bothways=True)),
    (TypeError, "it has workers", lambda network: of_minutes(worker=2)), (TypeError, "it has weight", lambda network: chtab.Network.from_networkx(None, weights="length")),
    (TypeError, "within is a number, not '3'", lambda network: network.table(["inn"], ["mill"], within="3")),
    (TypeError, "within is a number", lambda network: network.table(["inn"], ["mill"], within=True)),
    (TypeError, "as `snap` gives", lambda network: network.isochrones((9.5, 47.1), [3])),
    (ValueError, "one pair is [(1, 3)]", lambda network: network.distances(("inn", "mill"))),
    (TypeError, "progress is True, False or a call", lambda network: network.near(None, ["inn"], progress="yes")),
    (TypeError, "open has no argument 'colour'", lambda network: chtab.Network.open("a.gr", colour=3)),
    (ValueError, "timeout is -1", lambda network: of_minutes(timeout=-1)), (TypeError, "timeout is a number of seconds", lambda network: of_minutes(timeout="5")),
])
def test_errors_name_what_was_given(kind, told, call):
    """Each error names the argument that it is about, and how it is meant."""
    with of_minutes() as network:
        raises(kind, call, network, told=told)
