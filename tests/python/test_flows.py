"""Tests flows on roads, and traffic at equilibrium: against the routes of the same network, scipy, and networks whose equilibrium is known."""
from functools import partial

import pytest

from helpers.commands import needs, raises
from helpers.nearness import rows_told
from helpers.running import PROGRAM
import chtab
from chtab._engine import in_process, library

pytestmark = needs("python3-numpy", "python3-pandas")

# Braess's network (Dietrich Braess, "Über ein Paradoxon aus der Verkehrsplanung", 1968): the time of each road is a + b * flow, and 6 cars go from s to t.
BRAESS = [("s", "v", 0, 10), ("s", "w", 50, 1), ("v", "t", 50, 1), ("w", "t", 0, 10), ("v", "w", 10, 1)]


def routes_flows(network, pairs, demands, rows):
    """The flow on each row, added up over routes; and how many pairs have none."""
    owed, missed = [0] * rows, 0
    for route, demand in zip(network.routes(pairs).rows(), demands):
        missed += route is None
        for row in [] if route is None else route.tolist():
            owed[row] += demand
    return owed, missed


@pytest.mark.parametrize("workers, most", [(1, {}), (1, {"FLOWS": 7, "SIDE": 3}), (3, {"FLOWS": 7, "SIDE": 5, "WORTH": 8})])
def test_flows_are_sums_over_routes(monkeypatch, workers, most):
    """Of random networks with many ties, parallel arcs, loops and rows that lead both ways, exactly: of pairs and of tables, by one call and by parts
    of several threads."""
    import numpy

    for name, number in most.items():
        monkeypatch.setattr(in_process, name, number)
    for seed in range(16):
        draw = numpy.random.default_rng(seed)
        count, size = int(draw.integers(2, 25)), int(draw.integers(1, 80))
        tails, heads, weights = draw.integers(0, count, size), draw.integers(0, count, size), draw.integers(0, 4, size)
        labels = numpy.array([f"node {number}" for number in range(count)])
        shape = tuple(draw.integers(0, 9, 2).tolist())
        origins, destinations = (labels[draw.integers(0, count, length)] for length in shape)
        demands, pairs = draw.integers(0, [3, 2**47][seed % 2], shape), (numpy.repeat(origins, shape[1]), numpy.tile(destinations, shape[0]))
        made = chtab.Network.from_arrays(
            labels[tails], labels[heads], weights, nodes=labels, both_ways=bool(seed % 3), program=PROGRAM, workers=workers)
        with made as network:
            owed, missed = routes_flows(network, numpy.column_stack(pairs), demands.reshape(-1).tolist(), size)
            ones, _ = routes_flows(network, numpy.column_stack(pairs), [1] * demands.size, size)
            for found in network.flows(*pairs, demands.reshape(-1)), network.flows_table(demands, origins, destinations):
                assert found.tolist() == owed and found.dtype == numpy.int64 and found.index.tolist() == [*range(size)], seed
                assert found.attrs == {"pairs without a route": missed}, seed
            assert network.flows(*pairs).tolist() == ones == network.flows_table(1, origins, destinations).tolist()


@needs("python3-scipy")
def test_flows_are_those_of_scipy():
    """Where no two paths weigh the same, they are what its predecessors give, of pairs and of tables."""
    import numpy

    from helpers.columns import flows_owed

    for seed in range(5):
        draw = numpy.random.default_rng(seed)
        tails, heads = numpy.divmod(draw.permutation(3_600)[:240], 60)
        # Sums of different powers of 2 differ.
        weights, demands = 2 ** (20 + draw.permutation(240) % 17) + draw.permutation(2**20)[:240], draw.integers(0, 2**40, (60, 60))
        pairs, shares = draw.integers(0, 60, (300, 2)), draw.random(300)
        with chtab.Network.from_arrays(tails, heads, weights, nodes=range(60), program=PROGRAM) as network:
            found = network.flows(pairs[:, 0], pairs[:, 1], shares, scale=2**20)
            table = network.flows_table(demands, range(60), range(60))
        assert (found * 2**20).tolist() == flows_owed(60, tails, heads, weights, pairs, [round(share * 2**20) for share in shares])[0], seed
        owed, missed = flows_owed(60, tails, heads, weights, numpy.ndindex(60, 60), demands.reshape(-1).tolist())
        assert table.tolist() == owed and table.attrs == {"pairs without a route": missed}, seed


def test_flows_have_the_names_of_rows():
    """Those of the frame that the network was made of; and closed rows have no flow."""
    import pandas

    frame = pandas.DataFrame({"source": [1, 2, 1], "target": [2, 3, 3], "weight": [2, 2, 5]}, index=["north", "east", "long"])
    with chtab.Network.from_frame(frame, program=PROGRAM) as network:
        assert network.flows([1, 2, 3], [3, 3, 1], [4, 1, 9]).to_dict() == {"north": 4, "east": 5, "long": 0}
        with network.changed(closed=[(2, 3)]) as other:
            found = other.flows([1, 2], [3, 3], [4, 1])
            assert found.to_dict() == {"north": 0, "east": 0, "long": 4} and found.attrs == {"pairs without a route": 1}
        with network.changed(added=[(2, 3, 1)]) as other:
            found = other.flows([1], [3], [4])
            assert found.tolist() == [4, 0, 0, 4] and found.index.tolist() == ["north", "east", "long", None]


@needs("python3-networkx")
def test_flows_have_the_names_of_edges():
    """Of a graph with keys."""
    import networkx

    graph = networkx.MultiDiGraph()
    graph.add_edge(1, 2, key="slow", travel_time=9)
    graph.add_edge(1, 2, key="fast", travel_time=3)
    graph.add_edge(2, 3, key=0, travel_time=1)
    with chtab.Network.from_networkx(graph, unit="seconds", program=PROGRAM) as network:
        found = network.flows([1, 1], [3, 2], [2, 3])
        assert found.to_dict() == {(1, 2, "slow"): 0, (1, 2, "fast"): 5, (2, 3, 0): 2}
        with network.changed(closed=[(1, 2, "fast")]) as other:
            assert other.flows([1, 1], [3, 2], [2, 3]).to_dict() == {(1, 2, "slow"): 5, (2, 3, 0): 2}


def test_demands_that_are_refused():
    """What is no demand is named, and nothing is guessed of columns of other lengths."""
    import numpy

    with chtab.Network.from_arrays([1, 2], [2, 3], [1, 1], program=PROGRAM) as network:
        for demand, told in (
            ([1, numpy.nan], r"demand[1]"), ([1, -1], "below 0"), ([1.5, 1], "is not a whole number"), ([1, numpy.inf], "no demand"), ([2.0**53 + 2, 1], "too large"),
            (["one", 1], "demand"), ([None, 1], "demand"),
        ):
            raises(chtab.DataFault, network.flows, [1, 2], [3, 3], demand, told=told)
        raises(chtab.DataFault, partial(network.flows, scale=10), [1, 2], [3, 3], [1e15, 1], told="too large")
        for scale in 0, -1, numpy.nan, numpy.inf, True, "1":
            raises(chtab.DataFault, partial(network.flows, scale=scale), [1], [3], [1.0], told="scale")
        for words in ([1], [3, 3]), ([1, 2], [3]), ([1], [3], [1, 2]), ([1, 2], [3, 3], [1]), ([1], [3], [[1]]):
            raises(ValueError, network.flows, *words)
        raises(ValueError, network.flows, [9], [3], told="9")
        raises(chtab.DataFault, network.flows, [1] * 2048, [3] * 2048, [2**53] * 2048, told="2^63")
        assert network.flows([1] * 1023, [3] * 1023, [2**53] * 1023).tolist() == [1023 * 2**53] * 2
        found = network.flows([1, 2], [3, 3], [0.25, 1.5], scale=100)
        assert found.tolist() == [0.25, 1.75] and found.dtype == float
        assert network.flows([1, 2], [3, 3], [2.0, 1.0]).tolist() == [2.0, 3.0]


def test_progress_of_flows(monkeypatch):
    """A callable gets how many pairs are done."""
    monkeypatch.setattr(in_process, "FLOWS", 2)
    steps = []
    with chtab.Network.from_arrays([1, 2], [2, 3], [1, 1], program=PROGRAM) as network:
        network.flows([1] * 10, [3] * 10, progress=lambda done, total: steps.append((done, total)))
        assert steps == [(2 * part, 10) for part in range(1, 6)]

        def stop(done, total):
            raise KeyboardInterrupt

        raises(KeyboardInterrupt, partial(network.flows, progress=stop), [1] * 10, [3] * 10)
        assert network.flows([1], [3]).tolist() == [1, 1]


# Tables.


@pytest.mark.parametrize("workers, timeout, side, width, worth", [(1, None, 3, 4, 1 << 20), (1, 60, 2, 9, 1 << 20), (3, None, 2, 3, 4), (1, None, 1 << 12, 1 << 15, 1)])
def test_large_tables_keep_their_targets(monkeypatch, workers, timeout, side, width, worth):
    """The cells in blocks are those of one call, also within a limit, and one thread searches from each target once at most; near rows are as before."""
    import numpy

    kept, keep = [], library.Handle.keep_places
    monkeypatch.setattr(library.Handle, "keep_places", lambda handle, places, *words: [kept.append(len(places)), keep(handle, places, *words)][1])
    for seed in range(12):
        draw = numpy.random.default_rng(seed)
        count, size = int(draw.integers(2, 25)), int(draw.integers(1, 80))
        tails, heads, weights = draw.integers(0, count, size), draw.integers(0, count, size), draw.integers(0, 9, size)
        made = chtab.Network.from_arrays(tails, heads, weights, nodes=range(count), program=PROGRAM, workers=workers, timeout=timeout)
        with made as network:
            sources, targets = (draw.integers(0, count, length) for length in draw.integers(0, 12, 2).tolist())
            near, owed = network.near(sources, [0, 1], count=1), [network.table(sources, targets, within=within) for within in (None, 7)]
            with monkeypatch.context() as patch:
                for name, number in ("SIDE", side), ("SHORT", side), ("WIDTH", width), ("WORTH", worth):
                    patch.setattr(in_process, name, number)
                kept.clear()
                found = [network.table(sources, targets, within=within) for within in (None, 7)]
            assert all((one == other).all() for one, other in zip(found, owed)), seed
            if workers == 1:
                keeps = len(sources) > side and len(targets) > 0
                assert bool(sum(kept)) == keeps and sum(kept) <= 2 * len(targets), (seed, kept)
            assert rows_told(network.near(sources, [0, 1], count=1)) == rows_told(near), seed


def test_tables_of_demands_as_frames():
    """The index has the origins, the columns the destinations, of any order, and more than once."""
    import numpy
    import pandas

    frame = pandas.DataFrame({"source": ["a", "b", "a"], "target": ["b", "c", "c"], "weight": [2, 2, 5]}, index=["north", "east", "long"])
    with chtab.Network.from_frame(frame, program=PROGRAM) as network:
        found = network.flows_table(pandas.DataFrame([[4, 1], [9, 2]], ["a", "c"], ["c", "b"]))
        assert found.to_dict() == {"north": 5, "east": 4, "long": 0} and found.attrs == {"pairs without a route": 1}
        twice = pandas.DataFrame([[4, 1], [1, 2]], ["a", "a"], ["c", "c"])
        assert network.flows_table(twice).to_dict() == {"north": 8, "east": 8, "long": 0}
        mixed = pandas.DataFrame({"c": [2**53, 0], "b": [0.5, 0.0]}, ["a", "b"])
        raises(chtab.DataFault, network.flows_table, mixed, told="demand[0, 1]")
        assert network.flows_table(mixed, scale=1).tolist() == [2.0**53, 2.0**53, 0.0]
        half = network.flows_table(pandas.DataFrame([[0.25]], ["a"], ["b"]), scale=4)
        assert half.to_dict() == {"north": 0.25, "east": 0.0, "long": 0.0}
        nothing = network.flows_table(pandas.DataFrame([], [], []))
        assert nothing.tolist() == [0, 0, 0] and nothing.attrs == {"pairs without a route": 0}
        assert network.flows_table(numpy.zeros((2, 0)), ["a", "b"], []).tolist() == [0, 0, 0]


def test_tables_of_demands_that_are_refused():
    """What is no demand is named by its cell, nothing is guessed of other shapes, and no flow is returned for a table that is refused."""
    import numpy
    import pandas

    with chtab.Network.from_arrays([1, 2], [2, 3], [1, 1], program=PROGRAM) as network:
        ends = [1, 2], [2, 3]
        for demand, told in (
            ([[1, 1], [numpy.nan, 1]], "demand[1, 0]"), ([[1, -1], [1, 1]], "demand[0, 1]: -1"), ([[1, 1], [1, 1.5]], "demand[1, 1]"),
            ([[numpy.inf, 1], [1, 1]], "no demand"), ([[1, 1], [1, 2**53 + 1]], "too large"), ([["1", 1], [1, 1]], "demand[0, 0]"), ([[1, None], [1, 1]], "demand[0, 1]"),
            (numpy.ma.array([[1, 1], [1, 1]], mask=[[0, 0], [1, 0]]), "demand[1, 0]"), (pandas.DataFrame([[1, None], [1, 1]], *ends, dtype="Int64"), "demand[0, 1]"),
            (numpy.full((2, 2), "1"), "demand[0, 0]"), (numpy.full((2, 2), True), "demand[0, 0]"),
        ):
            raises(chtab.DataFault, network.flows_table, demand, *(() if hasattr(demand, "iloc") else ends), told=told)
        for demand in [[1, 1]], [1, 1], [[1, 1], [1]], [[[1, 1], [1, 1]]], [[1, 1, 1], [1, 1, 1]], numpy.zeros((2, 3)), numpy.zeros(4), numpy.zeros((2, 2, 1)), []:
            raises(ValueError, network.flows_table, demand, *ends)
        frame = pandas.DataFrame([[1, 1], [1, 1]], *ends)
        for words in (frame, *ends), (frame, ends[0]), (frame, None, ends[1]), ([[1, 1], [1, 1]],), (frame[2], *ends), (frame[2],), (numpy.ones((2, 2)), ends[0]):
            raises(ValueError, network.flows_table, *words)
        raises(ValueError, network.flows_table, frame.set_axis([1, 9]), told="9")
        raises(ValueError, network.flows_table, frame.set_axis(["1", "2"], axis=1), told="destinations")
        raises(ValueError, network.flows_table, frame.set_axis([1, numpy.nan]), told="origins")
        whole = pandas.DataFrame(numpy.full((16, 64), 2**53), [1] * 16, [3] * 64)
        raises(chtab.DataFault, network.flows_table, whole, told="2^63")
        assert network.flows_table(whole.iloc[:15]).tolist() == [15 * 64 * 2**53] * 2


def test_tables_of_places_are_refused():
    """Spots are no nodes, of this network or of another."""
    import numpy

    with chtab.Network.from_arrays([1, 2], [2, 1], [1, 1], nodes=[1, 2], x=[0.0, 0.001], y=[0.0, 0.0], program=PROGRAM) as network:
        spots = network.snap([0.0005], [0.0])
        with chtab.Network.from_arrays([1], [2], [1], program=PROGRAM) as other:
            for one in network, other:
                raises(TypeError, one.flows_table, numpy.ones((1, 1)), spots, [1], told="Spots")
                raises(TypeError, one.flows_table, numpy.ones((1, 1)), [1], spots, told="Spots")


@needs("python3-geopandas", "python3-matplotlib")
def test_flows_are_drawn_by_their_widths():
    """Each edge has the flow of its row, and is as wide in proportion."""
    import matplotlib
    import numpy
    import pandas

    matplotlib.use("Agg")
    frame = pandas.DataFrame({"source": [1, 2, 1], "target": [2, 3, 3], "weight": [2, 2, 5]}, index=["north", "east", "long"])
    with chtab.Network.from_frame(frame, nodes=[1, 2, 3], x=[0.0, 0.001, 0.002], y=[0.0, 0.001, 0.0], program=PROGRAM) as network:
        flows = network.flows([1, 1], [2, 3], [3, 1])
        edges = network.to_geodataframe(flows[::-1])
        by_row = edges.set_index("row").sort_index()
        assert by_row["flow"].tolist() == [4.0, 1.0, 0.0] and numpy.allclose(by_row["width"], [6.0, 1.5, 0.0])
        assert network.to_geodataframe(flows, widest=2)["width"].max() == 2 and "flow" not in network.to_geodataframe()
        drawn = network.plot(flows, widest=8, cmap="magma").collections
        assert len(drawn) == 2 and sorted(drawn[1].get_linewidths()) == [2.0, 8.0] and len(drawn[0].get_paths()) == 3
        assert len(network.plot(flows * 0).collections) == 1
        for wrong in flows[:2], flows - 5, flows.set_axis([1, 2, 3]), flows * numpy.nan:
            raises(ValueError, network.to_geodataframe, wrong)
        for widest in 0, -1, numpy.inf, True, "2":
            raises(ValueError, partial(network.plot, widest=widest), flows, told="widest")


def test_tables_have_the_same_equilibrium():
    """The trips of a table are those of its pairs."""
    import pandas

    network, times = braess(BRAESS)
    with network:
        owed = network.assign(["s", "s"], ["t", "v"], [6.0, 1.0], times=times, gap=1e-6, scale=1000)
        table = pandas.DataFrame([[1.0, 6.0]], ["s"], ["v", "t"])
        for words in {"demand": table}, {"origins": ["s"], "destinations": ["v", "t"], "demand": table.to_numpy()}:
            found = network.assign(**words, times=times, gap=1e-6, scale=1000)
            assert found.flows.equals(owed.flows) and found.gaps == owed.gaps and found.missed == 0
        raises(ValueError, partial(network.assign, demand=table, times=times), ["s"], ["t"])
        raises(ValueError, partial(network.assign, times=times), ["s"])
        raises(ValueError, partial(network.assign, times=times))


def braess(rows):
    """The network of these rows, in milliseconds of seconds, and the times of flows."""
    import numpy

    tails, heads, own, more = zip(*rows)
    network = chtab.Network.from_arrays(list(tails), list(heads), numpy.maximum(own, 1), unit="seconds", program=PROGRAM)
    return network, lambda flows: numpy.array(own) + numpy.array(more) * flows


@pytest.mark.parametrize("method", ["msa", "frank-wolfe", "bi-conjugate"])
def test_braess_has_its_equilibrium(method):
    """With the road in the middle each of three routes has 2 cars, which take 92; without it each of two has 3, which take 83."""
    import numpy

    steps = 300 if method == "msa" else 60
    for rows, flows, time in (BRAESS, [4, 2, 2, 4, 2], 92), (BRAESS[:4], [3, 3, 3, 3], 83):
        network, times = braess(rows)
        with network:
            found = network.assign(["s"], ["t"], [6.0], times=times, method=method, gap=1e-6, steps=steps, scale=1000)
        near = 0.1 if method == "msa" else 0.001
        assert numpy.allclose(found.flows, flows, atol=near) and numpy.allclose(found.times, times(numpy.array(flows)), atol=10 * near), (method, found)
        assert abs(found.total_time - 6 * time) < 60 * near and found.missed == 0 and 0 <= found.rounding <= 0.0005
        assert found.is_reached == (found.gaps[-1] <= 1e-6) and (found.is_reached or method == "msa"), (method, found.gaps)
        best = numpy.minimum.accumulate(found.gaps)
        assert (numpy.array(found.gaps) > -1e-6).all() and best[-1] < best[0] / 100


def objective(rows, flows):
    """What an equilibrium makes least: for each road the area under its time (Beckmann, McGuire and Winsten 1956)."""
    return sum(own * flow + more * flow**2 / 2 for (*_, own, more), flow in zip(rows, flows))


@pytest.mark.parametrize("method", ["frank-wolfe", "bi-conjugate"])
def test_steps_lead_down_to_the_least_objective(method):
    """No step raises the objective. In the end it has five digits of the least: 386 with the road in the middle, 399 without."""
    for rows, least in (BRAESS, 386), (BRAESS[:4], 399):
        network, times = braess(rows)
        with network:
            assigned = partial(network.assign, ["s"], ["t"], [6.0], times=times, method=method, gap=0, scale=1000)
            after = [assigned(steps=steps) for steps in (*range(1, 9), 60)]
        values = [objective(rows, found.flows) for found in after]
        assert all(new <= old * (1 + 1e-9) for old, new in zip(values, values[1:])), (method, values)
        assert abs(values[-1] / least - 1) < 5e-6 and min(values) > least * (1 - 1e-6), (method, values)
        assert all(found.gaps[: len(old.gaps)] == old.gaps for old, found in zip(after, after[1:]))


@needs("python3-scipy")
def test_two_routes_have_equal_times():
    """By BPR: the flows at which the times of two routes are equal, by scipy's root, with tolls and without."""
    import numpy
    import scipy.optimize

    free, capacity, alpha, beta, tolls = numpy.array([10.0, 15]), numpy.array([20.0, 30]), numpy.array([0.15, 0.3]), numpy.array([4.0, 3]), numpy.array([3.0, 0])
    # Between two nodes only the lighter arc has flow, so that each route has a node of its own.
    rows = [("s", "v"), ("v", "t"), ("s", "w"), ("w", "t")]
    with chtab.Network.from_arrays(*map(list, zip(*rows)), [10.0, 0, 15, 0], unit="seconds", program=PROGRAM) as network:
        for value_of_time in None, 2.0:
            fixed = tolls / value_of_time if value_of_time else 0 * tolls

            def times(flow):
                return free * (1 + alpha * (numpy.array([flow, 60 - flow]) / capacity) ** beta)

            owed = scipy.optimize.brentq(lambda flow: numpy.diff(times(flow) + fixed)[0], 0, 60)
            given = {} if value_of_time is None else {"tolls": [3.0, 0, 0, 0], "value_of_time": value_of_time}
            found = network.assign(["s"] * 2, ["t"] * 2, [20, 40], numpy.repeat(capacity, 2), alpha=numpy.repeat(alpha, 2), beta=numpy.repeat(beta, 2), gap=1e-7, **given)
            assert numpy.allclose(found.flows, [owed, owed, 60 - owed, 60 - owed], rtol=1e-5) and found.is_reached, found
            assert numpy.allclose(found.times[::2], times(owed), rtol=1e-4) and abs(found.total_time - times(owed) @ [owed, 60 - owed]) < 0.05


def test_traffic_that_is_refused():
    """Rows that lead both ways, capacities and times that are none, and words of no meaning."""
    import numpy

    with chtab.Network.from_arrays([1, 2], [2, 3], [1, 1], unit="seconds", program=PROGRAM) as network:
        right = [1], [3], [1]
        for words, told in (
            ({}, "capacity"), ({"capacity": 1, "method": "dijkstra"}, "method"), ({"capacity": 1, "steps": 0}, "steps"), ({"capacity": 1, "gap": -1}, "gap"),
            ({"capacity": 1, "gap": numpy.nan}, "gap"), ({"capacity": 1, "tolls": 1}, "value_of_time"), ({"capacity": 1, "tolls": 1, "value_of_time": 0}, "value_of_time"),
        ):
            raises(ValueError, partial(network.assign, **words), *right, told=told)
        for words in {"capacity": [1, 0]}, {"capacity": [1, numpy.nan]}, {"capacity": [1]}, {"capacity": 1, "alpha": [-1, 1]}, {"capacity": 1, "beta": [1, 2, 3]}:
            raises(chtab.DataFault, partial(network.assign, **words), *right)
        for times in (lambda flows: flows[:1]), (lambda flows: flows - 1), (lambda flows: flows * numpy.nan):
            raises(chtab.DataFault, partial(network.assign, times=times), *right, told="times")
        found = network.assign([3], [1], [5], 10)
        assert found.flows.tolist() == [0, 0] and found.missed == 1 and found.is_reached and found.total_time == 0
    with chtab.Network.from_arrays([1], [2], [1], unit="seconds", both_ways=True, program=PROGRAM) as network:
        raises(chtab.DataFault, network.assign, [1], [2], [1], 10, told="both ways")
