"""Tests that each call answers random graphs as scipy, networkx and numpy do, or Dijkstra's algorithm on whole numbers of any size.

The networks are made of columns of every form, of frames, graphs of networkx, files and folders, by one thread and by several, and in the order of others.
Near rows and the values that are added up over them have further forms; they come in blocks, also by a cluster of Dask.
"""
import math
import pathlib
import pickle

import pytest

from helpers.cases import Case
from helpers.columns import drawn, forms_of, labels_drawn, least_of
from helpers.commands import needs, raises
from helpers.minutes import of_minutes
from helpers.nearness import dense_owed, rows_owed, rows_told, small_blocks, small_portions, sums_owed
from helpers.running import PROGRAM, ROOT
from helpers.science import networkx, numpy, pandas
from helpers.writing import write_graph
import chtab
from chtab._near import blocks
from chtab._near.question import NearQuestion

FIRST = ROOT / "examples" / "first.gr"
# Graphs of each way to make a network, and questions about what is near in each.
GRAPHS, QUESTIONS = 12, 4
# The most sources and targets of a block, its most pairs, and the threads that make blocks; and what one call of the library has: pairs, swept nodes and sources.
BLOCKS = (2**16, 10**6, 1), (10, 10**6, 1), (10, 10**6, 3), (7, 30, 2), (64, 40, 1), (64, 10**6, 5)
PORTIONS = (1 << 20, 0, 1 << 13), (1, 10**9, 7), (50, 10**9, 1), (1_000, 30_000, 100), (1 << 20, 1 << 24, 1 << 13)
AGGREGATES = {"sum": numpy.sum, "mean": numpy.mean, "median": numpy.median, "std": numpy.std, "min": numpy.min, "max": numpy.max, "count": len}


def arcs_drawn(draw):
    """Labels, the columns of arcs, the distances, and the arcs by labels. Each way to make a network below gives it with its distances and arcs."""
    count, tails, heads, weights = drawn(draw)
    labels = labels_drawn(draw, count)
    arcs = list(zip(labels[tails].tolist(), labels[heads].tolist(), weights.tolist()))
    return labels, (labels[tails], labels[heads], weights), least_of(count, zip(tails, heads, weights.tolist())), arcs


def of_columns(draw, **more):
    labels, columns, least, arcs = arcs_drawn(draw)
    return chtab.Network.from_arrays(*(forms_of(draw, column) for column in columns), nodes=forms_of(draw, labels), program=PROGRAM, **more), least, arcs


def in_a_folder(draw):
    made, *owed = of_columns(draw, folder=(name := f"own {draw.integers(2**60)}"))
    made.close()
    return chtab.Network.open(name, program=PROGRAM), *owed


def in_the_order_of_another(draw):
    """As columns, or as a frame with a unit, with the nodes of a network of other arcs, and any share of nodes ordered afresh; the other one answers on."""
    labels, columns, least, arcs = arcs_drawn(draw)
    ends = draw.integers(0, len(labels), (2, 60))
    with chtab.Network.from_arrays(*labels[ends], draw.integers(1, 40, 60), nodes=labels, program=PROGRAM) as other:
        before, more = other.table(labels, labels), {"like": other, "fresh": int(draw.choice([0, 5, draw.integers(101), 100])), "program": PROGRAM}
        if draw.random() < 0.5:
            made = chtab.Network.from_arrays(*columns, **more)
        else:
            made = chtab.Network.from_frame(pandas.DataFrame(dict(zip("abc", columns))), "a", "b", "c", unit="metres", **more)
        assert numpy.array_equal(other.table(labels, labels), before)
    return made, least, arcs


def of_a_file(draw):
    """Weights are as large as may be, and zero."""
    case = Case(int(draw.integers(2**30)))
    write_graph("graph.gr", case.nodes, case.arcs)
    least = numpy.array([[case.costs[tail].get(head, (-1, 0))[0] for head in case.costs] for tail in case.costs], numpy.int64)
    return chtab.Network.open("graph.gr", program=PROGRAM), least, case.arcs


def of_networkx(draw):
    """Of each kind, by networkx's own search."""
    labels, _, _, arcs = arcs_drawn(draw)
    graph = (networkx.Graph, networkx.DiGraph, networkx.MultiGraph, networkx.MultiDiGraph)[draw.integers(4)]()
    graph.add_nodes_from(labels.tolist())
    graph.add_edges_from((tail, head, {"cost": weight}) for tail, head, weight in arcs)
    lengths = dict(networkx.all_pairs_dijkstra_path_length(graph, weight="cost"))
    least = numpy.array([[lengths[source].get(target, -1) for target in graph] for source in graph])
    return chtab.Network.from_networkx(graph, "cost", None, program=PROGRAM), least, arcs if graph.is_directed() else arcs + [(head, tail, weight) for tail, head, weight in arcs]


@pytest.mark.parametrize("way", [of_columns, in_a_folder, in_the_order_of_another, of_a_file, of_networkx])
def test_each_call_answers_as_owed(way):
    for seed in range(GRAPHS):
        draw = numpy.random.default_rng(seed)
        network, least, arcs = way(draw)
        with network:
            distances_as_owed(network, draw, least)
            routes_as_owed(network, draw, least, arcs)
            for _ in range(QUESTIONS):
                near_as_owed(network, draw, least)
            aggregates_as_owed(network, draw, least)


def distances_as_owed(network, draw, least):
    labels, count = network.labels, network.nodes
    assert count == len(labels) == len(least) and not network.rounding and (network.unit or network.distances([]).dtype == numpy.int64)
    limit = int(draw.choice([0, 7, least.max(), max(0, least.max() - 1)]))
    assert numpy.array_equal(network.table(labels, labels.tolist(), missing=-1), least)
    assert numpy.array_equal(network.table(labels.tolist(), labels, within=limit, missing=-1), numpy.where(least > limit, -1, least))
    assert network.table([], labels).shape == (0, count) and network.table(labels, []).shape == (count, 0) and network.distances([]).shape == (0,)
    rows, columns = draw.integers(0, count, (2, 20))
    for pairs in (labels[rows], labels[columns]), (list(zip(labels[rows].tolist(), labels[columns].tolist())),):
        assert numpy.array_equal(network.distances(*pairs, missing=-1), least[rows, columns])


def routes_as_owed(network, draw, least, arcs):
    rows, columns = draw.integers(0, network.nodes, (2, 20))
    pairs, there = list(zip(network.labels[rows].tolist(), network.labels[columns].tolist())), set(arcs)
    assert network.routes([])[:] == []
    for route, pair, weight in zip(network.routes(pairs), pairs, least[rows, columns].tolist()):
        assert (route.source, route.target, -1 if route.weight is None else route.weight) == (*pair, weight)
        if weight < 0:
            assert route.nodes is None
        else:
            assert there.issuperset(zip(route.nodes, route.nodes[1:], route.weights)), route
            assert (route.nodes[0], route.nodes[-1], sum(route.weights)) == (*pair, weight), route


def near_as_owed(network, draw, least):
    """A question whose sources (None: all) and targets repeat, with a count, a limit that is often a distance, and a direction; in blocks and portions."""
    labels, count = network.labels, network.nodes
    sources = None if draw.random() < 0.4 else draw.integers(0, count, draw.integers(0, 30))
    targets = draw.integers(0, count, draw.choice([0, 1, 5, 40]))
    within = None if draw.random() < 0.4 else int(draw.choice([0, 2**50 if network.unit else 2**60, *least[least >= 0].tolist(), *(least[least > 0] - 1).tolist()]))
    most, direction = None if draw.random() < 0.4 else int(draw.choice([1, 2, 5, 100])), ("to", "from")[draw.integers(2)]
    question, own = (sources, targets, most, within, direction), numpy.arange(count) if sources is None else sources
    turned = least if direction == "to" else least.T
    given = None if sources is None else forms_of(draw, labels[sources]), forms_of(draw, labels[targets])
    owed, (length, pairs, workers) = rows_owed(turned, own, targets, most, within), BLOCKS[draw.integers(len(BLOCKS))]
    with small_blocks(length, pairs), small_portions(*PORTIONS[draw.integers(len(PORTIONS))]):
        more = {"within": within, "direction": direction, "workers": workers}
        near = network.near(*given, count=most, **more)
        found, width = network.nearest_targets(*given, count=most or 3, **more), max(1, min(most or 3, len(targets)))
        values, limits = draw.integers(-5, 9, len(targets)), [within or 7, 3]
        sums = network.accessibility(values, limits, sources=given[0], targets=given[1], direction=direction, workers=workers)
        for block in blocks.cut(NearQuestion(None if sources is None else own, targets, most), count, workers):
            height, across = block.question.height(count), len(block.question.targets)
            assert across <= length and height * min(across, most or across) <= pairs, (height, across)
    assert rows_told(near) == owed, (question, rows_told(near), owed)
    assert near.offsets.dtype == near.places.dtype == numpy.int64 and (network.unit or near.weights.dtype == numpy.int64)
    assert near.sources.tolist() == labels[own].tolist() and near.targets.tolist() == labels[targets].tolist()
    places, dense = dense_owed(rows_owed(turned, own, targets, most or 3, within), width)
    assert found.places.tolist() == places and numpy.array_equal(numpy.where(found.mask, -1, found.weights), numpy.array(dense).reshape(len(own), width)), question
    assert found.places.shape == (len(own), width) and numpy.array_equal(found.mask, found.places < 0)
    wanted = [sums_owed(turned, own, targets, values.tolist(), limit) for limit in limits]
    assert sums.shape == (len(own), 2) and sums.T.tolist() == wanted, (question, sums, wanted)


def aggregates_as_owed(network, draw, least):
    """Each aggregate of several columns of values within several limits, and sums and means of values that fade with the distance."""
    labels, targets = network.labels, draw.integers(0, network.nodes, 25)
    apart = numpy.where(least < 0, numpy.inf, least.astype(float))[:, targets]
    values, limits = numpy.column_stack([draw.normal(size=25), draw.integers(0, 3, 25)]), [0, 12, 1_000]
    for kind, call in AGGREGATES.items():
        wanted = numpy.full((len(labels), 2, 3), 0.0 if kind in ("sum", "count") else numpy.nan)
        for source, column, place in numpy.ndindex(wanted.shape):
            near = values[apart[source] <= limits[place], column]
            wanted[source, column, place] = call(near) if len(near) else wanted[source, column, place]
        found = network.accessibility(values, limits, targets=labels[targets], aggregate=kind)
        numpy.testing.assert_allclose(found, wanted, 1e-9, 1e-9, err_msg=kind)
    shares = numpy.where(apart <= 12, 1 - apart / 12, 0)
    some = shares.any(axis=1)
    for kind, wanted in ("sum", shares @ values[:, 0]), ("mean", shares @ values[:, 0] / numpy.where(some, shares.sum(axis=1), 1)):
        found = network.accessibility(values[:, 0], 12, targets=labels[targets], decay="linear", aggregate=kind)
        numpy.testing.assert_allclose(found[some], wanted[some], 1e-9, 1e-9, err_msg=kind)


def test_half_a_million_arcs():
    """A grid of 180,000 nodes with names of their own, in both directions, against scipy."""
    draw, numbers = numpy.random.default_rng(57), numpy.arange(180_000).reshape(300, 600)
    tails, heads = (numpy.concatenate([across.ravel(), down.ravel()])[:250_000] for across, down in ((numbers[:, :-1], numbers[:-1]), (numbers[:, 1:], numbers[1:])))
    weights, labels = draw.integers(1, 1_000, len(tails)), draw.choice(10**12, 180_000, replace=False)
    with chtab.Network.from_arrays(labels[tails], labels[heads], weights, nodes=labels, both_ways=True, workers=2, program=PROGRAM) as network:
        assert len(network.graph.tails) == 500_000
        some, others = draw.choice(len(labels), (2, 100))
        arcs = zip(numpy.append(tails, heads), numpy.append(heads, tails), numpy.tile(weights, 2))
        assert numpy.array_equal(network.table(labels[some[:10]], labels[others]), least_of(180_000, arcs, some[:10])[:, others])


def ring():
    """A ring with a way across."""
    return chtab.Network.from_arrays(["a", "b", "c", "a"], ["b", "c", "a", "c"], [4, 5, 1, 10], program=PROGRAM)


def test_forms_of_an_answer():
    """As a table and as a sparse matrix, of labels that are strings; what is asked of it by place."""
    with ring() as network:
        near = network.near(["a", "c", "a"], ["c", "b", "c", "a"], within=9)
        assert repr(near) == "<12 targets near 3 sources>" and len(near) == 3 and near.owners().tolist() == [0] * 4 + [1] * 4 + [2] * 4
        assert [part.tolist() for part in near[-1]] == [[3, 1, 0, 2], [0, 4, 9, 9]] and rows_told(pickle.loads(pickle.dumps(near))) == rows_told(near)
        raises(IndexError, near.__getitem__, 3)
        frame, matrix = near.to_frame(), near.to_sparse()
        assert frame.columns.tolist() == ["source", "target", "place", "weight"]
        assert frame.iloc[:3].values.tolist() == [["a", "a", 3, 0], ["a", "b", 1, 4], ["a", "c", 0, 9]]
        assert frame[frame.source == "c"]["weight"].tolist() == [0, 0, 1, 5]
        assert matrix.shape == (3, 4) and matrix.nnz == 12 and matrix.toarray().tolist() == [[9, 4, 9, 0], [0, 5, 0, 1], [9, 4, 9, 0]]
        assert matrix.has_sorted_indices and matrix.dtype == numpy.int64 and near.places.tolist()[:4] == [3, 1, 0, 2]
        empty = network.near(None, ["c"], within=0)
        assert empty.to_sparse().toarray().tolist() == [[0], [0], [0]] and empty.to_sparse().nnz == 1 and empty.to_frame()["source"].tolist() == ["c"]
        for sources, targets in ([], ["a"]), (["a"], []), ([], []), (None, []):
            near = network.near(sources, targets)
            assert len(near) == (3 if sources is None else len(sources)) and near.places.size == 0 and near.offsets.tolist() == [0] * (len(near) + 1)
            assert near.to_frame().empty and near.to_sparse().shape == (len(near), len(targets))
            assert network.nearest_targets(sources, targets, count=2).places.tolist() == [[-1]] * len(near)
            assert network.accessibility([1.0] * len(targets), [5, 9], sources=sources, targets=targets).tolist() == [[0.0, 0.0]] * len(near)


def test_sums_take_values_in_each_form():
    """A value for each target, for all, for each node, and by label; each decay; numbers and lists as limits. Columns of frames keep their names."""
    jobs, least = {"b": 10.0, "c": 2.5}, {"a": (4, 9), "b": (0, 5), "c": (5, 0)}
    series = pandas.Series(jobs)

    def sums(limit, share=lambda weight, limit: 1):
        return [sum(value * share(weight, limit) for value, weight in zip(jobs.values(), least[label]) if weight <= limit) for label in "abc"]

    with ring() as network:
        for limit in 0, 4, 5, 9:
            for values, targets in (jobs, None), (series, None), ([10, 2.5], ["b", "c"]), ([0, 10, 2.5], None), ([2.5, 9, 1], ["c", "b", "b"]):
                assert network.accessibility(values, limit, targets=targets).tolist() == sums(limit), (limit, values)
            assert network.accessibility(series, limit, sources=["c", "a"]).tolist() == sums(limit)[::-2]
        found = network.accessibility(jobs, [0, 4, 5, 9], decay=None)
        assert found.dtype == float and found.T.tolist() == list(map(sums, (0, 4, 5, 9))) and network.accessibility(jobs, []).shape == (3, 0)
        assert network.accessibility(1, 5).tolist() == [2, 2, 3] and network.accessibility(0.5, 4, targets=["b", "b"]).tolist() == [1, 1, 0]
        assert network.accessibility(jobs, 7.5).tolist() == sums(5)
        assert network.accessibility(jobs, 7.5, sources=["b"], decay="linear").tolist() == [10 + 2.5 * (1 - 5 / 7.5)]
        for decay, share in (
            ("linear", lambda weight, limit: 1 - weight / limit), ("exponential", lambda weight, limit: math.exp(-weight / limit)),
            (lambda weights: 1 / (1 + weights), lambda weight, limit: 1 / (1 + weight)), (lambda weights: 0.5, lambda weight, limit: 0.5),
        ):
            owed = numpy.column_stack([sums(limit, share) for limit in (5, 9)])
            assert numpy.allclose(network.accessibility(jobs, [5, 9], decay=decay), owed, rtol=1e-12, atol=0), decay
    values = pandas.DataFrame({"jobs": [10, 1], "is open": [True, False]}, index=["mill", "farm"])
    with of_minutes() as network:
        # Values of no target, and values that are all 0, are sums of 0 everywhere.
        assert network.accessibility(0, 5).tolist() == [0] * 5 and network.accessibility({}, [1, 2]).tolist() == [[0, 0]] * 5
        assert network.accessibility([], 5, targets=[]).tolist() == [0] * 5
        one, several = network.accessibility(values, 2.5), network.accessibility(values, [1.25, 2.5], sources=["inn"])
        assert one.loc["inn"].to_dict() == {"jobs": 11.0, "is open": 1.0} and one.index.tolist() == network.labels.tolist()
        assert several.loc["inn", ("jobs", 1.25)] == 1 and several.loc["inn", ("is open", 2.5)] == 1 and several.columns.names == [None, "within"]
        assert network.accessibility(values["jobs"], 2.5, sources=["inn"]).tolist() == [11]
        assert network.accessibility({"mill": True}, 2.5, sources=["inn"]).tolist() == [1]
        fault = raises(chtab.DataFault, lambda: network.accessibility(values.assign(jobs=[1, numpy.nan]), 2.5), told="values['jobs'][1]")
        assert fault.row == 1


def test_what_is_no_question_is_refused():
    """Numbers that are out of their range, values that are none, and other words."""
    nan, targets = math.nan, {"targets": ["a", "b"]}
    with ring() as network:
        for kind, words, told in (
            (ValueError, {"count": 0}, "count is a whole number from 1 on"), (ValueError, {"count": -1}, "from 1 on"), (TypeError, {"count": 1.5}, "count is a whole number"),
            (ValueError, {"count": True}, "True"), (ValueError, {"direction": "back"}, "'back'"), (ValueError, {"workers": 0}, "workers"),
        ):
            for call in network.near, network.nearest_targets:
                raises(kind, lambda: call(["a"], ["b"], **words), told=told)
        raises(TypeError, lambda: network.nearest_targets(["a"], ["b"], count=None))
        for within, more, told in (
            (5, {"decay": "flat"}, "'flat'"), (0, {"decay": "linear"}, "above 0"), ([5, 0], {"decay": "exponential"}, "above 0"),
            ([[1]], {}, "one list"), (9, {"decay": lambda weights: weights[:1]}, "gave the shape (1,)"),
            (12, {"decay": "linear", "aggregate": "median"}, "the median has no decay"), (12, {"aggregate": "mode"}, "aggregate is one of sum, mean"),
        ):
            raises(ValueError, lambda: network.accessibility(1, within, **more), told=told)
        for values, more, column, row, told in (
            ([1, nan], targets, "values", 1, "nan is no value"), ([1.0], targets, "values", None, "1 rows, and there are 2 targets"),
            ([1, 2], {}, "values", None, "2 rows, and there are 3 nodes"), ([1, math.inf, 2], {}, "values", 1, "inf is no value"),
            ([1, None, 2], {}, "values", 1, "there is none"), (["1", "2", "3"], {}, "values", 0, "neither an integer nor a float"),
            (numpy.ones((3, 1, 1)), {}, "values", None, "shape (3, 1, 1)"), ({"x": 1.0}, {}, "targets", 0, "no node has the label 'x'"),
            (numpy.ma.array([1, 2, 3], mask=[0, 0, 1]), {}, "values", 2, "is masked"),
        ):
            fault = raises(chtab.DataFault, lambda: network.accessibility(values, 5, **more), told=told)
            assert (fault.column, fault.row) == (column, row), (fault.column, fault.row, told)


@needs("python3-distributed")
def test_a_cluster_answers_too():
    """The workers of a client of Dask make blocks; a fault of one of them is reported, and the client goes on."""
    import distributed

    def shares(weights):
        return numpy.exp(-weights / 3.0)

    pathlib.Path("bad.gr").write_text("p sp 2 2\na 1 2 1\n")
    with distributed.LocalCluster(n_workers=2, threads_per_worker=1, dashboard_address=None) as cluster, distributed.Client(cluster) as client:
        with chtab.Network.open(FIRST, program=PROGRAM, load=False) as network, small_blocks(2, 10):
            assert rows_told(network.near([1, 2, 3, 1, 1], [3, 1, 2], workers=client)) == rows_told(network.near([1, 2, 3, 1, 1], [3, 1, 2]))
            sums, owed = (network.accessibility([1, 2, 4], [5, 9], targets=[3, 1, 2], decay=shares, workers=workers) for workers in (client, 1))
            assert numpy.allclose(sums, owed)
            with chtab.Network.open("bad.gr", program=PROGRAM, load=False) as bad:
                assert raises(chtab.ProgramFault, lambda: bad.near([1, 2], [2, 1], count=1, workers=client), told="graph line 3: too few lines").status == 1
            assert network.near([1], [3], workers=client).weights.tolist() == [9]
