"""For the test of networks that are made of arrays: right distances, random graphs and labels, columns of every form, and columns that are refused."""
from scipy.sparse import csgraph

from helpers.science import numpy, pandas, scipy

# The most nodes of a graph that is drawn.
MOST = 30


def least_of(count, arcs, sources=None):
    """The distances by scipy from all nodes from 0 on, or from some, -1 where there is no walk. An arc of weight 0 is one of a millionth part there."""
    least = {}
    for tail, head, weight in arcs:
        least[tail, head] = min(weight, least.get((tail, head), weight))
    ends = tuple(zip(*least)) or ((), ())
    matrix = scipy.sparse.csr_matrix(([weight + 1e-6 for weight in least.values()], ends), shape=(count, count))
    found = csgraph.dijkstra(matrix, indices=sources)
    return numpy.where(numpy.isinf(found), -1, numpy.floor(numpy.nan_to_num(found, posinf=0) + 1e-9)).astype(numpy.int64)


def flows_owed(count, tails, heads, weights, pairs, demands):
    """The sum of the demands of pairs on each arc by scipy's predecessors, where no two paths weigh the same; and how many pairs have no path."""
    away, before = csgraph.dijkstra(scipy.sparse.csr_array((weights, (tails, heads)), shape=(count, count)), return_predecessors=True)
    flows, missed = {}, 0
    for (source, target), demand in zip(pairs, demands):
        missed += bool(numpy.isinf(away[source, target]))
        while source != target and numpy.isfinite(away[source, target]):
            last = int(before[source, target])
            flows[last, int(target)] = flows.get((last, int(target)), 0) + demand
            target = last
    return [flows.get((int(tail), int(head)), 0) for tail, head in zip(tails, heads)], missed


def arcs_of(graph):
    """The arcs of a graph of files, by nodes from 0 on."""
    return [(tail - 1, head - 1, weight) for tail, head, weight in zip(*graph[1:4])]


def drawn(draw):
    """A graph with equal weights, weights 0, several arcs between two nodes, loops, and nodes that are not reached."""
    count = int(draw.integers(1, MOST))
    arcs = int(draw.integers(0, 3 * count))
    tails, heads = draw.integers(0, count, (2, arcs))
    return count, tails, heads, draw.choice([0, 0, 1, 7, 7, 1_000], arcs)


def labels_drawn(draw, count):
    """Different labels of one kind: numbers of 64 bits or more, or strings that look like numbers, or end in NUL or a line feed."""
    kinds = (
        lambda: draw.choice(10**15, count, replace=False) - 10**14,
        lambda: numpy.array([2**64 + 3 * number for number in draw.permutation(count).tolist()], object),
        lambda: numpy.array([("%d", "0%d", " %d", "%d\0", "é%d\n")[number % 5] % (number // 5) for number in draw.permutation(count)], object),
        lambda: numpy.array([f"node {number}" for number in draw.permutation(count)]),
    )
    return kinds[draw.integers(len(kinds))]()


def forms_of(draw, column):
    """A column in one of the forms that callers have."""
    forms = [lambda: column, lambda: column.tolist(), lambda: pandas.Series(column, index=range(5, 5 + len(column))), lambda: column.repeat(2)[::2]]
    if column.dtype.kind == "i":
        forms += [lambda: pandas.array(column, "Int64"), lambda: column.astype(">i8")]
    return forms[draw.integers(len(forms))]()


def refusals():
    """Columns that are refused: (sources, targets, weights, more), the column and the row that are named, and what is told."""
    ends, weights, three = ([1, 2], [2, 3]), [1, 1], {"nodes": [1, 2, 3]}
    nan = float("nan")
    for sources, row, told in (
        ([1.5, 2.0], 0, "1.5 is no label"), ([2.0**53 + 2, 1.0], 0, "is no label"), (numpy.array([1, nan]), 1, "nan is no label"), ([1, "1"], 1, "'1' is not one of integers"),
        (["1", 1], 1, "1 is not one of strings"), ([True, False], 0, "True"), (numpy.array([True, False]), 0, "True"), ([b"a", b"b"], 0, "b'a'"),
        ([1, None], 1, "None"), ([1, nan], 1, "nan"), (numpy.ma.masked_array([1, 2], [False, True]), 1, "masked"),
        (pandas.array([1, None], "Int64"), 1, "missing"), (pandas.Series([None, 1], dtype="Int64"), 0, "missing"),
        (pandas.Series(["a", None], dtype="string"), 1, "missing"), ([(1, 2), 3], 1, "the label 3 is not one of tuples"), ([(1, 2), (3, None)], 1, "(3, None) is no label"), ([(1, 2), (3, nan)], 1, "nan) is no label"), ([1, 2.5], 1, "2.5"),
        (numpy.array(["2020-01-01"] * 2, "M8[D]"), 0, "no label"),
        (numpy.array(["2020-01-01"] * 2, "M8[ns]"), 0, "datetim"), (pandas.to_datetime(pandas.Series(["2020-01-01"] * 2)), 0, "datetim"),
        ([[1, 2], [3, 4]], None, "shape (2, 2)"), (1, None, "shape ()"),
        ({1, 2}, 0, "{1, 2} is no label"), ("ab", None, "shape ()"), ([1, "x" * 10_000], 1, "..."),
        ([1, 10**5_000], 1, "an integer of 16,610 bits is no label"), (["x", 10**5_000], 1, "an integer of 16,610 bits is not one of strings"),
    ):
        yield (sources, [2, 3], weights, {}), "sources", row, told
    for values, row, told in (
        ([1, nan], 1, "nan is no weight"), ([1, float("inf")], 1, "inf is no weight"), ([-1, 1], 0, "-1 is below 0"),
        ([1, 1.5], 1, "1.5 is not a whole number"),
        ([1, 2**60 // 3 + 1], 1, "too large"), ([1, 1e30], 1, "too large"), ([10**40, 1], 0, "too large"), ([1, -10**40], 1, "below 0"),
        (numpy.array([1, 2**64 - 1], numpy.uint64), 1, "too large"), (["1", "2"], 0, "'1' is neither an integer nor a float"), (numpy.array(["1", "2"]), 0, "'1'"),
        ([True, False], 0, "True is neither an integer nor a float"), (numpy.array([1j, 2]), 0, "neither an integer nor a float"), (numpy.array([1, "NaT"], "m8[ns]"), 1, "missing"),
        ([10**5_000, 1], 0, "too large"), ([1.5, 10**5_000], 1, "too large"), ([-10**5_000, 1.5], 0, "below 0"),
        ([1, None], 1, "there is none"), (numpy.ma.masked_array([1, 2], [True, False]), 0, "masked"), ([1], 1, "row 1 of weights is missing"),
        (pandas.Series([1, None], dtype="Float64"), 1, "missing"), ([[1, 2]], None, "shape (1, 2)"), ([1, 2, 3], None, "row 2 of sources is missing"),
    ):
        yield (*ends, values, {}), "sources" if "of sources" in told else "weights", 2 if "of sources" in told else row, told
    yield ([1, 2, 3], [2, 3], [1, 1, 1], {}), "targets", 2, "row 2 of targets is missing"
    yield (["1", "2"], [1, 2], weights, {}), "targets", 0, "1 is not one of strings"
    yield ([1, 2], ["1", "2"], weights, {}), "targets", 0, "'1' is not one of integers"
    yield ([], [], [], {}), "nodes", None, "there is no node"
    for more, column, row, told in (
        ({"nodes": [1, 2, 3, 2]}, "nodes", 3, "2 is in row 1 already"), ({"nodes": [1, 3]}, "sources", 1, "no node has the label 2"),
        ({"nodes": ["1", "2", "1"]}, "nodes", 2, "'1' is in row 0"), ({"nodes": ["1", "2", "3"]}, "sources", 0, "labels are strings"),
        ({"nodes": [1.5, 2.0, 3.0]}, "nodes", 0, "1.5 is no label"), ({"nodes": []}, "sources", 0, "no node has the label 1"),
        ({"x": [1, 2, 3], "y": [1, 2, 3]}, "nodes", None, "go together"), ({**three, "x": [1, 2, 3]}, "y", None, "go together"),
        ({**three, "x": [1, 2], "y": [1, 2, 3]}, "x", 2, "row 2 of x"), ({**three, "x": [1, 2, nan], "y": [1, 2, 3]}, "x", 2, "nan is not from -180"),
        ({**three, "x": [1, 2, 3], "y": [1, 200, 3]}, "y", 1, "200 is not from -90 to 90"),
        ({**three, "x": [1, None, 3], "y": [1, 2, 3]}, "x", 1, "there is none"),
        ({"scale": 0}, "scale", None, "not 0"), ({"scale": nan}, "scale", None, "nan"), ({"scale": "1000"}, "scale", None, "'1000'"),
        ({"scale": True}, "scale", None, "True"), ({"scale": -1.5}, "scale", None, "-1.5"), ({"scale": 1e300}, "weights", 0, "too large"),
        ({"scale": 10**30}, "weights", 0, "too large"), ({"scale": 2**60 / 2.5}, "weights", 0, "too large"),
    ):
        yield (*ends, weights, more), column, row, told
