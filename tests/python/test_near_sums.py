"""Tests near rows with sums of values: they are those of `along` over the routes of the same pairs, and those of the library's tables, on random networks
with several arcs between two nodes, on the country and round forbidden turns; by several workers, threads, forked processes and a cluster of Dask.
"""
import concurrent.futures
import itertools
import pathlib
import pickle

import pytest

from helpers.columns import drawn
from helpers.commands import needs, raises
from helpers.forking import forked
from helpers.handles import FIRST, handle_of, of_country
from helpers.maps import ROAD, osm, tool
from helpers.nearness import rows_told, small_blocks, small_portions
from helpers.running import PROGRAM
from helpers.science import numpy, pandas
import chtab
from chtab._near import question
from chtab._roads import pairs as of_pairs

# The most sources and targets of a block, its most pairs, and the threads that make blocks; and what one call of the library has: pairs, swept nodes, sources.
BLOCKS = (2**16, 10**6, 1), (10, 10**6, 1), (10, 10**6, 3), (7, 30, 2), (64, 10**6, 5)
PORTIONS = (1 << 20, 0, 1 << 13), (1, 10**9, 7), (50, 10**9, 1), (1 << 20, 1 << 24, 1 << 13)
# Three arcs of one way, whose values are the largest, add up to less than 2^64 twice over.
MOST = 2**63 - 1


def as_owed(network, values, sources, targets, **more):
    """Near rows with the sums of values, once these are the ones of `along` and of a table, and the rest is what there is without values."""
    near, plain = (network.near(sources, targets, values=own, **more) for own in (values, None))
    assert rows_told(near) == rows_told(plain) and plain.sums is None and near.sums.dtype == numpy.uint64
    ends = near.sources[near.owners()], near.targets[near.places]
    ends = ends if more.get("direction") != "from" else ends[::-1]
    assert near.sums.shape == near.weights.shape and numpy.array_equal(near.sums, network.along(values, *ends)), (sources, targets, more)
    frame = near.to_frame()
    assert frame.columns.tolist() == ["source", "target", "place", "weight", "sum"] and frame["sum"].tolist() == near.sums.tolist()
    assert plain.to_frame().equals(frame.drop(columns="sum"))
    return near


def table_of(network, values, sources, targets, direction):
    """The sums from all sources to all targets, or the other way round, by the library's table."""
    layers = network._layers
    nodes = [of_pairs.nodes_in(layers, "nodes", ends) for ends in ((sources, targets) if direction == "to" else (targets, sources))]
    _, sums = network._engine.table_sums(nodes[0], layers.ends_of(nodes[1]), of_pairs.whole_values(layers, values))
    return sums if direction == "to" else sums.T


@pytest.mark.parametrize("both_ways", [False, True])
def test_sums_are_those_along_the_routes(both_ways):
    """On random networks, where a row may be two arcs, with values in each form; in blocks and portions, and by several workers."""
    for seed in range(40):
        draw = numpy.random.default_rng(seed)
        count, tails, heads, weights = drawn(draw)
        values = draw.choice([0, 1, 3, 5, 10**6, 2**40], len(tails))
        with chtab.Network.from_arrays(tails, heads, weights, nodes=numpy.arange(count), both_ways=both_ways, program=PROGRAM) as network:
            for direction in "to", "from":
                sources = None if draw.random() < 0.4 else draw.integers(0, count, draw.integers(0, 30))
                targets, most = draw.integers(0, count, draw.choice([0, 1, 5, 40])), None if draw.random() < 0.4 else int(draw.choice([1, 2, 5, 100]))
                length, pairs, workers = BLOCKS[draw.integers(len(BLOCKS))]
                within = None if draw.random() < 0.4 else int(draw.choice([0, 7, 8, 1_014]))
                more = {"count": most, "within": within, "direction": direction, "workers": workers}
                with small_blocks(length, pairs), small_portions(*PORTIONS[draw.integers(len(PORTIONS))]):
                    own = (values, values.tolist(), values.astype(float), values.astype(">u8"), values.repeat(2)[::2])[draw.integers(5)]
                    near = as_owed(network, own, sources, targets, **more)
                own = numpy.arange(count) if sources is None else sources
                table = table_of(network, values, own, targets, direction)
                assert numpy.array_equal(table[near.owners(), near.places], near.sums), seed
                assert rows_told(pickle.loads(pickle.dumps(near))) == rows_told(near)


def test_sums_on_the_country():
    """The metres to the nearest of some nodes and to all within a limit, from all nodes and from some, by one worker and by three."""
    with of_country() as network:
        draw, metres = numpy.random.default_rng(3), (network.roads.nanometres // 10**9).astype(numpy.int64)
        targets, sources = draw.choice(network.labels, 40), draw.choice(network.labels, 300)
        for direction, workers in itertools.product(("to", "from"), (1, 3)):
            more = {"direction": direction, "workers": workers}
            as_owed(network, metres, None, targets, count=2, **more)
            as_owed(network, metres, sources, targets, within=300_000, **more)
            near = as_owed(network, metres, sources, [*targets, *targets], count=5, **more)
            # A place that stands twice in the list has the same route twice.
            assert near.places.max() >= 40
            with small_blocks(25, 10**6):
                assert numpy.array_equal(near.sums, network.near(sources, [*targets, *targets], count=5, values=metres, **more).sums)
        with of_country(timeout=1_000) as timed:
            assert numpy.array_equal(as_owed(timed, metres, sources, targets).sums, network.near(sources, targets, values=metres).sums)


def test_sums_round_forbidden_turns():
    """A trip ends at another node than the one where it starts, and a value goes by the row of its arc."""
    nodes, turn = {1: (0, 0), 2: (-1, 0), 3: (0, 1), 4: (1, 0), 5: (0, -1)}, [("way", 1, "from"), ("node", 1, "via"), ("way", 2, "to")]
    ways, relations = [([1, 2], ROAD), ([1, 3], ROAD), ([4, 1], ROAD), ([5, 1], ROAD)], [(turn, {"type": "restriction", "restriction": "no_left_turn"})]
    pathlib.Path("turns.osm").write_text(osm(nodes, ways, relations))
    tool("osm_to_gr", "--turns", "turns.osm", "turns")
    with chtab.Network.open("turns.gr", program=PROGRAM) as network:
        values, crossings = numpy.arange(1, len(network.graph.tails) + 1) ** 3, network.crossings
        assert network._layers.has_turns
        for direction, sources in itertools.product(("to", "from"), (None, crossings[::-1])):
            as_owed(network, values, sources, crossings, direction=direction)
            as_owed(network, values, sources, crossings, direction=direction, count=2)


def test_values_go_by_the_labels_of_rows():
    """A Series in any order, whole floats, and rows that were closed; a scenario has values of its own."""
    frame = pandas.DataFrame({"a": [1, 1, 1, 2, 2], "b": [2, 2, 2, 3, 3], "w": [7, 5, 5, 3, 4], "metres": [1.0, 10, 20, 100, 1_000]}, index=list("vwxyz"))
    with chtab.Network.from_frame(frame, "a", "b", "w", program=PROGRAM) as network, network.changed(closed=[1]) as other:
        for values in frame["metres"], frame["metres"].iloc[::-1], frame["metres"].tolist(), frame["metres"].astype("uint64"):
            assert as_owed(network, values, [1], [3, 2]).sums.tolist() == [10, 110]
            assert as_owed(other, values, [1], [3, 2]).sums.tolist() == [20, 120]
        # Exact above 2^53 too, where `along` has floats.
        assert network.near([1], [3], values=frame["metres"].astype(int) + 2**53).sums.tolist() == [2**54 + 110]
        assert network.near([1], [3], values=[MOST] * 5).sums.tolist() == [2 * MOST]
        assert network.near([], [3], values=[1] * 5).sums.dtype == network.near([1], [], values=[1] * 5).sums.dtype == numpy.uint64
    with chtab.Network.from_arrays([], [], [], nodes=[1, 2], program=PROGRAM) as network:
        assert network.near(None, [2, 1], values=[]).sums.tolist() == [0, 0]


def test_what_can_not_be_summed_is_refused():
    """Values that are none, too few, or fractions, with their row; sums of 2^64; and spots, along whose trips values aren't summed. Then it answers on."""
    with chtab.Network.from_arrays([1, 2, 3], [2, 3, 4], [1, 1, 1], program=PROGRAM) as network:
        for values, row, told in (
            ([1, 2.5, 3], 1, "2.5 is not a whole number from 0 on"), ([1, 2, -3], 2, "-3 is not a whole number from 0 on"), ([1.0, -0.5, 3], 1, "-0.5 is not"),
            ([1, 2.0**60, 3], 1, "a float above 2^53"), ([1, float("nan"), 3], 1, "nan is no value"), ([1, None, 3], 1, "there is none"),
            (["1", "2", "3"], 0, "neither an integer nor a float"), (numpy.array([1, 2**63, 3], numpy.uint64), 1, "too large"), ([1, 2**64, 3], 1, "too large"),
            ([1, 2], None, "2 rows, and there are 3 rows of arcs"), ([], None, "0 rows"), (numpy.ones((3, 1)), None, "one column"), (5, None, "shape ()"),
            (numpy.ma.array([1, 2, 3], mask=[0, 0, 1]), 2, "is masked"),
        ):
            fault = raises(chtab.DataFault, lambda: network.near([1], [4], values=values), told=told)
            assert fault.row == row, (values, fault.row)
        for workers in 1, 2:
            raises(ValueError, lambda: network.near([1, 1], [4, 2], values=[MOST] * 3, workers=workers), told="a sum is 2^64 or more")
            assert network.near([1, 2, 3], [4, 2], values=[MOST, MOST, 1], workers=workers).sums.tolist() == [MOST, 2 * MOST + 1, 0, MOST + 1, 1]
        # What no row has is no sum.
        assert network.near([1], [4, 3], values=[MOST] * 3, within=2).sums.tolist() == [2 * MOST]
    with of_country() as network:
        spots = network.snap(9.5209, 47.1410)
        for ends in (spots, [1, 2]), ([1, 2], spots), (None, spots):
            raises(ValueError, lambda: network.near(*ends, values=numpy.ones(len(network.graph.tails), int)), told="and not of spots")


def test_each_question_has_its_own_values():
    """Of threads that ask with different values at once, of a process that is forked meanwhile, and of threads that share one handle."""
    with of_country() as network:
        draw, rows = numpy.random.default_rng(5), len(network.graph.tails)
        sources, targets, several = *draw.choice(network.labels, (2, 60)), [draw.integers(0, 99, rows) for _ in range(3)]
        owed = [network.near(sources, targets, count=4, values=values).sums.tolist() for values in several]
        assert len(set(map(tuple, owed))) == 3

        def is_right(place):
            return all(network.near(sources, targets, count=4, values=several[place], workers=1 + place).sums.tolist() == owed[place] for _ in range(20))

        with concurrent.futures.ThreadPoolExecutor(3) as threads:
            asked = [threads.submit(is_right, place) for place in range(3)]
            assert all(forked(lambda: is_right(place) and is_right(0)) for place in (1, 2))
            assert all(each.result() for each in asked)
    handle, (nodes, places) = handle_of(), numpy.array([[0, 1, 2], [2, 1, 2]], numpy.uint32)
    handle.keep_places(places)

    def ask(own):
        values = numpy.array([own, 10 * own], numpy.uint64)
        found = [handle.near_rows(nodes, 9, values)[3].tolist() for _ in range(500)]
        return found == [[own, 11 * own, 11 * own, 0, 10 * own, 10 * own, 0, 0]] * 500

    with concurrent.futures.ThreadPoolExecutor(4) as threads:
        assert all(threads.map(ask, range(1, 5)))


def test_a_handle_refuses_what_c_would_misread():
    """As of a table of sums: other types, lengths, nodes, and a handle without places; what it is asked for without values has none."""
    handle, nodes, values = handle_of(), numpy.array([0, 2], numpy.uint32), numpy.array([3, 4], numpy.uint64)
    raises(ValueError, handle.near_rows, nodes, 9, values, told="no places are kept")
    handle.keep_places(nodes)
    apart = numpy.arange(17, dtype=numpy.uint8)[1:].view(numpy.uint64)
    for wrong in [3, 4], values.astype(numpy.int64), values.astype(float), values[::-1], values.reshape(1, 2), apart:
        raises(TypeError, handle.near_rows, nodes, 9, wrong)
    for length in 0, 1, 3:
        raises(ValueError, handle.near_rows, nodes, 9, numpy.zeros(length, numpy.uint64), told="lengths")
    raises(ValueError, handle.near_rows, numpy.array([0, 3], numpy.uint32), 9, values, told="not one of the network")
    raises(ValueError, handle.near_rows, nodes, 9, numpy.array([2**63, 2**63], numpy.uint64), told="2^64 or more")
    assert [part.tolist() for part in handle.near_rows(nodes, 9, values)] == [[2, 3], [0, 9, 0], [0, 1, 1], [0, 7, 0]]
    # Room for the first row alone, and values that were written to since.
    values[0] = 5
    assert [part.tolist() for part in handle.near_rows(nodes, 2, values)] == [[2], [0, 9], [0, 1], [0, 9]]
    assert handle.near_rows(nodes, 9)[3] is None
    handle.close()
    raises(chtab.ChtabError, handle.near_rows, nodes, 9, values, told="the network is closed")


def test_values_lie_at_any_address():
    """As a worker of a cluster may get them: out of line with their size. Those that lie right are not copied."""
    apart = numpy.frombuffer(b"-" + numpy.array([3, 4], numpy.uint64).tobytes(), numpy.uint8)[1:].view(numpy.uint64)
    with chtab.Network.open(FIRST, program=PROGRAM) as network, network._engine.lent_handle() as handle:
        for values in apart, apart.copy():
            asked = question.NearQuestion(numpy.array([1]), numpy.array([3]), values=values)
            made = question.NearRows(handle, asked, 3, chtab._engine.deadlines.Deadline(None))
            assert (made.values is values) == values.flags.aligned
            assert [rows.sums.tolist() for _, rows in made.portions()] == [[7]]


@needs("python3-distributed")
def test_a_cluster_sums_too():
    """The workers of a client of Dask sum values, also along rows that are two arcs of a network without files."""
    import distributed

    draw = numpy.random.default_rng(8)
    tails, heads, weights, values = *draw.integers(0, 20, (2, 50)), draw.integers(1, 30, 50), draw.integers(0, 99, 50)
    with distributed.LocalCluster(n_workers=2, threads_per_worker=1, dashboard_address=None) as cluster, distributed.Client(cluster) as client:
        with chtab.Network.from_arrays(tails, heads, weights, nodes=range(20), both_ways=True, program=PROGRAM) as network, small_blocks(7, 30):
            for direction in "to", "from":
                as_owed(network, values, None, range(0, 20, 2), count=3, direction=direction, workers=client)
