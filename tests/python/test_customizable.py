"""Tests networks whose weights are customized: their answers, the orders in which that is done, and what is kept of them."""
import os
import pathlib
import pickle

import pytest

from helpers.columns import least_of
from helpers.commands import needs, raises, temporary
from helpers.running import PROGRAM, ROOT
from helpers.scenarios import of_roads
import chtab
from chtab._engine import library as calls

pytestmark = needs("python3-numpy")


@pytest.fixture
def no_building(monkeypatch):
    """Nothing is built in the order of another network."""
    def refuse(*_):
        raise AssertionError("a network is built in the order of another one")

    monkeypatch.setattr(calls.Handle, "open_like", refuse)


def lines_of(nodes):
    """The lines of a saved hierarchy that name an order of nodes, which count from 1."""
    return "".join([f"p ch {len(nodes)} 0\n", *(f"o {node}\n" for node in nodes)])


@needs("python3-scipy")
def test_new_weights_and_closed_roads_answer_as_scipy(no_building):
    """Random graphs with loops and parallel arcs, in orders that are found or given, by new weights and closed arcs one after the other."""
    import numpy

    for seed in range(24):
        draw = numpy.random.default_rng(seed)
        count, size = int(draw.integers(1, 17)), int(draw.integers(0, 60))
        labels = numpy.array([f"node {number}" for number in draw.permutation(count)])
        tails, heads = draw.integers(0, count, (2, size))
        network = chtab.Network.from_arrays(labels[tails], labels[heads], draw.integers(1, 40, size), nodes=labels, program=PROGRAM)
        before = network.table(labels, labels)
        order = [None, draw.permutation(labels), draw.permutation(labels).tolist()][seed % 3]
        assert network.customizable(order) is network
        closed, here = numpy.zeros(size, bool), network
        for turn in range(4):
            weights = draw.integers(1, 9_000, size)
            closed |= draw.random(size) < 0.1
            arcs = [arc for arc, is_closed in zip(zip(tails.tolist(), heads.tolist(), weights.tolist()), closed) if not is_closed]
            wanted = least_of(count, arcs)
            for folder in None, f"own {seed} {turn}":
                other = here.changed(weights, closed, folder=folder)
                assert numpy.array_equal(other.table(labels, labels), wanted), seed
                if folder is not None:
                    with chtab.Network.open(folder, program=PROGRAM) as again, again.changed(weights) as once:
                        assert numpy.array_equal(again.table(labels, labels), wanted), seed
                        assert numpy.array_equal(once.table(labels, labels), wanted), seed
            here = other
        assert numpy.array_equal(network.table(labels, labels), before)
        network.close()


def test_rows_along_routes_are_those_of_the_network(no_building):
    """Rows along routes are the caller's rows, also where some are closed: they weigh as much as the route, and none of them is closed."""
    import numpy

    path = ROOT / "examples" / "liechtenstein.gr"
    with chtab.Network.open(path, program=PROGRAM) as network:
        network.customizable()
        draw = numpy.random.default_rng(3)
        size, count = len(network.graph.tails), network.nodes
        weights, closed = draw.integers(1, 9_000, size), draw.random(size) < 0.02
        pairs = draw.integers(1, count + 1, (200, 2))
        with network.changed(weights, closed) as other, chtab.Network.from_arrays(
                numpy.asarray(network.graph.tails)[~closed], numpy.asarray(network.graph.heads)[~closed], weights[~closed],
                nodes=numpy.arange(1, count + 1), program=PROGRAM) as built:
            assert numpy.array_equal(other.distances(pairs), built.distances(pairs))
            is_there = other.distances(pairs) >= 0
            assert is_there.sum() > 100 and numpy.array_equal(other.along(weights, pairs)[is_there], other.distances(pairs)[is_there])
            assert (other.along(closed.astype(numpy.int64), pairs)[is_there] == 0).all()


def test_an_order_is_a_file_or_a_list(no_building):
    with of_roads() as network:
        for order in ("saved.ch", pathlib.Path("saved.ch"), "order", ["inn", "farm", "school", "mill"], iter(["mill", "inn", "farm", "school"])):
            pathlib.Path("saved.ch").write_bytes(pathlib.Path(network._opened.setting.saved).read_bytes())
            pathlib.Path("order").write_text(lines_of([4, 2, 1, 3]))
            network.customizable(order)
            with network.changed(closed=[0]) as other:
                assert other.distances([("inn", "mill")]).tolist() == [3.0]
        kept = pathlib.Path(network._opened.order).read_text()
        assert kept == lines_of([3, 2, 1, 4]) and pathlib.Path(network._opened.order).parent == pathlib.Path(network._opened.setting.graph).parent


def test_orders_that_do_not_go_are_refused():
    """The network stays as it was, and its weights are built as before."""
    import numpy

    pathlib.Path("twice").write_text(lines_of([1, 2, 3, 3]))
    pathlib.Path("few").write_text(lines_of([1, 2, 3]))
    pathlib.Path("empty").write_text("")
    with temporary() as left, of_roads() as network:
        own = left()
        for order, kind, told in (
            ("none", OSError, "none"), ("twice", chtab.ProgramFault, "order"), ("few", chtab.ProgramFault, "line 1"), ("empty", chtab.ProgramFault, "line 1"),
            (["inn", "farm", "mill"], chtab.DataFault, "each of the 4 nodes once"), (["inn", "farm", "mill", "mill"], chtab.DataFault, "once"),
            (["inn", "farm", "mill", "pub"], chtab.DataFault, "no node has the label"), (5, TypeError, ""), ([["inn"], ["farm"], ["mill"], ["school"]], chtab.ChtabError, ""),
        ):
            raises(kind, lambda: network.customizable(order), told=told)
            assert network._topology() is None and left() == own
        with network.changed(closed=[0]) as other:
            assert other._topology() is None and other.distances([("inn", "mill")]).tolist() == [3.0]
    with of_roads() as network:
        pass
    raises(chtab.ChtabError, network.customizable, told="closed")
    # Of nodes that are all joined each order has so many triangles.
    tails, heads = (column.reshape(-1) for column in numpy.meshgrid(numpy.arange(18), numpy.arange(18)))
    with chtab.Network.from_arrays(tails, heads, tails + heads + 1, program=PROGRAM) as dense:
        raises(chtab.DataFault, dense.customizable, told="40 triangles")
        with dense.changed(tails + heads + 2) as other:
            assert other._topology() is None and other.distances([(0, 9)]).tolist() == [11]


def test_added_roads_are_built_as_before(monkeypatch):
    built = []
    monkeypatch.setattr(calls.Handle, "open_like", lambda self, *given, call=calls.Handle.open_like: built.append(1) or call(self, *given))
    with of_roads().customizable() as network:
        with network.changed(added=[("farm", "mill", 0.5)]) as other, other.changed(closed=[0]) as again:
            assert len(built) == 2 and again._topology() is None and again.distances([("inn", "mill"), ("farm", "mill")]).tolist() == [3.0, 0.5]
        with network.changed(closed=[0]) as other, other.changed({2: 9.0}) as again:
            assert len(built) == 2 and again.distances([("inn", "school")]).tolist() == [8.5]


def test_the_order_is_kept_in_the_folder(no_building):
    """A folder has the order, which serves networks that are opened there, in this process, in forked ones, and where they are unpickled."""
    of_roads(folder="own").close()
    with chtab.Network.open("own", program=PROGRAM) as network:
        assert network._topology() is None
        network.customizable()
        kept = pathlib.Path("own/network.order").read_text()
        copy = pickle.loads(pickle.dumps(network))
        for each in network, copy:
            with each.changed(closed=[0], folder="changed" if each is copy else None) as other:
                assert other.distances([("inn", "mill")]).tolist() == [3.0]
        child = os.fork()
        if not child:
            with network.changed({0: 9.0}) as other:
                os._exit(other.distances([("inn", "mill")]).tolist() != [3.0])
        assert os.waitpid(child, 0)[1] == 0
    for folder in "own", "changed":
        assert pathlib.Path(folder, "network.order").read_text() == kept
        with chtab.Network.open(folder, program=PROGRAM) as network, network.changed({1: 1.0}) as other:
            assert other.distances([("inn", "mill")]).tolist() == [1.0]


def test_a_folder_that_can_not_have_the_order_leaves_the_network():
    of_roads(folder="own").close()
    with chtab.Network.open("own", program=PROGRAM) as network:
        pathlib.Path("own/network.order/in the way").mkdir(parents=True)
        raises(OSError, network.customizable)
        assert network._topology() is None and not [*pathlib.Path("own").glob("*.part-*")]
