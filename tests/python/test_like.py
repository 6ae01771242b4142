"""Tests networks that are built in the order of others, by `like` and by `changed`, and what happens where the other one is closed. `test_answers.py`
compares their answers."""
import concurrent.futures
import os
import pathlib
import random
import subprocess
import threading
import time

import pytest

from helpers.commands import needs, raises, temporary
from helpers.forking import forked
from helpers.in_process import make
from helpers.running import PROGRAM, ROOT
from helpers.scenarios import PLACES, after, each_way, of_roads, trips_between, trips_of, with_turns  # noqa: F401
from helpers.science import numpy, pandas, scipy
from helpers.waiting import PATIENCE
import chtab
from chtab._engine import library as calls
from chtab._engine import making
from chtab._files import arc_columns
from chtab._roads import scenarios

pytestmark = pytest.mark.usefixtures("each_way")
PATH = ROOT / "examples" / "liechtenstein.gr"
# What builds in the order that is given, and in no other way: not with the weights of a customized network.
built = pytest.mark.parametrize("each_way", ["built"], indirect=True)


@built
@pytest.mark.parametrize("is_by_library", [True, False])
def test_it_is_built_in_the_order_of_the_other(library, is_by_library):
    """With no node afresh the new hierarchy has the order of the old one, with all afresh that by depth; so in this process, and by a run."""
    way = {"program": PROGRAM, "library": library, "workers": 1 if is_by_library else 2}

    def order(folder):
        return [line for line in (pathlib.Path(folder) / "network.ch").read_text().splitlines() if line.startswith("o ")]

    with chtab.Network.open(PATH, **way) as network:
        draw = random.Random("order")
        network.changed([round(weight * draw.uniform(0.5, 3)) for weight in network.graph.weights], folder="first", fresh=100).close()
        with chtab.Network.open("first", **way) as first:
            for fresh in 0, 5, 100:
                first.changed(network.graph.weights, folder=f"fresh {fresh}", fresh=fresh).close()
    by_depth = subprocess.run([PROGRAM, "save", "--deep", "first/network.gr"], capture_output=True, check=True, text=True).stdout.splitlines()
    assert order("fresh 0") == order("first") == [line for line in by_depth if line.startswith("o ")]
    kept = len(order("first")) - len(order("first")) // 20
    assert order("fresh 5")[:kept] == order("first")[:kept] and order("fresh 5") != order("first")
    assert order("fresh 100") not in (order("first"), order("fresh 5"))


@built
def test_the_program_builds_in_the_order_of_another_network():
    """By several workers: in the order of the other one's saved hierarchy, and if that is gone, in this process. Other faults leave nothing."""
    program = pathlib.Path("chtab").absolute()
    program.write_text(f'#!/bin/sh\n[ "$1" = save ] && echo "$@" >> built\nexec {PROGRAM} "$@"\n')
    program.chmod(0o755)
    more = {"program": program, "library": make(), "workers": 2}
    with of_roads(folder="own", **more) as network:
        assert after(network, [("inn", "mill")], closed=[0]) == [3]
        assert [line.split()[1] for line in pathlib.Path("built").read_text().splitlines()] == ["--quick", "--like"]
        os.remove("own/network.ch")
        assert after(network, [("inn", "mill")], closed=[0]) == [3] and pathlib.Path("built").read_text().count("\n") == 2
    program.write_text(f"#!/bin/sh\n[ \"$2\" = --like ] && echo 'chtab: out of memory' >&2 && exit 3\nexec {PROGRAM} \"$@\"\n")
    with temporary() as left, of_roads(**more) as network:
        own = left()
        assert raises(chtab.ProgramFault, network.changed, None, [0], told="out of memory").status == 3
        assert left() == own and network.distances([("inn", "mill")]).tolist() == [2.0]


def test_the_old_network_answers_while_the_new_one_is_built(library):
    """Threads ask the old network during changes, and forked processes ask both and hold up neither; it is closed before the new ones."""
    with temporary() as left, concurrent.futures.ThreadPoolExecutor(4) as threads:
        network, pair = chtab.Network.open(PATH, program=PROGRAM, library=library), [(2359, 910)]
        wanted, doubled, children = network.distances(pair).tolist(), [2 * weight for weight in network.graph.weights], []
        changes = [threads.submit(network.changed, doubled) for _ in range(2)]
        assert [network.distances(pair).tolist() for _ in range(50)] == [wanted] * 50
        others, last = [change.result(PATIENCE) for change in changes], threads.submit(network.changed, doubled)
        for _ in range(5):
            children.append(os.fork())
            if not children[-1]:
                time.sleep(1)
                os._exit(0)
        assert forked(lambda: [each.distances(pair).tolist() for each in (network, *others)] == [wanted, *[[2 * wanted[0]]] * 2])
        others.append(last.result(PATIENCE))
        assert forked(lambda: others[-1].distances(pair).tolist() == [2 * wanted[0]])
        assert list(threads.map(lambda each: each.distances(pair)[0], [network, others[-1]] * 50)) == [wanted[0], 2 * wanted[0]] * 50
        network.close()
        assert all(other.distances(pair).tolist() == [2 * wanted[0]] for other in others) and left() == []
        for child in children:
            os.waitpid(child, 0)
        for other in others:
            other.close()
        assert left() == []


def test_what_does_not_go_with_another_network_is_refused():
    """Other nodes, a per cent that is none, and what is no network; where it is opened neither is known."""
    with temporary() as left, of_roads() as network:
        own, here = left(), {"like": network, "program": PROGRAM}
        without = here | {"nodes": None, "x": None, "y": None}
        for call, kind, told in (
            (lambda: of_roads(**without, fresh=101), ValueError, "from 0 to 100"), (lambda: network.changed(fresh=-1), ValueError, "from 0 to 100"),
            (lambda: network.changed(fresh=5.0), TypeError, "whole number"), (lambda: network.changed(fresh=True), TypeError, "whole number"),
            (lambda: chtab.Network.from_arrays([1], [2], [3], **here), chtab.DataFault, "labels are"),
            (lambda: chtab.Network.from_arrays(["inn"], ["mill"], [3], nodes=["inn", "mill"], **here), chtab.DataFault, "like has 4 nodes, and there are 2 here"),
            (lambda: of_roads(**here | {"nodes": ["inn", "farm", "mill", "school"]}), chtab.DataFault, "node 'inn' is 'farm' in like"),
            (lambda: of_roads(like="roads.gr"), TypeError, "like is a Network"),
            (lambda: chtab.Network.open(ROOT / "examples" / "first.gr", like=network), TypeError, "no argument 'like'"),
        ):
            raises(kind, call, told=told)
        with of_roads(**without) as other:
            assert other.labels.tolist() == network.labels.tolist() and other.coordinates.of(1) == network.coordinates.of(1)
        assert left() == own


def test_turns_stay_restricted_in_a_network_of_the_same_nodes():
    """New weights as arrays, on a map where turns are restricted: trips start and end where those of the map do, also after the folder is opened."""
    names = with_turns()
    nodes = sorted(set(names))
    with chtab.Network.open("turns.gr", program=PROGRAM) as network:
        graph, coordinates = network.graph, network.coordinates
        tails, heads, weights = (numpy.array(column, numpy.int64) for column in (graph.tails, graph.heads, graph.weights))
        weights *= numpy.random.default_rng(6).integers(1, 5, len(weights))
        arcs = list(zip(tails.tolist(), heads.tolist(), weights.tolist()))
        left = [arc for arc in arcs if (names[arc[0] - 1], names[arc[1] - 1]) != (4, 5)]
        own = {"nodes": network.labels, "x": coordinates.longitudes, "y": coordinates.latitudes}
        for more in {}, own, {"folder": "own"}:
            with chtab.Network.from_arrays(tails, heads, weights, like=network, program=PROGRAM, **more) as other:
                assert trips_between(other, names, nodes) == trips_of(arcs, names, nodes) and other.coordinates.turns() == coordinates.turns() != [], [*more]
                with other.changed(closed=[(names.index(4) + 1, names.index(5) + 1)]) as again:
                    assert trips_between(again, names, nodes) == trips_of(left, names, nodes)
        with chtab.Network.open("own", program=PROGRAM) as other:
            assert trips_between(other, names, nodes) == trips_of(arcs, names, nodes)
        kept = numpy.asarray(graph.weights) != 0
        fault = raises(chtab.DataFault, lambda: chtab.Network.from_arrays(tails[kept], heads[kept], weights[kept], like=network), told="turns are restricted in like")
        assert f"node {names.index(5) + 1} end at the node {coordinates.ends()[names.index(5) + 1]}" in str(fault)


@needs("python3-geopandas")
def test_places_are_those_of_the_other_network():
    """Lines of arcs replace no places: a node without a line keeps its own, in frames and in GeoDataFrames. A matrix has its rows."""
    import geopandas
    from shapely.geometry import LineString

    lines = [LineString([(9.50, 47.10), (9.505, 47.13), (9.52, 47.11)]), None]
    frame = pandas.DataFrame({"a": ["inn", "inn"], "b": ["mill", "farm"], "minutes": [2.0, 4.0], "line": lines})
    edges = geopandas.GeoDataFrame(frame[["a", "b", "minutes"]].iloc[:1], geometry=lines[:1], crs="EPSG:4326")
    matrix = scipy.sparse.csr_matrix(([7.0], ([1], [2])), (4, 4))
    with of_roads() as network:
        more = {"unit": "minutes", "like": network, "program": PROGRAM}
        for made, weight, points in (
            (chtab.Network.from_frame(frame, "a", "b", "minutes", geometry="line", **more), 2, 3), (chtab.Network.from_sparse(matrix, **more), 7, 2),
            (chtab.Network.from_geodataframe(edges, None, "a", "b", "minutes", **more), 2, 3),
        ):
            with made as other:
                assert other.labels.tolist() == PLACES["nodes"] and other.coordinates.longitudes.tolist() == PLACES["x"]
                [line] = other.routes([("inn", "mill")]).to_geojson()["features"]
                assert line["properties"]["weight"] == weight and len(line["geometry"]["coordinates"]) == points
        raises(chtab.DataFault, lambda: chtab.Network.from_sparse(matrix[:3, :3], **more), told="nodes has 4 rows, and the matrix 3")


@pytest.mark.parametrize("is_known", [False, True])
@pytest.mark.parametrize("of_files", [False, True])
def test_a_closed_network_is_neither_changed_nor_followed(of_files, is_known):
    """Its files may be there or gone, and what they hold may be known already: each call says that it is closed, and leaves nothing behind."""
    pathlib.Path("own.gr").write_text("p sp 2 2\na 1 2 5\na 2 1 4\n")
    pathlib.Path("own.co").write_text("p aux sp co 2\nv 1 9500000 47100000\nv 2 9520000 47110000\n")
    tail, head = (1, 2) if of_files else ("inn", "mill")
    with temporary() as left:
        network = chtab.Network.open("own.gr", program=PROGRAM) if of_files else of_roads()
        if is_known:
            network.graph, network.coordinates
        network.close()
        for call in (
            lambda: network.changed(closed=[0]), lambda: network.changed({0: 3}), lambda: network.changed(added=[(tail, head, 3)]),
            lambda: network.changed(folder="new"), lambda: chtab.Network.from_arrays([tail], [head], [3], like=network, program=PROGRAM),
            lambda: chtab.Network.from_arrays([tail], [head], [3], nodes=network.labels, like=network, program=PROGRAM),
        ):
            raises(chtab.ChtabError, call, told="the network is closed")
        assert left() == [] and not os.path.exists("new")


@pytest.mark.parametrize("owner, name", [
    (scenarios, "ArcNames"), (arc_columns, "whole_weights"), (making, "Beside"), (making, "built"), (making, "write_graph"), (calls.Handle, "open_like"),
])
@pytest.mark.parametrize("is_beside", [False, True])
def test_the_old_network_may_close_at_any_step(monkeypatch, owner, name, is_beside):
    """At each step of a change the old network is closed, at once or by another thread: the change succeeds, or says that the network is closed."""
    with temporary() as left:
        network, seen, real = of_roads(), [], getattr(owner, name)

        def called(*words, **more):
            if not seen:
                seen.append(threading.Thread(target=network.close))
                seen[0].start() if is_beside else network.close()
            return real(*words, **more)

        monkeypatch.setattr(owner, name, called)
        try:
            with network.changed({0: 2.5}, closed=[1], added=[("mill", "farm", 1)]) as other:
                assert other.distances([("inn", "mill"), ("mill", "farm")]).tolist() == [2.5, 1]
        except chtab.ChtabError as fault:
            assert str(fault) == "the network is closed" and seen
        for thread in seen if is_beside else []:
            thread.join(PATIENCE)
        network.close()
        assert left() == []
