"""Tests that a network may be shared: by threads, each with a handle of its own, by processes of each way to start them, and by pickle; that what breaks
a question off leaves no answer for the next one; that what is closed, forked or dropped while others ask harms none of them; that the files of arcs are
written once, when they are needed; and that threads may share what the service keeps.

Answers are compared with scipy's own search.
"""
import concurrent.futures
import contextlib
import ctypes
import functools
import gc
import itertools
import multiprocessing
import os
import pickle
import random
import signal
import subprocess
import threading
import time
import typing

import pytest

from helpers.columns import arcs_of, least_of
from helpers.commands import raises, temporary
from helpers.forking import descriptors, forked
from helpers.handles import FIRST, FIRST_SAVED, GRAPH, handle_of, of_country, of_first, route
from helpers.in_process import growth, make
from helpers.nearness import dense
from helpers.packages import PYTHON
from helpers.running import PROGRAM, ROOT
from helpers.science import numpy, pandas
from helpers.waiting import PATIENCE, until
import chtab
from chtab import files
from chtab._engine import library
from chtab._files import node_labels
from chtab_server.osrm.keeping import Keeping, column_of

# Answers of each process, in parts of so many tables; and how many questions are broken off, and how many are answered, at least.
PARTS, PART, ENOUGH = 10, 50, 60
# How many kilobytes memory may grow once things were made and dropped for a while. Networks in a ring of references wait for Python's
# collector, and took 5,248 then. Thirty networks that are not freed take four times this limit.
MOST_GROWTH = 8_192
# The network that forked processes find.
NETWORK = None


@functools.cache
def known():
    """Forty nodes, from 0 on, and the distances between them by scipy."""
    graph = files.read_graph(GRAPH)
    nodes = numpy.random.default_rng(7).choice(graph.nodes, 40, replace=False)
    return nodes, least_of(graph.nodes, arcs_of(graph), nodes)[:, nodes]


def wrong_answers(network, seed, count=PART):
    """How many of so many tables, near rows, distances and routes are wrong."""
    draw, (nodes, wanted), wrong = random.Random(seed), known(), 0
    labels = network.labels[nodes]
    for place in range(count):
        rows, columns = ([draw.randrange(40) for _ in range(draw.randint(1, most))] for most in (3, 6))
        owed, ends = wanted[rows][:, columns], (labels[rows], labels[columns])
        wrong += (network.table(*ends) != owed).any()
        if place % 8 == 0:
            wrong += (dense(network.near(*ends)) != owed).any() or (network.accessibility(1, 2**60, sources=ends[0], targets=ends[1]) != len(columns)).any()
            found, [weight] = network.routes(ends[0][:1], ends[1][:1])[0], network.distances(ends[0][:1], ends[1][:1])
            wrong += (found.weight, weight, found.nodes[0], found.nodes[-1]) != (owed[0, 0], owed[0, 0], ends[0][0], ends[1][0])
    return int(wrong)


def wrong_answers_here(seed):
    """The same by the network that this process was forked with."""
    return wrong_answers(NETWORK, seed)


@pytest.fixture(params=["of a file", "of arrays"])
def network(request):
    """The country's network, by the numbers of its nodes, or by names of them."""
    global NETWORK
    known()
    if request.param == "of a file":
        NETWORK = chtab.Network.open(GRAPH, program=PROGRAM)
    else:
        (tails, heads, weights), names = numpy.array(arcs_of(files.read_graph(GRAPH))).T, numpy.array([f"n{number}" for number in range(3_154)])
        NETWORK = chtab.Network.from_arrays(names[tails], names[heads], weights, nodes=names, program=PROGRAM)
    with NETWORK:
        yield NETWORK


@pytest.mark.parametrize("way", ["fork", "spawn", "forkserver"])
def test_pools_and_executors_ask(network, way):
    """Those that unpickle it, and those that have it by a fork after it was asked, while threads of this process ask too; these leave no descriptor."""
    context, seeds, held = multiprocessing.get_context(way), range(PARTS), descriptors()
    with concurrent.futures.ThreadPoolExecutor(8) as threads:
        assert sum(threads.map(wrong_answers, [network] * PARTS, seeds, timeout=PATIENCE)) == 0
        # Each thread has a handle, because a handle answers one question at a time.
        met = threading.Barrier(8)
        assert len({*threads.map(lambda _: (met.wait(PATIENCE), network._engine.handle())[1], range(8))}) == 8
        gc.collect()
        assert descriptors() == held
        with context.Pool(2) as pool, concurrent.futures.ProcessPoolExecutor(2, context) as executor:
            asking = [pool.starmap_async(wrong_answers, [(network, seed) for seed in seeds])]
            asking += [pool.map_async(wrong_answers_here, seeds)] if way == "fork" else []
            here = threads.map(wrong_answers, [network] * PARTS, seeds, timeout=PATIENCE)
            assert sum(executor.map(wrong_answers, [network] * PARTS, seeds, timeout=PATIENCE)) == 0
            assert sum(sum(each.get(PATIENCE)) for each in asking) + sum(here) == 0
    assert wrong_answers(network, 1) == 0


def test_processes_are_forked_while_threads_ask(network):
    """A process is forked at any time, also one of a process that was forked. It has handles of its own, and ends none of its parent's."""
    # The first handle is that of this thread, so that none is in a call of it when a process is forked.
    assert wrong_answers(network, 0, 1) == 0 and network._engine.handle() is network._engine.first
    block = network._engine.first.block

    def asks_by_its_own():
        is_right = wrong_answers(network, 1) == 0 and network._engine.begun == 1 and forked(lambda: wrong_answers(network, 2) == 0)
        is_own = network._engine.first.block is not block and network._engine.handle() is network._engine.first
        network.close()
        gc.collect()
        return is_right and is_own and block.is_open

    with concurrent.futures.ThreadPoolExecutor(4) as threads:
        asking = [threads.submit(wrong_answers, network, seed, 250) for seed in range(4)]
        assert all(forked(asks_by_its_own) for _ in range(6))
        assert [each.result() for each in asking] == [0] * 4
    assert network._engine.first.block is block and wrong_answers(network, 3) == 0


def test_a_process_is_forked_while_routes_are_computed(monkeypatch):
    """A forked process waits for nothing that a thread of its parent computes at that moment, such as the list of routes."""
    parent, computing, over, of = os.getpid(), threading.Event(), threading.Event(), node_labels.Numbers.of

    def of_slowly(self, nodes):
        if os.getpid() == parent:
            computing.set()
            over.wait(PATIENCE)
        return of(self, nodes)

    monkeypatch.setattr(node_labels.Numbers, "of", of_slowly)
    with of_first() as network, concurrent.futures.ThreadPoolExecutor(1) as threads:
        routes = network.routes([(1, 3)])
        asking = threads.submit(lambda: routes[0].weight)
        is_right = computing.wait(PATIENCE) and forked(lambda: routes[0].weight == 9 == network.distances([(1, 3)])[0], 60)
        over.set()
        assert is_right and asking.result() == 9


def test_a_fork_within_a_question_takes_no_handle():
    """A process that is forked while near rows come ends the question, and its next one by handles of its own."""
    with of_first() as network:
        children, parent = [], os.getpid()

        def decay(weights):
            children.append(os.fork() if not children else 0)
            return weights * 0.5

        found = network.accessibility(1, 9, decay=decay).tolist()
        again = network.accessibility(1, 9, decay=lambda weights: weights * 0.5).tolist()
        is_right = found == [6.5, 2.5, 0.0] == again and network._engine.begun == 1 == len(network._engine.spare)
        if os.getpid() != parent:
            os._exit(0 if is_right and network._engine.spare[0] in network._engine.handles else 1)
        assert os.waitpid(children[0], 0)[1] == 0 and is_right, (found, again)


@pytest.mark.parametrize("way", ["of files", "of arcs", "of arcs with files", "by the program"])
def test_who_is_left_asks_on(way):
    """A child when its parent has closed the network and removed its files, before the first question of the child, which also pickles and changes it."""
    def opened():
        more = {"program": PROGRAM, "library": make(), "workers": 2 if way == "by the program" else 1, "nodes": [1, 2, 3], "x": [9.5, 9.6, 9.7], "y": [47.1] * 3}
        line = [(9.6, 47.1), (9.65, 47.2), (9.7, 47.1)]
        return of_first() if way == "of files" else chtab.Network.from_arrays([1, 2], [2, 3], [4, 5], geometry=[None, line], **more)

    def is_right():
        routes = network.routes([(1, 3)])
        line = [] if way == "of files" else routes.to_geojson()["features"][0]["geometry"]["coordinates"]
        return network.distances([(1, 3)]).tolist() == [9] == network.near([1], [3]).weights.tolist() and routes[0].nodes == [1, 2, 3] and len(line) in (0, 4)

    def is_whole():
        with network.changed({0: 7}) as other:
            again = pickle.loads(pickle.dumps(network)), pickle.loads(pickle.dumps(other))
            return is_right() and [each.distances([(1, 3)]).tolist() for each in again] == [[9], [12]]

    with temporary() as left, opened() as network:
        texts = [pickle.dumps(network)] if way != "of arcs" else []
        (closed, tell), child = os.pipe(), os.fork()
        if not child:
            os._exit(0 if os.read(closed, 1) and forked(is_whole) and is_whole() and is_right() else 1)
        network.close()
        assert left() == []
        os.write(tell, b".")
        assert os.waitpid(child, 0)[1] == 0
        if way in ("of arcs with files", "by the program"):
            raises(FileNotFoundError, pickle.loads, *texts, told="The network that was pickled is closed")
        # What the child and its own child have written goes with them.
        until(lambda: left() == [])


def test_a_fork_writes_and_reads_nothing(monkeypatch):
    """A process that is forked has each network in memory, also the process that is forked from it: nothing is opened or built anew, and no file is
    written before it is needed."""
    def is_shared():
        for name in "open", "open_arrays", "open_like", "customized", "save":
            monkeypatch.setattr(library.Handle, name, lambda *_: os._exit(3))
        return all(told_by(each) == told for each, told in zip(networks, wanted)) and all(each._engine.begun == 1 for each in networks)

    with temporary() as left, of_squares() as base, base.changed({7: 0.5}) as changed, base.customizable().changed({9: 2.0}) as customized:
        networks, wanted = (base, changed, customized), [told_by(each) for each in (base, changed, customized)]
        assert forked(is_shared) and forked(lambda: forked(is_shared) and is_shared()) and left() == []


def test_a_call_that_does_not_end_holds_up_no_fork(monkeypatch):
    """A process that is forked in such a call of another thread opens the network anew, and has the same answer."""
    monkeypatch.setattr("chtab._engine.in_process.PATIENCE", 0.1)
    with of_first() as network, concurrent.futures.ThreadPoolExecutor(1) as threads:
        begun, over = threading.Event(), threading.Event()

        def call():
            with network._engine.first.lock:
                begun.set()
                return over.wait(PATIENCE)

        asking = threads.submit(call)
        assert begun.wait(PATIENCE) and forked(lambda: network.distances([(1, 3)]).tolist() == [9] and network._engine.inherited is None)
        over.set()
        assert asking.result() and network.distances([(1, 3)]).tolist() == [9]


def of_squares(**more):
    """Streets around squares, where many routes are equal: names and places of nodes, bends, a unit, and names of rows."""
    at = numpy.arange(100).reshape(10, 10)
    tails, heads = numpy.append(at[:, :-1], at[:-1]), numpy.append(at[:, 1:], at[1:])
    names, (y, x) = numpy.array([f"n{node:02}" for node in range(100)]), numpy.divmod(numpy.arange(100), 10) / numpy.array([[90], [110]]) + [[47], [9]]
    lines = [[(x[tail], y[tail]), (x[tail] + 0.0123456, y[tail] - 0.1 / 3), (x[head], y[head])] if tail % 3 else None for tail, head in zip(tails, heads)]
    frame = pandas.DataFrame({"source": names[tails], "target": names[heads], "weight": 0.25, "line": lines}, [f"row {row}" for row in range(180)])
    more = {"unit": "minutes", "nodes": names, "x": x, "y": y, "geometry": "line", "both_ways": True, "program": PROGRAM, "library": make(), **more}
    return chtab.Network.from_frame(frame, **more)


def told_by(network):
    """The texts and values of a network in another process, and which of equal routes it takes."""
    starts, ends, spots = numpy.repeat(network.labels, 100), numpy.tile(network.labels, 100), network.snap([9.002, 9.05], [47.001, 47.07], None)
    routes = network.routes(starts[::31], ends[::31])
    parts = network.labels, network.distances(starts, ends), network.flows(starts, ends, [1] * 10_000), network.trip_table(spots, spots)
    rows = [None if each is None else each.tolist() for each in routes.rows()]
    facts = network.graph, network.coordinates, network.unit, network.scale, network.rounding, network.nodes, parts[2].index.tolist()
    return [[part.tolist() for part in parts], facts, routes[:], rows, routes.to_geojson()["features"]]


@pytest.mark.parametrize("way", ["made", "changed", "customized", "opened"])
def test_files_are_written_once_when_they_are_needed(way):
    """Without a folder none is written for questions, changes, forks and what a network says of itself. Pickle, by several threads at once while others
    fork, finds the same files, which say the same; they go with the network."""
    with temporary() as left, contextlib.ExitStack() as kept:
        network = base = kept.enter_context(of_squares(**{"folder": "own"} if way == "opened" else {}))
        if way == "customized":
            base.customizable()
        if way != "made":
            network = kept.enter_context(base.changed(pandas.Series([0.75, 5], ["row 7", "row 90"]), [3]))
        told = told_by(network)
        with network.changed(closed=[100], added=[("n00", "n99", 0.5)]) as other:
            assert other.distances([("n00", "n99")]) == 0.5 and told_by(network) == told
        assert repr(network) == f"<chtab.Network of {len(network.graph.tails)} arcs: 100 nodes>" and forked(lambda: told_by(network) == told) and left() == []
        with concurrent.futures.ThreadPoolExecutor(8) as threads:
            asking = [threads.submit(forked, lambda: told_by(network) == told and forked(lambda: told_by(network) == told)) for _ in range(4)]
            texts = [*threads.map(pickle.dumps, [network] * 8), pickle.dumps(network.routes([("n00", "n99")]))]
            assert all(each.result(PATIENCE) for each in asking) and len({*texts}) == 2
        written = left()
        assert len(written) == 1 and told_by(pickle.loads(texts[0])) == told
        assert pickle.loads(texts[-1])[:] == network.routes([("n00", "n99")])[:] and bool(network._opened.order) == (way == "customized")
        assert forked(lambda: told_by(network) == told) and left() == written
        kept.close()
        assert left() == []


def test_threads_ask_while_it_is_closed():
    """Each call has its answer, or the error that the network is closed."""
    def asks(network, seed):
        try:
            while True:
                assert wrong_answers(network, seed, 2) == 0
        except chtab.ChtabError as fault:
            assert str(fault) == "the network is closed", fault

    with concurrent.futures.ThreadPoolExecutor(4) as threads:
        for _ in range(20):
            network = of_country()
            asking = [threads.submit(asks, network, seed) for seed in range(4)]
            time.sleep(0.05)
            network.close()
            assert [each.result(PATIENCE) for each in asking] == [None] * 4


class Stopped(BaseException):
    """A thread is ended from outside."""


def interrupted(network, break_off, *words):
    """Asks again and again while a call breaks questions off, until enough of them were broken off, and enough had an answer. No answer is wrong."""
    draw, (nodes, wanted), broken, answered, latest = random.Random("broken off"), known(), 0, 0, 0.2
    while min(broken, answered) < ENOUGH:
        before, late = answered, draw.choice([0.002, latest])
        try:
            sender = threading.Timer(draw.uniform(0, late), break_off, words)
            sender.start()
            for _ in range(10_000):
                row, column = draw.randrange(40), draw.randrange(40)
                assert network.table(nodes[row] + 1, nodes[column] + 1)[0, 0] == wanted[row, column]
                answered += 1
            # What is sent comes before the next round.
            sender.join()
            time.sleep(late)
        except (KeyboardInterrupt, Stopped):
            broken += 1
            # On a machine with other work an answer may take longer than this.
            if answered == before and late == latest:
                latest *= 1.5


@pytest.mark.parametrize("is_signal", [True, False])
def test_what_is_broken_off_leaves_no_answer(is_signal):
    """By Ctrl-C at any time, or where a thread is ended from outside: the next question gets its own answer, and none hangs."""
    def in_thread():
        interrupted(network, ctypes.pythonapi.PyThreadState_SetAsyncExc, ctypes.c_ulong(threading.get_ident()), ctypes.py_object(Stopped))

    with of_country() as network, concurrent.futures.ThreadPoolExecutor(1) as threads:
        held = descriptors()
        if is_signal:
            interrupted(network, signal.pthread_kill, threading.get_ident(), signal.SIGINT)
        else:
            threads.submit(in_thread).result(PATIENCE)
        time.sleep(0.5)
        assert wrong_answers(network, 5) == 0
        gc.collect()
        assert descriptors() <= held + 60, (descriptors(), held)


def test_what_is_closed_answers_nothing():
    """A handle that was never open or is closed, also twice, while another one on the same network answers on; and each call of a network."""
    one, closed, handle = numpy.array([0], numpy.uint32), type(handle_of())(handle_of().calls), handle_of()
    other = handle.share()
    handle.close()
    handle.close()
    for each, (name, *words) in itertools.product((closed, handle), (
        ("distances", one, one), ("table", one, one), ("routes_with_lines", one, one, 3), ("nodes",), ("share",), ("save",), ("keep_places", one),
        ("sweep",), ("near_rows", one, 1), ("rows_to", one, one),
    )):
        raises(chtab.ChtabError, getattr(each, name), *words, told="the network is closed")
        raises(chtab.ChtabError, type(other)(other.calls).open_like, FIRST.read_bytes(), each, 5, told="the network is closed")
    raises(chtab.ProgramFault, other.open, b"", b"", told="answered 3")
    assert other.distances(one, one).tolist() == [0] and route(other, 0, 2)[0] == 9
    with of_first() as network:
        assert network.distances([(1, 3)]).tolist() == [9]
    for name, *words in (
        ("distances", [(1, 3)]), ("table", [1], [3]), ("routes", [(1, 3)]), ("near", None, [3]), ("accessibility", 1, 5),
        ("nearest_targets", [1, 2], [3]),
    ):
        raises(chtab.ChtabError, getattr(network, name), *words, told="the network is closed")


def test_what_is_pickled():
    """Errors and answers are as they were; a handle is neither copied nor pickled."""
    for fault in chtab.ChtabError("a"), chtab.FileFault("b"), chtab.ProgramFault("c", -11), chtab.TimedOut("d"), chtab.TooFar("e", {3: 1500.0}):
        again = pickle.loads(pickle.dumps(fault))
        assert (type(again), str(again), vars(again)) == (type(fault), str(fault), vars(fault)), again
    with of_first() as network:
        assert pickle.loads(pickle.dumps(network.routes([(1, 3)])))[0].nodes == [1, 2, 3]
        raises(TypeError, pickle.dumps, network._engine.first, told="neither copied nor pickled")


@pytest.mark.parametrize("lines, wanted", [
    # A child that drops the network, and one that closes it, leave it to the parent.
    ("if not os.fork(): del network; sys.exit(0)\nos.wait(); print(network.distances([(1, 3)])[0])", "10\n"),
    ("if not os.fork(): network.close(); sys.exit(0)\nos.wait(); print(network.distances([(1, 3)])[0])", "10\n"),
    # Threads that are in a call when the interpreter ends neither crash nor hang it.
    ("def work():\n    while True: network.table(range(1, 1000), range(1, 1000))\n"
     "for _ in range(3): threading.Thread(target=work, daemon=True).start()\ntime.sleep(0.5); print('ends')", "ends\n"),
])
def test_the_end_of_a_process_harms_none(lines, wanted):
    """Its temporary files go with the interpreter, and a process that was forked leaves them alone."""
    text = "import os, sys, threading, time; sys.path.insert(0, sys.argv[1]); import chtab\n"
    text += f"network = chtab.Network.from_arrays(range(1, 1000), range(2, 1001), [5] * 999, program=sys.argv[2], library=sys.argv[3])\n{lines}\n"
    for _ in range(3):
        with temporary() as left:
            done = subprocess.run([PYTHON, "-c", text, ROOT / "python", PROGRAM, make()], capture_output=True, text=True, timeout=PATIENCE)
            assert (done.returncode, done.stdout, done.stderr, left()) == (0, wanted, "", []), done


def test_what_is_dropped_is_freed():
    """Networks that are dropped, closed or never closed after a fault, threads that end, and handles in a ring of references."""
    def dropped():
        assert of_country().distances([(1, 2)])[0] > 0

    def closed():
        with of_country() as network:
            network.table([1, 2], [3, 4])

    def in_ring():
        network = of_country(load=False)
        network.distances([(1, 2)])
        network.itself = network

    def faulty():
        raises(chtab.ProgramFault, handle_of, GRAPH, FIRST_SAVED)

    def near():
        with of_country() as network:
            network.nearest_targets(None, [1, 2, 3], count=2)
            raises(ZeroDivisionError, lambda: network.accessibility(1, 90_000, sources=[1, 2], targets=[3], decay=lambda weights: weights / (1 // 0)))

    def in_thread():
        thread = threading.Thread(target=network.distances, args=([(1, 2)],))
        thread.start()
        thread.join()

    for work in dropped, closed, in_ring, faulty, near:
        assert growth(work, 60) < MOST_GROWTH, work.__name__
    with of_country() as network:
        assert growth(in_thread, 300) < MOST_GROWTH and len(network._engine.handles) == 1


class Texts(typing.NamedTuple):
    """A column of what is kept."""

    texts: numpy.ndarray


class Asked:
    """A lock that counts how often it is asked for."""

    def __init__(self):
        self.lock, self.count = threading.Lock(), 0

    def __enter__(self):
        self.count += 1
        self.lock.acquire()

    def __exit__(self, *_):
        self.lock.release()


def test_threads_share_what_is_kept():
    """Where two threads ask for what is not kept yet, each gets its own, then and later."""
    keeping, making, others = Keeping(10, 100, Texts(column_of([]))), threading.Event(), []
    keeping.lock = Asked()

    def found(place, make):
        columns, [which] = keeping.found(numpy.array([place]), None, lambda some: Texts(column_of([make()])))
        return columns.texts[which]

    def first():
        making.set()
        # The other thread waits for this one, or doesn't and has its text.
        until(lambda: keeping.lock.count == 2 or others and others[0].done())
        return "of 3"

    with concurrent.futures.ThreadPoolExecutor(2) as threads:
        asking = threads.submit(found, 3, first)
        assert making.wait(PATIENCE)
        others.append(threads.submit(found, 4, lambda: "of 4"))
        texts = [asking.result(PATIENCE), others[0].result(PATIENCE), found(3, lambda: "anew"), found(4, lambda: "anew")]
        assert texts == ["of 3", "of 4"] * 2, texts
