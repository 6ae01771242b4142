"""Tests the Python package by what a hostile caller does: numbers of each kind past each range, files that are changed while they are open, and what
happens in the middle of a call: a signal, a question in between, an end of its time, a lack of memory or of room on a disk. Long calls say how far
they are.
"""
import contextlib
import decimal
import fractions
import itertools
import os
import pathlib
import pickle
import resource
import signal
import subprocess
import tempfile
import threading
import time
import types

import pytest

from helpers.commands import raises, run, temporary
from helpers.forking import forked
from helpers.handles import FIRST, of_country
from helpers.in_process import make
from helpers.minutes import of_minutes
from helpers.nearness import rows_told, small_blocks, small_portions
from helpers.packages import PYTHON
from helpers.running import PROGRAM, ROOT
from helpers.science import numpy, pandas
from helpers.waiting import PATIENCE, until
import chtab
from chtab import files
from chtab._engine import deadlines, in_process, library

IMPORT = "import os, sys, time; sys.path.insert(0, sys.argv[1]); import chtab\n"


@contextlib.contextmanager
def alarm(handler, when):
    """Has a signal handled by the main thread once a call gives what is true."""
    def send():
        until(when)
        signal.pthread_kill(threading.main_thread().ident, signal.SIGALRM)

    before, sender = signal.signal(signal.SIGALRM, handler), threading.Thread(target=send)
    sender.start()
    try:
        yield
    finally:
        sender.join()
        signal.signal(signal.SIGALRM, before)


def test_nodes_are_whole_numbers():
    """Whole decimal numbers are nodes, of any kind and order of bytes. Truths, times and texts are none; numbers past 2^63 are told as they are."""
    with chtab.Network.open(FIRST, program=PROGRAM) as network:
        for kind in "i1", "u2", "<i4", ">i4", ">u8", "f2", ">f8", "g":
            columns = numpy.array([1, 9, 3, 9], kind)[::2], numpy.array([[3], [1]], kind)[:, 0]
            assert network.distances(*columns).tolist() == [9, -1] and network.table(*columns).tolist() == [[9, 0], [0, -1]], kind
        for column in pandas.array([1, 3], "Int64"), pandas.Series([1, 3], dtype="Float64"), numpy.array([1, 3.0], object), numpy.array([1, numpy.int8(3)], object):
            assert network.distances(column, [3, 1]).tolist() == [9, -1] and network.near(column, [3]).weights.tolist() == [9, 0], column
        raises(chtab.DataFault, network.distances, pandas.array([1, None], "Int64"), [1, 1], told="sources[1]: <NA> is no node")
        wrong = [numpy.array([1], kind) for kind in (bool, "m8[s]", "M8[s]")] + [[each] for each in (True, 1.5, numpy.nan, numpy.inf, "1", 1j, None, 2**64, 10**400)]
        for ends, call in itertools.product(wrong, (network.distances, network.table, network.near)):
            raises(ValueError, call, ends, [1], told="a node is a whole number")
            raises(ValueError, call, [1], ends, told="a node is a whole number")
        for node in 0, -1, 4, 2**32 + 1, 2**63 - 1, -2**63, 2**63, 2**64 - 1:
            raises(ValueError, network.table, [1, node] if node < 2**63 else numpy.array([1, node], numpy.uint64), [2], told=f"node {node:.17g} is not from 1 to 3")
        read_only = numpy.array([1, 3])
        read_only.flags.writeable = False
        assert network.distances(read_only, read_only[::-1]).tolist() == [9, -1] and network.table(numpy.array(1), numpy.array(3)).tolist() == [[9]]
        for pairs in numpy.array(1), [1, 2, 3]:
            raises(ValueError, network.distances, pairs, told="shape (n, 2)")


def test_limits_are_exact():
    """Past 2^53 too, of each kind of number: what is farther by one is left out, and what is just as far is not."""
    far = 2**53 + 1
    files.write_graph("far.gr", 3, [(1, 2, far), (2, 3, 1)])
    with chtab.Network.open("far.gr", program=PROGRAM) as network:
        for limits, found in (
            ([far, numpy.int64(far), numpy.uint64(far), fractions.Fraction(2 * far + 1, 2), decimal.Decimal(far)], [far]),
            ([far - 1, float(far - 1), numpy.float64(far - 1), numpy.uint64(far - 1), numpy.float32(far - 1)], []),
        ):
            for within in limits:
                assert network.table([1], [2, 3], within=within).tolist() == [(found + [-1, -1])[:2]], repr(within)
                assert network.near([1], [2, 3], within=within).weights.tolist() == found, repr(within)
        assert network.table([1], [2, 3], within=2**60).tolist() == [[far, far + 1]] and network.table([1], [1, 2], within=0).tolist() == [[0, -1]]
        limits = [float(far - 1), far, numpy.int64(far), 2.0**54, 2**60]
        assert network.accessibility([1, 1], limits, sources=[1], targets=[2, 3]).tolist() == [[0, 1, 1, 2, 2]]
        for within in -1, 2**60 + 1, float("nan"), float("-inf"), numpy.float64("nan"), numpy.int64(-1), numpy.uint64(2**63):
            for call in lambda: network.table([1], [2], within=within), lambda: network.near([1], [2], within=within), lambda: network.accessibility(1, [5, within]):
                raises(ValueError, call, told="a limit is from 0 to 2^60")


def test_what_is_out_of_size_is_taken_or_refused():
    """Counts that no row has and no number of numpy holds, also where rows are put together of parts; a value that is masked; one value of any kind."""
    with chtab.Network.from_arrays(["a", "b", "c", "a"], ["b", "c", "a", "c"], [4, 5, 1, 10], program=PROGRAM) as network:
        for count, length in itertools.product((2**31, 2**32, 2**63, 2**70, numpy.int64(2**62)), (2, 2**16)):
            with small_blocks(length, 10):
                near = network.near(None, ["c", "b", "c"], count=count)
                assert rows_told(near) == rows_told(network.near(None, ["c", "b", "c"])) and near.offsets.dtype == numpy.int64, (count, length)
        for masked in numpy.ma.masked, numpy.ma.array(5, mask=True), None, "5", 5j, float("nan"), numpy.float64("inf"):
            for targets in (None, ["b"]):
                raises(chtab.DataFault, lambda: network.accessibility(masked, 5, targets=targets), told="values")
        for value in 2, 2.0, numpy.int8(2), numpy.float32(2), numpy.array(2), numpy.array(2.0, ">f4"), numpy.uint64(2):
            assert network.accessibility(value, 5).tolist() == [4, 4, 6], repr(value)
        for values in numpy.uint64(2**63), [numpy.uint64(2**63), 1, 2], numpy.array([2**63, 1, 2], numpy.uint64), [2**63, 1.5, 2]:
            raises(chtab.DataFault, network.accessibility, values, 5, told="too large")


def test_labels_are_of_any_size():
    """Integers past 2^63 are labels, as Python has them or as numpy does, in lists and in arrays; none is taken for another."""
    large, wide = [2**63 + 5, 2**64 - 1, 7], numpy.array([2**63 + 5, 2**64 - 1, 7], numpy.uint64)
    for ends in large, wide, list(wide), numpy.array(large, object):
        with chtab.Network.from_arrays(ends, [*ends[1:], ends[0]], [4, 5, 6], program=PROGRAM) as network:
            assert network.labels.tolist() == sorted(large), ends
            for asked in large, wide, list(wide):
                assert network.distances(asked, asked[::-1]).tolist() == [9, 0, 6] and network.routes(asked[:1], asked[1:2])[0].nodes == large[:2]
            for other in [5 - 2**63], [-1], [2**63], numpy.array([2**63], numpy.uint64), [numpy.uint64(2**63 + 6)]:
                raises(chtab.DataFault, network.distances, other, [7], told="no node has the label")
    with chtab.Network.from_arrays([1, 2], [2, 1], [4, 5], program=PROGRAM) as network:
        raises(chtab.DataFault, network.near, [numpy.uint64(2**64 - 1)], [1], told="no node has the label 18446744073709551615")
    for weights in [numpy.uint64(2**63)], numpy.array([2**63 + 5], numpy.uint64), [2**63]:
        raises(chtab.DataFault, lambda: chtab.Network.from_arrays([1], [2], weights, program=PROGRAM), told="too large")


@pytest.mark.parametrize("old, new", [("4\na 2 3 5", "5\na 2 3 4"), ("a 2 3 5", "a 3 2 5"), ("a 2 3 5\n", ""), ("a 1 2 4\n", "a 1 2 4 \n")])
def test_files_that_were_written_anew_are_not_read(old, new):
    """A graph that was written anew is refused by whatever would read it later: routes, their lines, changes, and a forked process where nothing was
    read before; so are places. What was read of the one before answers on, in a forked process too."""
    text, told = FIRST.read_text(), "own.gr has changed since it was opened"
    pathlib.Path("own.gr").write_text(text)
    files.write_coordinates("own.co", [(9.5, 47.1)] * 3)
    with chtab.Network.open("own.gr", program=PROGRAM) as network, chtab.Network.open("own.gr", program=PROGRAM) as known:
        routes = known.routes([(1, 3)])
        assert routes[0] == (1, 3, 9, [1, 2, 3], [4, 5])
        time.sleep(0.02)
        pathlib.Path("own.gr").write_text(text.replace(old, new))
        for call in lambda: network.routes([(1, 3)]), lambda: network.graph, lambda: network.changed({0: 3}), routes.to_geojson:
            raises(chtab.ProgramFault, call, told=told)
        assert forked(lambda: raises(chtab.ProgramFault, network.routes, [1], [3], told=told) and network.distances([1], [3]).tolist() == [9])
        assert network.distances([(1, 3)]).tolist() == [9] == network.table([1], [3])[0].tolist()
        assert known.routes([(1, 3), (2, 3)])[:] == [(1, 3, 9, [1, 2, 3], [4, 5]), (2, 3, 5, [2, 3], [5])]
    with chtab.Network.open("own.gr", program=PROGRAM, load=False) as network, temporary() as left:
        assert network.graph.nodes == 3
        time.sleep(0.02)
        files.write_coordinates("own.co", [(9.7, 47.1)] * 3)
        raises(chtab.ProgramFault, network.changed, {0: 3}, told="own.co has changed since it was opened")
        pathlib.Path("own.gr").write_text(text)
        assert forked(lambda: raises(chtab.ProgramFault, network.distances, [(1, 3)], told=told))
        raises(chtab.ProgramFault, network.distances, [(1, 3)], told=told)
        assert left() == []


@pytest.mark.parametrize("program, most, name, cause", [
    (PROGRAM, 10_000, "network.gr", "File too large"), ("./full", 10**9, "network.ch", "cannot write after 0 bytes"),
])
def test_a_file_that_cannot_be_written_is_named(program, most, name, cause):
    """Files that may not be so long, as on a full disk, are faults that name the file and the cause; then nothing is left."""
    text = f"""{IMPORT}if True:
        import resource, signal
        signal.signal(signal.SIGXFSZ, signal.SIG_IGN)
        resource.setrlimit(resource.RLIMIT_FSIZE, (int(sys.argv[3]), int(sys.argv[3])))
        try:
            chtab.Network.from_arrays(range(2_000), range(1, 2_001), [5] * 2_000, program=sys.argv[2], library=sys.argv[4], workers=2)
        except (OSError, chtab.ProgramFault) as fault:
            print(type(fault).__name__, fault)
    """
    pathlib.Path("full").write_text(f"#!/bin/sh\n[ \"$1\" = save ] && exec {PROGRAM} \"$@\" >/dev/full\nexec {PROGRAM} \"$@\"\n")
    os.chmod("full", 0o755)
    with temporary() as left:
        told = run(PYTHON, "-c", text, ROOT / "python", program, most, make())
        assert name in told and cause in told and told.count("\n") == 1 and left() == [], told


def test_a_lack_of_room_is_told_where_a_file_is_needed():
    """On a full disk, and where no folder can be made, arcs are a network, which answers and is changed. Pickle names the file, and leaves nothing; a
    process that is forked answers too. Once there is room the files are written."""
    ends = list(range(2_000)), list(range(1, 2_001))

    def is_told():
        signal.signal(signal.SIGXFSZ, signal.SIG_IGN)
        before, folder = resource.getrlimit(resource.RLIMIT_FSIZE), tempfile.tempdir
        for limit, place, name in (10_000, folder, "network.gr"), (before[0], f"{folder}/none", "none/chtab-"):
            resource.setrlimit(resource.RLIMIT_FSIZE, (limit, before[1]))
            tempfile.tempdir = place
            with chtab.Network.from_arrays(*ends, [5] * 2_000, program=PROGRAM) as base, base.changed({0: 7}) as network:
                for _ in range(2):
                    assert network.distances([(0, 2_000)]).tolist() == [10_002] and raises(OSError, pickle.dumps, network, told=name) and left() == []
                    assert forked(lambda: network.distances([(0, 2_000)]).tolist() == [10_002] and raises(OSError, pickle.dumps, network, told=name))
                resource.setrlimit(resource.RLIMIT_FSIZE, before)
                tempfile.tempdir = folder
                assert pickle.loads(pickle.dumps(network)).distances([(0, 2_000)]).tolist() == [10_002] and len(left()) == 1
        return left() == []

    with temporary() as left:
        assert forked(is_told)


@pytest.mark.parametrize("more", ["child = 0", "child = os.fork()\nif not child:\n    sys.stdin.read(); os._exit(0)"])
@pytest.mark.parametrize("number", [signal.SIGTERM, signal.SIGKILL])
def test_a_signal_leaves_no_folder(number, more):
    """A process that is ended leaves no temporary folder, also where one that was forked from it lives on: here as long as its input."""
    text = f"{IMPORT}import pickle; network = chtab.Network.from_arrays([1], [2], [3], program=sys.argv[2]); pickle.dumps(network)\n{more}\n"
    text += "print(child, flush=True); time.sleep(10_000)"
    words, pipes = [PYTHON, "-c", text, ROOT / "python", PROGRAM], {"stdin": subprocess.PIPE, "stdout": subprocess.PIPE}
    with temporary() as left, subprocess.Popen(words, **pipes) as process:
        child = int(process.stdout.readline())
        assert len(left()) == 1
        process.send_signal(number)
        process.wait()
        until(lambda: not left(), lambda: more)
        assert not child or os.path.exists(f"/proc/{child}")


def test_a_signal_may_close_what_is_asked():
    """Its handler closes the network in the middle of a question of the same thread, which then fails. Nothing waits for itself."""
    with of_country() as quick:
        # More columns than a single call of the library has, and more cells than it makes until the signal comes.
        nodes, begun = list(range(1, quick.nodes + 1)), time.monotonic()
        with alarm(lambda *_: quick.close(), lambda: time.monotonic() > begun + 0.5):
            raises(chtab.ChtabError, quick.table, nodes * 2, nodes * 8, told="the network is closed")


def test_a_lack_of_memory_is_told_and_over():
    """Whatever is refused memory says so, and the same question is answered once there is some; threads can't be begun then either."""
    nodes = numpy.arange(1, 1_501)
    with of_country() as network:
        calls = lambda: network.table(nodes, nodes), lambda: network.near(None, nodes).weights, lambda: network.near(nodes, nodes, count=900).places, \
            lambda: network.distances(nodes, nodes[::-1])
        wanted = [call() for call in calls]

        def is_told():
            count, before, _ = 0, resource.getrlimit(resource.RLIMIT_AS), network.distances([(1, 2)])
            for spare, (call, owed) in itertools.product(range(4_000_000, 90_000_000, 10_000_000), zip(calls, wanted)):
                held = int(pathlib.Path("/proc/self/statm").read_text().split()[0]) * resource.getpagesize()
                resource.setrlimit(resource.RLIMIT_AS, (held + spare, before[1]))
                try:
                    assert numpy.array_equal(call(), owed)
                except (MemoryError, chtab.ProgramFault) as fault:
                    assert isinstance(fault, MemoryError) or (str(fault), fault.status) == ("chtab: out of memory", 3), fault
                    count += 1
                finally:
                    resource.setrlimit(resource.RLIMIT_AS, before)
                assert numpy.array_equal(call(), owed)
            return count > 4

        assert forked(is_told)


def test_a_sweep_without_memory_is_left_out(monkeypatch):
    """Then the rows come by searches, whatever the samples said of them."""
    with of_country() as network:
        wanted = network.near(None, [1, 2, 3], count=2)
        monkeypatch.setattr(library.Handle, "sweep", lambda handle: library.see_that_done(library.NO_MEMORY))
        assert rows_told(network.near(None, [1, 2, 3], count=2)) == rows_told(wanted)


NODES = list(range(1, 601))


@pytest.mark.parametrize("name, ask", [
    ("open", lambda network: of_country().close()), ("distances", lambda network: network.distances(NODES, NODES)),
    ("table", lambda network: network.table(NODES, NODES)), ("rows_to", lambda network: network.table(NODES * 8, NODES)),
    ("keep_places", lambda network: network.near([1], NODES, count=1)), ("sweep", lambda network: network.near(None, NODES, count=1)),
    ("near_rows", lambda network: network.near(NODES, [1])), ("routes_with_lines", lambda network: network.routes(NODES, NODES)),
    ("near_sums", lambda network: network.accessibility(1, 2**60, sources=NODES, targets=NODES)),
])
def test_a_call_of_seconds_hears_ctrl_c(monkeypatch, name, ask):
    """Each call of the library that may take long is broken off before it ends, and what it leaves behind answers on. It is made by another thread
    than the one that hears signals, because no call of C hears one."""
    # In a small network calls of a few hundred searches are made at once, because they take some milliseconds.
    monkeypatch.setattr(in_process, "SMALL", 0)
    callers, may_begin, call = [], threading.Event(), getattr(library.Handle, name)

    def late(*words):
        if not callers:
            callers.append(threading.current_thread())
            may_begin.wait(PATIENCE)
        return call(*words)

    with of_country() as network:
        wanted = network.table(NODES[:9], NODES[:9])
        try:
            with monkeypatch.context() as patch, alarm(signal.default_int_handler, lambda: callers):
                patch.setattr(library.Handle, name, late)
                raises(KeyboardInterrupt, ask, network)
            assert callers[0] is not threading.main_thread()
        finally:
            may_begin.set()
        assert (network.table(NODES[:9], NODES[:9]) == wanted).all() and network.near([5], [5]).weights.tolist() == [0]


def test_time_is_looked_at_between_calls(monkeypatch):
    """By a clock that goes on a second with each look: a question of more calls than it has seconds is broken off, by each kind of call; the next
    one is answered. Other networks have no time."""
    nodes = list(range(1, 3_001)) * 12
    with of_country(timeout=4) as network, of_country() as other, small_portions(1 << 20, 0, 1_000):
        wanted = other.distances(nodes, nodes[::-1])
        monkeypatch.setattr(deadlines, "time", types.SimpleNamespace(monotonic=itertools.count().__next__))
        for call in (
            lambda: network.distances(nodes, nodes[::-1]), lambda: network.table([1], nodes), lambda: network.routes([(1, 2)] * 9_999),
            lambda: network.near(nodes, [1]), lambda: network.accessibility(1, 2**60, sources=nodes, targets=[1]), lambda: network.nearest_targets(nodes, [1]),
        ):
            raises(chtab.TimedOut, call, told="longer than 4 seconds")
            assert network.distances([(5, 5)]).tolist() == [0] and network.near([5], [5]).weights.tolist() == [0]
            assert network.routes([(5, 5)])[0].weight == 0 and network.table([5], [5]).tolist() == [[0]]
        assert (other.distances(nodes, nodes[::-1]) == wanted).all() and len(other.near(nodes, [1])) == len(nodes)


@pytest.mark.parametrize("total, call", [
    (3, lambda network, told: network.distances([("inn", "mill")] * 3, progress=told)),
    (1, lambda network, told: network.table(["inn", "farm"], ["mill"] * 5, progress=told)),
    (2_000, lambda network, told: network.routes([("inn", "mill")] * 2_000, progress=told)),
    (6, lambda network, told: network.near(None, ["mill", "farm", "inn"], progress=told)),
])
def test_each_long_call_says_how_far_it_is(total, call):
    """Distances, tables, routes, and blocks of near rows count up to all that was asked for; with False they say nothing."""
    seen = []
    with of_minutes() as network, small_blocks(2, 4):
        call(network, lambda done, of_all: seen.append((done, of_all)))
        assert seen and seen[-1] == (total, total) and [done for done, _ in seen] == sorted({done for done, _ in seen}), seen
        assert call(network, False) is not None


def test_building_says_how_far_it_is():
    """A callable gets the steps of each stage, and True prints lines."""
    places, seen = numpy.arange(3_600).reshape(60, 60), []
    ends = [numpy.append(across, down) for across, down in ((places[:, :-1], places[:-1]), (places[:, 1:], places[1:]))]
    more = {"both_ways": True, "progress": lambda done, total: seen.append((done, total)), "program": PROGRAM}
    with chtab.Network.from_arrays(*ends, numpy.random.default_rng(1).integers(1, 99, len(ends[0])), **more) as network:
        assert network.nodes == 3_600 and seen and all(0 <= done <= total for done, total in seen), seen
    text = f"{IMPORT}chtab.Network.from_arrays([1], [2], [3], progress=True, program=sys.argv[2]).close()"
    done = subprocess.run([PYTHON, "-c", text, ROOT / "python", PROGRAM], capture_output=True, text=True)
    assert done.returncode == 0 and done.stderr.startswith("chtab: ") and " of " in done.stderr, done
