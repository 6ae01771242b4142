"""Tests the library for C as the Python package calls it: what it would misread, what is refused, and which library is taken."""
import ctypes
import os
import pathlib
import pickle
import re
import shutil
import subprocess
from functools import partial

import pytest

from helpers import ways
from helpers.commands import raises
from helpers.handles import FIRST, FIRST_SAVED, GRAPH, handle_of, of_first, route
from helpers.in_process import HEADER, declared, make, statuses
from helpers.running import PROGRAM
from helpers.science import numpy
import chtab
from chtab._engine import in_process, library


def test_declarations_are_those_of_the_header():
    """The version, statuses, kinds of faults and sizes; and each call is given as many words as the header says, each of its type."""
    text = HEADER.read_text()
    assert f"#define CHTAB_VERSION {library.VERSION}\n" in text
    assert all(getattr(library, name) == number for name, number in statuses().items()) and len(statuses()) == 17
    assert len(re.findall(r"CHTAB_FAULT_\w+ = \d+", text)) == len(library.KINDS)
    for name, kind, size in ("chtab", library.Block, 16), ("chtab_topology", library.TopologyBlock, 16), ("chtab_fault", library.Fault, 24):
        body = re.search(rf"typedef struct {name} \{{(.*?)\}}", text, re.DOTALL).group(1)
        assert re.findall(r"(\w+);", re.sub(r"/\*.*?\*/", "", body)) == [field for field, _ in kind._fields_] and ctypes.sizeof(kind) == size, name
    one, rows, column = ctypes.POINTER(ctypes.c_uint32), ctypes.POINTER(ctypes.c_uint64), ctypes.c_void_p
    types = {
        "chtab *": {library.HANDLE}, "chtab_topology *": {library.TOPOLOGY}, "chtab_fault *": {ctypes.POINTER(library.Fault)},
        "size_t ": {ctypes.c_size_t}, "uint32_t ": {ctypes.c_uint32}, "uint64_t ": {ctypes.c_uint64}, "const uint8_t *": {ctypes.c_char_p},
        "const uint32_t *": {column}, "const uint64_t *": {column}, "uint64_t *": {column, rows}, "uint32_t *": {column, one}, "uint8_t *": {column},
    }
    assert {*library.CALLS, "chtab_version", "chtab_topology_open"} == declared()
    for name, given in library.CALLS.items():
        words = re.search(rf"uint32_t {name}\((.*?)\);", text, re.DOTALL).group(1)
        told = [re.fullmatch(r"(.*?)\w+", " ".join(word.split())).group(1) for word in words.split(",")]
        assert len(told) == len(given) and all(kind in types[word] for word, kind in zip(told, given)), (name, told)
    assert library.CALLS["chtab_nodes"][1] is one
    assert library.CALLS["chtab_save"][1] is rows and library.CALLS["chtab_near_rows"][3] is rows and library.CALLS["chtab_near_rows"][4::2] == (column,) * 3


def test_what_c_would_misread_is_refused():
    """Arrays of other numbers, of other shapes, in pieces, and what is no array; nodes that are not there, and lengths that don't fit."""
    handle, right, values = handle_of(), columns_of([0, 1])[0], numpy.array([2**63, 2**63 - 1], numpy.uint64)
    sources, targets, last, many = *columns_of([0, 2, 1], [2, 0, 2], [2, 2]), numpy.zeros(65_537, numpy.uint32)
    of_nodes = [handle.keep_places, lambda nodes: handle.route_sums(nodes, right, values), lambda nodes: handle.flows(nodes, right, values, 2)]
    for ask in handle.distances, handle.table, handle.rows_to:
        of_nodes += [partial(ask, right), lambda nodes, ask=ask: ask(nodes, right)]
    for wrong in (
        None, [0, 1], "01", b"\0" * 8, right.astype(numpy.int32), right.astype(numpy.int64), right.astype(float), right.astype(">u4"), right[::-1],
        numpy.arange(4, dtype=numpy.uint32)[::2], right.reshape(1, 2), right.reshape(2, 1), numpy.ma.masked_array(right), numpy.array([0, None]),
        memoryview(right), (ctypes.c_uint32 * 2)(0, 1), numpy.arange(9, dtype=numpy.uint8)[1:].view(numpy.uint32),
    ):
        for call in *of_nodes, partial(handle.near_rows, pairs=9):
            raises(TypeError, call, wrong)
    for wrong in None, [1, 2], values.astype(numpy.int64), values.astype(float), values.astype(numpy.uint32), values[::-1], values.reshape(1, 2):
        for call in handle.route_sums, handle.table_sums, partial(handle.flows, lines=2):
            raises(TypeError, call, right, right, wrong)
    for node in 3, 4, 2**31, 2**32 - 1:
        for call in *of_nodes, lambda nodes: route(handle, nodes[1], 0), lambda nodes: route(handle, 0, nodes[1]):
            raises(ValueError, call, columns_of([0, node])[0], told="not one of the network")
    for told, call, *words in (
        ("lengths", handle.distances, right, right[:1]), *(("lengths", handle.route_sums, right, right[:length], values) for length in (0, 1)),
        *(("lengths", handle.route_sums, right, right, numpy.zeros(length, numpy.uint64)) for length in (1, 3)),
        *(("lengths", handle.flows, right, *more) for more in ((last[:1], values, 2), (last, values[:1], 2), (last, values, 1), (last, values, 3))),
        *(("64 bits", call, *words, limit) for call, *words in ((handle.table, right, right), (handle.keep_places, right)) for limit in (-1, 2**64)),
        *(("one of 32", handle.keep_places, right, 5, count) for count in (-1, 2**32)),
        *(("65,536", handle.table, *ends) for ends in ((many, right), (right, many))), ("no places are kept", handle_of().sweep),
        ("no places are kept", handle_of().near_rows, right, 9), ("65,536", handle.keep_places, many),
        ("more than 2^63", handle.flows, right, last, values, 2), ("2^64 or more", handle.route_sums, right[:1], last[:1], values | 1),
    ):
        raises(ValueError, call, *words, told=told)
    for kind, wrong in *((ValueError, node) for node in (0, 4, -1, 2**32 + 1, -2**63)), *((TypeError, node) for node in (1.0, "1", None, True)):
        raises(kind, library.nodes_of, [wrong], 3)
    # What is right is answered, after all of this.
    assert [column.tolist() for column in handle.route_sums(sources, targets, values)] == [[9, -1, 5], [2**64 - 1, 0, 2**63 - 1]]
    missed, flows = handle.flows(sources, targets, numpy.array([2, 3, 5], numpy.uint64), 2)
    assert (missed, flows.tolist(), flows.dtype) == (1, [2, 7], numpy.uint64)
    assert handle.distances(right, right[::-1].copy()).tolist() == [4, -1] and handle.table(right, right).tolist() == [[0, 4], [-1, 0]]
    handle.keep_places(right)
    raises(ValueError, handle.near_rows, columns_of([0, 3])[0], 9, told="not one of the network")
    assert handle.distances(many[:0], many[:0]).tolist() == [] and handle.table(many[:0], right).shape == (0, 2)
    for nodes, pairs, owed in (many[:0], 0, [[]] * 3), (right, 2, [[2], [0, 4], [0, 1]]):
        assert [part.tolist() for part in handle.near_rows(nodes, pairs)[:3]] == owed


def test_a_table_of_sums_is_that_of_the_values_given():
    """Also of an array that was written to since, of a part of one, and of others behind one that can't change, which is taken once. What is refused
    leaves right answers, and a shared handle has what the first one keeps."""
    handle, (sources, targets), own = handle_of(), columns_of([0, 2], [1, 2]), numpy.array([3, 4], numpy.uint64)
    part, fixed, names = own[:], numpy.frombuffer(own.tobytes(), numpy.uint64), []
    part.flags.writeable = False

    def sums_of(values, asked=handle):
        names.clear()
        with pytest.MonkeyPatch.context() as patch:
            ask = asked.ask
            patch.setattr(asked, "ask", lambda call, *given: names.append(call.__name__) or ask(call, *given))
            weights, sums = asked.table_sums(sources, targets, values)
        assert weights.tolist() == [[4, 9], [-1, 0]] and sums[1].tolist() == [0, 0] and sums.dtype == numpy.uint64
        return sums[0].tolist()

    for values, first in (own, 3), (own, 5), (part, 6), (part, 7), (fixed, 3), (own, 8), (fixed, 3), (part, 9):
        own[0] = first if values is not fixed else own[0]
        assert sums_of(values) == [first, first + 4] and names == ["chtab_keep_values", "chtab_kept_table_sums"]
    assert sums_of(fixed) == sums_of(fixed) == [3, 7] and names == ["chtab_kept_table_sums"]
    assert sums_of(fixed, handle.share()) == [3, 7] and names == ["chtab_kept_table_sums"]
    locked = own.copy()
    for first in 5, 6:
        locked.flags.writeable = True
        locked[0] = first
        locked.flags.writeable = False
        assert sums_of(locked) == [first, first + 4]
    for length in 0, 1, 3:
        raises(ValueError, handle.table_sums, sources, targets, numpy.zeros(length, numpy.uint64), told="lengths")
        assert sums_of(fixed) == [3, 7]
    raises(ValueError, handle.table_sums, sources, targets, numpy.array([2**63, 2**63], numpy.uint64), told="2^64 or more")
    for nodes in columns_of([0, 3], [2**31]):
        raises(ValueError, handle.table_sums, nodes, targets, fixed, told="not one of the network")
    assert sums_of(fixed) == [3, 7] and handle.table_sums(sources[:0], targets, own)[1].shape == (0, 2)


def test_graphs_that_are_none_are_refused():
    """Files and columns that C would misread, what is no graph, with its line or arc, and no network like another; the other one answers on."""
    handle, graph, saved = handle_of(), FIRST.read_bytes(), FIRST_SAVED.read_bytes()
    other, ends, weights = library.Handle(handle.calls), columns_of([0, 1], [1, 2]), numpy.array([4, 5], numpy.uint64)
    of_columns = partial(other.open_arrays, 3, *ends)
    for wrong in "p sp 0 0\n", bytearray(graph), 5:
        for call, *words in (other.open, wrong, b""), (other.open, b"", wrong), (other.open_like, wrong, handle, 5), (of_columns, weights, wrong):
            raises(TypeError, call, *words, told="files are bytes")
    for given in (ends[0].astype(numpy.int32), ends[1], weights), (ends[0], [1, 2], weights), (*ends, weights[::-1]), (*ends, weights / 2):
        raises(TypeError, other.open_arrays, 3, *given, saved, told="the library takes a column")
    for call, kind, told, *words in (
        *((other.open_like, ValueError, "from 0 to 100", graph, handle, fresh) for fresh in (-1, 2**32)),
        (other.open_like, ValueError, "more than 100", graph, handle, 101), (handle.open_like, ValueError, "of another handle", graph, handle, 5),
        (of_columns, ValueError, "columns of one length", weights[:1], saved),
        (other.open_like, ValueError, "another number of nodes", graph.replace(b"p sp 3", b"p sp 4"), handle, 5),
        (other.open_like, chtab.ProgramFault, "graph line 5: too many lines", graph + b"a 1 2 3\n", handle, 5),
        *((other.open_arrays, ValueError, "a number of nodes", nodes, *ends, weights, saved) for nodes in (-1, 2**32, 3.0)),
        (of_columns, chtab.ProgramFault, "saved line 1: no problem line", weights, b""),
        (of_columns, chtab.ProgramFault, "saved line", weights, saved + b"x\n"),
        (of_columns, chtab.ProgramFault, "saved hierarchy refused: base", weights, saved.replace(b"l 2 3 5", b"l 2 3 6")),
    ):
        raises(kind, call, *words, told=told)
    for nodes, change, place, kind in (2, 0, 1, "node out of range"), (3, 2**60, 0, "weight too large"), (2**25 + 1, 0, 0, "size too large"):
        fault = raises(chtab.ProgramFault, other.open_arrays, nodes, *ends, weights + numpy.uint64(change), saved, told=f"graph arc {place}: {kind}")
        assert (fault.status, fault.place, fault.kind) == (1, place, kind), vars(fault)
    other.open_like(graph.replace(b"2 3 5", b"2 3 6"), handle, 5)
    assert route(other, 0, 2)[0] == 10
    raises(chtab.ProgramFault, other.open_like, graph, handle, 5, told="answered 3")
    by_arrays = library.Handle(handle.calls)
    by_arrays.open_arrays(3, *ends, weights, saved)
    assert handle_of(GRAPH, ways.saved_for(GRAPH)).save() == ways.saved_for(GRAPH).read_bytes()
    for each in handle, by_arrays:
        assert each.save() == saved and route(each, 0, 2)[0] == 9 and route(each, 0, 2)[1].tolist() == [0, 1, 2] and route(each, 2, 0)[0] == -1


def columns_of(*columns):
    return [numpy.array(column, numpy.uint32) for column in columns]


def test_faults_are_told_as_by_the_program():
    """Of graphs and hierarchies: one text and one status by both ways, and by the library the line or the place, and the kind."""
    graph, saved = FIRST.read_text(), FIRST_SAVED.read_text()
    for texts, line, kind, place in (
        ((graph + "a 1 2 3\n", saved), 5, "too many lines", 0), ((graph.replace("a 2 3", "a 2 4"), saved), 4, "node out of range", 0),
        (("p sp 3 2\n", saved), 2, "too few lines", 0), ((graph, ""), 1, "no problem line", 0),
        ((graph, saved + "x\n"), saved.count("\n") + 1, "unknown line", 0), ((graph.replace("2 3 5", "2 3 6"), saved), 0, "base", None),
        ((graph.replace("p sp 3", "p sp 4"), saved), 1, "size too large", 0), ((graph, saved.replace("o 2", "o 1")), 0, "order", 0),
        ((graph, saved.replace("p ch 3 2", "p ch 3 1").replace("l 2 3 5 1 0\n", "")), 0, "arc", 1),
    ):
        for name, text in zip(("bad.gr", "bad.ch"), texts):
            pathlib.Path(name).write_text(text)
        fault = raises(chtab.ProgramFault, lambda: chtab.Network.open("bad.gr", saved="bad.ch", program=PROGRAM))
        done = subprocess.run([PROGRAM, "table", "--saved", "bad.ch", "bad.gr", "bad.gr", "bad.gr"], capture_output=True, text=True)
        assert (done.stderr.splitlines()[-1], done.returncode) == (str(fault), 1), (texts, done)
        assert (fault.status, fault.line, fault.kind) == (1, line, kind) and place in (None, fault.place), (texts, vars(fault))
        assert vars(pickle.loads(pickle.dumps(fault))) == vars(fault)
    pathlib.Path("bad.gr").write_text("")
    raises(chtab.ChtabError, lambda: chtab.Network.open("bad.gr", program=PROGRAM))


def answers(network):
    with network:
        return network.distances([(1, 3)]).tolist() == [9]


def test_it_is_taken_where_it_is():
    """Beside the program; where there is none, or sources of a checkout are newer, the fault says how it is made."""
    for place in "beside", "lib/chtab", "checkout", "checkout/crates/chtab/out", "alone":
        os.makedirs(place)
        shutil.copy(PROGRAM, f"{place}/chtab")
    os.makedirs("checkout/out/library/lib")
    for place in "beside", "lib", "checkout/out/library/lib":
        shutil.copy(make(), f"{place}/{library.NAME}")
    os.symlink("lib/chtab/chtab", "linked")
    for program in "beside/chtab", "lib/chtab/chtab", "checkout/chtab", "checkout/crates/chtab/out/chtab", "linked":
        for more in {"saved": FIRST_SAVED}, {}, {"timeout": 5}, {"workers": 2}, {"library": True}, {"library": "auto"}:
            assert answers(chtab.Network.open(FIRST, program=program, **more)), (program, more)
        assert answers(chtab.Network.from_arrays([1, 2], [2, 3], [4, 5], program=program)), program
    for call in lambda: chtab.Network.open(FIRST, program="alone/chtab"), lambda: chtab.Network.from_arrays([1], [2], [3], program="alone/chtab"):
        raises(chtab.ChtabError, call, told="`packaging/library` makes it")
    source, made = pathlib.Path("checkout/crates/ch_c/src/handle.rt"), os.stat(f"checkout/out/library/lib/{library.NAME}").st_mtime
    source.parent.mkdir(parents=True)
    source.write_text("")
    os.utime(source, (made - 5, made - 5))
    assert answers(chtab.Network.open(FIRST, program="checkout/chtab"))
    os.utime(source, (made + 5, made + 5))
    raises(chtab.ChtabError, lambda: chtab.Network.open(FIRST, program="checkout/chtab"), told="older than the sources")
    by_path = chtab.Network.open(FIRST, saved=FIRST_SAVED, program="alone/chtab", library=os.path.relpath(make()))
    assert answers(pickle.loads(pickle.dumps(by_path)))
    for wrong, kind in (3, TypeError), (0, TypeError), (1.0, TypeError), ("none.so", chtab.ChtabError), (FIRST, chtab.ChtabError):
        raises(kind, lambda: chtab.Network.open(FIRST, program=PROGRAM, library=wrong))


def test_another_library_is_not_taken(monkeypatch):
    """A file that is no library, a library of others, and one of another version."""
    other = next(path for path in pathlib.Path("/usr/lib").glob("**/libz.so.1") if path.exists())
    for path in FIRST, "/dev/null", other:
        raises(chtab.ChtabError, lambda: chtab.Network.open(FIRST, program=PROGRAM, library=path), told="is not chtab's library for C")
    shutil.copy(make(), library.NAME)
    shutil.copy(PROGRAM, "chtab")
    with monkeypatch.context() as patch:
        patch.setattr(library, "VERSION", library.VERSION + 1_000)
        raises(chtab.ChtabError, lambda: chtab.Network.open(FIRST, program="./chtab"), told="another version")
    assert answers(chtab.Network.open(FIRST, program="./chtab"))


def test_few_distances_are_those_of_their_pairs():
    """Lists of few pairs go without arrays. What is no known label, or no pair, is told as of arrays; a question in the middle of one spoils none."""
    with of_first() as network:
        for count in 1, 2, 16, 17, 40:
            pairs = [(1 + place % 3, 1 + place // 3 % 3) for place in range(count)]
            assert network.distances(pairs).tolist() == network.distances(numpy.array(pairs)).tolist(), count
        assert network.distances([(numpy.int64(1), 3), (3, numpy.int64(1))]).tolist() == [9, -1]
        for pairs in [(0, 1)], [(1, 4)], [(-1, 1)], [(2**32 + 1, 1)], [(2**70, 1)], [(1.5, 2)], [("1", 2)], [(1, 2, 3)], [(1,)], [(None, 1)]:
            raises((ValueError, TypeError), network.distances, pairs)
        handle, calls, inner = network._engine.handle(), network._engine.calls, []

        def distances(*given):
            status, handle.calls = calls.chtab_distances(*given), calls
            inner.append(network.distances([(2, 3), (3, 2)]).tolist())
            return status

        handle.calls = type("Calls", (), {"chtab_distances": staticmethod(distances)})
        assert network.distances([(1, 3), (1, 2)]).tolist() == [9, 4] and inner == [[5, -1]]
    for labels in [10, -5, 2**62], ["a", "b", "c"], [2**70, 5, -2**80]:
        with chtab.Network.from_arrays(labels[:2], labels[1:], [4, 5], library=make(), program=PROGRAM) as network:
            assert network.answers_by == "library" and network.distances([(labels[0], labels[2]), (labels[1], labels[0])]).tolist() == [9, -1]
            for wrong in 0, 2**62 + 1, 2**63, -2**63 - 1, "x", True, None, 2**90:
                raises((ValueError, TypeError), network.distances, [(labels[0], wrong)])


@pytest.mark.parametrize("count, called", [(60, [3_600]), (3, [9]), (0, [in_process.ROUTES, 4_000 - in_process.ROUTES])])
def test_sums_of_a_table_take_one_call(monkeypatch, count, called):
    """Pairs that share their nodes, as those of a table, have their sums by one call, and other pairs by several. All have the same sums."""
    counts, sums, node = [], library.Handle.route_sums, numpy.arange(1, 2_001)
    monkeypatch.setattr(library.Handle, "route_sums", lambda handle, *columns: counts.append(len(columns[0])) or sums(handle, *columns))
    pairs = numpy.stack(numpy.meshgrid(node[:count], node[2_000 - count:], indexing="ij"), axis=-1).reshape(-1, 2)
    pairs = pairs if count else numpy.column_stack([node, node[::-1]]).repeat(2, axis=0)
    with chtab.Network.from_arrays(node[:-1], node[1:], node[:-1], program=PROGRAM, library=make()) as network:
        steps = (pairs[:, 1] - pairs[:, 0]).astype(float)
        found = network.along(numpy.ones(1_999, int), pairs)
        assert numpy.array_equal(found, numpy.where(steps < 0, numpy.nan, steps), equal_nan=True) and counts == called
