"""The library for C in this process, by ctypes: `include/chtab.h` describes its calls.

C trusts its caller. Everything is therefore checked here before a call: each array is one of numpy,
with the right type of numbers, contiguous, aligned for these numbers, and as long as the call
assumes; outputs are writable; and nodes are numbers of 32 bits.
"""
from __future__ import annotations

import ctypes
import functools
import glob
import os
import threading
import weakref
from collections.abc import Callable, Sequence
from typing import TYPE_CHECKING, Any, NoReturn, TypeAlias

import numpy

from chtab._engine import forks
from chtab.errors import ChtabError, DataFault, ProgramFault

if TYPE_CHECKING:
    from numpy.typing import ArrayLike, DTypeLike, NDArray
    from chtab.typing import Integers

# The version of the library that this package calls, as `CHTAB_VERSION` of the header has it.
VERSION = 1_003_000
NAME = "libchtab.so.1"
# The statuses of calls, as in `chtab_status` of the header.
(
    OK, NO_MEMORY, CLOSED, IS_OPEN, NODE_RANGE, LENGTHS, TOO_LARGE, TOO_SHORT, BAD_GRAPH, BAD_SAVED,
    WRONG_SAVED, NO_PLACES, SUM_TOO_LARGE, OTHER_NODES, FRESH_RANGE, TRIANGLES, NO_VALUES,
) = range(17)
# The limit that excludes no distance, and the distance where there is no walk: -1 if signed.
NO_LIMIT = NO_DISTANCE = 2**64 - 1
# The number of places of a near row that excludes none; the line for a node that no arc leads to.
ALL = NO_LINE = 2**32 - 1
# The faults of files, by the number of `chtab_fault_kind`, in the words of the program.
KINDS = (
    "", "unknown line", "bad problem line", "second problem line", "no problem line", "bad line",
    "node out of range", "weight too large", "size too large", "too many lines", "too few lines",
    "order", "pair", "bound", "base", "middle", "arc", "lower")
GONE = "the network is closed"
DENSE = (
    "the network has more than 40 triangles a node in this order, so that its weights can't be "
    "customized in little time")
# Up to this many pairs are asked for without arrays.
FEW = 16

# Nodes as the library counts them, from 0 on; and unsigned numbers.
Nodes: TypeAlias = "NDArray[numpy.uint32]"
Unsigned: TypeAlias = "NDArray[numpy.uint64]"
# The weights of routes, and the sums along them.
Sums: TypeAlias = "tuple[Integers, Unsigned]"
NODE, NUMBER = numpy.uint32, numpy.uint64


class Block(ctypes.Structure):
    """`struct chtab`: 16 bytes, whose meaning only the library knows."""

    _fields_ = [("is_open", ctypes.c_uint64), ("engine", ctypes.c_void_p)]


class TopologyBlock(ctypes.Structure):
    """`struct chtab_topology`: 16 bytes, whose meaning only the library knows."""

    _fields_ = [("is_open", ctypes.c_uint64), ("topology", ctypes.c_void_p)]


class Fault(ctypes.Structure):
    """`struct chtab_fault`."""

    _fields_ = [("line", ctypes.c_uint64), ("place", ctypes.c_uint64), ("kind", ctypes.c_uint32)]


ARRAY = ctypes.c_void_p, ctypes.c_size_t
HANDLE, TOPOLOGY = ctypes.POINTER(Block), ctypes.POINTER(TopologyBlock)
NUMBER_32, NUMBER_64, TEXT = ctypes.c_uint32, ctypes.c_uint64, (ctypes.c_char_p, ctypes.c_size_t)
COUNT, FAULT = ctypes.POINTER(NUMBER_64), ctypes.POINTER(Fault)
# The arguments of each call. `CDLL` lets other threads run during a call.
CALLS = {
    "chtab_open": (HANDLE, *TEXT, *TEXT, FAULT),
    "chtab_open_arrays": (HANDLE, NUMBER_32, *ARRAY, *ARRAY, *ARRAY, *TEXT, FAULT),
    "chtab_open_quick": (HANDLE, *TEXT, FAULT),
    "chtab_open_like": (HANDLE, *TEXT, HANDLE, NUMBER_32, FAULT),
    "chtab_topology_open_arrays": (TOPOLOGY, NUMBER_32, *ARRAY, *ARRAY, *TEXT, FAULT),
    "chtab_topology_share": (TOPOLOGY, TOPOLOGY),
    "chtab_topology_order": (TOPOLOGY, *ARRAY),
    "chtab_topology_close": (TOPOLOGY,),
    "chtab_customized": (HANDLE, TOPOLOGY, *ARRAY, FAULT),
    "chtab_share": (HANDLE, HANDLE),
    "chtab_close": (HANDLE,),
    "chtab_nodes": (HANDLE, ctypes.POINTER(NUMBER_32)),
    "chtab_save": (HANDLE, COUNT, *ARRAY),
    "chtab_distances": (HANDLE, *ARRAY, *ARRAY, *ARRAY),
    "chtab_table": (HANDLE, *ARRAY, *ARRAY, NUMBER_64, *ARRAY),
    "chtab_routes": (HANDLE, *ARRAY, *ARRAY, COUNT, *ARRAY, *ARRAY, *ARRAY, *ARRAY),
    "chtab_route_sums": (HANDLE, *ARRAY, *ARRAY, *ARRAY, COUNT, *ARRAY, *ARRAY),
    "chtab_keep_values": (HANDLE, *ARRAY),
    "chtab_kept_table_sums": (HANDLE, *ARRAY, *ARRAY, COUNT, *ARRAY, *ARRAY),
    "chtab_flows_table": (HANDLE, *ARRAY, *ARRAY, *ARRAY, COUNT, *ARRAY),
    "chtab_flows": (HANDLE, *ARRAY, *ARRAY, *ARRAY, COUNT, *ARRAY),
    "chtab_near_places": (HANDLE, NUMBER_32, *ARRAY, NUMBER_64, NUMBER_32),
    "chtab_near_sweep": (HANDLE,),
    "chtab_near_rows": (HANDLE, *ARRAY, COUNT, *ARRAY, *ARRAY, *ARRAY),
    "chtab_kept_near_sums": (HANDLE, *ARRAY, COUNT, *ARRAY, *ARRAY, *ARRAY, *ARRAY),
    "chtab_near_sums": (HANDLE, *ARRAY, *ARRAY, *ARRAY, COUNT, *ARRAY),
    "chtab_near_table": (HANDLE, *ARRAY, COUNT, *ARRAY),
}


def beside(program: str) -> str | None:
    """The library beside a program, or where `packaging/library` or `./install` puts it."""
    folder = os.path.dirname(os.path.realpath(program))
    places = [folder] if os.path.basename(folder) != "chtab" else [folder, os.path.dirname(folder)]
    found = [
        path for path in (os.path.join(place, NAME) for place in places) if os.path.isfile(path)]
    # The program is that of a checkout itself, or what it builds.
    own = os.path.join("crates", "chtab", "out")
    checkout = folder.removesuffix(os.sep + own) if folder.endswith(own) else folder
    made = os.path.join(checkout, "out", "library", "lib", NAME)
    return (found + [made] * is_up_to_date(made, checkout) + [None])[0]


def is_up_to_date(made: str, checkout: str) -> bool:
    """Whether the library of a checkout exists, and no source of its crates is newer."""
    if not os.path.isfile(made):
        return False
    files = glob.iglob(
        os.path.join(glob.escape(checkout), "crates", "*", "src", "**", "*.rt"), recursive=True)
    # Crates of tests are in no library.
    sources = (path for path in files if f"_checks{os.sep}" not in path.removeprefix(checkout))
    return max(map(os.path.getmtime, sources), default=0) <= os.path.getmtime(made)


@functools.cache
def loaded(path: str) -> ctypes.CDLL:
    """The calls of the library at a path; a `ChtabError` if it is none of this version."""
    try:
        with forks.STEADY:
            calls = ctypes.CDLL(path)
        for name, words in CALLS.items():
            call = getattr(calls, name)
            call.argtypes, call.restype = words, ctypes.c_uint32
        calls.chtab_version.argtypes, calls.chtab_version.restype = (), ctypes.c_uint32
        version = calls.chtab_version()
    except (OSError, AttributeError) as fault:
        raise ChtabError(f"{path} is not chtab's library for C: {fault}") from None
    if version != VERSION:
        raise ChtabError(
            f"{path} is of another version than this package: {version}, not {VERSION}")
    return calls


def address(array: NDArray[Any], kind: DTypeLike, is_written: bool = False) -> int:
    """The address of the numbers of an array. An array that C would misread is refused."""
    is_column = type(array) is numpy.ndarray and array.dtype == kind and array.ndim == 1
    if not is_column or not (array.flags.c_contiguous and array.flags.aligned):
        what = type(array).__name__
        if isinstance(array, numpy.ndarray):
            what = f"{array.dtype} of shape {array.shape}"
        text = f"the library takes a column of {numpy.dtype(kind)} in one piece, not {what}"
        raise TypeError(text)
    if is_written and not array.flags.writeable:
        raise TypeError("the library writes to an array that may be written to")
    found = array.ctypes.data
    if not found:
        raise ValueError("an array has no place in memory")
    return found


def is_constant(array: Any) -> bool:
    """Whether nobody can write to an array. An owner of numbers can become writable again."""
    if isinstance(array, numpy.ndarray):
        return not array.flags.writeable and is_constant(array.base)
    return array is not None and memoryview(array).readonly


def column(array: NDArray[Any], kind: DTypeLike) -> tuple[int, int]:
    """The address and the length of an array that a call reads."""
    return address(array, kind), len(array)


def written(array: NDArray[Any], kind: DTypeLike) -> tuple[int, int]:
    """The same of an array that a call writes to."""
    return address(array, kind, True), len(array)


def nodes_of(numbers: ArrayLike, count: int) -> Nodes:
    """The nodes of numbers from 1 to `count` as the library has them, uint32 from 0 on."""
    numbers = numpy.asarray(numbers)
    if numbers.dtype != numpy.int64:
        if numbers.size and numbers.dtype.kind not in "iu":
            raise TypeError(f"nodes are whole numbers, not {numbers.dtype}")
        numbers = numbers.astype(numpy.int64)
    lowered = numbers - 1
    # As unsigned numbers, those below 0 are the largest.
    if lowered.size and lowered.view(numpy.uint64).max() >= count:
        raise ValueError(f"a node is not from 1 to {count:,}")
    return lowered.astype(numpy.uint32, order="C")


def columns_of(
    count: int, tails: ArrayLike, heads: ArrayLike, weights: ArrayLike,
) -> tuple[Nodes, Nodes, Unsigned]:
    """The columns of arcs as the library takes them: nodes from 0 on, and weights of uint64."""
    unsigned = numpy.asarray(weights).astype(numpy.uint64, order="C")
    return nodes_of(tails, count), nodes_of(heads, count), unsigned


def close(call: Callable[[Any], int], block: Block | TopologyBlock, owner: int) -> None:
    """Closes an open handle or topology, unless this process was forked from its owner."""
    if os.getpid() == owner:
        call(ctypes.byref(block))


class Opened:
    """What the library keeps in this process until it is closed, with one call at a time."""

    def __init__(
        self, calls: ctypes.CDLL, block: Block | TopologyBlock, closing: Callable[[Any], int],
    ) -> None:
        self.calls, self.block, self.lock, self.closing = calls, block, threading.RLock(), closing
        self.at = ctypes.byref(block)
        # From here on it is closed, whatever breaks this off, but not at the end of the
        # interpreter, when threads may still be in a call.
        weakref.finalize(self, close, closing, block, os.getpid()).atexit = False

    def __reduce__(self) -> NoReturn:
        raise TypeError(f"a {type(self).__name__.lower()} is neither copied nor pickled")

    def close(self) -> None:
        """Closes it, once the call that is under way has ended. Further calls are refused."""
        with self.lock:
            self.closing(self.at)

    def ask(self, call: Callable[..., int], *given: Any) -> int:
        """Makes a call with numbers and columns, each an address and a length; its status."""
        words = [word for each in given for word in (each if type(each) is tuple else (each,))]
        with self.lock:
            return call(self.at, *words)


class Handle(Opened):
    """A network in this process, with scratch space for one question."""

    def __init__(self, calls: ctypes.CDLL) -> None:
        super().__init__(calls, Block(), calls.chtab_close)
        # Scratch space for few distances, for one question at a time.
        self.sources, self.targets = (ctypes.c_uint32 * FEW)(), (ctypes.c_uint32 * FEW)()
        self.weights = (ctypes.c_int64 * FEW)()
        rooms: tuple[Any, ...] = (self.sources, self.targets, self.weights)
        self.rooms = [ctypes.addressof(room) for room in rooms]
        self.is_asked = False
        # The targets, with their limit, that `rows_to` keeps as places.
        self.targets_kept: tuple[bytes, int] | None = None
        # The values that the library keeps, if these can't change.
        self.values_kept: Unsigned | None = None

    def open(self, graph: bytes, saved: bytes | None = None) -> None:
        """Opens the network of a graph and a saved hierarchy, or of one that the library builds."""
        given, fault = (text_of(graph), saved_text(saved)), Fault()
        if saved is None:
            status = self.ask(self.calls.chtab_open_quick, given[0], ctypes.byref(fault))
        else:
            status = self.ask(self.calls.chtab_open, *given, ctypes.byref(fault))
        see_that_opened(status, fault, saved)

    def open_arrays(
        self, nodes: int, tails: Nodes, heads: Nodes, weights: Unsigned, saved: bytes | None = None,
    ) -> None:
        """Does the same for arcs from `tails` to `heads`, nodes from 0 on, that weigh `weights`."""
        given, fault = saved_text(saved), Fault()
        columns = *ends_of(nodes, tails, heads, len(weights)), column(weights, NUMBER)
        status = self.ask(self.calls.chtab_open_arrays, nodes, *columns, given, ctypes.byref(fault))
        see_that_opened(status, fault, saved)

    def open_like(self, graph: bytes, other: Handle, fresh: int) -> None:
        """Opens the network of a graph in the order of another handle's, `fresh` per cent anew."""
        given, fault = text_of(graph), Fault()
        if other is self or not 0 <= fresh < 2**32:
            raise ValueError(
                "a network is opened in the order of another handle, with a per cent from 0 to 100 "
                "afresh")
        # In one order, so that two calls never wait for each other.
        first, second = sorted((self.lock, other.lock), key=id)
        with first, second:
            status = self.ask(
                self.calls.chtab_open_like, given, other.at, fresh, ctypes.byref(fault))
        if status:
            raise fault_of(status, fault)

    def customized(self, topology: Topology, weights: Unsigned) -> None:
        """Opens the network of the arcs of a topology, where arc k weighs `weights[k]`."""
        fault, given = Fault(), column(weights, NUMBER)
        with topology.lock:
            status = self.ask(self.calls.chtab_customized, topology.at, given, ctypes.byref(fault))
        if status:
            raise fault_of(status, fault)

    def share(self) -> Handle:
        """Makes another handle on the same network, for another thread."""
        other = Handle(self.calls)
        with self.lock:
            see_that_done(self.ask(self.calls.chtab_share, other.at))
            other.values_kept = self.values_kept
        return other

    def nodes(self) -> int:
        """How many nodes the network has."""
        count = ctypes.c_uint32()
        see_that_done(self.ask(self.calls.chtab_nodes, ctypes.byref(count)))
        return count.value

    def save(self, room: int = 0) -> bytes:
        """The text of the hierarchy; it is made twice if it has more than `room` bytes."""
        size = ctypes.c_uint64(room)
        with self.lock:
            for _ in range(2):
                text = numpy.empty(size.value, numpy.uint8)
                out = written(text, numpy.uint8)
                status = self.ask(self.calls.chtab_save, ctypes.byref(size), out)
                if status != TOO_SHORT:
                    break
        see_that_done(status)
        return text[:size.value].tobytes()

    def distances(self, sources: Nodes, targets: Nodes) -> Integers:
        """The distances from sources to the targets beside them; -1 for no walk."""
        out = numpy.empty(len(sources), numpy.int64)
        places = column(sources, NODE), column(targets, NODE)
        see_that_done(self.ask(self.calls.chtab_distances, *places, written(out, numpy.int64)))
        return out

    def few_distances(self, sources: Sequence[int], targets: Sequence[int]) -> list[int] | None:
        """The same for at most `FEW` pairs in lists; None within such a question."""
        count = len(sources)
        with self.lock:
            if self.is_asked:
                return None
            try:
                self.is_asked = True
                self.sources[:count], self.targets[:count] = list(sources), list(targets)
                out, into, weights = self.rooms
                status = self.calls.chtab_distances(
                    self.at, out, count, into, count, weights, count)
                found = self.weights[:count]
            finally:
                self.is_asked = False
        if status:
            see_that_done(status)
        return found

    def table(self, sources: Nodes, targets: Nodes, limit: int = NO_LIMIT) -> Integers:
        """The distances from each source to each target (k, l), -1 for no walk within the limit."""
        if not 0 <= limit <= NO_LIMIT:
            raise ValueError("a limit is a number of 64 bits")
        out = numpy.empty(len(sources) * len(targets), numpy.int64)
        places = column(sources, NODE), column(targets, NODE)
        see_that_done(self.ask(self.calls.chtab_table, *places, limit, written(out, numpy.int64)))
        return out.reshape(len(sources), len(targets))

    def rows_to(self, sources: Nodes, targets: Nodes, limit: int = NO_LIMIT) -> Integers:
        """The same, over targets that are kept as places for a further call with the same ones."""
        given, (_, width) = column(sources, NODE), column(targets, NODE)
        out, rows = numpy.empty((len(sources), width), numpy.int64), ctypes.c_uint64()
        own = targets.tobytes(), limit
        with self.lock:
            if self.targets_kept != own:
                self.keep_places(targets, limit)
                self.targets_kept = own
            cells = written(out.reshape(-1), numpy.int64)
            see_that_done(self.ask(self.calls.chtab_near_table, given, ctypes.byref(rows), cells))
        return out

    def routes_with_lines(
        self, sources: Nodes, targets: Nodes, room: int,
    ) -> tuple[Integers, Integers, Nodes, Nodes]:
        """The routes of as many of the first pairs as fit into `room` nodes: their weights, -1 for
        no walk, the ends of their nodes, these, and the lines of the graph's file that the arcs to
        them have, from 0 on; for a first node `NO_LINE`."""
        count, (weights, ends) = ctypes.c_uint64(), numpy.empty((2, len(sources)), numpy.int64)
        nodes, lines = numpy.empty((2, room), NODE)
        status = self.ask(
            self.calls.chtab_routes, column(sources, NODE), column(targets, NODE),
            ctypes.byref(count), written(weights, numpy.int64), written(ends, numpy.int64),
            written(nodes, NODE), written(lines, NODE))
        see_that_done(OK if status == TOO_SHORT else status)
        ends = ends[:count.value]
        end = ends[-1] if len(ends) else 0
        return weights[:count.value], ends, nodes[:end], lines[:end]

    def route_sums(self, sources: Nodes, targets: Nodes, values: Unsigned) -> Sums:
        """The weights of the routes of pairs, -1 for no walk, and the sums of their values."""
        given = column(sources, NODE), column(targets, NODE), column(values, NUMBER)
        return self.sums(self.calls.chtab_route_sums, given, len(sources))

    def sums(self, call: Callable[..., int], given: Any, *shape: int) -> Sums:
        """The weights of this shape that a call writes, and the sums."""
        count, (weights, sums) = ctypes.c_uint64(), numpy.empty((2, *shape), numpy.int64)
        out = (written(each.reshape(-1), numpy.int64) for each in (weights, sums))
        see_that_done(self.ask(call, *given, ctypes.byref(count), *out))
        return weights, sums.view(NUMBER)

    def keep_values(self, values: Unsigned) -> None:
        """Keeps a value for each line of the graph. Those of an array that can't change are taken
        once, and those of another are compared with what is kept."""
        own = column(values, NUMBER)
        with self.lock:
            if self.values_kept is not values:
                self.values_kept = None
                see_that_done(self.ask(self.calls.chtab_keep_values, own))
                self.values_kept = values if is_constant(values) else None

    def table_sums(self, sources: Nodes, targets: Nodes, values: Unsigned) -> Sums:
        """The weights of the routes from each source to each target (k, l), -1 for no walk, and the
        sums of their values (k, l), which it keeps."""
        given, shape = (column(sources, NODE), column(targets, NODE)), (len(sources), len(targets))
        with self.lock:
            self.keep_values(values)
            return self.sums(self.calls.chtab_kept_table_sums, given, *shape)

    def flows(
        self, sources: Nodes, targets: Nodes, demands: Unsigned, lines: int, is_table: bool = False,
    ) -> tuple[int, Unsigned]:
        """The number of pairs without a walk, and the flow on each of the `lines` of the graph: the
        demands of the pairs whose routes take its arc, or of the cells of a table, row after row.
        A flow of more than 2^63 is refused."""
        call = self.calls.chtab_flows_table if is_table else self.calls.chtab_flows
        missed, flows = ctypes.c_uint64(), numpy.empty(lines, NUMBER)
        places = column(sources, NODE), column(targets, NODE), column(demands, NUMBER)
        status = self.ask(call, *places, ctypes.byref(missed), written(flows, NUMBER))
        if status == SUM_TOO_LARGE:
            raise ValueError("a flow is more than 2^63")
        see_that_done(status)
        return missed.value, flows

    def keep_places(
        self, places: Nodes, limit: int = NO_LIMIT, count: int = ALL, is_from: bool = False,
    ) -> None:
        """Searches from places, and keeps the result for rows of `near_rows` and `near_sums`."""
        if not (0 <= limit <= NO_LIMIT and 0 <= count <= ALL):
            raise ValueError("a limit is a number of 64 bits, and a count one of 32")
        call, own = self.calls.chtab_near_places, column(places, NODE)
        with self.lock:
            self.targets_kept = None
            see_that_done(self.ask(call, int(is_from), own, limit, count))

    def sweep(self) -> None:
        """Makes the rows of all nodes to the kept places, and keeps these rows too."""
        see_that_done(self.ask(self.calls.chtab_near_sweep))

    def near_rows(
        self, sources: Nodes, pairs: int, values: Unsigned | None = None,
    ) -> tuple[Integers, Integers, Integers, Unsigned | None]:
        """The rows of the first sources that fit into so many pairs: ends, weights, places, and the
        sums of values along the routes of the pairs, if there are values, which it keeps."""
        rows, ends = ctypes.c_uint64(), numpy.empty(len(sources), numpy.int64)
        kinds = (numpy.int64, NODE) if values is None else (numpy.int64, NODE, NUMBER)
        columns = [numpy.empty(pairs, kind) for kind in kinds]
        out = (written(each, each.dtype) for each in (ends, *columns))
        call = self.calls.chtab_near_rows if values is None else self.calls.chtab_kept_near_sums
        with self.lock:
            if values is not None:
                self.keep_values(values)
            status = self.ask(call, column(sources, NODE), ctypes.byref(rows), *out)
        see_that_done(OK if status == TOO_SHORT else status)
        ends = ends[:rows.value]
        end = ends[-1] if len(ends) else 0
        weights, places, *sums = (each[:end] for each in columns)
        return ends, weights, places.astype(numpy.int64), sums[0] if sums else None

    def near_sums(self, sources: Nodes, values: Unsigned, limits: Unsigned) -> Unsigned:
        """For each source and limit the sum of the values in its row (n, m), below 2^64."""
        count, sums = ctypes.c_uint64(), numpy.empty(len(sources) * len(limits), NUMBER)
        given = column(sources, NODE), column(values, NUMBER), column(limits, NUMBER)
        call = self.calls.chtab_near_sums
        see_that_done(self.ask(call, *given, ctypes.byref(count), written(sums, NUMBER)))
        return sums.reshape(len(sources), len(limits))


class Topology(Opened):
    """The arcs of a graph without weights, in an order of the nodes in which new ones are quick."""

    def __init__(self, calls: ctypes.CDLL) -> None:
        super().__init__(calls, TopologyBlock(), calls.chtab_topology_close)

    def open_arrays(
        self, nodes: int, tails: Nodes, heads: Nodes, order: bytes | None = None,
    ) -> None:
        """Opens the topology of the arcs from `tails` to `heads`, nodes from 0 on, in the order of
        a hierarchy's lines, or in one that the library finds; a slow one is a `DataFault`."""
        given, fault, ends = saved_text(order), Fault(), ends_of(nodes, tails, heads, len(tails))
        call = self.calls.chtab_topology_open_arrays
        status = self.ask(call, nodes, *ends, given, ctypes.byref(fault))
        if status == TRIANGLES:
            raise DataFault(DENSE, "order")
        see_that_opened(status, fault, order)

    def order(self, nodes: int) -> Nodes:
        """The nodes in order, from 0 on: uint32."""
        order = numpy.empty(nodes, NODE)
        see_that_done(self.ask(self.calls.chtab_topology_order, written(order, NODE)))
        return order

    def share(self) -> Topology:
        """Makes another topology of the same arcs, for another thread or another network."""
        other = Topology(self.calls)
        see_that_done(self.ask(self.calls.chtab_topology_share, other.at))
        return other


def see_that_done(status: int) -> None:
    """Raises the error of a call that did nothing."""
    if status == CLOSED:
        raise ChtabError(GONE)
    if status == NO_MEMORY:
        raise ProgramFault("chtab: out of memory", 3)
    if status in REFUSED:
        raise ValueError(REFUSED[status])
    if status:
        raise ProgramFault(f"chtab's library answered {status}", 0)


# What calls refuse, by their statuses.
REFUSED = {
    NODE_RANGE: "a node is not one of the network", LENGTHS: "the lengths of columns don't fit",
    TOO_LARGE:
        "a table has at most 65,536 sources and as many targets, and so many places are kept",
    NO_PLACES: "no places are kept", NO_VALUES: "no values are kept",
    SUM_TOO_LARGE: "a sum is 2^64 or more",
    OTHER_NODES: "the graph has another number of nodes",
    FRESH_RANGE: "more than 100 per cent of the nodes would be ordered afresh"}


def text_of(file: bytes) -> tuple[bytes, int]:
    """The bytes of a file and their number."""
    if type(file) is not bytes:
        raise TypeError("files are bytes")
    return file, len(file)


def saved_text(saved: bytes | None) -> tuple[bytes, int]:
    """The same of a saved hierarchy, none where the library builds one."""
    given = (b"", 0) if saved is None else text_of(saved)
    # An empty file has to be a fault, and without any bytes a hierarchy would be built.
    return given if saved or saved is None else (b"\n", 1)


def ends_of(nodes: int, tails: Nodes, heads: Nodes, arcs: int) -> tuple[Any, Any]:
    """The columns of both ends of so many arcs. Those that make no graph are refused."""
    if type(nodes) is not int or not 0 <= nodes < 2**32 or not len(tails) == len(heads) == arcs:
        raise ValueError("a graph has a number of nodes, and columns of one length")
    return column(tails, NODE), column(heads, NODE)


def see_that_opened(status: int, fault: Fault, saved: bytes | None) -> None:
    """Raises the fault of a graph and a saved hierarchy that the library refuses."""
    if status == BAD_SAVED and not saved:
        fault.line = 1
    if status:
        raise fault_of(status, fault)


def fault_of(status: int, fault: Fault) -> ProgramFault:
    """The fault of files that the library refuses, in the words of the program."""
    kind = KINDS[fault.kind] if fault.kind < len(KINDS) else str(fault.kind)
    if status not in (BAD_GRAPH, BAD_SAVED, WRONG_SAVED):
        see_that_done(status)
    if status == WRONG_SAVED:
        return ProgramFault(
            f"chtab: saved hierarchy refused: {kind}", 1, kind=kind, place=fault.place)
    if status == BAD_GRAPH and not fault.line:
        text = f"chtab: graph arc {fault.place}: {kind}"
        return ProgramFault(text, 1, kind=kind, place=fault.place)
    which = "graph" if status == BAD_GRAPH else "saved"
    return ProgramFault(f"chtab: {which} line {fault.line}: {kind}", 1, line=fault.line, kind=kind)
