"""Answers by the library for C, in this process: each thread has a handle on the one network."""
from __future__ import annotations

import contextlib
import os
import pathlib
import tempfile
import threading
import weakref
from collections.abc import Callable, Iterator, Sequence
from typing import TYPE_CHECKING, Any

import numpy

from chtab import files
from chtab._engine import deadlines, forks, library, parts, running
from chtab._engine.interruptible import LONG, interruptible
from chtab._engine.stamps import Stamps
from chtab._engine.walks import Paths
from chtab.errors import ChtabError, mismatch

if TYPE_CHECKING:
    from numpy.typing import NDArray
    from chtab._engine.made import Made
    from chtab._engine.opening import Setting
    from chtab._engine.progress import Asked
    from chtab.typing import Integers

# The most that one call of the library answers: distances, routes, and sources and targets of a
# table. Hardly any call then takes more than a second. With a time limit a table has smaller
# blocks.
PAIRS, ROUTES, SIDE, SHORT = 1 << 13, 1 << 11, 1 << 12, 1 << 10
# The most targets of a table that a handle keeps, which are searched from once for all rows.
WIDTH = 1 << 15
# The most pairs whose sums one call gives where the same nodes are in many of them, as in a table.
# The library then searches once for each node, and not for each pair.
SUMS, SHARED = 1 << 17, 3
# How many cells of a table are worth a further thread, which searches from each target once more.
WORTH = 1 << 20
# The most pairs whose flows one call gives. They hide its steps for all legs of the network.
FLOWS = 1 << 17
# How many nodes of routes have room at first.
ROOM = 1 << 16
# In a network of fewer nodes than this so many searches take as long as one in a large network.
SMALL, SEARCHES = 1 << 16, 1 << 4
# No places: keeping these frees the places that a handle has.
NO_PLACES = numpy.zeros(0, numpy.uint32)
# The most seconds that a fork waits for the end of a call, to share the network with its process.
PATIENCE = 10.0


def share_nodes(sources: library.Nodes, targets: library.Nodes) -> bool:
    """Whether pairs have so few sources and targets that trees of these pay."""
    if len(sources) <= ROUTES:
        return False
    nodes = len(numpy.unique(sources)) + len(numpy.unique(targets))
    return SHARED * nodes <= min(len(sources), SUMS)


class OfThread(threading.local):
    """What belongs to a thread: its handle."""

    handle: library.Handle | None = None


class Flows:
    """The sum of flows that threads add up, and how many pairs have no walk."""

    def __init__(self, lines: int) -> None:
        self.flows, self.missed = numpy.zeros(lines, numpy.uint64), 0
        self.lock = threading.Lock()

    def add(self, found: tuple[int, NDArray[numpy.uint64]]) -> None:
        with self.lock:
            self.missed += found[0]
            numpy.add(self.flows, found[1], out=self.flows)


class InProcess:
    """Answers questions about nodes, which count from 1, of threads and forked processes."""

    # The first question of a thread makes a handle for it, on the one network in memory. The first
    # handle opens it, and belongs to the first thread that asks, or after its end to the next new
    # one. A forked process has handles of its own, on the network that its parent has in memory,
    # unless the parent had none, or a call of its first handle did not end in time. Tails, heads
    # and weights of arcs go to the library in place of the graph's file.
    def __init__(self, setting: Setting, made: Made | None = None) -> None:
        for path in setting.files():
            open(path, "rb").close()
        self.setting, self.stamps, self.made = setting, Stamps(*setting.files()), made
        self.calls, self.is_closed, self.room = library.loaded(setting.library), False, ROOM
        self.nodes = made.arcs.labels.count if made else files.counts_in(setting.graph)[0]
        if made is not None:
            made.go_with(self)
        # The handle of which no call is under way while a process is forked.
        self.lent: library.Handle | None = None
        self.leave_parent()
        forks.FOLLOWED.add(self)
        with forks.STEADY:
            forks.PREPARED.add(self)

    def before_fork(self) -> None:
        """Waits for the end of a call of the first handle, and lets none begin."""
        lent = self.first or self.inherited
        if lent is not None and lent.lock.acquire(timeout=PATIENCE):
            self.lent = lent

    def after_fork(self) -> None:
        """Lets calls begin again."""
        lent, self.lent = self.lent, None
        if lent is not None:
            lent.lock.release()

    def leave_parent(self) -> None:
        """Resets to no handles and to free locks, at first and in each forked process."""
        # The handle of the parent that gives this process one of its own.
        self.inherited, self.lent = self.lent, None
        if self.inherited is not None:
            self.inherited.lock = threading.RLock()
        self.lock, self.owner, self.begun = threading.RLock(), os.getpid(), 0
        self.of_thread = OfThread()
        self.handles: weakref.WeakSet[library.Handle] = weakref.WeakSet()
        self.first: library.Handle | None = None
        self.asker: threading.Thread | None = None
        self.spare: list[library.Handle] = []

    # Handles.

    def load(self) -> None:
        """Opens the network, so that a refused file is an error now and not later."""
        self.first_handle()

    def first_handle(self) -> library.Handle:
        """The first handle, which opens the network."""
        self.see_that_open()
        with self.lock:
            if self.is_closed:
                raise ChtabError(library.GONE)
            if self.first is None:
                with deadlines.uncounted():
                    self.begin_with(self.opened())
            assert self.first is not None
            return self.first

    def see_that_open(self) -> None:
        """Refuses a network that is closed. A forked process leaves its parent here, too."""
        if self.is_closed:
            raise ChtabError(library.GONE)
        if self.owner != os.getpid():
            self.leave_parent()

    def opened(self) -> library.Handle:
        """Opens the first handle."""
        if self.inherited is not None:
            return self.inherited.share()
        made, setting = self.made, self.setting
        graph = pathlib.Path(setting.graph).read_bytes() if made is None else b""
        saved = pathlib.Path(setting.saved).read_bytes() if setting.saved else self.built()
        # Checked after reading, so that what was read is what was there at first.
        self.stamps.see_that_same()
        handle = library.Handle(self.calls)
        if made is None:
            interruptible(LONG, handle.open, graph, saved)
        else:
            arcs = made.arcs
            columns = library.columns_of(self.nodes, arcs.tails, arcs.heads, arcs.weights)
            interruptible(LONG, handle.open_arrays, self.nodes, *columns, saved)
        if handle.nodes() != self.nodes:
            raise mismatch()
        return handle

    def built(self) -> bytes | None:
        """The hierarchy that several workers of the program build; None if the library does."""
        setting = self.setting
        if setting.workers == 1 or not setting.graph:
            return None
        with tempfile.TemporaryDirectory(prefix="chtab-") as folder:
            path, words = (
                os.path.join(folder, "built.ch"), ["--quick", "--workers", str(setting.workers)])
            running.save(setting.program, setting.graph, path, words, None)
            return pathlib.Path(path).read_bytes()

    def opened_like(self, graph: bytes, fresh: int) -> library.Handle:
        """A handle in the network of another graph, built in the order of this one's."""
        giver, handle = self.first_handle().share(), library.Handle(self.calls)
        # The giver is closed when the call ends, also where the wait for it is broken off.
        interruptible(LONG, handle.open_like, graph, giver, fresh)
        return handle

    def begin_with(self, handle: library.Handle) -> None:
        """Takes a handle that is open in the network of these files as the first one."""
        with self.lock:
            self.first = handle
            self.handles.add(handle)
            self.begun += 1

    def handle(self) -> library.Handle:
        """The handle of the current thread."""
        self.see_that_open()
        if self.of_thread.handle is None:
            with self.lock:
                first = self.first_handle()
                # A new thread has the first handle if no living one has it, and else a further one.
                is_free = self.asker is None or not self.asker.is_alive()
                if is_free:
                    self.asker = threading.current_thread()
            self.of_thread.handle = first if is_free else self.another(first)
        return self.of_thread.handle

    def another(self, first: library.Handle) -> library.Handle:
        """Makes a further handle, without a lock while it waits for a call of the first one."""
        made = first.share()
        with self.lock:
            if self.is_closed:
                raise ChtabError(library.GONE)
            self.handles.add(made)
        return made

    @contextlib.contextmanager
    def lent_handle(self) -> Iterator[library.Handle]:
        """Lends a handle to a question of another thread or on near rows, and frees its places."""
        self.see_that_open()
        with self.lock:
            first = self.first_handle()
            handle = self.spare.pop() if self.spare else None
        handle = handle or self.another(first)
        # A process that is forked meanwhile has a list of its own, without this handle.
        spare = self.spare
        yield handle
        # A network that was closed meanwhile has answered this question.
        with contextlib.suppress(ChtabError):
            handle.keep_places(NO_PLACES)
            spare.append(handle)

    def close(self) -> None:
        """Closes all handles, each once its call has ended; questions with more calls fail."""
        self.is_closed = True
        if self.owner != os.getpid():
            self.leave_parent()
        with self.lock:
            handles, self.first = list(self.handles), None
        for handle in handles:
            handle.close()

    def __enter__(self) -> InProcess:
        return self

    def __exit__(self, *_: object) -> None:
        self.close()

    # Questions.

    def in_parts(
        self, count: int, most: int, call: Callable[[library.Handle, slice], Any], name: str,
        things: str, progress: Asked = None, searches: int = 1, keeps: bool = False,
    ) -> None:
        """Calls for parts of `count` items, at most `most`, which `name` and `things` report. A
        call that keeps places gets a handle that is lent."""
        # Loading is not counted, and comes before the time is.
        own, caller, timeout = self.handle(), threading.current_thread(), self.setting.timeout
        scale = 1 if self.nodes >= SMALL else SEARCHES
        few = most if timeout is None else min(most, parts.FIRST)
        if progress is None and count <= few and not keeps:
            deadline = deadlines.current(timeout)
            if count:
                interruptible(count * searches // scale, call, own, slice(0, count))
            return deadline.check()

        def work(some: Iterator[slice]) -> None:
            is_own = threading.current_thread() is caller and not keeps
            with contextlib.nullcontext(own) if is_own else self.lent_handle() as handle:
                for part in some:
                    interruptible((part.stop - part.start) * searches // scale, call, handle, part)

        parts.make(count, most, self.setting.workers, work, name, things, progress, timeout)

    def columns(self, pairs: Integers) -> tuple[library.Nodes, library.Nodes]:
        """The sources and targets of pairs of nodes, an array (n, 2), as the library takes them."""
        sources, targets = library.nodes_of(pairs, self.nodes).T.copy()
        return sources, targets

    def few_distances(self, sources: Sequence[int], targets: Sequence[int]) -> list[int] | None:
        """The distances of up to `library.FEW` pairs of nodes in lists; None if it needs arrays."""
        own = self.handle()
        return own.few_distances([node - 1 for node in sources], [node - 1 for node in targets])

    def distances(self, pairs: Integers, progress: Asked = None) -> Integers:
        """The distances of pairs of nodes (n, 2), -1 where there is no walk."""
        sources, targets = self.columns(pairs)
        found = numpy.empty(len(sources), numpy.int64)

        def ask(handle: library.Handle, part: slice) -> None:
            found[part] = handle.distances(sources[part], targets[part])

        self.in_parts(len(sources), PAIRS, ask, "distances", "pairs", progress)
        return found

    def table(
        self, sources: Integers, targets: Integers, within: int | None = None,
        progress: Asked = None,
    ) -> Integers:
        """The distances from each source to each target (k, l), -1 for no walk within the limit."""
        rows, columns = (library.nodes_of(nodes, self.nodes) for nodes in (sources, targets))
        found = numpy.empty((len(rows), len(columns)), numpy.int64)
        limit = library.NO_LIMIT if within is None else within
        # Only then are there several blocks with the same targets.
        keeps = len(rows) > SIDE

        def ask(handle: library.Handle, some: tuple[slice, slice]) -> None:
            call = handle.rows_to if keeps else handle.table
            found[some] = call(rows[some[0]], columns[some[1]], limit)

        self.in_blocks(len(rows), len(columns), ask, "table", progress, keeps)
        return found

    def table_sums(
        self, sources: Integers, targets: Integers, values: library.Unsigned,
    ) -> library.Sums:
        """The weights of the routes from each source to each target (k, l), -1 for no walk, and the
        sums of their values; 2^64 is refused."""
        rows, columns = (library.nodes_of(nodes, self.nodes) for nodes in (sources, targets))
        shape = len(rows), len(columns)
        weights, sums = numpy.empty(shape, numpy.int64), numpy.empty(shape, numpy.uint64)

        def ask(handle: library.Handle, some: tuple[slice, slice]) -> None:
            weights[some], sums[some] = handle.table_sums(rows[some[0]], columns[some[1]], values)

        self.in_blocks(len(rows), len(columns), ask, "table")
        return weights, sums

    def in_blocks(
        self, rows: int, columns: int, call: Callable[[library.Handle, tuple[slice, slice]], None],
        name: str, progress: Asked = None, keeps: bool = False,
    ) -> None:
        """Calls for blocks of a table, slices of rows and of columns, until all are done: for those
        of the same columns one after the other, because a call may keep these as places."""
        side = SIDE if self.setting.timeout is None else SHORT
        most = WIDTH if keeps and self.setting.timeout is None else side
        # Several threads have a part each.
        shares = max(1, min(self.setting.workers, rows * columns // WORTH))
        width = max(1, min(columns, most))
        # A wider block is lower: none has more cells than a square one.
        height = max(1, min(side * side // max(side, width), -(-rows // shares)))
        down = -(-rows // height)

        def ask(handle: library.Handle, part: slice) -> None:
            for block in range(part.start, part.stop):
                row, column = block % down * height, block // down * width
                call(handle, (slice(row, row + height), slice(column, column + width)))

        count, searches = down * -(-columns // width), height + width
        self.in_parts(count, 1, ask, name, "blocks", progress, searches, keeps)

    def paths(self, pairs: Integers, progress: Asked = None) -> Paths:
        """The routes of pairs of nodes, an array (n, 2)."""
        sources, targets = self.columns(pairs)
        made: list[tuple[int, Any]] = []

        def ask(handle: library.Handle, part: slice) -> None:
            start = part.start
            while start < part.stop:
                some = sources[start:part.stop], targets[start:part.stop]
                weights, ends, _, lines = handle.routes_with_lines(*some, self.room)
                if not len(weights):
                    if self.room >= max(self.nodes, ROOM):
                        raise mismatch()
                    self.room = 2 * self.room
                arcs = lines[lines != library.NO_LINE]
                made.append((start, (weights, numpy.diff(ends, prepend=0), arcs)))
                start += len(weights)

        self.in_parts(len(sources), ROUTES, ask, "routes", "pairs", progress)
        nothing: Any = numpy.zeros((3, 0), numpy.int64)
        in_order = [each for _, each in sorted(made, key=lambda each: each[0])]
        columns: Any = zip(nothing, *in_order)
        weights, counts, lines = (numpy.concatenate(column) for column in columns)
        return Paths(weights, numpy.maximum(counts - 1, 0), lines.astype(numpy.int64))

    def sums(self, pairs: Integers, values: library.Unsigned) -> library.Sums:
        """The weights of routes, -1 for no walk, and the sums of their values; 2^64 is refused."""
        sources, targets = self.columns(pairs)
        weights, sums = (
            numpy.empty(len(sources), numpy.int64), numpy.empty(len(sources), numpy.uint64))

        def ask(handle: library.Handle, part: slice) -> None:
            weights[part], sums[part] = handle.route_sums(sources[part], targets[part], values)

        most = SUMS if share_nodes(sources, targets) else ROUTES
        self.in_parts(len(sources), most, ask, "routes", "pairs")
        return weights, sums

    def flows(
        self, pairs: Integers, demands: NDArray[numpy.uint64], lines: int, progress: Asked = None,
    ) -> tuple[int, NDArray[numpy.uint64]]:
        """How many pairs have no walk, and the flow on each of the `lines` of the graph."""
        (sources, targets), total = self.columns(pairs), Flows(lines)

        def ask(handle: library.Handle, part: slice) -> None:
            total.add(handle.flows(sources[part], targets[part], demands[part], lines))

        self.in_parts(len(sources), FLOWS, ask, "flows", "pairs", progress)
        return total.missed, total.flows

    def flows_table(
        self, sources: Integers, targets: Integers, demands: NDArray[numpy.uint64], lines: int,
        progress: Asked = None,
    ) -> tuple[int, NDArray[numpy.uint64]]:
        """The same of each source with each target, by demands (k, l)."""
        rows, columns = (library.nodes_of(nodes, self.nodes) for nodes in (sources, targets))
        total = Flows(lines)

        def ask(handle: library.Handle, some: tuple[slice, slice]) -> None:
            cells = numpy.ascontiguousarray(demands[some]).reshape(-1)
            total.add(handle.flows(rows[some[0]], columns[some[1]], cells, lines, True))

        self.in_blocks(len(rows), len(columns), ask, "flows", progress)
        return total.missed, total.flows
