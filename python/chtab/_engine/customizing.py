"""The order of a network in which new weights on its arcs take little time."""
from __future__ import annotations

import os
import pathlib
import threading
from typing import TYPE_CHECKING

import numpy

from chtab._engine import forks, library, making
from chtab._engine.interruptible import LONG, interruptible
from chtab._files.forms import whole

if TYPE_CHECKING:
    import ctypes
    from chtab.typing import Integers


class Customizing:
    """A topology of the arcs from `tails` to `heads`, nodes from 1 on, opened once by each process.
    `order`: its lines, or the path of their file; None: a nested dissection order."""

    def __init__(
        self, calls: ctypes.CDLL, nodes: int, tails: Integers, heads: Integers,
        order: bytes | str | None,
    ) -> None:
        self.calls, self.nodes, self.tails, self.heads = calls, nodes, tails, heads
        self.order = order
        self.leave_parent()
        forks.FOLLOWED.add(self)

    def leave_parent(self) -> None:
        """Resets to no topology and to a free lock, at first and in each forked process."""
        self.lock = threading.RLock()
        self.topology: library.Topology | None = None

    def opened(self) -> library.Topology:
        """The topology. An order that is refused is a `ProgramFault`, a slow one a `DataFault`."""
        with self.lock:
            if self.topology is None:
                topology = library.Topology(self.calls)
                ends = (library.nodes_of(column, self.nodes) for column in (self.tails, self.heads))
                interruptible(LONG, topology.open_arrays, self.nodes, *ends, self.given())
                self.topology = topology
            return self.topology

    def given(self) -> bytes | None:
        """The lines of the order."""
        order = self.order
        return pathlib.Path(order).read_bytes() if isinstance(order, str) else order

    def lines(self) -> bytes:
        """The lines that name the order of the topology, for a file."""
        return lines_of(self.opened().order(self.nodes).astype(numpy.int64) + 1)

    def handle(self, weights: Integers) -> library.Handle:
        """A handle in the network of these arcs with a weight for each."""
        shared, handle = self.opened().share(), library.Handle(self.calls)
        unsigned = numpy.asarray(weights).astype(numpy.uint64, order="C")
        interruptible(LONG, handle.customized, shared, unsigned)
        return handle

    def with_ends(self, tails: Integers, heads: Integers) -> Customizing:
        """The same with other arcs between the nodes, in the same order."""
        if numpy.array_equal(tails, self.tails) and numpy.array_equal(heads, self.heads):
            return self
        return Customizing(self.calls, self.nodes, tails, heads, self.lines())

    def keep(self, folder: str) -> str:
        """Writes the order into its file in a folder, which has its name once it is complete."""
        path = os.path.join(folder, making.ORDER)
        with making.naming(path), whole(path) as part:
            pathlib.Path(part).write_bytes(self.lines())
        return path


def lines_of(nodes: Integers) -> bytes:
    """The lines that name an order of nodes, from 1 on."""
    lines = (b"o %d\n" % node for node in nodes.tolist())
    return b"".join([b"p ch %d 0\n" % len(nodes), *lines])
