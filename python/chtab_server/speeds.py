"""Speeds of roads from a file in OSRM's form, which are put in place of those of the map while a
service answers.

The file has a line `from_osm_id,to_osm_id,speed` for each piece of road from one node of the map to
the next, in kilometres an hour; what follows on a line is ignored. The last line of a piece counts.
Lines of other pieces, as those between nodes that are no nodes of the network, have no effect.
"""
from __future__ import annotations

import io
import logging
import os
import time
from collections.abc import Iterable, Sequence
from typing import TYPE_CHECKING, NamedTuple

import numpy

from chtab._engine.customizing import Customizing
from chtab._engine.stamps import stamp_of
from chtab.errors import ChtabError, FileFault
from chtab._files.arc_columns import MOST_WEIGHT
from chtab._roads.snapping import NONE
from chtab_server.weighing import weighed

if TYPE_CHECKING:
    from chtab._engine.stamps import Stamp
    from chtab.network import Network
    from chtab._roads.snapping import Roads
    from chtab_server.networks import Served
    from chtab.typing import Floats, Integers

LOG = logging.getLogger("chtab-page")
# The map's numbers of nodes are read as floats, and are less than this in any case.
MOST_NUMBER = 2.0**53
# Milliseconds for a metre at one kilometre an hour.
MILLISECONDS = 3_600
NANOMETRE = 1e-9


class Speeds(NamedTuple):
    """The speeds of a file: for each line the nodes of the map at both ends of a piece of road, and
    kilometres an hour; and the stamp of the file."""

    starts: Integers
    ends: Integers
    speeds: Floats
    stamp: Stamp


def read_speeds(path: str) -> Speeds:
    """Reads a file of speeds. Raises a `FileFault` if a line is none, or if a speed is not above 0,
    and an `OSError` if the file can't be read."""
    with open(path, "rb") as file:
        number = os.fstat(file.fileno())
        stamp = number.st_dev, number.st_ino, number.st_size, number.st_mtime_ns
        text = file.read()
    try:
        lines = numpy.loadtxt(
            io.BytesIO(text), delimiter=",", usecols=(0, 1, 2), comments=None, ndmin=2,
            encoding="ascii",
        ) if text.strip() else numpy.zeros((0, 3))
    except (ValueError, IndexError) as fault:
        why = str(fault).partition("\n")[0]
        raise FileFault(f"{path}: no line `from,to,speed` of the map's nodes: {why}") from None
    nodes, speeds = lines[:, :2], lines[:, 2]
    with numpy.errstate(invalid="ignore"):
        is_node = ((nodes == numpy.rint(nodes)) & (abs(nodes) < MOST_NUMBER)).all(axis=1)
        is_right = is_node & numpy.isfinite(speeds) & (speeds > 0)
    if not is_right.all():
        one, other, speed = lines[place := int(numpy.argmin(is_right))].tolist()
        why = (
            f"the speed {speed:g} is no number above 0" if is_node[place]
            else "a node is no whole number")
        raise FileFault(f"{path}: {why}, in the line from {one:.16g} to {other:.16g}")
    starts, ends = nodes.T.astype(numpy.int64)
    return Speeds(starts, ends, speeds, stamp)


class Pieces:
    """The arcs of a network by the map's nodes at their ends.

    Parameters
    ----------
    roads : Roads
        The roads of the network, whose weights are milliseconds.
    numbers : array of int, shape (n,)
        What the map calls the nodes of the network.
    """

    def __init__(self, roads: Roads, numbers: Integers) -> None:
        self.known, places = numpy.unique(numbers, return_inverse=True)
        along = numpy.flatnonzero(roads.road_of != NONE)
        keys = self.key_of(places[roads.tails[along] - 1], places[roads.heads[along] - 1])
        order = numpy.argsort(keys, kind="stable")
        self.keys, self.arcs = keys[order], along[order]
        self.metres, self.weights = roads.nanometres * NANOMETRE, roads.weights
        self.most = MOST_WEIGHT // max(1, len(numbers))

    def key_of(self, starts: Integers, ends: Integers) -> Integers:
        return starts * len(self.known) + ends

    def weighed(self, given: Speeds) -> tuple[Integers, int]:
        """The weights of all arcs by these speeds, and by the map where there are none; and how
        many lines are of an arc."""
        starts, ends = (self.place_of(column) for column in (given.starts, given.ends))
        keys = numpy.where((starts < 0) | (ends < 0), -1, self.key_of(starts, ends))
        begins = numpy.searchsorted(self.keys, keys, "left")
        stops = numpy.searchsorted(self.keys, keys, "right")
        counts = stops - begins
        lines = numpy.repeat(numpy.arange(len(keys)), counts)
        first = numpy.repeat(numpy.cumsum(counts) - counts, counts)
        arcs = self.arcs[numpy.arange(len(lines)) - first + begins[lines]]
        metres = self.metres[arcs]
        exact = numpy.rint(metres * MILLISECONDS / given.speeds[lines])
        rounded = numpy.clip(exact, metres > 0, self.most).astype(numpy.int64)
        weights = self.weights.copy()
        # Of several lines of one arc the last one counts.
        weights[arcs] = rounded
        return weights, int((counts > 0).sum())

    def place_of(self, nodes: Integers) -> Integers:
        """The places of the map's nodes among those that are known, -1 for others."""
        if not len(self.known):
            return numpy.full(len(nodes), -1)
        places = numpy.minimum(numpy.searchsorted(self.known, nodes), len(self.known) - 1)
        return numpy.where(self.known[places] == nodes, places, -1)


class Traffic:
    """The file of speeds of a service, and its networks with the weights that follow from it. It is
    made before processes are forked, and each process then reads the file by itself.

    Parameters
    ----------
    path : str
        The file.
    served : iterable of Served
        The networks, which have the weights of the map.

    Raises
    ------
    ChtabError
        A network has no map's numbers of its nodes, or its weights are no milliseconds; or it has
        too many triangles.
    """

    def __init__(self, path: str, served: Iterable[Served]) -> None:
        self.path, self.served = path, list(served)
        for each in self.served:
            see_that_timed(each)
        self.bases = [each.network for each in self.served]
        self.pieces = [Pieces(each.network.roads, numbers_of(each)) for each in self.served]
        self.customizing = [customizing_of(each) for each in self.served]
        # The stamp of the file that was read last, also if it was refused, and when the file was
        # written whose speeds are in use.
        self.stamp: Stamp | None = None
        self.written = 0.0

    def is_replaced(self) -> bool:
        """Whether another file is at the path than the one that was read last. A file that is not
        there just now is about to be replaced."""
        try:
            return stamp_of(self.path) != self.stamp
        except OSError:
            return False

    def networks(self) -> tuple[list[Network], float]:
        """The networks with the speeds of the file as it is now, and the time when it was written.
        Raises a `FileFault` if a line is wrong, and an `OSError` if it can't be read."""
        # If it is refused, it is tried again once it is another file.
        self.stamp = stamp_of(self.path)
        speeds = read_speeds(self.path)
        self.stamp = speeds.stamp
        found = []
        for base, pieces, customizing in zip(self.bases, self.pieces, self.customizing):
            weights, count = pieces.weighed(speeds)
            found.append(weighed(base, weights, customizing))
            lines = f"{count:,} of {len(speeds.speeds):,} lines are of roads"
            LOG.info("%s: %s", self.path, lines)
        return found, speeds.stamp[3] / 1e9

    def put(self, networks: Sequence[Network], written: float) -> None:
        """Puts networks in place of those that answered."""
        for each, network in zip(self.served, networks):
            each.network, each.opened = network, None
        self.written = written

    def age(self) -> float:
        """The seconds since the file was written whose speeds are in use."""
        return max(0.0, time.time() - self.written)


def see_that_timed(served: Served) -> None:
    """Refuses a network whose roads can't be found by the map's numbers, or have no durations."""
    if served.network.unit != "milliseconds":
        raise ChtabError(f"{served.out}.gr: its weights are not milliseconds, as speeds need")
    if served.numbers is None:
        raise ChtabError(f"{served.out}.nodes is missing: it has the map's nodes of each speed")


def numbers_of(served: Served) -> Integers:
    """What the map calls the nodes of a network that has such numbers."""
    assert served.numbers is not None
    return served.numbers


def customizing_of(served: Served) -> Customizing:
    """What customizes the weights of a network. The order is found once, before processes are
    forked."""
    network = served.network
    order = f"{served.out}.order"
    found = Customizing(
        network._engine.calls, network.nodes, network.roads.tails, network.roads.heads,
        order if os.path.exists(order) else None)
    found.order = found.lines()
    return found
