"""A network with other weights of its arcs, in this process alone: it is written to no files."""
from __future__ import annotations

import copy
from typing import TYPE_CHECKING

import numpy

from chtab import files
from chtab._engine.in_process import InProcess
from chtab._files.node_labels import fixed
from chtab._roads.layers import Layers
from chtab._roads.snapping import digest_of
from chtab._roads.trips import Trips

if TYPE_CHECKING:
    from chtab._engine.customizing import Customizing
    from chtab._roads.snapping import Roads
    from chtab.network import Network
    from chtab.typing import Integers


def weighed(network: Network, weights: Integers, customizing: Customizing) -> Network:
    """The same network with other weights of its arcs, in the order of the graph's lines."""
    handle = customizing.handle(weights)
    other = object.__new__(type(network))
    vars(other).update(vars(network))
    other._layers = layers_with(network._layers, weights)
    other._engine = InProcess(network._opened.setting)
    other._engine.begin_with(handle)
    other._trips = Trips(other._engine, other._layers)
    other._customizing = customizing
    return other


def layers_with(layers: Layers, weights: Integers) -> Layers:
    """The layers of a network with other weights; what depends on no weight is shared."""
    roads = roads_with(layers.roads, weights)
    with layers.lock:
        kept = {name: value for name, value in layers.kept.items() if name != "graph"}
    other = Layers(layers.files_of)
    other.paths, other.stamps = layers.paths, layers.stamps
    columns = fixed(roads.tails), fixed(roads.heads), fixed(roads.weights)
    graph = files.Graph(layers.counts[0], *columns, files.read_unit(layers.path))
    other.kept = kept | {"roads": roads, "graph": graph}
    return other


def roads_with(roads: Roads, weights: Integers) -> Roads:
    """The same roads with other weights of their arcs. Spots of these are no spots of those."""
    other = copy.copy(roads)
    other.weights = numpy.array(weights, numpy.int64)
    other.find_ways()
    for column in (other.weights, other.forward, other.backward):
        column.flags.writeable = False
    before = numpy.frombuffer(roads.origin.roads, numpy.uint8)
    other.origin = roads.origin._replace(roads=digest_of(before, other.weights))
    return other
