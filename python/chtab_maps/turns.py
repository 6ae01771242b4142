"""Splits nodes so that no walk makes a forbidden turn.

At a node with forbidden turns, each arc in that has a forbidden turn leads to its own copy of the
node, which has only the arcs out that are open to it. All other arcs in lead to the node itself,
which has all arcs out, and where trips start. Trips end at one more copy, the end of the node,
which no arc leaves. The arcs in that lead to copies lead there too, and an arc of weight 0 leads
there from the node itself. The node can't be its own end, because trips that arrive there could
continue by any arc out.
"""
from __future__ import annotations

import collections
from collections.abc import Mapping

from chtab_maps import restrictions
from chtab_maps.arcs import NO_PIECE, Network


class Copies:
    """Adds the copies of nodes that forbidden turns need to the network."""

    def __init__(self, network: Network, forbidden: Mapping[int, set[int]]) -> None:
        nodes = {network.heads[arc] for arc in forbidden}
        crossings = restrictions.arcs_at(network, nodes)
        # The copy to which an arc leads, None if no arc is open from there, and the copies that an
        # arc starts at in addition to its tail.
        self.heads: dict[int, int | None] = {}
        self.tails: dict[int, list[int]] = collections.defaultdict(list)
        for arc in sorted(forbidden):
            node = network.heads[arc]
            outs = [out for out in crossings[node].outs if out not in forbidden[arc]]
            if not outs:
                self.heads[arc] = None
                continue
            copy = self.heads[arc] = network.add_copy(node)
            for out in outs:
                self.tails[out].append(copy)
        self.ends = {node: network.add_copy(node) for node in sorted(nodes)}

    def tails_of(self, arc: int, tail: int) -> list[int]:
        return [tail, *self.tails.get(arc, ())]

    def heads_of(self, arc: int, head: int) -> list[int]:
        if arc not in self.heads:
            return [head]
        copy = self.heads[arc]
        return [self.ends[head]] if copy is None else [copy, self.ends[head]]


def split(network: Network, forbidden: Mapping[int, set[int]]) -> Network:
    """A network in which no walk makes a forbidden turn. Its arcs are those of the given one, some
    of them several times."""
    copies = Copies(network, forbidden)
    made = Network(network.bends is not None, network.streets is not None)
    made.names, made.places, made.ways = network.names, network.places, network.ways
    made.ends = {end: node for node, end in copies.ends.items()}
    made.copies = {
        copy: network.heads[arc] for arc, copy in copies.heads.items() if copy is not None}
    for arc, (tail, head, weight, piece) in enumerate(
        zip(network.tails, network.heads, network.weights, network.pieces)):
        bends = None if network.bends is None else network.bends[arc]
        street = None if network.streets is None else network.streets[arc]
        for start in copies.tails_of(arc, tail):
            for end in copies.heads_of(arc, head):
                made.add_arc(start, end, weight, piece, bends, street)
    for node, end in copies.ends.items():
        made.add_arc(node, end, 0, NO_PIECE, None)
    return made
