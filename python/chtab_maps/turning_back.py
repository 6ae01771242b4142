"""Turning back: in the middle of a road, where one way becomes another and nothing else leads on, a
driver goes on. Where it is asked for, so does a driver at each crossing, and turns back at dead
ends alone.

Turning back makes a trip shorter only where it leads round a forbidden turn. In the middle of roads
it is therefore forbidden along those that lead away from such a turn, up to the next crossing of
three or more roads, or to a dead end.
"""
from __future__ import annotations

import collections
import itertools
import math
from collections.abc import Mapping, Sequence
from typing import TYPE_CHECKING

if TYPE_CHECKING:
    from chtab_maps.arcs import Network


def without_turning_back(
    network: Network, forbidden: Mapping[int, set[int]],
) -> dict[int, set[int]]:
    """The arcs that may not follow an arc, {arc in: {arcs out}}, with those that lead back from a
    node where just two roads meet."""
    found = {arc: set(others) for arc, others in forbidden.items()}
    if not found:
        return found
    outs, branches = outs_of(network), branches_of(network)
    todo = [out for arc in found for out in outs[network.heads[arc]] if out not in found[arc]]
    seen = set(todo)
    while todo:
        arc = todo.pop()
        node = network.heads[arc]
        if branches[node] != 2:
            continue
        ahead = forbid_back(network, arc, outs[node], found)
        for out in ahead:
            if out not in seen:
                seen.add(out)
                todo.append(out)
    return found


def only_at_dead_ends(
    network: Network, forbidden: Mapping[int, set[int]], most: float = math.inf,
) -> dict[int, set[int]]:
    """The same with those that lead back from any node where something else leads on, or from any
    where at most so many roads meet."""
    found, outs = {arc: set(others) for arc, others in forbidden.items()}, outs_of(network)
    branches = branches_of(network)
    for arc, node in enumerate(network.heads):
        if branches[node] <= most:
            forbid_back(network, arc, outs[node], found)
    return found


def forbid_back(
    network: Network, arc: int, outs: Sequence[int], found: dict[int, set[int]],
) -> list[int]:
    """Forbids to turn back behind an arc, if any of the arcs `outs` leads on; these."""
    piece = network.pieces[arc]
    ahead = [out for out in outs if network.pieces[out] != piece and out not in found.get(arc, ())]
    back = [out for out in outs if network.pieces[out] == piece and out != arc]
    if ahead and back:
        found.setdefault(arc, set()).update(back)
    return ahead


def outs_of(network: Network) -> dict[int, list[int]]:
    """The arcs that leave each node."""
    found: dict[int, list[int]] = collections.defaultdict(list)
    for arc, tail in enumerate(network.tails):
        found[tail].append(arc)
    return found


def branches_of(network: Network) -> collections.Counter[int]:
    """How many ends of roads meet at each node."""
    ends: dict[int, tuple[int, int]] = {}
    for piece, tail, head in zip(network.pieces, network.tails, network.heads):
        ends.setdefault(piece, (tail, head))
    return collections.Counter(itertools.chain.from_iterable(ends.values()))
