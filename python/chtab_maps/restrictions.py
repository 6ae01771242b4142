"""Reads relations that restrict turns, and finds the pairs of arcs that may not follow one another.

https://wiki.openstreetmap.org/wiki/Relation:restriction
"""
from __future__ import annotations

import collections
from collections.abc import Iterable, Mapping, Sequence
from typing import TYPE_CHECKING, NamedTuple

from chtab_maps.tags import words_of

if TYPE_CHECKING:
    from chtab_maps.arcs import Network
    from chtab_maps.profiles import Profile
    from chtab_maps.reading import Relation
    from chtab_maps.report import Report

FORBIDDING = {"no_left_turn", "no_right_turn", "no_straight_on", "no_u_turn", "no_entry", "no_exit"}
DEMANDING = {"only_left_turn", "only_right_turn", "only_straight_on", "only_u_turn"}
# Tags of restrictions that hold only at some times, in a form that is no longer used.
TIMES = {"day_on", "day_off", "hour_on", "hour_off"}


class NotRead(Exception):
    """The reason why a restriction is left out."""


class Restriction(NamedTuple):
    """A restriction: turns from some ways over the map's node `via` to some ways are forbidden, or
    all other turns are."""

    is_demand: bool
    is_back: bool
    froms: list[int]
    via: int
    tos: list[int]
    # The map's number of the relation.
    number: int


def words_for(relation: Relation, profile: Profile) -> set[str]:
    """The words of the restriction for this way of travelling."""
    tags = relation.tags
    key = next((key for key in profile.turn_tags if key in tags), None)
    if key is None:
        raise NotRead(
            "at times alone" if any(f"{key}:conditional" in tags for key in profile.turn_tags)
            else f"not for {profile.people}")
    if words_of(tags.get("except", "")) & profile.turn_exceptions:
        raise NotRead(f"not for {profile.people}")
    if tags.keys() & TIMES:
        raise NotRead("at times alone")
    words = words_of(tags[key])
    if not words or not (words <= FORBIDDING or words <= DEMANDING):
        raise NotRead(f"{key}={tags[key]}")
    return words


def restriction_of(relation: Relation, profile: Profile) -> Restriction:
    """The restriction of a relation."""
    words = words_for(relation, profile)
    froms, tos = (
        [ref for kind, ref, part in relation.members if (kind, part) == ("way", role)]
        for role in ("from", "to"))
    vias = [(kind, ref) for kind, ref, role in relation.members if role == "via"]
    if not froms or not tos or not vias:
        raise NotRead("without from, via and to")
    if len(vias) > 1 or vias[0][0] != "node":
        raise NotRead("over ways")
    return Restriction(
        words <= DEMANDING, words <= {"no_u_turn", "only_u_turn"} and froms == tos, froms,
        vias[0][1], tos, relation.number)


def read_all(relations: Iterable[Relation], profile: Profile, report: Report) -> list[Restriction]:
    """The restrictions of relations. Those that are left out are noted."""
    found = []
    for relation in relations:
        try:
            found.append(restriction_of(relation, profile))
        except NotRead as reason:
            report.note("turns", str(reason), "relation", relation.number)
    return found


class Crossing(NamedTuple):
    """The arcs that end at a node and those that start there, in order."""

    ins: list[int]
    outs: list[int]


def arcs_at(network: Network, nodes: Iterable[int]) -> dict[int, Crossing]:
    """The crossing of each of these nodes."""
    crossings = {node: Crossing([], []) for node in nodes}
    for arc, (tail, head) in enumerate(zip(network.tails, network.heads)):
        if tail in crossings:
            crossings[tail].outs.append(arc)
        if head in crossings:
            crossings[head].ins.append(arc)
    return crossings


def arcs_of_ways(
    network: Network, ways: Iterable[int], arcs: Iterable[int], is_back: bool,
) -> list[int]:
    """The arcs of a crossing that are part of these ways. Each way has to have exactly one, except
    for turns back."""
    found = []
    for way in ways:
        of_way = [arc for arc in arcs if network.way_of(arc) == way]
        if not of_way:
            raise NotRead("without roads that meet at the node")
        if len(of_way) > 1 and not is_back:
            raise NotRead("a way that leads through the node")
        found += of_way
    return found


def turns_of(
    restriction: Restriction, crossing: Crossing, network: Network,
) -> list[tuple[int, int]]:
    """The turns of a restriction, as (arc in, arc out)."""
    ins = arcs_of_ways(network, restriction.froms, crossing.ins, restriction.is_back)
    outs = arcs_of_ways(network, restriction.tos, crossing.outs, restriction.is_back)
    turns = [(one, other) for one in ins for other in outs]
    if restriction.is_back:
        turns = [
            (one, other) for one, other in turns
            if one != other and network.pieces[one] == network.pieces[other]]
    if not turns:
        raise NotRead("without roads that meet at the node")
    return turns


def forbidden_turns(
    restrictions: Sequence[Restriction], network: Network, nodes: Mapping[int, int], report: Report,
) -> dict[int, set[int]]:
    """The arcs that may not follow an arc: {arc in: {arcs out}}. `nodes` has the network's nodes by
    the map's numbers.

    If several restrictions demand turns from one arc, all of these are open, and all others are
    forbidden.
    """
    crossings = arcs_at(network, {nodes[each.via] for each in restrictions if each.via in nodes})
    forbidden: dict[int, set[int]] = collections.defaultdict(set)
    demanded: dict[int, set[int]] = collections.defaultdict(set)
    for restriction in restrictions:
        try:
            if restriction.via not in nodes:
                raise NotRead("without roads that meet at the node")
            turns = turns_of(restriction, crossings[nodes[restriction.via]], network)
        except NotRead as reason:
            report.note("turns", str(reason), "relation", restriction.number)
            continue
        for one, other in turns:
            (demanded if restriction.is_demand else forbidden)[one].add(other)
    for one, others in demanded.items():
        forbidden[one] |= set(crossings[network.heads[one]].outs) - others
    return {one: others for one, others in forbidden.items() if others}
