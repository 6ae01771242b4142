"""Makes the files of a graph from a map: reading, arcs, turns and components in order, and the
table of what was left out."""
from __future__ import annotations

import contextlib
import functools
import gc
import itertools
import os
from collections.abc import Callable, Iterator, Mapping, Sequence
from typing import TYPE_CHECKING, NamedTuple

from chtab import files
from chtab._engine.progress import Progress
from chtab.errors import FileFault
from chtab_maps import arcs, parts, profiles, reading, restrictions
from chtab_maps import turn_costs, turning_back, turns
from chtab_maps.report import Report
from chtab_maps.ways import Survey

if TYPE_CHECKING:
    from chtab_maps.signs import Streets
    from chtab.typing import Point

SOURCE = (
    "Source: OpenStreetMap, https://www.openstreetmap.org/copyright",
    "Licence: (c) OpenStreetMap contributors, Open Database License (ODbL) 1.0")


class Choices(NamedTuple):
    """The choices for a conversion, by the names of the command's options."""

    profile: str = "car"
    nodes: str = "crossings"
    part: str | int = "largest"
    metric: str = "time"
    turns: bool = False
    ferries: bool = True
    bends: bool = False
    names: bool = False
    driving_side: str = "right"
    exclude: tuple[str, ...] = ()
    turning_back: str = "crossings"
    turn_costs: bool = False


class Numbered(NamedTuple):
    """A network as its files have it: the names and places of nodes, which count from 1, the arcs
    and their bends, the ends of trips, the copies of nodes, the streets of arcs, None unless they
    are wanted, and the number of each arc's way."""

    names: list[int]
    places: list[Point]
    arcs: list[tuple[int, int, int]]
    bends: dict[int, list[Point]]
    ends: list[tuple[int, int]]
    copies: list[tuple[int, int]]
    streets: files.Streets | None
    ways: list[int]


@contextlib.contextmanager
def uncollected() -> Iterator[None]:
    """Pauses the garbage collector: a map has no cycles of objects, and scanning its many objects
    takes a fifth of the time."""
    was_on = gc.isenabled()
    gc.disable()
    try:
        yield
    finally:
        if was_on:
            gc.enable()


@uncollected()
def convert(
    path: str, choices: Choices, is_shown: bool = False, is_logged: bool = False,
) -> tuple[Numbered, Report]:
    """Converts a map (`-` is standard input). Returns the network, and the report of what was left
    out, with its objects if `is_logged`. An empty map is a fault. `is_shown` reports progress on
    standard error."""
    profile, report = profiles.profile(choices.profile), Report(is_logged)
    survey = Survey(profile, report, choices.ferries, choices.names, choices.exclude)
    reading.read_map(path, survey, is_shown)
    survey.note_ways_that_come_twice()
    if not (choices.turns or choices.turn_costs):
        survey.relations.clear()
    restricting = restrictions.read_all(survey.relations, profile, report)
    with Progress("roads", len(survey.roads), "roads", is_shown=is_shown) as progress:
        # A light costs time where an arc ends.
        cuts = (
            None if choices.nodes == "all" else set(survey.lights) if choices.turn_costs else set())
        with_bends = choices.bends or choices.turn_costs
        made, nodes = arcs.network_of(
            survey, survey.closed_nodes(), cuts, choices.metric == "metres", with_bends, progress)
    # The network has what is asked of them from here on.
    survey.roads.clear()
    if not made.tails:
        raise FileFault(f"{name_of(path)}: the map has no road for {profile.people}")
    forbidden = restrictions.forbidden_turns(restricting, made, nodes, report)
    nodes.clear()
    made = turned(made, forbidden, choices)
    return (
        numbered(made, kept_of(made, choices.part, report), survey.streets, choices.driving_side),
        report)


def turned(made: arcs.Network, forbidden: Mapping[int, set[int]], choices: Choices) -> arcs.Network:
    """The network without forbidden turns, {arc in: {arcs out}}, in which turns cost what the
    choices say."""
    if choices.turning_back == "dead-ends":
        forbidden = turning_back.only_at_dead_ends(made, forbidden)
    elif choices.turn_costs:
        forbidden = turning_back.only_at_dead_ends(made, forbidden, most=2)
    if choices.turn_costs:
        made = turn_costs.with_costs(made, forbidden, choices.driving_side)
        made.bends = made.bends if choices.bends else None
    elif forbidden:
        made = turns.split(made, turning_back.without_turning_back(made, forbidden))
    return made


def kept_of(made: arcs.Network, wanted: str | int, report: Report) -> bytearray:
    """Whether each node is kept, by the wanted component: `all`, `large`, `largest` or a rank, from
    1 on. The others are noted."""
    if wanted == "all":
        return bytearray([True]) * len(made.names)
    part, ranked = parts.ranked(made)
    first, last = (
        (0, parts.large(ranked)) if wanted == "large" else (0, 1) if wanted == "largest"
        else (int(wanted) - 1, int(wanted)))
    if last > len(ranked):
        raise FileFault(f"there is no part {last}: the roads have {len(ranked)}")
    others, kept = (
        ranked[:first] + ranked[last:],
        parts.kept_nodes(made, part, {component for component, _ in ranked[first:last]}))
    if others:
        words = (
            f"of {len(made.names) - len(made.ends):,}, in {len(others):,} parts of "
            f"{others[0][1]:,} nodes and fewer")
        report.note("parts", words, count=sum(size for _, size in others))
        for name in dict.fromkeys(name for name, is_kept in zip(made.names, kept) if not is_kept):
            report.note("parts", words, "node", name, 0)
    return kept


def numbered(
    made: arcs.Network, kept: bytearray, streets: Streets | None = None, side: str = "right",
) -> Numbered:
    """Numbers the kept nodes from 1 on, in the order of their names, and those with the same name
    in the order in which they were added."""
    nodes = sorted(itertools.compress(range(len(kept)), kept), key=made.names.__getitem__)
    numbers = [0] * len(kept)
    for number, node in enumerate(nodes, 1):
        numbers[node] = number
    is_kept = [kept[tail] and kept[head] for tail, head in zip(made.tails, made.heads)]
    columns = zip(made.tails, made.heads, made.weights)
    arcs = [
        (numbers[tail], numbers[head], weight)
        for tail, head, weight in itertools.compress(columns, is_kept)]
    bends = {
        arc: points for arc, points in enumerate(itertools.compress(made.bends or (), is_kept))
        if points}
    ends = sorted((numbers[node], numbers[end]) for end, node in made.ends.items() if kept[end])
    copies = sorted(
        (numbers[copy], numbers[node]) for copy, node in made.copies.items()
        if kept[copy] and kept[node])
    called = (
        None if streets is None
        else files.Streets(*streets.chosen(itertools.compress(made.streets or (), is_kept)), side))
    ways = [made.way_of(arc) for arc in itertools.compress(range(len(made.tails)), is_kept)]
    return Numbered(
        [made.names[node] for node in nodes], [made.places[node] for node in nodes], arcs, bends,
        ends, copies, called, ways)


def name_of(path: str) -> str:
    return "standard input" if path == "-" else os.path.basename(path)


def comments_of(path: str, choices: Choices) -> list[str]:
    """The comments of a graph's files: the map, and the choices."""
    more = (
        ", turns as the map restricts them" * (choices.turns or choices.turn_costs)
        + ", at a cost" * choices.turn_costs)
    more += ", no ferries" * (not choices.ferries)
    more += (
        "".join(f", without {name}" for name in choices.exclude)
        + ", turning back at dead ends alone" * (choices.turning_back == "dead-ends"))
    people = profiles.profile(choices.profile).people
    return [
        f"Roads for {people}, from {name_of(path)}: nodes {choices.nodes}, part "
        f"{choices.part}{more}.", *SOURCE]


def write(out: str, made: Numbered, comments: Sequence[str], unit: str) -> list[str]:
    """Writes the files, none of which gets its name before all are complete, and returns their
    names. Bends and streets of an earlier graph with the same name are removed, because they would
    be used for this one."""
    streets = made.streets
    writers: dict[str, Callable[[str], None] | None] = {
        "gr": lambda part: files.write_graph(
            part, len(made.names), made.arcs, [*comments, f"Weights are {unit}."]),
        "co": lambda part: files.write_coordinates(
            part, made.places, comments, made.ends, made.copies),
        "nodes": lambda part: files.write_names(part, made.names),
        "ways": lambda part: files.write_ways(part, made.ways, comments),
        "bends": (lambda part: files.write_bends(part, made.bends, comments)) if made.bends
        else None,
        "names": None if streets is None
        else functools.partial(files.write_streets, found=streets, comments=comments)}
    with contextlib.ExitStack() as stack:
        for suffix, writer in writers.items():
            if writer:
                writer(stack.enter_context(files.whole(f"{out}.{suffix}")))
    for suffix, writer in writers.items():
        if not writer:
            with contextlib.suppress(FileNotFoundError):
                os.unlink(f"{out}.{suffix}")
    return [f"{out}.{suffix}" for suffix, writer in writers.items() if writer]
