"""Routes in OSRM's form: `routes` with their legs, steps and annotations."""
from __future__ import annotations

import itertools
import json
from collections.abc import Mapping, Sequence
from typing import TYPE_CHECKING, Any, NamedTuple

import numpy

from chtab._engine.walks import ranges
from chtab._roads.legs import Traces
from chtab_server.osrm import cells, polylines
from chtab_server.osrm.drawing import Drawing, Drawn
from chtab_server.osrm.steps import Lines, Steps, LegSteps

if TYPE_CHECKING:
    from chtab._roads.legs import Legs
    from chtab_server.osrm.options import Route
    from chtab.typing import Floats, Integers

# A point of a simplified line is left out where it lies off the line by less than so much of the
# longer side of the route.
COARSE = 1 / 1_000
MILLISECONDS = 1_000
# The digits behind the point of what annotations have, and from how many numbers on these are
# written all together.
DECIMALS, MANY = {"duration": 3, "weight": 3, "distance": 3, "speed": 1}, 24
# The source of all durations.
METADATA = {"datasource_names": ["graph"]}


class Trace(NamedTuple):
    """The line of one leg, as `Traces` has those of several."""

    places: Floats
    weights: Integers
    metres: Floats
    nodes: Integers


class Voice(NamedTuple):
    """What the texts of a network's routes are made with: the steps of its crossings, the map's
    numbers of nodes or None, and what draws lines in each form."""

    steps: Steps
    numbers: Integers | None
    drawings: Mapping[str, Drawing]


class OfLegs(NamedTuple):
    """What answers report of legs, by their numbers: milliseconds, metres, the steps of those that
    have some, and the traces of those that have lines, with their places among these."""

    weights: list[int]
    metres: list[float]
    steps: Mapping[int, LegSteps]
    traces: Traces
    places: Mapping[int, int]


def routes(
    voice: Voice, legs: Legs, parts: Sequence[list[int]], options: Sequence[Route],
) -> list[str]:
    """The texts of routes, each over some legs, one after the other: `parts` has the legs of each,
    and `options` what its text has."""
    wanted = [leg for part, option in zip(parts, options) if option.has_traces for leg in part]
    traces, places = legs.traces(wanted), {leg: place for place, leg in enumerate(wanted)}
    drafts = Drafts(voice.drawings, legs)
    of_legs = OfLegs(
        legs.weights.tolist(), legs.metres.tolist(), steps_of(voice, drafts, parts, options),
        traces, places)
    lines = geometries(drafts, parts, options, traces, places)
    return [
        route(voice, legs, part, option, of_legs, lines.get(number))
        for number, (part, option) in enumerate(zip(parts, options))]


class Drafts:
    """The lines of some legs, drawn once where steps and a whole line need the same ones."""

    def __init__(self, drawings: Mapping[str, Drawing], legs: Legs) -> None:
        self.drawings, self.legs = drawings, legs
        self.known: dict[tuple[str, tuple[int, ...]], Drawn] = {}

    def of(self, form: str, which: list[int]) -> Drawn:
        """The lines of these legs in this form."""
        key = form, tuple(which)
        if key not in self.known:
            self.known[key] = self.drawings[form].drawn(self.legs, numpy.array(which))
        return self.known[key]


def steps_of(
    voice: Voice, drafts: Drafts, parts: Sequence[list[int]], options: Sequence[Route],
) -> dict[int, LegSteps]:
    """The steps of legs whose routes are asked for with steps, by the numbers of the legs."""
    stepping: dict[str, list[int]] = {}
    found: dict[int, LegSteps] = {}
    for part, option in zip(parts, options):
        if option.has_steps:
            stepping.setdefault(option.geometries, []).extend(part)
    for form, some in stepping.items():
        lines = Lines(voice.drawings[form], drafts.of(form, some))
        found |= zip(some, voice.steps.of(drafts.legs, numpy.array(some), lines))
    return found


def route(
    voice: Voice, legs: Legs, which: list[int], options: Route, of_legs: OfLegs, line: str | None,
) -> str:
    """The text of the route over some legs, one after the other."""
    duration = sum(of_legs.weights[leg] for leg in which) / MILLISECONDS
    metres = round(sum(of_legs.metres[leg] for leg in which), 1)
    texts = ", ".join([
        leg_text(voice, legs, part, options, of_legs)
        for part in between_waypoints(which, options.waypoints)])
    drawn = "" if line is None else f' "geometry": {line},'
    return (
        f'{{"distance": {metres}, "duration": {duration}, "weight": {duration}, "weight_name": '
        f'"duration",{drawn} "legs": [{texts}]}}')


def between_waypoints(which: list[int], waypoints: tuple[int, ...] | None) -> list[list[int]]:
    """The legs of a route that are reported as one: those between two waypoints."""
    if waypoints is None:
        return [[leg] for leg in which]
    return [which[first:last] for first, last in itertools.pairwise(waypoints)]


def leg_text(voice: Voice, legs: Legs, which: list[int], options: Route, of_legs: OfLegs) -> str:
    """The text of some legs, formatted as one. Only a leg by itself has steps."""
    weight, metres = (
        sum(of_legs.weights[leg] for leg in which) / MILLISECONDS,
        sum(of_legs.metres[leg] for leg in which))
    steps, more = of_legs.steps.get(which[0]), ""
    if options.annotations:
        parts = [
            annotation(
                trace_of(of_legs.traces, of_legs.places[leg]), options.annotations, voice.numbers)
            for leg in which]
        more = (
            f' "annotation": {annotation_text(parts[0] if len(parts) == 1 else together(parts))},')
    summary, listed = (steps.summary, steps.steps) if steps else ('""', "[]")
    return (
        f'{{"distance": {round(metres, 1)}, "duration": {weight}, "weight": {weight}, "summary": '
        f'{summary},{more} "steps": {listed}}}')


def together(parts: Sequence[dict[str, Integers]]) -> dict[str, Integers]:
    """The annotations of several legs as those of one. Where one leg ends and the next begins in
    the middle of a road, there is no node."""
    found = {name: [column] for name, column in parts[0].items()}
    for part in parts[1:]:
        for name, column in part.items():
            if name == "nodes":
                last = found[name].pop()
                middle = last[-1:] if last[-1] == column[0] else numpy.zeros(1, numpy.int64)
                found[name] += [last[:-1], middle, column[1:]]
            else:
                found[name].append(column)
    return {name: numpy.concatenate(columns) for name, columns in found.items()}


def annotation(
    trace: Trace, wanted: Sequence[str], numbers: Integers | None,
) -> dict[str, Integers]:
    """What lies between each two places of the full line, in whole numbers with as many of
    `DECIMALS` behind the point, and the nodes there: one more than lie between, with 0 for bends.
    What lies between sums up to the whole leg."""
    found: dict[str, Integers] = {}
    if "nodes" in wanted:
        nodes = trace.nodes if len(trace.nodes) > 1 else numpy.repeat(trace.nodes, 2)
        found["nodes"] = nodes if numbers is None else numpy.where(nodes > 0, numbers[nodes - 1], 0)
    weights, metres = between(trace.weights), between(trace.metres)
    if "duration" in wanted:
        found["duration"] = weights
    if "weight" in wanted:
        found["weight"] = weights
    if "distance" in wanted:
        found["distance"] = numpy.rint(metres * 10**DECIMALS["distance"]).astype(numpy.int64)
    if "speed" in wanted:
        speeds = metres * (MILLISECONDS * 10**DECIMALS["speed"]) / numpy.maximum(weights, 1)
        found["speed"] = numpy.where(weights > 0, numpy.rint(speeds), 0).astype(numpy.int64)
    if "datasources" in wanted:
        found["datasources"] = numpy.zeros(len(weights), numpy.int64)
    return found


def annotation_text(found: Mapping[str, Integers]) -> str:
    """The text of an annotation."""
    texts = [
        f'"{name}": {numbers_text(column, DECIMALS.get(name, 0))}'
        for name, column in found.items()]
    if "datasources" in found:
        texts.append(f'"metadata": {json.dumps(METADATA)}')
    return f"{{{', '.join(texts)}}}"


def numbers_text(column: Integers, digits: int) -> str:
    """The text of a list of whole numbers, of each of which so many digits lie behind the point."""
    if not digits:
        return str(column.tolist())
    if len(column) < MANY:
        return str((column / 10**digits).tolist())
    return cells.rows(column[None], digits, numpy.ones((1, len(column)), bool))[1:-1]


def trace_of(traces: Traces, leg: int) -> Trace:
    """The trace of one leg."""
    own = slice(*traces.firsts[leg:leg + 2])
    return Trace(traces.places[own], traces.weights[own], traces.metres[own], traces.nodes[own])


def chosen(traces: Traces, which: Integers) -> Traces:
    """Some of several traces, by an array of their numbers."""
    counts = numpy.diff(traces.firsts)[which]
    own = ranges(traces.firsts[which], counts)
    return Traces(
        traces.places[own], traces.weights[own], traces.metres[own], traces.nodes[own],
        numpy.append(0, numpy.cumsum(counts)))


def between(column: Any) -> Any:
    """The differences along a line. A line of a single place counts as two."""
    return column[1:] - column[:-1] if len(column) > 1 else column


# How routes lie.


def geometries(
    drafts: Drafts, parts: Sequence[list[int]], options: Sequence[Route], traces: Traces,
    places: Mapping[int, int],
) -> dict[int, str]:
    """The lines of routes whose options ask for one, as texts of JSON, by the numbers of the
    routes."""
    groups: dict[tuple[str, str], list[int]] = {}
    found: dict[int, str] = {}
    for number, option in enumerate(options):
        if option.overview != "false":
            groups.setdefault((option.overview, option.geometries), []).append(number)
    for (overview, form), some in groups.items():
        counts = numpy.array([len(parts[number]) for number in some])
        which = [leg for number in some for leg in parts[number]]
        if overview == "full":
            found |= zip(some, drafts.drawings[form].lines_of(drafts.of(form, which), counts))
        else:
            own = chosen(traces, numpy.array([places[leg] for leg in which]))
            line, cuts = joined(*simplified(own.places, own.firsts, counts), counts)
            found |= zip(some, polylines.texts(line, cuts[:-1], form))
    return found


def joined(places: Floats, firsts: Integers, counts: Integers) -> tuple[Floats, Integers]:
    """The lines of routes, each over so many legs: their places, one line after the other, and
    where each begins and the last one ends. The legs begin at `firsts`. Where a leg starts at the
    end of the one before, that place occurs once. A line has at least two places."""
    copies = numpy.ones(len(places), numpy.int64)
    begins = numpy.cumsum(counts) - counts
    inner = numpy.delete(firsts[:-1], begins)
    copies[inner[(places[inner] == places[inner - 1]).all(axis=1)]] = 0
    cuts = numpy.append(0, numpy.cumsum(copies))[firsts[numpy.append(begins, counts.sum())]]
    is_alone = numpy.diff(cuts) == 1
    copies[firsts[begins[is_alone]]] = 2
    cuts[1:] += numpy.cumsum(is_alone)
    return numpy.repeat(places, copies, axis=0), cuts


def simplified(places: Floats, firsts: Integers, counts: Integers) -> tuple[Floats, Integers]:
    """The lines of legs with fewer places (Douglas and Peucker 1973): the first and last of each,
    and those that show on a picture of the whole route. Legs begin at `firsts`, and each route has
    so many; the same of what is left."""
    from shapely.geometry import LineString

    begins = firsts[numpy.cumsum(counts) - counts]
    lengths = numpy.diff(numpy.append(begins, len(places)))
    narrow = numpy.cos(numpy.radians(numpy.add.reduceat(places[:, 1], begins) / lengths))
    # The third part of a place is its number, which says of those that are kept which they are.
    numbered = numpy.column_stack([
        places[:, 0] * numpy.repeat(narrow, lengths), places[:, 1], numpy.arange(len(places))])
    wide = (
        numpy.maximum.reduceat(numbered[:, :2], begins) - numpy.minimum.reduceat(
            numbered[:, :2], begins)).max(axis=1)
    kept = []
    for first, last, most in zip(
        firsts.tolist(), firsts[1:].tolist(), numpy.repeat(COARSE * wide, counts).tolist()
    ):
        line = numbered[first:last]
        kept.append(
            (numpy.array(LineString(line).simplify(most, False).coords) if len(line) > 2 else line)[
                :, 2])
    which = numpy.concatenate(kept).astype(numpy.int64)
    return places[which], numpy.searchsorted(which, firsts)
