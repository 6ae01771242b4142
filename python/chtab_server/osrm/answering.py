"""Answers to requests of OSRM's interface, by one network."""
from __future__ import annotations

import copy
import json
from collections.abc import Iterator, Sequence
from typing import TYPE_CHECKING, Any, NamedTuple

import numpy

from chtab_maps import profiles
from chtab._roads.legs import FAR, legs_between, legs_by, table_ways
from chtab._roads.lines import metres_between
from chtab._roads.snapping import length_text
from chtab_server.osrm import (
    alternatives, cells, curb, lone, matching, nearby, options, small_tables, tables, telling,
    tours, url)
from chtab_server.osrm.crossings import Crossings
from chtab_server.osrm.drawing import Drawing
from chtab_server.osrm.options import Refusal
from chtab_server.osrm.places import Places
from chtab_server.osrm.steps import Steps
from chtab_server.osrm.stops import straight_ways

if TYPE_CHECKING:
    from chtab import files
    from chtab.network import Network
    from chtab._roads.legs import Legs
    from chtab._roads.snapping import Roads, Spots
    from chtab.typing import Floats, Integers, Marks, Point

# OSRM's names of the ways of travelling.
MODES = {"car": "driving", "bicycle": "cycling", "foot": "walking"}
NO_ROUTE = "no way leads over the coordinates in this order"
MILLISECONDS = 1_000
# Tenths of a metre in a metre: answers give one digit after the decimal point.
TENTHS = 10
# Degrees are given in millionths.
MILLIONTHS = 1_000_000
# Characters of a coordinate with seven digits behind the point, and of what else stands in an
# address.
OF_COORDINATE, OF_ADDRESS = 28, 4_096


class Limits(NamedTuple):
    """What one request may ask for: coordinates of each service, cells of a table and those with
    distances, whose routes have to be found, and roads of nearest."""

    route: int = 500
    table: int = 1_000
    trip: int = 100
    match: int = 500
    cells: int = 100_000
    cells_with_distances: int = 10_000
    nearest: int = 100

    @property
    def address(self) -> int:
        """The characters of an address."""
        return max(
            32_768, OF_ADDRESS + OF_COORDINATE * max(self.route, self.table, self.trip, self.match))

    def coordinates(self, service: str) -> int:
        return 1 if service == "nearest" else int(getattr(self, service))


class Question(NamedTuple):
    """A request that was read."""

    service: str
    coordinates: list[Point]
    general: options.General
    own: Any


class Taken(NamedTuple):
    """Where coordinates are taken to: their spots, their waypoints as the insides of objects of
    JSON, and the faults of questions with a coordinate that has no road: {place: fault}."""

    spots: Spots
    waypoints: list[str]
    faults: dict[int, Refusal]


def coordinates_of(questions: Sequence[Question]) -> list[Point]:
    """The coordinates of questions, one question after the other."""
    return [place for question in questions for place in question.coordinates]


def profile_of(comments: Sequence[str]) -> str:
    """The way of travelling that a graph was made for, from its comments; empty if they don't
    say."""
    for name in profiles.NAMES:
        if any(
            comment.startswith(f"Roads for {profiles.profile(name).people},")
            for comment in comments
        ):
            return name
    return ""


class Answers:
    """Answers by a network. Clients may call it by each of the names `profiles`, and where there is
    none by any name. `streets` are what its arcs are called, `files.Streets` or None, `numbers`
    what the map calls its nodes, or None, and `crossings` those of its roads, if they are made
    already."""

    def __init__(
        self, network: Network, profiles: Sequence[str] = (), limits: Limits = Limits(),
        streets: files.Streets | None = None, numbers: Integers | None = None,
        crossings: Crossings | None = None,
    ) -> None:
        coordinates = network.coordinates
        crossings = crossings or Crossings(network.roads, coordinates.copies(), streets)
        self.network, self.limits, self.profiles = network, limits, profiles
        mode = MODES.get(profile_of(coordinates.comments), "driving")
        self.is_straight_by_default = mode == MODES["car"]
        steps = Steps(crossings, mode)
        drawings = {
            form: Drawing(network.roads.lines, network.nodes, form) for form in options.FORMS}
        self.voice = telling.Voice(steps, numbers, drawings)
        self.places = Places(network.roads, self.waypoint)

    def weighed(self, network: Network) -> Answers:
        """The same answers by the same network with other weights."""
        other = copy.copy(self)
        other.network = network
        # What is kept of places has the weights of the roads that they are on.
        other.places = Places(network.roads, other.waypoint)
        return other

    def question(self, words: url.Words) -> Question:
        """The question of a request, which is read before anything is looked up."""
        if self.network.unit != "milliseconds":
            raise Refusal(
                "InvalidService",
                "the weights of this network are not milliseconds, so that it has no durations")
        if self.profiles and words.profile not in self.profiles:
            raise Refusal(
                "InvalidValue", f"the profile of this network is {' or '.join(self.profiles)}")
        coordinates = url.coordinates_of(words.coordinates, self.limits.coordinates(words.service))
        general, own = options.read(words.service, words.query, len(coordinates))
        question = Question(words.service, coordinates, general, own)
        self.see_to_limits(question)
        return question

    def see_to_limits(self, question: Question) -> None:
        limits, own = self.limits, question.own
        if question.service == "nearest" and own > limits.nearest:
            raise Refusal("TooBig", f"number: at most {limits.nearest:,}")
        if question.service == "match" and question.general.has_curbs:
            raise options.unsupported("approaches")
        if question.service == "table":
            most = limits.cells_with_distances if own.has_distances else limits.cells
            if len(own.sources) * len(own.destinations) > most:
                raise Refusal(
                    "TooBig",
                    f"a table{' with distances' * own.has_distances} has at most {most:,} cells")

    # Where coordinates are taken to.

    def spots_of(self, questions: Sequence[Question]) -> Taken:
        """Where the coordinates of questions are taken to, one question after the other."""
        roads = self.network.roads
        spots, waypoints = self.places.found(coordinates_of(questions))
        known, faults, first = spots, {}, 0
        for place, question in enumerate(questions):
            general, fault = question.general, None
            if general.has_bearings:
                spots, fault = facing_spots(roads, spots, question, first)
            if general.has_curbs and fault is None:
                spots, fault = self.at_curbs(spots, question, first)
            if general.has_radiuses:
                metres = spots.metres[first:first + len(question.coordinates)]
                fault = fault or far_fault(metres, general.radiuses)
            if fault:
                faults[place] = fault
            first += len(question.coordinates)
        return Taken(spots, waypoints if spots is known else self.waypoints(spots), faults)

    def at_curbs(
        self, spots: Spots, question: Question, first: int,
    ) -> tuple[Spots, Refusal | None]:
        """The spots, of which those of a question that are to be at the curb are left and reached
        on the side of the road where their coordinate lies; and the fault where a direction that is
        asked for leads along the other side. The spots of the question begin at `first`."""
        which = first + numpy.flatnonzero(question.general.are_at_curb)
        places = numpy.array(question.coordinates)[which - first]
        own = curb.at_curb(
            self.network.roads, spots[which], places, self.voice.steps.known.side == "left")
        if not own.sides.all():
            return (
                spots,
                Refusal(
                    "NoSegment",
                    "no road leads in the direction of a coordinate on its side of the road"))
        every, places = matching.together([spots, own]), numpy.arange(len(spots))
        places[which] = len(spots) + numpy.arange(len(which))
        return every[places], None

    def own_spots(self, question: Question) -> Taken:
        """The same of one question. Raises a refusal if a coordinate is too far from each road."""
        found = self.spots_of([question])
        for fault in found.faults.values():
            raise fault
        return found

    def waypoint(self, longitude: float, latitude: float, metres: float, road: int) -> str:
        """OSRM's waypoint on a road, so far from its coordinate, as the inside of an object of
        JSON, without a hint."""
        x, y = (round(each * MILLIONTHS) / MILLIONTHS for each in (longitude, latitude))
        name = self.voice.steps.names[self.voice.steps.known.street_of[2 * road]]
        off = round(metres * TENTHS) / TENTHS
        return f'"location": [{x}, {y}], "name": {name}, "distance": {off}'

    def waypoints(self, spots: Spots) -> list[str]:
        """OSRM's waypoints of spots."""
        columns = spots.longitudes, spots.latitudes, spots.metres, spots.roads
        return [self.waypoint(*each) for each in zip(*(column.tolist() for column in columns))]

    # Routes.

    def routes(self, questions: Sequence[Question]) -> list[str | Refusal]:
        """The answers to questions for routes, as texts or refusals."""
        are_lone = [
            lone.is_lone(each.general, each.own, len(each.coordinates)) for each in questions]
        if all(are_lone):
            return self.lone_routes(questions)
        if not any(are_lone):
            return self.routes_together(questions)
        parts: tuple[list[Question], list[Question]] = [], []
        for question, is_lone in zip(questions, are_lone):
            parts[is_lone].append(question)
        found = iter(self.routes_together(parts[0])), iter(self.lone_routes(parts[1]))
        return [next(found[is_lone]) for is_lone in are_lone]

    def routes_together(self, questions: Sequence[Question]) -> list[str | Refusal]:
        """The answers to any questions for routes, found together."""
        spots, waypoints, faults = self.spots_of(questions)
        cuts = numpy.cumsum([0, *(len(question.coordinates) for question in questions)]).tolist()
        # A leg leads from each spot to the next one, but from the last of a question.
        firsts = numpy.delete(numpy.arange(len(spots)), numpy.array(cuts[1:]) - 1)
        which = [
            list(range(first - place, last - place - 1))
            for place, (first, last) in enumerate(zip(cuts, cuts[1:]))]
        straight = [
            part for part, question in zip(which, questions) if self.is_straight(question.own)]
        starts, ends = spots[firsts], spots[firsts + 1]
        legs = legs_by(
            self.network._trips, starts, ends,
            *straight_ways(self.network._trips, starts, ends, straight))
        if legs.weights.min(initial=0) < 0:
            for place, some in enumerate(which):
                if place not in faults and (legs.weights[some] < 0).any():
                    faults[place] = Refusal("NoRoute", NO_ROUTE)
        valid = [place for place in range(len(questions)) if place not in faults]
        own = [questions[place].own for place in valid]
        texts = dict(zip(valid, self.route_texts(legs, [which[place] for place in valid], own)))
        for place in valid:
            if questions[place].own.alternatives:
                texts[place] += self.others(legs, which[place][0], questions[place].own)
        return [
            faults.get(place) or answer_of(
                "routes", texts[place], "waypoints",
                objects(chosen(waypoints, cuts[place], question), question.general))
            for place, question in enumerate(questions)]

    def others(self, legs: Legs, leg: int, own: options.Route) -> str:
        """The texts of the alternatives to a route of one leg, each behind a comma."""
        found = alternatives.alternatives(self.network._trips, legs, leg, own.alternatives)
        if found is None:
            return ""
        parts = [[place] for place in range(len(found))]
        return "".join([f", {text}" for text in self.route_texts(found, parts, [own] * len(parts))])

    def lone_routes(self, questions: Sequence[Question]) -> list[str | Refusal]:
        """The answers to questions for routes between two places without a line."""
        stops, waypoints = self.places.stops_of(coordinates_of(questions))
        texts = lone.texts_of(self.network._trips, list(zip(stops[::2], stops[1::2])))
        listed = zip(waypoints[::2], waypoints[1::2])
        return [
            Refusal("NoRoute", NO_ROUTE) if text is None
            else answer_of("routes", text, "waypoints", objects(described, question.general))
            for text, described, question in zip(texts, listed, questions)]

    def is_straight(self, own: options.Route) -> bool:
        """Whether a route goes straight on at its stops: by default those of cars do, as OSRM has
        it."""
        return self.is_straight_by_default if own.is_straight is None else own.is_straight

    def route_texts(
        self, legs: Legs, parts: Sequence[list[int]], own: Sequence[options.Route],
    ) -> list[str]:
        """The texts of routes, each over a part of the legs and with its own options."""
        return telling.routes(self.voice, legs, parts, own)

    # Round trips and tracks.

    def trip(self, question: Question) -> str:
        """The answer to a question for a trip over all coordinates, in a short order."""
        own, general = question.own, question.general
        spots, waypoints, _ = self.own_spots(question)
        best, _ = table_ways(self.network._trips, spots, spots)
        order = tours.tour(
            numpy.where(best < FAR, best, -1), own.is_round, own.is_first_fixed, own.is_last_fixed)
        stops = spots[numpy.append(order, order[:1]) if own.is_round else order]
        legs = legs_between(self.network._trips, stops[:-1], stops[1:])
        if (legs.weights < 0).any():
            raise Refusal("NoTrips", "no way leads over all coordinates")
        [text] = self.route_texts(legs, [list(range(len(legs)))], [own.route])
        ranks = numpy.argsort(order).tolist()
        described = [
            f'{each}, "trips_index": 0, "waypoint_index": {rank}'
            for each, rank in zip(waypoints, ranks)]
        return answer_of("trips", text, "waypoints", objects(described, general))

    def match(self, question: Question) -> str:
        """The answer to a question for the likeliest roads of a track."""
        own, general = question.own, question.general
        track = matching.Track(
            numpy.array(question.coordinates), general.radiuses, own.timestamps, general.bearings)
        parts = matching.matched(self.network._trips, track, own.is_parted, own.is_tidied)
        if not parts:
            raise Refusal("NoMatch", "no roads lead along the coordinates")
        left_out = {*(own.route.waypoints or ())}.difference(*(part.places for part in parts))
        if left_out:
            raise Refusal("NoMatch", f"no roads lead along coordinate {min(left_out)}, a waypoint")
        starts, ends = (
            matching.together([part.spots[some] for part in parts])
            for some in (slice(-1), slice(1, None)))
        legs = legs_between(self.network._trips, starts, ends)
        cuts = numpy.cumsum([0, *(len(part.places) - 1 for part in parts)]).tolist()
        ranges = [list(range(*pair)) for pair in zip(cuts, cuts[1:])]
        wanted = [
            own.route._replace(waypoints=ends_of(part, own.route.waypoints)) for part in parts]
        texts = self.route_texts(legs, ranges, wanted)
        matchings = ", ".join(
            f'{text[:-1]}, "confidence": {part.confidence}}}' for text, part in zip(texts, parts))
        return answer_of(
            "matchings", matchings, "tracepoints",
            objects(self.tracepoints(question, parts), general))

    def tracepoints(self, question: Question, parts: Sequence[matching.Part]) -> list[str | None]:
        """Where each coordinate was taken to, as the inside of an object of JSON; None for one that
        was left out."""
        found: list[str | None] = [None] * len(question.coordinates)
        for number, part in enumerate(parts):
            ends = ends_of(part, question.own.route.waypoints) or range(len(part.places))
            ranks = {index: rank for rank, index in enumerate(ends)}
            for index, (place, each, others) in enumerate(
                zip(part.places, self.waypoints(part.spots), part.others)
            ):
                rank = ranks.get(index, "null")
                found[place] = (
                    f'{each}, "matchings_index": {number}, "waypoint_index": {rank}, '
                    f'"alternatives_count": {others}')
        return found

    # Tables.

    def tables(self, questions: Sequence[Question]) -> list[str | Refusal]:
        """The answers to questions for tables, as texts or faults. Small ones of as many places are
        found together."""
        sizes: dict[tuple[int, bool], list[int]] = {}
        found: dict[int, str | Refusal] = {}
        for place, question in enumerate(questions):
            if self.is_small(question):
                key = len(question.coordinates), question.own.has_distances
                sizes.setdefault(key, []).append(place)
        for (count, has_distances), which in sizes.items():
            if len(which) > 1:
                own = [questions[place] for place in which]
                found |= zip(which, self.small_tables(own, count, has_distances))
        for place, question in enumerate(questions):
            if place not in found:
                try:
                    found[place] = self.table(question)
                except Refusal as fault:
                    found[place] = fault
        return [found[place] for place in range(len(questions))]

    def is_small(self, question: Question) -> bool:
        """Whether a question for a table may be answered together with others."""
        count = len(question.coordinates)
        return small_tables.is_small(question.general, question.own, count, self.network.roads)

    def small_tables(
        self, questions: Sequence[Question], count: int, has_distances: bool,
    ) -> Iterator[str]:
        """The answers to questions for small tables of so many places each."""
        spots, waypoints = self.places.found(coordinates_of(questions))
        rows = small_tables.rows_of(self.network._trips, spots, count, has_distances)
        for place, (question, (durations, distances)) in enumerate(zip(questions, rows)):
            listed = objects(waypoints[place * count:(place + 1) * count], question.general)
            parts = [f'"durations": {durations}'] if question.own.has_durations else []
            if distances is not None:
                parts.append(f'"distances": {distances}')
            if listed is not None:
                parts.append(f'"sources": {listed}, "destinations": {listed}')
            yield f'{{"code": "Ok", {", ".join(parts)}}}'

    def table(self, question: Question) -> str:
        """The durations of a table, the metres of the routes that these are of, or both."""
        own, general = question.own, question.general
        spots, waypoints, _ = self.own_spots(question)
        starts, ends = (
            spots if some == list(range(len(spots))) else spots[some]
            for some in (own.sources, own.destinations))
        best, metres = self.weights_and_metres(starts, ends, own.has_distances)
        is_there, parts = best < FAR, []
        if own.fallback is not None:
            straight = straight_lines(question, starts, ends)
            best = numpy.where(is_there, best, straight / own.fallback * MILLISECONDS)
            missing = numpy.argwhere(~is_there).tolist()
            metres = None if metres is None else numpy.where(is_there, metres, straight)
            is_there = numpy.ones_like(is_there)
            parts.append(f'"fallback_speed_cells": {json.dumps(missing)}')
        if own.has_durations:
            scaled = best if own.scale == 1 else best * own.scale
            parts.append(f'"durations": {cells.rows_of(scaled, 3, is_there)}')
        if metres is not None:
            parts.append(f'"distances": {cells.rows_of(metres * TENTHS, 1, is_there)}')
        if general.has_waypoints:
            for name, some in ("sources", own.sources), ("destinations", own.destinations):
                parts.append(f'"{name}": {objects([waypoints[place] for place in some], general)}')
        return f'{{"code": "Ok", {", ".join(parts)}}}'

    def weights_and_metres(
        self, starts: Spots, ends: Spots, has_metres: bool,
    ) -> tuple[Integers, Floats | None]:
        """The weight of the best way of each cell, `FAR` where there is none, and its metres, if
        they are asked for."""
        if not has_metres:
            return tables.table_weights(self.network._trips, starts, ends), None
        return tables.weights_and_metres(self.network._trips, starts, ends)

    # The nearest roads.

    def nearest(self, question: Question) -> str:
        """The answer to a question for the nearest roads."""
        [(longitude, latitude)] = question.coordinates
        [bearing] = question.general.bearings
        if bearing:
            spots = matching.facing(self.network.roads, longitude, latitude, question.own, bearing)
            if not len(spots):
                raise Refusal("NoSegment", "no road leads in the direction of coordinate 0")
        else:
            spots = nearby.find_some(self.network.roads, longitude, latitude, question.own)
        see_that_near(spots[:1], question.general.radiuses)
        spots = spots[numpy.argsort(spots.metres, kind="stable")]
        spots = spots[spots.metres <= question.general.radiuses[0]]
        return nearest_answer(self.with_nodes(spots, self.waypoints(spots)), question.general)

    def nearest_ones(self, questions: Sequence[Question]) -> list[str | Refusal]:
        """The answers to questions for the one nearest road, as texts or faults, found together."""
        spots, waypoints, faults = self.spots_of(questions)
        described = self.with_nodes(spots, waypoints)
        return [
            faults.get(place) or nearest_answer([described[place]], question.general)
            for place, question in enumerate(questions)]

    def with_nodes(self, spots: Spots, waypoints: Sequence[str]) -> list[str]:
        """The waypoints of spots with the numbers of the nodes at both ends of each road."""
        roads, numbers = self.network.roads, self.voice.numbers
        nodes = numpy.column_stack([roads.firsts[spots.roads], roads.lasts[spots.roads]])
        called = nodes if numbers is None else numbers[nodes - 1]
        return [f'"nodes": {pair}, {each}' for pair, each in zip(called.tolist(), waypoints)]


# Texts of JSON.


def answer_of(name: str, texts: str, more: str, listed: str | None) -> str:
    """The text of an answer: the objects of its main list, and another list, None where it has
    none."""
    behind = "" if listed is None else f', "{more}": {listed}'
    return f'{{"code": "Ok", "{name}": [{texts}]{behind}}}'


def chosen(waypoints: Sequence[str], first: int, question: Question) -> Sequence[str]:
    """The waypoints of a question for a route, whose coordinates begin at `first`."""
    own = waypoints[first:first + len(question.coordinates)]
    return (
        own if question.own.waypoints is None else [own[place] for place in question.own.waypoints])


def ends_of(part: matching.Part, waypoints: tuple[int, ...] | None) -> tuple[int, ...] | None:
    """The indices in a part of a track between which it has legs: its ends, and the waypoints; None
    if all places are."""
    if waypoints is None:
        return None
    last = len(part.places) - 1
    own = enumerate(part.places)
    return tuple(index for index, place in own if index in (0, last) or place in waypoints)


def objects(insides: Sequence[str | None], general: options.General) -> str | None:
    """The text of a list of waypoints, null for None; None where none are asked for."""
    if not general.has_waypoints:
        return None
    end = ', "hint": ""}' if general.has_hints else "}"
    return (
        f'[{", ".join(["null" if inside is None else f"{{{inside}{end}" for inside in insides])}]')


def nearest_answer(insides: Sequence[str], general: options.General) -> str:
    """The text of an answer with waypoints alone."""
    listed = objects(insides, general)
    return '{"code": "Ok"}' if listed is None else f'{{"code": "Ok", "waypoints": {listed}}}'


# Where coordinates were taken to.


def numbers_in(path: str, count: int) -> Integers | None:
    """The map's numbers of nodes 1, 2, .. by a file of names, or None where there is none, or not
    each name is a number."""
    try:
        with open(path, "rb") as file:
            numbers = list(map(int, file))
    except (OSError, ValueError):
        return None
    fits = len(numbers) == count and all(abs(number) < 2**63 for number in numbers)
    return numpy.array(numbers, numpy.int64) if fits else None


def facing_spots(
    roads: Roads, spots: Spots, question: Question, first: int,
) -> tuple[Spots, Refusal | None]:
    """The spots with those of some coordinates of a question in their place, which face the
    direction that is asked for, and the fault where one has none. The spots of the question begin
    at `first`."""
    bearings = enumerate(question.general.bearings)
    found, facing = [], [(index, bearing) for index, bearing in bearings if bearing]
    for index, bearing in facing:
        one = nearby.find_facing(roads, *question.coordinates[index], *bearing)
        if not len(one):
            return (
                spots,
                Refusal("NoSegment", f"no road leads in the direction of coordinate {index}"))
        found.append(one)
    every = matching.together([spots, *found])
    which = numpy.arange(len(spots))
    which[[first + index for index, _ in facing]] = len(spots) + numpy.arange(len(facing))
    return every[which], None


def straight_lines(question: Question, starts: Spots, ends: Spots) -> Floats:
    """The metres along straight lines from each source of a table to each destination."""
    own, places = question.own, numpy.array(question.coordinates)
    one, other = (places[own.sources], places[own.destinations]) if own.is_between_inputs else (
        numpy.column_stack([spots.longitudes, spots.latitudes]) for spots in (starts, ends))
    pairs = numpy.repeat(one, len(other), axis=0), numpy.tile(other, (len(one), 1))
    return metres_between(*pairs[0].T, *pairs[1].T).reshape(len(one), len(other))


def far_fault(metres: Floats, radiuses: Sequence[float]) -> Refusal | None:
    """The refusal of a coordinate without a road within its radius; None if each has one."""
    far = numpy.flatnonzero(~(metres <= radiuses))[:1].tolist()
    if not far:
        return None
    return Refusal(
        "NoSegment",
        f"coordinate {far[0]} is {length_text(metres[far[0]])} from the nearest road, more than "
        "its radius")


def see_that_near(spots: Spots, radiuses: Sequence[float]) -> None:
    """Refuses a coordinate without a road within its radius."""
    fault = far_fault(spots.metres, radiuses)
    if fault:
        raise fault
