"""A service of networks over HTTP, for the page and for programs. docs/SERVICE.md describes its
requests and answers.

Requests wait in queues of bounded length, and a few are answered at a time. Whatever goes wrong, a
client gets JSON with a line that says what, and never a traceback.
"""
from __future__ import annotations

import asyncio
import contextlib
import importlib
import json
import math
import pathlib
import resource
import time
from collections.abc import Callable, Sequence
from dataclasses import dataclass
from typing import TYPE_CHECKING, Any

import numpy
from aiohttp import hdrs, web

from chtab.errors import ChtabError
from chtab._roads.snapping import length_text
from chtab_server import web_policy
from chtab_server.connections import Caps, client_of, is_gone
from chtab_server.faults import fault_of
from chtab_server.metrics import Metrics
from chtab_server.osrm import answering, options, url
from chtab_server.osrm.options import Refusal
from chtab_server.queue import Task, Turns
from chtab_server.requests import (
    Limits, Refused, bytes_in, fields_of, number_in, place_in, places_in,
)
from chtab_server.sending import JsonAnswer, lines_of

if TYPE_CHECKING:
    from chtab.files import Place
    from chtab.network import Network
    from chtab._roads.routes import Trip
    from chtab._roads.snapping import Spots
    from chtab_server.connections import Connections
    from chtab_server.networks import Networks
    from chtab_server.osrm.answering import Answers
    from chtab_server.recording import Recorder
    from chtab_server.speeds import Traffic
    from chtab.typing import Geojson, Point

PAGE = pathlib.Path(__file__).parent / "page"
# Debian's package libjs-leaflet.
LEAFLET = pathlib.Path("/usr/share/javascript/leaflet")
# The names of the places of a route, as on the page.
ENDS = "A", "B"
# The least and the most characters of an address, and of a header, that aiohttp reads; the service
# itself refuses shorter ones by a message.
LONGEST, LONGEST_OF_ALL = 1 << 16, 1 << 24
# The methods that OSRM's interface takes.
READING = hdrs.METH_GET, hdrs.METH_HEAD
# A pair of nodes whose distance is asked for to check an engine.
PROBE = numpy.array([[1, 1]])


@dataclass(frozen=True)
class Choices:
    """The operator's choices: the title of the page, places with names, the address of a layer of
    map tiles or None, the limits of requests in JSON and of OSRM's interface, how many connections
    are allowed, the origins whose pages may ask too, the names that clients of OSRM's interface may
    give the network, empty for any name, the address of the proxy or None, and the form of the
    lines of the log."""

    title: str = ""
    places: tuple[Place, ...] = ()
    tiles: str | None = None
    limits: Limits = Limits()
    osrm: answering.Limits = answering.Limits()
    caps: Caps = Caps(1_000, 250)
    allowed: tuple[str, ...] = ()
    profiles: tuple[str, ...] = ()
    proxy: str | None = None
    log_form: str = "plain"


class Material:
    """What the answers of a service are made of. It is made once, before processes are forked,
    which then share its memory."""

    def __init__(self, networks: Networks, choices: Choices) -> None:
        self.tiles = networks.first.tiles
        self.osrm = [
            answering.Answers(
                each.network, each.profiles or choices.profiles, choices.osrm, each.streets,
                each.numbers, each.crossings) for each in networks]
        self.by_name = {
            each.name: answers for each, answers in zip(networks, self.osrm) if each.name}
        # The index of roads is made now, and what simplifies lines is loaded, and not while the
        # first client waits.
        for each in networks:
            each.network.roads.find_any([0.0], [0.0])
        with contextlib.suppress(ImportError):
            importlib.import_module("shapely.geometry")


class Service:
    """The answers to requests, by `networks` that it keeps and doesn't close, and by their
    `material`. `row` counts what this process answers, among those of `metrics`."""

    def __init__(
        self, networks: Networks, choices: Choices = Choices(), metrics: Metrics | None = None,
        row: int = 0, material: Material | None = None, traffic: Traffic | None = None,
    ) -> None:
        first, material = networks.first, material or Material(networks, choices)
        self.networks, self.network, self.choices, self.limits = (
            networks, first.network, choices, choices.limits)
        self.title, self.caps, self.proxy = (
            choices.title or first.title, choices.caps, choices.proxy)
        self.metrics = metrics or Metrics()
        self.row = self.metrics.of_processes[row]
        # How many runs were started by an earlier process at this place.
        self.begun_before = self.row.of("begun")
        self.tiles, self.osrm, self.by_name = material.tiles, material.osrm, material.by_name
        self.renewed: tuple[list[Answers], list[Network], float]
        self.turns = Turns(self.limits.at_once, self.limits.waiting, self.limits.together)
        self.headers, self.longest_address = web_policy.headers(choices.tiles), choices.osrm.address
        self.lines = lines_of(dict([*self.headers.items(), web_policy.CACHING]))
        # Whether an engine failed, an event that makes it be checked, and whether the service is
        # ending.
        self.is_failing, self.doubt, self.is_ending = False, asyncio.Event(), False
        # The speeds that change while the service runs, or None, and an event that makes their file
        # be read again.
        self.traffic, self.renewal = traffic, asyncio.Event()

    @property
    def longest(self) -> int:
        """The characters of an address, and of a header, that are read."""
        return min(max(LONGEST, 2 * self.longest_address), LONGEST_OF_ALL)

    def application(self, around: Any) -> web.Application:
        """The application of aiohttp, with what is `around` each answer."""
        app = web.Application(client_max_size=self.limits.body, middlewares=[around])
        app.add_routes([
            web.get(web_policy.OSRM, self.answer_osrm), web.post(web_policy.OSRM, self.answer_osrm),
            web.get("/", self.page), web.static("/page", PAGE),
            web.static("/leaflet", LEAFLET, follow_symlinks=True), web.get("/health", self.health),
            web.get("/metrics", self.tell_metrics), web.get("/api/network", self.describe),
            web.get(r"/roads/{zoom:\d{1,2}}/{x:\d{1,8}}/{y:\d{1,8}}.svg", self.tile),
            web.post("/api/route", self.answer_route),
            web.post("/api/table", self.answering(self.table)),
            web.post("/api/reach", self.answering(self.reach))])
        app.on_cleanup.append(self.close)
        return app

    def middleware(self, connections: Connections, recorder: Recorder) -> Any:
        """The middleware around each answer: it turns errors into JSON with a line, adds headers,
        and records the request."""
        allow = web_policy.allower(self.choices.allowed)

        @web.middleware
        async def around(request: web.Request, handler: Any) -> web.StreamResponse:
            begun, connection = time.monotonic(), connections.begin(request)
            try:
                response = (
                    web_policy.preflight(request) if allow and web_policy.is_preflight(request)
                    else await handler(request))
            except Exception as raised:
                response = self.fault(request, raised)
            finally:
                connections.end(connection)
            if not isinstance(response, JsonAnswer):
                web_policy.add_headers(response, self.headers)
            if allow:
                allow(request, response)
            if self.is_ending:
                response.force_close()
            recorder.note(request, response, time.monotonic() - begun)
            return response

        return around

    def front(self, around: Any, inner: Any) -> Any:
        """The handler of all requests. It answers those of OSRM's interface, and passes the others
        on to `inner`, that of the application, whose way through its router takes as long as
        reading a request."""
        async def handle(request: web.Request) -> web.StreamResponse:
            if (
                request.method in READING and request.raw_path.startswith(web_policy.QUICK)
                and hdrs.EXPECT not in request.headers
            ):
                return await around(request, self.answer_osrm)
            return await inner(request)

        return handle

    def json_of(self, text: str) -> JsonAnswer:
        return JsonAnswer(text, self.lines)

    def fault(self, request: web.Request, raised: Exception) -> web.Response:
        """The answer for an exception. If an engine failed, it is checked."""
        response = fault_of(request, raised, self.limits.body, self.networks.translated)
        if request.get("refused", ("",))[0] == "program":
            self.is_failing = True
            self.doubt.set()
        return response

    async def close(self, app: web.Application) -> None:
        self.turns.close()

    async def answer(self, request: web.Request, task: Task) -> Any:
        """Waits for the client's turn, and returns the answer to its question."""
        return await self.turns.answer(
            client_of(request, self.proxy), task, lambda: is_gone(request))

    async def answer_alone(
        self, request: web.Request, call: Callable[..., Any], *words: Any,
    ) -> Any:
        """The value of a call, made in a thread once it is the client's turn."""
        return await self.answer(request, alone(call, *words))

    async def body_of(self, request: web.Request) -> bytes:
        """The bytes of a request, once all are there."""
        try:
            body = await asyncio.wait_for(request.read(), self.limits.sending)
        except asyncio.TimeoutError:
            raise Refused("the request took too long to come", 408) from None
        return bytes_in(body, request.headers.get("Content-Encoding", ""), self.limits.body)

    def answering(self, call: Callable[[bytes], Any]) -> Any:
        """A handler that answers the body of a request with JSON."""
        async def handle(request: web.Request) -> JsonAnswer:
            body = await self.body_of(request)
            return self.json_of(await self.answer_alone(request, lambda: json.dumps(call(body))))

        return handle

    async def answer_route(self, request: web.Request) -> JsonAnswer:
        """Answers a request for a route, together with others that are waiting: one question to the
        engine serves them all."""
        fields = fields_of(await self.body_of(request), ("from", "to"))
        places = [place_in(fields[name], name) for name in ("from", "to")]
        return self.json_of(
            await self.answer(request, Task(self.route_texts, places, is_shared=True)))

    async def answer_osrm(self, request: web.Request) -> JsonAnswer:
        """Answers a request of OSRM's interface."""
        if request.method in READING:
            return self.json_of(
                await self.answer(request, self.task_of(request.raw_path, self.longest_address)))
        target = url.posted(request.raw_path, await self.body_of(request))
        return self.json_of(await self.answer(request, self.task_of(target, len(target))))

    def task_of(self, target: str, longest: int) -> Task:
        """What a request of OSRM's interface asks. Routes, and the nearest roads, are answered
        together with those that wait beside them. What the library in this process answers may be
        answered in the loop."""
        words = url.words_of(target, longest)
        may_exclude = "exclu" in words.query or "%" in words.query
        excluded = options.excluded_in(words.query) if may_exclude else ()
        answers = self.answers_for(words.profile, excluded)
        question = answers.question(words)
        is_quick = answers.network.answers_by == "library"
        if question.service == "route":
            legs = len(question.coordinates) - 1
            if question.own.alternatives:
                # To look for alternatives takes longer than a moment on large networks.
                return Task(answers.routes, question)
            return Task(answers.routes, question, True, legs, is_quick, legs * question.own.work)
        if question.service == "nearest" and question.own == 1:
            return Task(answers.nearest_ones, question, True, 1, is_quick)
        if question.service == "table":
            are_together = answers.is_small(question)
            return Task(answers.tables, question, are_together, 1, is_quick, question.own.size)
        return alone(getattr(answers, question.service), question)

    def answers_for(self, profile: str, excluded: tuple[str, ...]) -> Answers:
        """The answers of the network that a profile names, without the ways of the classes that are
        excluded. If there is only one network, its answers check the name."""
        if excluded:
            name = f"{profile}/{','.join(excluded)}"
            if name not in self.by_name:
                raise Refusal(
                    "InvalidValue",
                    f"exclude: there is no network without {' and '.join(excluded)}")
            return self.by_name[name]
        if len(self.osrm) == 1:
            return self.osrm[0]
        if profile not in self.by_name:
            raise Refusal(
                "InvalidValue",
                f"the profiles are {', '.join(name for name in self.by_name if '/' not in name)}")
        return self.by_name[profile]

    def renew(self) -> None:
        """Reads the file of speeds, and makes what answers by them; the requests of other threads
        are answered meanwhile. Raises a `ChtabError` or an `OSError` if the file is refused: then
        the speeds that are in use stay."""
        assert self.traffic is not None
        networks, written = self.traffic.networks()
        self.renewed = (
            [answers.weighed(network) for answers, network in zip(self.osrm, networks)], networks,
            written)

    def exchange(self) -> None:
        """Answers by what was made last from here on. Whatever was asked before is answered by that
        with which it began."""
        assert self.traffic is not None
        self.osrm, networks, written = self.renewed
        self.traffic.put(networks, written)
        self.network = networks[0]
        self.by_name = {
            each.name: answers for each, answers in zip(self.networks, self.osrm) if each.name}
        # Each knows the calls of the networks before, which are closed with their last request.
        self.turns.paces.clear()
        del self.renewed
        self.note()

    async def page(self, request: web.Request) -> web.FileResponse:
        """The page."""
        return web.FileResponse(PAGE / "index.html")

    async def health(self, request: web.Request) -> web.Response:
        """Whether a request that arrives now would be taken and answered. This answer doesn't wait
        for others."""
        state = (
            "ending" if self.is_ending else "failing" if self.is_failing
            else "busy" if self.turns.is_full else "ready")
        speeds = {} if self.traffic is None else {"speeds": {"age": round(self.traffic.age(), 1)}}
        return web.json_response(
            {"status": state, "waiting": self.turns.unanswered, **speeds},
            status=200 if state == "ready" else 503)

    def try_engines(self) -> None:
        """Starts the engines that are not there, and asks each a question. Raises a `ChtabError` if
        one fails."""
        for each in self.networks:
            each.load()
            if each.network.nodes and each.engine.distances(PROBE).tolist() != [0]:
                raise ChtabError("the engine says that a node is not at itself")

    async def tell_metrics(self, request: web.Request) -> web.Response:
        """The counts of all processes of the service."""
        self.note()
        return web.Response(
            body=self.metrics.text().encode(),
            headers={"Content-Type": "text/plain; version=0.0.4; charset=utf-8"})

    def note(self, connections: int | None = None) -> None:
        """Notes the states of this process, for whichever process answers with the metrics."""
        engines = [each.engine for each in self.networks]
        living = sum(engine.first is not None for engine in engines)
        begun = sum(engine.begun for engine in engines)
        self.row.note(
            waiting=self.turns.unanswered, engines=living, begun=self.begun_before + begun,
            memory=resident_bytes())
        if connections is not None:
            self.row.note(connections=connections)
        if self.traffic is not None:
            self.row.note(speeds=int(self.traffic.written * 1_000))

    async def describe(self, request: web.Request) -> web.Response:
        """The description of the network for the page."""
        coordinates, limits, choices = self.network.coordinates, self.limits, self.choices
        xs, ys = (
            [x for x in column if not math.isnan(x)]
            for column in (coordinates.longitudes, coordinates.latitudes))
        notes = (
            "© OpenStreetMap contributors"
            if any("OpenStreetMap" in comment for comment in coordinates.comments) else "")
        return web.json_response({
            "title": self.title, "nodes": self.network.nodes, "unit": self.network.unit,
            "notes": notes, "tiles": choices.tiles, "bounds": [min(xs), min(ys), max(xs), max(ys)],
            "profile": (*self.by_name, *choices.profiles, "driving")[0],
            "places": [
                {"name": place.name, "at": [place.longitude, place.latitude]}
                for place in choices.places if place.name],
            "limits": {
                "list": limits.list, "cells": limits.cells, "bands": limits.bands,
                "metres": limits.metres, "route": choices.osrm.route}})

    async def tile(self, request: web.Request) -> web.Response:
        zoom, x, y = (int(request.match_info[name]) for name in ("zoom", "x", "y"))
        if zoom > 22 or max(x, y) >= 2**zoom:
            raise Refused("there is no such tile", 404)
        text = await self.answer_alone(request, self.tiles.tile, zoom, x, y)
        return web.Response(
            text=text, content_type="image/svg+xml", headers={"Cache-Control": "max-age=3600"})

    def spots(
        self, network: Network, places: Sequence[Point], names: Sequence[str],
    ) -> tuple[Spots, dict[int, str]]:
        """The spots of places, and the messages for places that are too far from each road: {index:
        message}. `names` are those of the places."""
        spots = network.roads.find_any(*zip(*places))
        far = {
            place: metres for place, metres in enumerate(spots.metres.tolist())
            if not metres <= self.limits.metres}
        return (
            spots,
            {
                place: f"{names[place]} is {length_text(metres)} from the nearest road"
                for place, metres in far.items()})

    def near_spots(self, network: Network, places: Sequence[Point], names: Sequence[str]) -> Spots:
        """The spots of places. Refuses the request if one is too far from each road."""
        spots, far = self.spots(network, places, names)
        if far:
            raise Refused("; ".join(far.values()))
        return spots

    def route_texts(self, pairs: Sequence[Sequence[Point]]) -> list[str | Refused]:
        """For each pair of places a Feature of GeoJSON as text, with the line of the route, or null
        if there is none. If a place is too far from each road, the item is the refusal."""
        # One network, because another may take its place meanwhile.
        network = self.network
        spots, far = self.spots(
            network, [place for pair in pairs for place in pair], ENDS * len(pairs))
        starts, ends = spots[0::2], spots[1::2]
        faults = {
            pair: [far[place] for place in (2 * pair, 2 * pair + 1) if place in far]
            for pair in range(len(pairs))}
        near = [pair for pair, lines in faults.items() if not lines]
        found = dict(zip(near, network.trip_routes(starts[near], ends[near])))
        return [
            self.route_text(found[pair], starts, ends, pair) if pair in found
            else Refused("; ".join(faults[pair])) for pair in range(len(pairs))]

    def route_text(self, trip: Trip, starts: Spots, ends: Spots, pair: int) -> str:
        return trip.to_text({
            "unit": self.network.unit, "from": spot_of(starts, pair), "to": spot_of(ends, pair)})

    def table(self, body: bytes) -> dict[str, Any]:
        """The weights, a row for each source, or null for a source that is too far from each road;
        and the faults of such places."""
        fields = fields_of(body, ("sources", "targets"), ("within",))
        lists = {
            name: places_in(fields[name], name, self.limits.list)
            for name in ("sources", "targets")}
        sources, targets = lists.values()
        if len(sources) * len(targets) > self.limits.cells:
            raise Refused(f"a table has at most {self.limits.cells:,} cells")
        within = fields.get("within")
        if within is not None:
            within = int(number_in(within, 0, 2**60, "within"))
        owners = [(name, index) for name, places in lists.items() for index in range(len(places))]
        network = self.network
        spots, far = self.spots(
            network, sources + targets, [f"{name}[{index}]" for name, index in owners])
        near = numpy.array([place not in far for place in range(len(owners))])
        rows, columns = numpy.split(near, [len(sources)])
        weights = numpy.full((len(sources), len(targets)), -1)
        weights[numpy.ix_(rows, columns)] = network.trip_table(
            spots[:len(sources)][rows], spots[len(sources):][columns], within=within)
        cells = [
            [None if weight < 0 else weight for weight in row] if is_near else None
            for row, is_near in zip(weights.tolist(), rows)]
        faults = [
            {
                "list": owners[place][0], "index": owners[place][1],
                "metres": round(float(spots.metres[place]), 1), "error": text}
            for place, text in far.items()]
        return {
            "unit": self.network.unit, "weights": cells, **({"faults": faults} if faults else {})}

    def reach(self, body: bytes) -> Geojson:
        """A collection of GeoJSON: a MultiPolygon for each limit, the largest first."""
        fields = fields_of(body, ("from", "limits"))
        limits = fields["limits"]
        if not isinstance(limits, list) or not 1 <= len(limits) <= self.limits.bands:
            raise Refused(f"limits is a list of 1 to {self.limits.bands} numbers")
        limits = [int(number_in(limit, 1, 2**60, "a limit")) for limit in limits]
        network = self.network
        spot = self.near_spots(network, [place_in(fields["from"], "from")], ENDS)
        return {**network.isochrones(spot, limits), "unit": network.unit, "from": spot_of(spot, 0)}


def alone(call: Callable[..., Any], *words: Any) -> Task:
    """The question that a call answers, in a thread and without others."""
    return Task(lambda questions: [call(*words)], None)


def spot_of(spots: Spots, place: int) -> dict[str, Any]:
    """The point on a road that a place was taken to, and its distance."""
    return {
        "at": [round(float(spots.longitudes[place]), 6), round(float(spots.latitudes[place]), 6)],
        "metres": round(float(spots.metres[place]), 1)}


def resident_bytes() -> int:
    """The resident memory of this process in bytes."""
    pages = pathlib.Path("/proc/self/statm").read_text().split()[1]
    return int(pages) * resource.getpagesize()
