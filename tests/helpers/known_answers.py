"""Requests to a service with what is right for each of them: what it answers to one that it is asked alone, once that was compared with what
Dijkstra's algorithm says, and with the lengths of the roads."""
import http.client
import itertools
import json
import math
import pathlib
import random
import re
from typing import NamedTuple

from helpers.asking_osrm import TENTH, check_annotation, check_leg, distance_to, on_sphere
from helpers.waiting import PATIENCE
from oracles.driving import NEAR, Driving, Spot
from oracles.reading import graph_of
from oracles.telling import metres

# How many places there are, and requests of each kind.
PLACES, EACH = 20, 14
# The metres between two places of a track, their mean error, and the most metres of a place of a track to its road.
APART, OFF, RADIUS = 30, 2, 8
LINES, STOPS = "overview=full&geometries=geojson", "continue_straight=false"
# What an answer differs by at most from the metres of places that are rounded to millionths of a degree.
ROUNDED = 0.3


class Request(NamedTuple):
    """A request of a kind about some of the places, with its target and its body, None where it has none."""

    kind: str
    which: tuple
    target: str
    body: str | None = None


class Requests:
    """Requests of all kinds between places beside the roads of a graph, for which a network of these roads gives the spots."""

    def __init__(self, network, out, seed):
        self.draw = random.Random(seed)
        _, arcs = graph_of(f"{out}.gr")
        lines = re.findall(r"^v (\d+) (-?\d+) (-?\d+)$", pathlib.Path(f"{out}.co").read_text(), re.MULTILINE)
        self.nodes = {int(node): (int(x) / 1e6, int(y) / 1e6) for node, x, y in lines}
        self.arcs, self.roads = arcs, sorted({tuple(sorted(arc[:2])) for arc in arcs if arc[0] != arc[1]})
        known = sorted(self.nodes)
        self.places = [tuple(round(part + self.draw.gauss(0, 0.0004), 6) for part in self.nodes[self.draw.choice(known)]) for _ in range(PLACES)]
        found = network.snap(*zip(*self.places))
        ends = zip(*(column[found.roads].tolist() for column in (network.roads.firsts, network.roads.lasts)))
        self.spots = [Spot((min(pair), max(pair)), part if pair[0] <= pair[1] else 1 - part) for pair, part in zip(ends, found.parts.tolist())]
        for place, spot in zip(self.places, self.spots):
            nearest = min(self.distance(place, road) for road in self.roads)
            assert abs(on_sphere(place, self.at(spot)) - nearest) < 0.1 + 1e-4 * nearest, (place, spot, nearest)
        self.tracks = [self.track() for _ in range(EACH)]
        self.every = [self.drawn(kind, place) for kind in KINDS for place in range(EACH)]

    def distance(self, place, road):
        return distance_to(*place, [self.nodes[node] for node in road])

    def at(self, spot):
        """Where a spot is, but for the bend of a line in Mercator's projection, and for an end of a road less than a metre away."""
        (x, y), (u, v) = (self.nodes[node] for node in spot.road)
        return x + spot.part * (u - x), y + spot.part * (v - y)

    def track(self):
        """Places along a walk over some roads, none of which it takes twice."""
        ahead, taken = {}, set()
        for tail, head, _ in self.arcs:
            ahead.setdefault(tail, []).extend([head] * (tail != head))
        walk = [self.draw.choice(sorted(ahead))]
        for _ in range(9):
            nexts = [head for head in ahead.get(walk[-1], ()) if tuple(sorted((walk[-1], head))) not in taken]
            if not nexts:
                break
            walk.append(self.draw.choice(nexts))
            taken.add(tuple(sorted(walk[-2:])))
        found, line = [], [self.nodes[node] for node in walk]
        for one, other in zip(line, line[1:]):
            count = max(1, round(on_sphere(one, other) / APART))
            found += [tuple(a + step / count * (b - a) for a, b in zip(one, other)) for step in range(count)]
        found = found[:25] if len(found) > 3 else self.track()
        return [(round(x + self.draw.gauss(0, OFF) / 75_700, 6), round(y + self.draw.gauss(0, OFF) / 111_195, 6)) for x, y in found]

    def text(self, which):
        return text_of(self.places[place] for place in which)

    def drawn(self, kind, place):
        """A request of a kind; that of a track is the one with this number."""
        if kind == "match":
            radiuses = ";".join([str(RADIUS)] * len(self.tracks[place]))
            return Request(kind, (place,), f"/match/v1/car/{text_of(self.tracks[place])}?annotations=true&overview=false&radiuses={radiuses}")
        service, count, query = KINDS[kind]
        which = tuple(self.draw.sample(range(PLACES), count) if count <= PLACES else self.draw.choices(range(PLACES), k=count))
        if service == "/api/route":
            start, end = (self.places[each] for each in which)
            return Request(kind, which, service, json.dumps({"from": start, "to": end}))
        if service == "/api/table":
            rows, columns = ([self.places[each] for each in some] for some in (which[:2], which[2:]))
            return Request(kind, which, service, json.dumps({"sources": rows, "targets": columns}))
        return Request(kind, which, f"/{service}/v1/car/{self.text(which)}?{query}")


# For each kind the service, how many places a request has, and its options.
KINDS = {
    "lone": ("route", 2, "overview=false"), "legs": ("route", 3, f"overview=false&{STOPS}"),
    "line": ("route", 2, "overview=full&geometries=polyline6"), "simple": ("route", 3, f"geometries=polyline&{STOPS}"),
    "steps": ("route", 3, f"{LINES}&steps=true&annotations=true&{STOPS}"), "straight": ("route", 3, f"{LINES}&annotations=true"),
    "alternatives": ("route", 2, f"{LINES}&annotations=true&alternatives=3"),
    "table": ("table", 5, "annotations=duration"), "distances": ("table", 7, "annotations=duration,distance"),
    "rows": ("table", 6, "annotations=distance,duration&sources=0;2&destinations=1;5;3;4"),
    "large": ("table", 72, f"annotations=distance,duration&sources=0;1;2&destinations={';'.join(map(str, range(3, 72)))}"),
    "nearest": ("nearest", 1, "number=3"), "one road": ("nearest", 1, "number=1"), "trip": ("trip", 5, f"{LINES}&steps=true"), "match": ("match", 1, ""),
    "api route": ("/api/route", 2, ""), "api table": ("/api/table", 6, ""),
}


def text_of(places):
    return ";".join(f"{x:.6f},{y:.6f}" for x, y in places)


class Right:
    """What is right for requests where arcs have these weights, by default those of the graph. `numbers` are what the service calls nodes, by default
    their own numbers."""

    def __init__(self, requests, weights=None, numbers=None):
        arcs = requests.arcs if weights is None else [(tail, head, weight) for (tail, head, _), weight in zip(requests.arcs, weights, strict=True)]
        self.requests, self.driving = requests, Driving(requests.nodes, arcs)
        self.node_of = {node: node for node in requests.nodes} if numbers is None else dict(zip(numbers, sorted(requests.nodes)))
        self.trips = self.driving.table(requests.spots)
        assert all(trip for row in self.trips for trip in row), "a trip leads from each place to each"

    def best(self, one, other):
        """The best trips from one place to another."""
        return self.trips[one][other]

    def check(self, request, value):
        """Compares an answer with what is right."""
        if request.kind.startswith("api"):
            return getattr(self, request.kind.replace(" ", "_"))(request.which, value)
        assert value["code"] == "Ok", value
        service = KINDS[request.kind][0]
        return getattr(self, service)(request, value)

    def leg(self, leg, one, other):
        """Compares a leg with the best trip from one place to another."""
        self.cell(leg["duration"], leg["distance"], one, other)
        assert leg["weight"] == leg["duration"]

    def cell(self, duration, distance, one, other):
        """The same of a duration and a distance."""
        trip = self.best(one, other)
        assert duration == trip.weight / 1000, (duration, trip)
        assert trip.least - TENTH <= distance <= trip.most + TENTH, (distance, trip)

    def waypoint(self, waypoint, place):
        """Compares a waypoint with the point of its road."""
        known = self.requests
        assert on_sphere(waypoint["location"], known.at(known.spots[place])) < 1.1, (waypoint, known.spots[place])
        assert abs(on_sphere(waypoint["location"], known.places[place]) - waypoint["distance"]) < ROUNDED, waypoint

    def segments(self, leg):
        """Each segment of a leg between two nodes has the weight and the metres of its arc."""
        parts, driving = leg["annotation"], self.driving
        nodes = [self.node_of[node] for node in parts["nodes"]]
        assert len(nodes) == len(parts["duration"]) + 1
        for place in range(1, len(nodes) - 2):
            pair = nodes[place], nodes[place + 1]
            assert parts["duration"][place] == driving.weights[pair] / 1000, (pair, parts["duration"][place], driving.weights[pair])
            assert abs(parts["distance"][place] - driving.length(*pair)) < TENTH, (pair, parts["distance"][place])
        assert abs(sum(parts["duration"]) - leg["duration"]) < 1e-6
        assert abs(sum(parts["distance"]) - leg["distance"]) < TENTH * (len(nodes) + 1)

    def line(self, line, length, stops, seconds):
        """A line is as long as its route, and leads from place to place along arcs that take so many seconds."""
        spots, off = [self.requests.spots[place] for place in stops], 1 + 0.02 * len(line)
        assert abs(sum(itertools.starmap(metres, zip(line, line[1:]))) - length) < off, (length, line)
        at = [[place for place, point in enumerate(line) if on_sphere(point, self.requests.at(spot)) < NEAR] for spot in spots]
        found = []
        for cuts in itertools.product([0], *at[1:-1], [len(line) - 1]):
            parts = [line[first:last + 1] for first, last in zip(cuts, cuts[1:]) if first <= last]
            weights = [self.driving.along(*leg) for leg in zip(spots, parts, spots[1:])] if len(parts) == len(spots) - 1 else [None]
            found += [] if None in weights else [sum(weights)]
        assert at[0][:1] == [0] and at[-1][-1:] == [len(line) - 1] and round(1000 * seconds) in found, (seconds, found, line)

    def steps(self, leg):
        """Each step of a leg takes what the segments of its line take."""
        parts, first = leg["annotation"], 0
        for step in leg["steps"][:-1]:
            last = first + len(step["geometry"]["coordinates"]) - 1
            assert abs(sum(parts["duration"][first:last]) - step["duration"]) < 1e-6 and step["weight"] == step["duration"], step
            assert abs(sum(parts["distance"][first:last]) - step["distance"]) < TENTH * (1 + last - first), step
            first = last

    def route(self, request, value):
        import polyline

        which, kind = request.which, request.kind
        for place, waypoint in zip(which, value["waypoints"], strict=True):
            self.waypoint(waypoint, place)
        first, *others = value["routes"]
        pairs = list(zip(which, which[1:]))
        for route in value["routes"]:
            assert abs(route["duration"] - sum(leg["duration"] for leg in route["legs"])) < 1e-6
            assert abs(route["distance"] - sum(leg["distance"] for leg in route["legs"])) < TENTH * (1 + len(pairs))
            if "annotations" in request.target:
                line = route["geometry"]["coordinates"]
                self.line(line, route["distance"], which, route["duration"])
                assert len(route["legs"]) == len(pairs) and list(map(self.segments, route["legs"]))
        if kind == "straight":
            assert first["duration"] >= sum(self.best(*pair).weight for pair in pairs) / 1000 - 1e-6
        else:
            for leg, pair in zip(first["legs"], pairs, strict=True):
                self.leg(leg, *pair)
        if kind == "steps":
            lines = []
            for leg in first["legs"]:
                check_leg(leg)
                self.steps(leg)
                parts = [step["geometry"]["coordinates"] for step in leg["steps"]]
                lines.append([parts[0][0], *(place for part in parts[:-1] for place in part[1:])])
                check_annotation(leg, [place[::-1] for place in lines[-1]])
            assert lines[0] + lines[1][1:] == first["geometry"]["coordinates"]
        if kind in ("line", "simple"):
            digits = 6 if kind == "line" else 5
            line = [(x, y) for y, x in polyline.decode(first["geometry"], digits)]
            if kind == "line":
                self.line(line, first["distance"], which, first["duration"])
            known = [*self.driving.places.values(), *(waypoint["location"] for waypoint in value["waypoints"])]
            assert all(min(metres(point, place) for place in known) < NEAR for point in line), line
            assert metres(line[0], value["waypoints"][0]["location"]) < 2 and metres(line[-1], value["waypoints"][-1]["location"]) < 2
        for other in others:
            assert first["duration"] < other["duration"] <= 1.25 * first["duration"] and other["geometry"] != first["geometry"]

    def table(self, request, value):
        rows = columns = request.which
        given = dict(re.findall(r"(sources|destinations)=([\d;]+)", request.target))
        if given:
            rows, columns = ([request.which[int(place)] for place in given[name].split(";")] for name in ("sources", "destinations"))
        assert ("distances" in value) == ("distance" in request.target)
        cells = value["durations"], value.get("distances", value["durations"])
        for one, durations, distances in zip(rows, *cells, strict=True):
            for other, duration, distance in zip(columns, durations, distances, strict=True):
                self.cell(duration, distance if "distances" in value else self.best(one, other).least, one, other)
        for name, some in ("sources", rows), ("destinations", columns):
            for place, waypoint in zip(some, value[name], strict=True):
                self.waypoint(waypoint, place)

    def nearest(self, request, value):
        known, [place] = self.requests, request.which
        wanted = sorted(known.distance(known.places[place], road) for road in known.roads)[:int(request.target[-1])]
        for waypoint, length in zip(value["waypoints"], wanted, strict=True):
            assert abs(waypoint["distance"] - length) < 0.15 + 1e-4 * length, (waypoint, length)
            assert abs(on_sphere(waypoint["location"], known.places[place]) - waypoint["distance"]) < ROUNDED

    def trip(self, request, value):
        """A round trip: each place once, in the best order of all."""
        [trip], which = value["trips"], request.which
        for place, waypoint in zip(which, value["waypoints"], strict=True):
            self.waypoint(waypoint, place)
        order = sorted(range(len(which)), key=lambda place: value["waypoints"][place]["waypoint_index"])
        tour, joined = [which[place] for place in [*order, order[0]]], []
        for leg, pair in zip(trip["legs"], zip(tour, tour[1:]), strict=True):
            self.leg(leg, *pair)
            check_leg(leg)
            line = [leg["steps"][0]["geometry"]["coordinates"][0], *(place for step in leg["steps"][:-1] for place in step["geometry"]["coordinates"][1:])]
            self.line(line, leg["distance"], pair, leg["duration"])
            joined += line[bool(joined):]
        assert joined == trip["geometry"]["coordinates"]

        def weight(tour):
            return sum(self.best(*pair).weight for pair in zip(tour, tour[1:]))

        first, *rest = which
        assert weight(tour) == min(weight((first, *some, first)) for some in itertools.permutations(rest))

    def match(self, request, value):
        [number], known = request.which, self.requests
        for place, point in zip(known.tracks[number], value["tracepoints"], strict=True):
            if point:
                assert abs(on_sphere(place, point["location"]) - point["distance"]) < ROUNDED and point["distance"] <= 3 * RADIUS + 0.1
        assert sum(map(bool, value["tracepoints"])) > 0.6 * len(known.tracks[number]), value
        for matching in value["matchings"]:
            for leg in matching["legs"]:
                self.segments(leg)
            assert abs(matching["duration"] - sum(leg["duration"] for leg in matching["legs"])) < 1e-6
            assert abs(matching["distance"] - sum(leg["distance"] for leg in matching["legs"])) < TENTH * (1 + len(matching["legs"]))

    def api_route(self, which, value):
        told = value["properties"]
        self.cell(told["weight"] / 1000, told["metres"], *which)
        self.line(value["geometry"]["coordinates"], told["metres"], which, told["weight"] / 1000)

    def api_table(self, which, value):
        assert value["weights"] == [[self.best(one, other).weight for other in which[2:]] for one in which[:2]], value


class Client:
    """A client on a connection that is kept, and begun anew where the service closed it."""

    def __init__(self, address, source=None):
        self.address, self.source, self.connection = address, source and (source, 0), None

    def send(self, request, headers=None):
        """The status and the bytes of an answer."""
        if self.connection is None:
            self.connection = http.client.HTTPConnection(self.address.hostname, self.address.port, timeout=PATIENCE, source_address=self.source)
        data = None if request.body is None else request.body.encode()
        self.connection.request("GET" if data is None else "POST", request.target, data, headers or {})
        answer = self.connection.getresponse()
        found = answer.status, answer.read()
        if answer.will_close:
            self.close()
        return found

    def close(self):
        if self.connection is not None:
            self.connection.close()
            self.connection = None


def asked_alone(address, right):
    """What a service answers to each request alone, once it was compared with what is right: {request: bytes}."""
    client, found = Client(address), {}
    for request in right.requests.every:
        status, text = client.send(request)
        assert status == 200, (request, text)
        try:
            right.check(request, json.loads(text))
        except (AssertionError, KeyError, ValueError) as fault:
            raise AssertionError(f"{request}: {fault!r}: {text[:3_000]!r}") from fault
        found[request] = text
    client.close()
    return found
