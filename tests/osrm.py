#!/usr/bin/python3
"""Tests the interface of OSRM that the service speaks: each answer with an independent one, and what the public description of the interface says of
fields, orders and encodings. Lines are read by python3-polyline. What is refused, and what clients ask for, tests/osrm_requests.py tests.

A check that needs a missing package is named and left out. The last line is 'N passed, N failed'.
"""
import itertools
import math
import pathlib
import random
import sys
import urllib.parse

from helpers import running, serving
from helpers.asking_osrm import MILLIONTH, TENTH, answer, check_annotation, distance_to, distances, get, on_sphere, some_nodes, text_of, three, write_network
from helpers.packages import run_checks
from helpers.running import PROGRAM, ROOT
from helpers.serving import SERVICE, here, on_all_maps, service

sys.path.insert(0, str(ROOT / "python"))

import chtab  # noqa: E402
from chtab import files  # noqa: E402

def durations_are_those_of_the_program():
    """Between places of nodes each duration, of routes and of tables, is the distance that `chtab dist` writes for the nodes."""
    nodes, places = some_nodes(24, "durations")
    pairs = list(itertools.product(nodes, nodes))
    wanted = dict(zip(pairs, distances(pairs)))
    with service() as (_, address):
        table = answer(address, "table", places, annotations="duration,distance")
        for k, l in itertools.product(range(24), range(24)):
            assert table["durations"][k][l] == wanted[nodes[k], nodes[l]], (nodes[k], nodes[l])
        for k, l in zip(range(23), range(1, 24)):
            [route] = answer(address, "route", [places[k], places[l]], overview="false")["routes"]
            assert route["duration"] == route["weight"] == wanted[nodes[k], nodes[l]] and "geometry" not in route, route
            assert route["distance"] == table["distances"][k][l] and (route["weight_name"], len(route["legs"])) == ("duration", 1)
        [route] = answer(address, "route", places)["routes"]
        legs = [leg["duration"] for leg in route["legs"]]
        assert legs == [wanted[pair] for pair in zip(nodes, nodes[1:])] and abs(route["duration"] - sum(legs)) < 1e-6
        assert abs(route["distance"] - sum(leg["distance"] for leg in route["legs"])) < 23 * TENTH


def routes_have_lines():
    """Lines decode to the same places in each form, are as long as told, and begin and end at the waypoints; a simplified one has some of the
    full one's places, and lies near it."""
    import polyline
    from shapely.geometry import LineString, Point

    with service() as (_, address):
        found = {form: answer(address, "route", three(), overview="full", geometries=form) for form in ("polyline", "polyline6", "geojson")}
        full = found["geojson"]["routes"][0]["geometry"]
        assert full["type"] == "LineString"
        full = list(map(tuple, full["coordinates"]))
        for form, digits, off in ("polyline", 5, 0.000_005_1), ("polyline6", 6, MILLIONTH):
            places = polyline.decode(found[form]["routes"][0]["geometry"], digits)
            assert len(places) == len(full) and all(abs(x - u) < off and abs(y - v) < off for (x, y), (v, u) in zip(full, places))
        value, route = found["geojson"], found["geojson"]["routes"][0]
        assert [full[0], full[-1]] == [tuple(value["waypoints"][place]["location"]) for place in (0, -1)]
        assert abs(sum(itertools.starmap(on_sphere, zip(full, full[1:]))) - route["distance"]) < 1 + len(full) * 0.02
        for place, waypoint in zip(three(), value["waypoints"]):
            assert abs(on_sphere(place, waypoint["location"]) - waypoint["distance"]) < 0.2 and (waypoint["name"] == "") != serving.IS_IN_TOWN and waypoint["hint"] == ""
        [simple] = answer(address, "route", three(), geometries="geojson")["routes"]
        fewer = list(map(tuple, simple["geometry"]["coordinates"]))
        assert len(fewer) < len(full) and set(fewer) <= set(full) and simple["duration"] == route["duration"]
        assert tuple(value["waypoints"][1]["location"]) in fewer and (fewer[0], fewer[-1]) == (full[0], full[-1])
        line = LineString(fewer)
        assert max(line.distance(Point(place)) for place in full) < 0.001
        [none] = answer(address, "route", [three()[0]] * 2, overview="full", geometries="geojson")["routes"]
        assert none["distance"] == none["duration"] == 0 and len(none["geometry"]["coordinates"]) == 2, none


def steps_and_annotations():
    """What lies between the places of a leg sums up to it; its nodes are those of a walk of the map; its steps have its line."""
    import polyline

    with service() as (_, address):
        value = answer(address, "route", three(), steps="true", annotations="true", overview="full", geometries="polyline6")
        [route] = value["routes"]
        lines = []
        for leg in route["legs"]:
            steps = leg["steps"]
            assert steps[0]["maneuver"]["type"] == "depart" and steps[-1]["maneuver"]["type"] == "arrive"
            assert len(steps) > (2 if serving.IS_AT_A_COST else 4)
            assert {step["mode"] for step in steps} == {"driving"} and ({step["name"] for step in steps} == {""}) != serving.IS_IN_TOWN
            parts = [polyline.decode(step["geometry"], 6) for step in steps]
            assert parts[-1] == [parts[-2][-1]] * 2 and all(one[-1] == other[0] for one, other in zip(parts, parts[1:]))
            line = [parts[0][0], *(place for part in parts[:-1] for place in part[1:])]
            for step, part in zip(steps, parts):
                assert step["maneuver"]["location"] == list(part[0][::-1])
            assert steps[0]["intersections"][0]["out"] == 0 and steps[-1]["intersections"][0]["in"] == 0
            check_annotation(leg, line)
            lines.append(line)
        whole = polyline.decode(route["geometry"], 6)
        assert whole == lines[0] + lines[1][1:] and lines[0][-1] == lines[1][0]
        assert bearing_is_right(whole, route["legs"][0]["steps"][0]["maneuver"]["bearing_after"])
        pairs = arcs()
        for leg in route["legs"]:
            nodes = leg["annotation"]["nodes"]
            assert len(nodes) > 10 and all(pair in pairs or 0 in pair for pair in zip(nodes, nodes[1:])), nodes
            assert nodes[0] != nodes[1] and nodes[-1] != nodes[-2] and (0 in nodes) == serving.IS_IN_TOWN, "bends have no numbers"
        [route] = answer(address, "route", three(), annotations="nodes,duration", overview="false")["routes"]
        assert [set(leg["annotation"]) for leg in route["legs"]] == [{"nodes", "duration"}] * 2 and route["legs"][0]["steps"] == []
        value = answer(address, "route", three(), skip_waypoints="true", continue_straight="true", alternatives="false")
        assert "waypoints" not in value
        value = answer(address, "route", three(), generate_hints="false", radiuses="100;;unlimited", hints=";;", approaches="unrestricted;;")
        assert all(set(waypoint) == {"location", "name", "distance"} for waypoint in value["waypoints"])


def arcs():
    """The pairs of nodes that arcs lead between, by the map's numbers where there are some."""
    graph, numbers = files.read_graph(f"{here()}.gr"), pathlib.Path(f"{here()}.nodes")
    called = [0, *map(int, numbers.read_text().split())] if numbers.exists() else range(graph.nodes + 1)
    return {(called[tail], called[head]) for tail, head in zip(graph.tails, graph.heads)}


def bearing_is_right(line, told):
    (v, u), (y, x) = line[1], line[0]
    wanted = math.degrees(math.atan2((u - x) * math.cos(math.radians(y)), v - y)) % 360
    return min(abs(wanted - told), 360 - abs(wanted - told)) <= 1


def tables_have_rows_of_sources():
    """Rows are those of `sources` and cells those of `destinations`, in their order; each is the duration and the metres of that route."""
    places = some_nodes(5, "tables")[1] + [three()[0]]
    with service() as (_, address):
        whole = answer(address, "table", places, annotations="duration,distance")
        assert "fallback_speed_cells" not in whole and len(whole["sources"]) == len(whole["destinations"]) == 6
        for k, l in itertools.product(range(6), range(6)):
            [route] = answer(address, "route", [places[k], places[l]], overview="false")["routes"]
            assert whole["durations"][k][l] == route["duration"] and abs(whole["distances"][k][l] - route["distance"]) < TENTH, (k, l)
        part = answer(address, "table", places, sources="0;2", destinations="5;1;1", annotations="duration")
        assert part["durations"] == [[whole["durations"][k][l] for l in (5, 1, 1)] for k in (0, 2)] and "distances" not in part
        assert [each["location"] for each in part["sources"]] == [whole["sources"][k]["location"] for k in (0, 2)]
        assert [each["location"] for each in part["destinations"]] == [whole["sources"][l]["location"] for l in (5, 1, 1)]
        part = answer(address, "table", places, sources="all", destinations="0", annotations="distance")
        assert part["distances"] == [[row[0]] for row in whole["distances"]] and "durations" not in part
        part = answer(address, "table", places, scale_factor="0.5", skip_waypoints="true")
        assert set(part) == {"code", "durations"}
        for row, all_of in zip(part["durations"], whole["durations"]):
            assert all(abs(cell - 0.5 * other) < 0.0006 for cell, other in zip(row, all_of))


def nearest_roads():
    """The nearest points of as many roads as are asked for, the nearest first, compared with all roads."""
    with service() as (_, address), chtab.Network.open(f"{here()}.gr", program=PROGRAM, load=False) as network:
        draw, roads = random.Random("nearest"), network.roads
        for _ in range(12):
            x, y = (draw.uniform(min(column) - 0.01, max(column) + 0.01) for column in zip(*three()))
            number = draw.choice((1, 2, 7, 100))
            found = answer(address, "nearest", [(x, y)], number=number)["waypoints"]
            wanted = sorted((distance_to(x, y, roads.lines.of(road).tolist()), road) for road in range(len(roads)))[:number]
            assert len(found) == number
            for waypoint, (metres, road) in zip(found, wanted):
                assert abs(waypoint["distance"] - metres) < 0.15 + metres * 1e-4, (waypoint, metres)
                assert abs(on_sphere((x, y), waypoint["location"]) - waypoint["distance"]) < 0.2
            told = [waypoint["distance"] for waypoint in found]
            assert told == sorted(told) and all(len(waypoint["nodes"]) == 2 for waypoint in found)
        assert "waypoints" not in answer(address, "nearest", three()[:1], skip_waypoints="true")


def addresses_are_read():
    """Coordinates as polylines, escapes, `.json`, and all of 500 coordinates, in their order."""
    import polyline

    swapped = [place[::-1] for place in three()]
    with service() as (_, address):
        wanted = answer(address, "route", three(), overview="full")
        plain = text_of(three())
        encoded = [
            plain + ".json", plain.replace(";", "%3B").replace(",", "%2c"), plain.replace("9", "%39") + "%2ejson", plain.replace(";", ";+"),
            f"polyline({urllib.parse.quote(polyline.encode(swapped, 5))})", f"polyline6({urllib.parse.quote(polyline.encode(swapped, 6))}).json",
            urllib.parse.quote(f"polyline6({polyline.encode(swapped, 6)})", safe=""), "9.5209,47.141;+9.545,47.22;009.6079,47.102",
        ]
        for text in encoded:
            status, value = get(address, f"/route/v1/car/{text}?overview=full")
            assert (status, value) == (200, wanted), (text, value)
        status, value = get(address, f"/route/v1/car/{plain}?over%76iew=ful%6c&steps=false")
        assert (status, value) == (200, wanted)
        assert get(address, f"/route/v1/car/{plain}?")[0] == 200
        # HTTP lets a request name the server in its address.
        assert get(address, f"http://routes.example.org/route/v1/car/{plain}?overview=full") == (200, wanted)
        nodes, many = some_nodes(500, "many")
        route = answer(address, "route", many, overview="false")
        assert len(route["routes"][0]["legs"]) == 499 and len(route["waypoints"]) == 500
        assert [leg["duration"] for leg in route["routes"][0]["legs"]] == distances(list(zip(nodes, nodes[1:])))
        status, value = get(address, f"/table/v1/car/{text_of(many)}?sources=0;499&destinations=all")
        assert status == 200 and (len(value["durations"]), len(value["durations"][1])) == (2, 500)


def trips_visit_each_place_once():
    """Each place once, in an order whose duration is the least of all where there are few, and not above that of the order given; ends as asked."""
    with service() as (_, address):
        for count, seed in (4, "four"), (6, "six"), (25, "many"):
            places = some_nodes(count, seed)[1]
            durations = answer(address, "table", places)["durations"]
            for is_round, first, last in itertools.product(("true", "false"), ("any", "first"), ("any", "last")):
                value = answer(address, "trip", places, roundtrip=is_round, source=first, destination=last, steps="true", geometries="geojson")
                order = sorted(range(count), key=lambda place: value["waypoints"][place]["waypoint_index"])
                assert sorted(waypoint["waypoint_index"] for waypoint in value["waypoints"]) == list(range(count)), "each place once"
                [trip], tour = value["trips"], order + order[:1] * (is_round == "true")
                legs = [durations[one][other] for one, other in zip(tour, tour[1:])]
                assert [leg["duration"] for leg in trip["legs"]] == legs and abs(trip["duration"] - sum(legs)) < 1e-6
                assert (first == "any" or is_round == "true" and last == "last" and order[0] == 0 or order[0] == 0) and (last == "any" or order[-1] == count - 1), order
                given = [*range(count), *([0] if is_round == "true" else [])]
                assert sum(legs) <= sum(durations[one][other] for one, other in zip(given, given[1:])) + 1e-6
                if count <= 6:
                    assert abs(sum(legs) - least_tour(durations, is_round == "true", first == "first", last == "last")) < 1e-6, (is_round, first, last)
            ends = [tuple(value["waypoints"][place]["location"]) for place in order]
            assert tuple(trip["legs"][0]["steps"][0]["maneuver"]["location"]) == ends[0]


def least_tour(durations, is_round, is_first, is_last):
    """The least duration of all orders."""
    def length(order):
        tour = [*order, order[0]] if is_round else order
        return sum(durations[one][other] for one, other in zip(tour, tour[1:]))

    count = len(durations)
    orders = itertools.permutations(range(count))
    return min(length(order) for order in orders if (not is_first or order[0] == 0) and (not is_last or order[-1] == count - 1))


def tracks_are_matched():
    """A track along a route, with places that are off by some metres, gives the roads of that route; what is told of each place fits."""
    draw = random.Random("tracks")
    with service() as (_, address):
        for seed in range(4):
            ends = some_nodes(2, seed)[1]
            [route] = answer(address, "route", ends, overview="full", geometries="geojson", annotations="nodes")["routes"]
            track = [(x + draw.gauss(0, 2) / 75_700, y + draw.gauss(0, 2) / 111_195) for x, y in along(route["geometry"]["coordinates"], 60)][:90]
            value = answer(address, "match", track, geometries="geojson", overview="full", radiuses=";".join(["8"] * len(track)), annotations="nodes")
            [matching] = value["matchings"]
            points = [point for point in value["tracepoints"] if point]
            assert len(value["tracepoints"]) == len(track) and len(points) > 0.9 * len(track) and matching["confidence"] > 0.5, (len(points), len(track))
            assert [point["waypoint_index"] for point in points] == list(range(len(points))) and len(matching["legs"]) == len(points) - 1
            for place, point in zip(track, value["tracepoints"]):
                assert point is None or abs(on_sphere(place, point["location"]) - point["distance"]) < 0.3 and point["distance"] <= 24.1
            wanted = set(route["legs"][0]["annotation"]["nodes"])
            found = [node for leg in matching["legs"] for node in leg["annotation"]["nodes"]]
            assert found and len(set(found) & wanted) >= 0.85 * len(set(found)), (seed, set(found) - wanted)


def along(line, metres):
    """Places along a line, so many metres from each other."""
    left, found = 0.0, [tuple(line[0])]
    for one, other in zip(line, line[1:]):
        length = on_sphere(one, other)
        while length and left + metres <= length:
            left += metres
            found.append((one[0] + left / length * (other[0] - one[0]), one[1] + left / length * (other[1] - one[1])))
        left -= length
    return found


def tracks_that_part():
    """A track doesn't jump a river: a place that is nearer to the road on the other side is left out, and a track that goes on there is parted. So
    is one where much time passes, unless gaps are ignored; places that say little are left out where that is asked for."""
    # Two roads along a river, 40 m apart, that meet five kilometres away.
    west, east = [(9.5, 47.1), (9.5, 47.11), (9.5, 47.15)], [(9.50053, 47.1), (9.50053, 47.11), (9.50053, 47.15)]
    pairs = [(1, 2), (2, 3), (4, 5), (5, 6), (3, 6)]
    both = [(tail, head, 60_000) for pair in pairs for tail, head in (pair, pair[::-1])]
    write_network("river", [*west, *east], both, "c Roads for cars, by hand.\nc Weights are milliseconds.\n")
    with service("river") as (_, address):
        track = [(9.50003, 47.101 + 0.0005 * place) for place in range(8)]
        stray = [*track[:4], (9.50045, track[4][1]), *track[5:]]
        value = answer(address, "match", stray, radiuses=";".join(["5"] * 8))
        [matching] = value["matchings"]
        assert value["tracepoints"][4] is None and len(matching["legs"]) == 6 and matching["distance"] < 500, value["tracepoints"]
        value = answer(address, "match", stray, radiuses=";".join(["15"] * 8))
        assert value["tracepoints"][4]["location"][0] == 9.5 and len(value["matchings"]) == 1, "the road of the places around it"
        crossing = [*track[:4], *((9.50051, y) for _, y in track[4:])]
        value = answer(address, "match", crossing, radiuses=";".join(["5"] * 8))
        assert [len(matching["legs"]) for matching in value["matchings"]] == [3, 3]
        assert [point["matchings_index"] for point in value["tracepoints"]] == [0] * 4 + [1] * 4 and [point["waypoint_index"] for point in value["tracepoints"]] == [0, 1, 2, 3] * 2
        times = ";".join(map(str, [0, 5, 10, 15, 100, 105, 110, 115]))
        assert [len(matching["legs"]) for matching in answer(address, "match", track, timestamps=times)["matchings"]] == [3, 3]
        assert [len(matching["legs"]) for matching in answer(address, "match", track, timestamps=times, gaps="ignore")["matchings"]] == [7]
        dense = [(9.50003, 47.101 + 0.00005 * place) for place in range(20)]
        points = answer(address, "match", dense, tidy="true")["tracepoints"]
        assert 4 <= sum(point is not None for point in points) < 10 and all(answer(address, "match", dense)["tracepoints"])


GROUPS = (
    ((*SERVICE, "python3-polyline"), [
        *on_all_maps(
            durations_are_those_of_the_program, routes_have_lines, steps_and_annotations, tables_have_rows_of_sources, nearest_roads,
            trips_visit_each_place_once, tracks_are_matched,
        ),
        addresses_are_read, tracks_that_part,
    ]),
)

if __name__ == "__main__":
    running.build()
    run_checks(GROUPS)
