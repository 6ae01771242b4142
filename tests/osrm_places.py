#!/usr/bin/python3
"""Tests what requests in OSRM's form say of places: in which direction one drives over them, on which side of the road they lie, which of them are
stops, how routes go on there, and what a table says where no way leads.

A check that needs a missing package is named and left out. The last line is 'N passed, N failed'.
"""
import collections
import concurrent.futures
import contextlib
import math
import random
import sys

import numpy

from helpers import running
from helpers.asking_osrm import answer, distance_to, get, on_sphere, some_nodes, text_of, write_network
from helpers.maps import town, town_at_a_cost
from helpers.packages import run_checks
from helpers.running import PROGRAM, ROOT
from helpers.serving import COUNTRY, SERVICE, here, on_all_maps, service

sys.path.insert(0, str(ROOT / "python"))

import chtab  # noqa: E402
from chtab._roads import legs  # noqa: E402
from chtab._roads.legs import FAR, table_ways  # noqa: E402
from chtab._engine import library  # noqa: E402
from chtab_server.osrm.tables import table_weights, weights_and_metres  # noqa: E402
from chtab._roads.snapping import BACKWARD, FORWARD  # noqa: E402
from chtab_server.osrm import answering, places, tables, url  # noqa: E402
from chtab_server.osrm.nearby import find_some, one_sided  # noqa: E402

# What lies between the places of a leg, as annotations name it.
PARTS = "duration", "distance", "weight", "speed", "datasources"
# Queries of tables, of which the first ones are those of small tables.
QUERIES = "", "", "annotations=duration", "skip_waypoints=true", "generate_hints=false", "sources=0", "scale_factor=2", "annotations=duration,distance", "annotations=distance"


def bearings_choose_the_way():
    """A place is left and come to in the direction that is asked for; a nearer road that leads elsewhere is passed over."""
    comments = "c Roads for cars, by hand.\nc Weights are milliseconds.\n"
    # A road from west to east, one to the north at its middle, and one way round the block from its east end back to its west end.
    nodes = [(9.5, 47.1), (9.505, 47.1), (9.51, 47.1), (9.505, 47.11)]
    both = [(1, 2, 10_000), (2, 1, 10_000), (2, 3, 10_000), (3, 2, 10_000), (2, 4, 20_000), (4, 2, 20_000)]
    write_network("bearings", nodes, [*both, (3, 1, 30_000)], comments)
    with service("bearings") as (_, address):
        start, goal = (9.5025, 47.1), (9.5005, 47.1)
        plain, east, west = (
            answer(address, "route", [start, goal], **({"bearings": f"{bearing},30;"} if bearing else {}), overview="full", geometries="geojson")["routes"][0]
            for bearing in ("", "90", "270")
        )
        assert plain["duration"] == west["duration"] == 4 and east["duration"] == 14, (plain["duration"], west["duration"], east["duration"])
        assert east["geometry"]["coordinates"][1][0] > 9.5025 > west["geometry"]["coordinates"][1][0]
        into = answer(address, "route", [start, goal], bearings=";90,30")["routes"][0]
        assert into["duration"] == 6, "the goal is come to from the west"
        near = (9.5049, 47.1003)
        for bearing, place in ("90,20", (9.5049, 47.1)), ("0,20", (9.505, 47.1003)), ("180,20", (9.505, 47.1003)), ("0,180", (9.505, 47.1003)):
            [waypoint] = answer(address, "nearest", [near], bearings=bearing)["waypoints"]
            assert on_sphere(waypoint["location"], place) < 1, (bearing, waypoint)
        assert get(address, "/nearest/v1/car/9.5049,47.1003?bearings=45,5")[1]["code"] == "NoSegment"
        assert get(address, "/nearest/v1/car/9.5049,47.1003?bearings=90,20&radiuses=5")[1]["code"] == "NoSegment"
        table = answer(address, "table", [start, goal], bearings="90,30;")
        assert table["durations"][0][1] == east["duration"] and table["durations"][1][0] > 0


def bearings_hold_where_turns_are_forbidden():
    """Each answer to a place with a bearing: a route leaves it and comes to it about so, and is as long as the table says, also between roads with
    several nodes at an end."""
    draw, known, seen = random.Random("bearings"), some_nodes(60, "bearings")[1], 0
    with service() as (_, address), chtab.Network.open(f"{here()}.gr", program=PROGRAM, load=False) as network:
        bends = set(map(tuple, network.roads.lines.places.round(6).tolist()))
        for _ in range(90):
            places = [tuple(part + draw.gauss(0, 0.0003) for part in place) for place in draw.sample(known, 2)]
            bearings = [draw.randrange(360) for _ in places]
            words = ";".join(f"{bearing},60" for bearing in bearings)
            status, value = get(address, f"/route/v1/car/{text_of(places)}?bearings={words}&steps=true&overview=full&geometries=geojson")
            assert status == 200 or value["code"] in ("NoRoute", "NoSegment"), value
            for place, bearing in zip(places, bearings):
                assert get(address, f"/nearest/v1/car/{text_of([place])}?bearings={bearing},60")[0] == 200
            if status == 200:
                [leg] = value["routes"][0]["legs"]
                told = leg["steps"][0]["maneuver"]["bearing_after"], leg["steps"][-1]["maneuver"]["bearing_before"]
                for waypoint, one, other in zip(value["waypoints"], told, bearings):
                    # At a bend, or at an end of its road, nothing is left of what leads there.
                    if leg["distance"] > 1 and tuple(waypoint["location"]) not in bends:
                        assert abs((one - other + 180) % 360 - 180) <= 62, (told, bearings, value["waypoints"])
                        seen += 1
                assert answer(address, "table", places, bearings=words)["durations"][0][1] == value["routes"][0]["duration"]
    assert seen > 60, seen


def routes_go_straight_on_at_stops():
    """At a stop in the middle of a road a route goes on as it came, by default too; it may turn round there where it is allowed to, or has to. The
    duration is the least of those that come to the stop and leave it in one direction, which tables with bearings have."""
    comments = "c Roads for cars, by hand.\nc Weights are milliseconds.\n"
    # A road from west to east, and one way round the block from its east end back to its west end.
    nodes = [(9.5, 47.1), (9.51, 47.1), (9.52, 47.1), (9.51, 47.2)]
    arcs_there = [(1, 2, 10_000), (2, 1, 10_000), (2, 3, 10_000), (3, 2, 10_000), (3, 4, 45_000), (4, 1, 45_000)]
    write_network("straight", nodes, arcs_there, comments)
    places = [(9.501, 47.1), (9.505, 47.1), (9.501, 47.1)]
    with service("straight") as (_, address):
        for word, seconds in ("true", 18), ("default", 18), ("false", 8):
            [route] = answer(address, "route", places, continue_straight=word)["routes"]
            assert route["duration"] == seconds, (word, route["duration"])
    write_network("closed", nodes[:2], [(1, 2, 10_000), (2, 1, 10_000)], comments.replace("cars", "bicycles"))
    with service("closed") as (_, address):
        for word, seconds in ("true", 18), ("default", 8), ("false", 8):
            assert answer(address, "route", places, continue_straight=word)["routes"][0]["duration"] == seconds, word
    draw, seen, known = random.Random("straight on"), 0, some_nodes(60, "stops")[1]
    with service() as (_, address), chtab.Network.open(f"{here()}.gr", program=PROGRAM, load=False) as network:
        for _ in range(120):
            stops = [tuple(part + draw.gauss(0, 0.0004) for part in place) for place in draw.sample(known, 3)]
            seen += is_least_of_directions(address, network, stops)
    assert seen > 60, seen


def is_least_of_directions(address, network, stops):
    """Compares a route over a stop with the ways to it and from it in each direction; whether both directions are known."""
    status, value = get(address, f"/route/v1/car/{text_of(stops)}")
    spot = network.roads.find_any([round(stops[1][0], 6)], [round(stops[1][1], 6)])
    if status != 200 or spot.parts[0] in (0, 1):
        return False
    [along] = answer(address, "route", stops[1:], steps="true")["routes"]
    ahead, wanted = along["legs"][0]["steps"][0]["maneuver"]["bearing_after"], []
    for bearing in ahead, (ahead + 180) % 360:
        status, near = get(address, f"/nearest/v1/car/{text_of(stops[1:2])}?bearings={bearing},12")
        if status == 200 and near["waypoints"][0]["location"] != value["waypoints"][1]["location"]:
            return False
        if status == 200:
            cells = answer(address, "table", stops, bearings=f";{bearing},12;")["durations"]
            wanted += [cells[0][1] + cells[1][2]] if None not in (cells[0][1], cells[1][2]) else []
    assert not wanted or abs(min(wanted) - value["routes"][0]["duration"]) < 0.0025, (stops, wanted, value["routes"][0]["duration"])
    return bool(wanted)


def legs_lead_between_waypoints():
    """The coordinates that are no waypoints are passed all the same: the legs on both sides are one, with what lies along both."""
    draw, known = random.Random("waypoints"), some_nodes(40, "waypoints")[1]
    with service() as (_, address):
        for _ in range(12):
            places = [tuple(part + draw.gauss(0, 0.0003) for part in place) for place in draw.sample(known, 4)]
            words = {"annotations": "true", "overview": "full", "geometries": "geojson"}
            every, some = (answer(address, "route", places, **words, **more) for more in ({}, {"waypoints": "3;0;2"}))
            [one], [other] = every["routes"], some["routes"]
            assert all(one[name] == other[name] for name in ("duration", "distance", "geometry")) and other["legs"][1] == one["legs"][2]
            assert some["waypoints"] == [every["waypoints"][place] for place in (0, 2, 3)] and len(other["legs"]) == 2
            first, second, both = one["legs"][0]["annotation"], one["legs"][1]["annotation"], other["legs"][0]["annotation"]
            assert all(both[name] == first[name] + second[name] for name in PARTS) and len(both["nodes"]) == len(both["speed"]) + 1
            at = len(first["nodes"]) - 1
            assert both["nodes"][:at] + both["nodes"][at + 1:] == first["nodes"][:-1] + second["nodes"][1:]
            assert abs(other["legs"][0]["duration"] - sum(leg["duration"] for leg in one["legs"][:2])) < 1e-6


def tracks_have_legs_between_waypoints():
    """The legs of a matched track between two waypoints are one, and only waypoints are numbered; a
    waypoint that no road leads along is told."""
    draw = random.Random("waypoints of tracks")
    with service() as (_, address):
        for seed in range(4):
            ends = some_nodes(2, seed)[1]
            words = {"overview": "full", "geometries": "geojson"}
            line = answer(address, "route", ends, **words)["routes"][0]["geometry"]["coordinates"]
            track = line[::max(len(line) // 30, 1)][:40]
            track = [(x + draw.gauss(0, 1) / 75_700, y + draw.gauss(0, 1) / 111_195) for x, y in track]
            words |= {"radiuses": ";".join(["8"] * len(track)), "annotations": "true"}
            every = answer(address, "match", track, **words)
            used = [place for place, point in enumerate(every["tracepoints"]) if point]
            middle = used[len(used) // 2]
            if used[0] or used[-1] != len(track) - 1 or len(every["matchings"]) > 1:
                continue
            some = answer(address, "match", track, **words, waypoints=f"0;{middle};{len(track) - 1}")
            [one], [other] = every["matchings"], some["matchings"]
            at = every["tracepoints"][middle]["waypoint_index"]
            cuts = (0, at, len(one["legs"]))
            assert len(other["legs"]) == 2 and other["duration"] == one["duration"]
            for leg, first, last in zip(other["legs"], cuts, cuts[1:]):
                parts = one["legs"][first:last]
                assert abs(leg["duration"] - sum(part["duration"] for part in parts)) < 1e-6
                for name in "duration", "distance", "speed":
                    told = [each for part in parts for each in part["annotation"][name]]
                    assert leg["annotation"][name] == told, name
            told = [point and point["waypoint_index"] for point in some["tracepoints"]]
            assert [(place, rank) for place, rank in enumerate(told) if rank is not None] == [
                (0, 0), (middle, 1), (len(track) - 1, 2)
            ], told
            track[middle] = track[middle][0], track[middle][1] + 1
            status, value = get(address, f"/match/v1/car/{text_of(track)}?waypoints=0;{middle};{len(track) - 1}")
            assert (status, value["code"]) == (400, "NoMatch"), value
            return
        raise AssertionError("no track was matched whole")


def tracks_keep_to_their_directions():
    """A track between two one-way roads, which says of its places in which direction they were
    passed, is on the road that leads there, also where the other one is nearer."""
    nodes = [(9.5, 47.1), (9.52, 47.1), (9.52, 47.1001), (9.5, 47.1001)]
    ring = [(1, 2, 90_000), (2, 3, 1_000), (3, 4, 90_000), (4, 1, 1_000)]
    write_network("sides", nodes, ring, "c Roads for cars, by hand.\nc Weights are milliseconds.\n")
    with service("sides") as (_, address):
        for track in [(9.51, 47.10006)] * 2, [(9.51, 47.10006)] * 3:
            for bearing, latitude in ("", 47.1001), ("90,30", 47.1), ("270,30", 47.1001):
                asked = ";".join([bearing] * len(track))
                points = answer(address, "match", track, bearings=asked)["tracepoints"]
                found = {point["location"][1] for point in points}
                assert found == {latitude}, (bearing, points)
            path = f"/match/v1/car/{text_of(track)}?bearings={';'.join(['0,30'] * len(track))}"
            assert get(address, path)[1]["code"] == "NoMatch", path


def places_at_the_curb():
    """A place is left, and come to, on the side of the road where it lies; one on the line on both, and one at a one-way road as the road leads."""
    comments = "c Roads for cars, by hand.\nc Weights are milliseconds.\n"
    nodes, there = [(9.5, 47.1), (9.51, 47.1), (9.52, 47.1), (9.51, 47.2)], [(1, 2, 10_000), (2, 1, 10_000), (2, 3, 10_000), (3, 2, 10_000)]
    write_network("curb", nodes, there, comments)
    write_network("way", nodes, [(1, 2, 10_000), (2, 3, 10_000), (3, 4, 90_000), (4, 1, 90_000)], comments)
    south, north, on, goal = (9.505, 47.09995), (9.505, 47.10005), (9.505, 47.1), (9.5199, 47.1)
    with service("curb") as (_, address):
        for place, seconds, back in (south, 14.9, 24.9), (north, 24.9, 14.9), (on, 14.9, 14.9):
            table = answer(address, "table", [place, goal], approaches="curb;unrestricted")["durations"]
            assert (table[0][1], table[1][0]) == (seconds, back), (place, table)
            [route] = answer(address, "route", [place, goal], approaches="curb;")["routes"]
            assert route["duration"] == seconds
        assert answer(address, "table", [north, goal], approaches=";curb")["durations"][0][1] == 14.9
        assert get(address, f"/route/v1/car/{text_of([north, goal])}?approaches=curb;&bearings=90,20;")[1]["code"] == "NoSegment"
        assert answer(address, "route", [south, goal], approaches="curb;", bearings="90,20;")["routes"][0]["duration"] == 14.9
        assert answer(address, "nearest", [north], approaches="curb")["waypoints"][0]["location"] == [9.505, 47.1]
    with service("way") as (_, address):
        assert [answer(address, "table", [place, goal], approaches="curb;")["durations"][0][1] for place in (north, south)] == [14.9, 14.9]


def cells_without_a_way_are_filled():
    """By the straight line and the speed that is asked for, between the coordinates or the roads; others are as ever, and the filled ones are listed."""
    write_network("apart", [(9.5, 47.1), (9.51, 47.1), (9.6, 47.1), (9.61, 47.1)], [(1, 2, 5_000), (3, 4, 6_000), (4, 3, 6_000)], "c Weights are milliseconds.\n")
    places = [(9.5, 47.1001), (9.51, 47.1), (9.6, 47.1)]
    with service("apart") as (_, address):
        plain = answer(address, "table", places, annotations="duration,distance")
        assert plain["durations"] == [[0, 5, None], [None, 0, None], [None, None, 0]] and "fallback_speed_cells" not in plain
        for word, ends in ("input", places), ("snapped", [each["location"] for each in plain["sources"]]):
            found = answer(address, "table", places, annotations="duration,distance", fallback_speed=20, fallback_coordinate=word)
            assert found["fallback_speed_cells"] == [[0, 2], [1, 0], [1, 2], [2, 0], [2, 1]] and found["durations"][0][1] == 5, found
            for k, l in found["fallback_speed_cells"]:
                metres = on_sphere(ends[k], ends[l])
                assert abs(found["distances"][k][l] - metres) < 0.2 and abs(found["durations"][k][l] - metres / 20) < 0.02, (k, l, metres, found)
        found = answer(address, "table", places, fallback_speed=20, scale_factor=2, sources="1", destinations="0;1")
        assert found["fallback_speed_cells"] == [[0, 0]] and abs(found["durations"][0][0] - 2 * on_sphere(*places[:2]) / 20) < 0.02, found
        assert answer(address, "table", places[:2], fallback_speed=20, sources="0")["fallback_speed_cells"] == []


def nearest_roads_that_lead_in_a_direction():
    """As many as are asked for, the nearest first, and each a road that leads there: those that the one nearest road with that bearing gives in turn."""
    draw = random.Random("directions")
    with service() as (_, address), chtab.Network.open(f"{here()}.gr", program=PROGRAM, load=False) as network:
        for _ in range(12):
            x, y = (part + draw.gauss(0, 0.0005) for part in draw.choice(some_nodes(30, "directions")[1]))
            x, y, bearing = round(x, 6), round(y, 6), draw.randrange(360)
            found = answer(address, "nearest", [(x, y)], number=5, bearings=f"{bearing},25")["waypoints"]
            told = [waypoint["distance"] for waypoint in found]
            assert told == sorted(told) and len(found) == 5
            assert found[0] == answer(address, "nearest", [(x, y)], bearings=f"{bearing},25")["waypoints"][0]
            for waypoint in found:
                assert abs(on_sphere((x, y), waypoint["location"]) - waypoint["distance"]) < 0.2
                assert leads(network, waypoint["location"], bearing, 26), (waypoint, bearing)


def leads(network, place, bearing, within):
    """Whether a road leads in a direction at a place on it."""
    spots = find_some(network.roads, *place, 6)
    for road in spots.roads[spots.metres < 0.5].tolist():
        line = network.roads.lines.of(road).tolist()
        for one, other in zip(line, line[1:]):
            if distance_to(*place, [one, other]) < 0.5:
                east, north = (other[0] - one[0]) * math.cos(math.radians(place[1])), other[1] - one[1]
                ahead = math.degrees(math.atan2(east, north))
                ways = [ahead] * (network.roads.forward[road] >= 0) + [ahead + 180] * (network.roads.backward[road] >= 0)
                if any(abs((way - bearing + 180) % 360 - 180) <= within for way in ways):
                    return True
    return False


def short_roads_have_two_ends():
    """On a road of less than two metres a place is at the end that is nearer, wherever the road begins."""
    nodes = [(9.5, 47.1), (9.500006, 47.1), (9.51, 47.1), (9.49, 47.1)]
    both = [(1, 2, 700), (2, 1, 700), (2, 3, 60_000), (3, 2, 60_000), (1, 4, 60_000), (4, 1, 60_000)]
    write_network("short", nodes, both, "c Roads for cars, by hand.\nc Weights are milliseconds.\n")
    with service("short") as (_, address):
        for place, far, near in (nodes[1], nodes[3], nodes[2]), (nodes[0], nodes[2], nodes[3]):
            durations = answer(address, "table", [place, far, near], sources="0")["durations"][0]
            assert durations == [0, 60.7, 60], (place, durations)


def drawn_coordinates(draw, known, count):
    """Coordinates at nodes, near them and farther from them, some of them twice."""
    found = [
        tuple(round(part + draw.gauss(0, draw.choice((0, 2e-6, 2e-4, 3e-3))), 6) for part in place)
        for place in draw.choices(known, k=count)
    ]
    return [*found, *draw.choices(found, k=draw.choice((0, 0, 2)))]


def places_that_are_kept_change_no_answer():
    """Answers by places that are kept, and that are found anew once there are too many, are those
    of a service that was never asked before; also where several threads ask."""
    draw = random.Random("kept places")
    for out in COUNTRY, town(), town_at_a_cost():
        with chtab.Network.open(f"{out}.gr", program=PROGRAM) as network:
            coordinates = network.coordinates
            known = [coordinates.of(node) for node in draw.sample(coordinates.known(), 30)]
            targets = [drawn_target(draw, known) for _ in range(150)]
            before = [answered(answering.Answers(network), target) for target in targets]
            asked = sorted([*range(len(targets))] * 3, key=lambda _: draw.random())
            most, places.MOST = places.MOST, 40
            try:
                few = answering.Answers(network)
            finally:
                places.MOST = most
            for answers in answering.Answers(network), few:
                with concurrent.futures.ThreadPoolExecutor(4) as threads:
                    found = threads.map(lambda place: answered(answers, targets[place]), asked)
                    for place, text in zip(asked, found, strict=True):
                        assert text == before[place], (out, targets[place], text, before[place])
            assert len(few.places.rows) < 80 and {text[:9] for text in before} >= {'{"code": '}
            # Routes with lines and without are answered together, each in its place.
            own = [place for place, target in enumerate(targets) if target.startswith("/route/")]
            asked = [few.question(url.words_of(targets[place], 1 << 16)) for place in own]
            assert list(map(str, few.routes(asked))) == [before[place] for place in own], out


def drawn_target(draw, known):
    """The target of a request for a table, a route or the nearest road, some with options that take
    places to other spots than those that are kept."""
    asked = ("table", 9), ("table", 3), ("route", 2), ("route", 4), ("nearest", 1)
    name, count = draw.choice(asked)
    chosen = drawn_coordinates(draw, known, count)[:1 if name == "nearest" else None]
    query = {
        "table": ("annotations=duration,distance", ""), "route": ("overview=false", "steps=true"),
    }
    words = [draw.choice(query.get(name, ("",)))]
    if draw.random() < 0.3:
        words.append("bearings=" + ";".join(draw.choice(("", "90,90", "200,60")) for _ in chosen))
    if draw.random() < 0.3:
        words.append("approaches=" + ";".join(draw.choice(("", "curb")) for _ in chosen))
    return f"/{name}/v1/x/{text_of(chosen)}?{'&'.join(filter(None, words))}"


def answered(answers, target):
    """The answer to a request, or the refusal, as a text."""
    question = answers.question(url.words_of(target, 1 << 16))
    call = {"table": answers.tables, "route": answers.routes, "nearest": answers.nearest_ones}
    [found] = call[question.service]([question])
    return str(found)


def small_tables_are_those_of_large_ones():
    """The weights and the metres of small tables are found in another way than those of large ones:
    cell by cell they are the same, also on one road, at nodes, where no way leads, and from spots
    that are left in one direction alone."""
    draw = random.Random("small tables")
    for out in COUNTRY, town(), town_at_a_cost():
        with chtab.Network.open(f"{out}.gr", program=PROGRAM) as network:
            known, seen = [network.coordinates.of(node) for node in network.coordinates.known()], 0
            for _ in range(150):
                near = draw.choice((known, draw.choices(known, k=2)))
                drawn = [drawn_coordinates(draw, near, draw.choice((1, 3, 9))) for _ in range(2)]
                spots = [network.roads.find_any(*zip(*each)) for each in drawn]
                if draw.random() < 0.3:
                    sides = [draw.choice((FORWARD, BACKWARD, 3)) for _ in spots[0].roads]
                    spots[0] = one_sided(spots[0], numpy.array(sides))
                starts, ends = spots if draw.random() < 0.6 else spots[:1] * 2
                within = draw.choice((None, 100_000))
                small = table_ways(network._trips, starts, ends, within)
                weights = table_weights(network._trips, starts, ends)
                _, metres = weights_and_metres(network._trips, starts, ends)
                few, legs.FEW, tables.MOST, most = legs.FEW, 0, draw.choice((1, 60, 5_000)), tables.MOST
                try:
                    large = table_ways(network._trips, starts, ends, within)
                    least, _ = table_ways(network._trips, starts, ends)
                    found = weights_and_metres(network._trips, starts, ends)
                finally:
                    legs.FEW, tables.MOST = few, most
                assert (found[0] == least).all() and (found[1] == metres).all(), (out, starts, ends)
                assert (small[0] == large[0]).all(), (out, starts, ends)
                assert (weights == least).all(), (out, starts, ends)
                is_way = small[0] < FAR
                assert (small[1] == large[1])[is_way].all(), (out, starts, ends, small, large)
                seen += (least == FAR).any() + 1j * (starts is ends)
            assert seen.real > 0 and seen.imag > 20, seen


@contextlib.contextmanager
def counted():
    """Counts the calls of the library within, and the searches that these take: one from each
    source and each target of a table, and two for each pair."""
    counts, before = collections.Counter(), (library.Handle.ask, library.Handle.few_distances)

    def ask(handle, call, *given):
        name, lengths = call.__name__, [each[1] for each in given if type(each) is tuple]
        if name == "chtab_keep_values":
            return before[0](handle, call, *given)
        assert name in ("chtab_table", "chtab_kept_table_sums", "chtab_distances", "chtab_route_sums"), name
        counts.update(calls=1, searches=lengths[0] + lengths[1], pairs=0 if "table" in name else lengths[0])
        return before[0](handle, call, *given)

    def few_distances(handle, sources, targets):
        counts.update(calls=1, searches=2 * len(sources), pairs=len(sources))
        return before[1](handle, sources, targets)

    library.Handle.ask, library.Handle.few_distances = ask, few_distances
    try:
        yield counts
    finally:
        library.Handle.ask, library.Handle.few_distances = before


def distances_of_tables_take_no_searches():
    """A table with distances makes as many calls of the library, and as many searches, as one
    without, whatever its size: none for a cell."""
    draw = random.Random("counted")
    for out in COUNTRY, town(), town_at_a_cost():
        with chtab.Network.open(f"{out}.gr", program=PROGRAM) as network:
            known = [network.coordinates.of(node) for node in network.coordinates.known()]
            answers = answering.Answers(network)
            network.trip_table(*[network.snap(*zip(*known[:2]))] * 2)
            for rows, columns in (1, 1), (2, 3), (3, 2), (25, 25), (20, 60), (64, 64), (70, 66), (3, 90), (100, 100):
                chosen = text_of(drawn_coordinates(draw, known, rows + columns)[:rows + columns])
                lists = ";".join(map(str, range(rows))), ";".join(map(str, range(rows, rows + columns)))
                for more in "", "&sources={}&destinations={}".format(*lists):
                    if not more and (rows + columns)**2 > 10_000:
                        continue
                    found = []
                    for words in "duration", "duration,distance", "distance":
                        target = f"/table/v1/x/{chosen}?annotations={words}{more}"
                        question = answers.question(url.words_of(target, 1 << 16))
                        with counted() as counts:
                            answers.tables([question] * 3)
                        found.append(counts)
                    assert found[0] == found[1] == found[2], (out, rows, columns, found)
                    assert 3 <= found[0]["calls"] <= 6 and not found[0]["pairs"], found
                    width = network.roads.ways.nodes.shape[1]
                    assert found[0]["searches"] <= 3 * width * 2 * (rows + columns), found


def tables_that_are_answered_together_are_those_of_each():
    """Small tables that are answered together are those that are answered alone, each in its place
    and byte by byte; also beside others, with places twice, on one road, and without a way."""
    draw, nulls = random.Random("tables together"), 0
    ring = [(9.5, 47.1), (9.51, 47.1), (9.51, 47.11), (9.5, 47.11)]
    arcs = [(node, node % 4 + 1, 10_000 * node) for node in range(1, 5)]
    arcs += [(head + 4, tail + 4, weight) for tail, head, weight in arcs] + [(2, 5, 7)]
    comments = "c Roads for cars, by hand.\nc Weights are milliseconds.\n"
    write_network("apart", [*ring, *((x + 0.02, y) for x, y in ring)], arcs, comments)
    for out in COUNTRY, town(), town_at_a_cost(), "apart":
        with chtab.Network.open(f"{out}.gr", program=PROGRAM) as network:
            known = [network.coordinates.of(node) for node in network.coordinates.known()]
            answers, targets = answering.Answers(network), []
            for _ in range(120):
                near = draw.choice((known, draw.choices(known, k=2)))
                chosen = text_of(drawn_coordinates(draw, near, draw.choice((2, 3, 3, 9))))
                targets.append(f"/table/v1/x/{chosen}?{draw.choice(QUERIES)}".rstrip("?"))
            questions = [answers.question(url.words_of(target, 1 << 16)) for target in targets]
            alone = [str(answers.tables([question])[0]) for question in questions]
            for first in 0, 40, 80:
                some = slice(first, first + 40)
                found = list(map(str, answers.tables(questions[some])))
                assert found == alone[some], (out, targets[some], found, alone[some])
            assert 40 < sum(map(answers.is_small, questions)) < 110
            nulls += sum("null" in text for text in alone)
    assert nulls > 0, "no way leads between some places"


GROUPS = (
    (SERVICE, [
        places_that_are_kept_change_no_answer, small_tables_are_those_of_large_ones,
        distances_of_tables_take_no_searches,
        tables_that_are_answered_together_are_those_of_each,
        bearings_choose_the_way, tracks_keep_to_their_directions, places_at_the_curb,
        cells_without_a_way_are_filled, short_roads_have_two_ends,
        *on_all_maps(
            bearings_hold_where_turns_are_forbidden, routes_go_straight_on_at_stops, legs_lead_between_waypoints, nearest_roads_that_lead_in_a_direction,
            tracks_have_legs_between_waypoints,
        ),
    ]),
)

if __name__ == "__main__":
    running.build()
    run_checks(GROUPS)
