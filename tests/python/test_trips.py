"""Tests trips between places beside roads, and reach, by the Python package and its commands."""
import itertools
import json
import math
import pathlib
import random

from helpers.commands import command, raises
from helpers.maps import COUNTRY, random_map
from helpers.running import PROGRAM
from helpers.writing import write_graph
from helpers.science import numpy
from shapely.geometry import MultiPoint, Point, shape
from oracles import mapping
import chtab
from chtab import files

VADUZ, MALBUN, RUGGELL = (9.5209, 47.1410), (9.6079, 47.1020), (9.5280, 47.2390)


def test_places_on_one_road_and_past_it():
    """A one-way road and one of both directions, by hand; places that are too far away, or swapped, are refused."""
    degree = 1 / 111_195
    write_graph("road.gr", 3, [(1, 2, 1000), (2, 3, 1000), (3, 2, 3000)])
    files.write_coordinates("road.co", [(0, 0), (1000 * degree, 0), (2000 * degree, 0)])
    with chtab.Network.open("road.gr", program=PROGRAM) as network:
        spots = network.snap([200 * degree, 600 * degree, 1500 * degree, 0.0, 1750 * degree], [10 * degree, 0.0, 0.0, 0.0, 0.0])
        assert spots.metres.round().tolist() == [10, 0, 0, 0, 0]
        table = network.trip_table(spots, spots).tolist()
        near = [[0, 400, 1300, -1, 1550], [-1, 0, 900, -1, 1150], [-1, -1, 0, -1, 250], [200, 600, 1500, 0, 1750], [-1, -1, 750, -1, 0]]
        assert all(abs(a - b) <= 1 for row, wanted in zip(table, near) for a, b in zip(row, wanted)), table
        pairs = [(a, b) for a in range(5) for b in range(5)]
        starts, ends = (spots[list(part)] for part in zip(*pairs))
        assert network.trips(starts, ends).reshape(5, 5).tolist() == table
        assert [trip.line is None for trip in network.trip_routes(starts, ends)] == [weight < 0 for row in table for weight in row]
        # From the third and the fifth spot, each node is reached sooner by another end of the road.
        owed = [[-1, 800, 1800], [-1, 400, 1400], [-1, 1500, 500], [0, 1000, 2000], [-1, 2250, 250]]
        reached = [network.reach(spots[place:place + 1]).tolist() for place in range(5)]
        assert all(abs(a - b) <= 1 for row, wanted in zip(reached, owed) for a, b in zip(row, wanted)), reached
        raises(chtab.TooFar, network.snap, [0.0], [0.02], told="0.020000 is 2.2 km from the nearest road, more than 1 km; longitude comes first")
        assert network.snap([0.0], [0.02], 3_000).metres.round().tolist() == [2224]


def test_reach_is_where_its_nodes_are():
    """Polygons of reach have all nodes that are reached, but for their smoothed corners, and few others. It starts at one spot, and has limits."""
    with chtab.Network.open(f"{COUNTRY}.gr", program=PROGRAM) as network:
        spots = network.snap(*zip(VADUZ, MALBUN))
        times = network.reach(spots[0], 600_000)
        found = network.isochrones(spots[0], [300_000, 600_000])["features"]
        assert [each["properties"]["limit"] for each in found] == [600_000, 300_000]
        outer, inner = (shape(each["geometry"]).buffer(0) for each in found)
        assert outer.is_valid and inner.is_valid and inner.difference(outer).area < 0.01 * inner.area
        for limit, area in (600_000, outer), (300_000, inner):
            inside = MultiPoint(network.roads.places[(times >= 0) & (times <= limit)].tolist())
            assert sum(area.buffer(0.0006).contains(place) for place in inside.geoms) == len(inside.geoms)
        assert outer.contains(Point(VADUZ)) and not outer.contains(Point(RUGGELL))
        raises(ValueError, network.isochrones, spots[0], [], told="limit")
        for within in -1, 2**60 + 1, math.nan:
            raises(ValueError, network.reach, spots[0], within, told="from 0 to 2^60")
        for some in spots, spots[:0]:
            for call in lambda spot: network.isochrones(spot, [1000]), network.reach:
                raises(ValueError, call, some, told=f"one spot, not at {len(some)}")


def crossings():
    """The graph of crossings with bends."""
    command("osm_to_gr", "--quiet", "--bends", f"{COUNTRY}.osm.bz2", "crossings")
    return files.read_graph("crossings.gr"), files.read_coordinates("crossings.co"), files.read_bends("crossings.bends")


def lines_of_arcs(graph, coordinates, bends):
    """The places of each arc, by plain Python."""
    return [[coordinates.of(tail), *bends.get(arc, ()), coordinates.of(head)] for arc, (tail, head) in enumerate(zip(graph.tails, graph.heads))]


def metres_of(places, others):
    """By the haversine formula, in plain Python."""
    (x, y), (u, v) = ([math.radians(part) for part in place] for place in (places, others))
    return 2 * 6_371_008.8 * math.asin(math.sqrt(math.sin((v - y) / 2) ** 2 + math.cos(y) * math.cos(v) * math.sin((u - x) / 2) ** 2))


def test_places_are_taken_to_the_nearest_road():
    """Places near roads and far from them, against a search through all pieces of all roads."""
    graph, coordinates, bends = crossings()
    pieces = numpy.array([[*a, *b] for line in lines_of_arcs(graph, coordinates, bends) for a, b in zip(line, line[1:])])
    draw = random.Random("nearest roads")
    wanted = [(draw.uniform(9.47, 9.63), draw.uniform(47.05, 47.27)) for _ in range(300)] + [(-170.0, 12.0), (9.5, 89.99), (0.0, -90.0)]
    with chtab.Network.open("crossings.gr", program=PROGRAM, load=False) as network:
        found = network.roads.find_any(*zip(*wanted)).metres.tolist()

    def plane(xs, ys):
        ys = numpy.clip(ys, -89.9, 89.9)
        return numpy.column_stack([numpy.radians(xs), numpy.arcsinh(numpy.tan(numpy.radians(ys)))])

    starts, stops = plane(*pieces[:, :2].T), plane(*pieces[:, 2:].T)
    ways = stops - starts
    for (x, y), metres in zip(wanted, found):
        off = plane([x], [y]) - starts
        share = numpy.clip((off * ways).sum(axis=1) / numpy.maximum((ways * ways).sum(axis=1), 1e-300), 0, 1)
        apart = numpy.hypot(*(off - ways * share[:, None]).T)
        best = apart.argmin()
        u, v = starts[best] + ways[best] * share[best]
        least = metres_of((x, y), (math.degrees(u), math.degrees(math.atan(math.sinh(v)))))
        assert abs(metres - least) < 0.01 + 1e-6 * least, (x, y, metres, least)


def test_routes_follow_the_bends_of_their_roads():
    """Routes between nodes as GeoJSON, against the lines of their arcs one after the other; and without a file of bends from node to node."""
    graph, coordinates, bends = crossings()
    lines, longer = {}, 0
    for line, *arc in zip(lines_of_arcs(graph, coordinates, bends), graph.tails, graph.heads, graph.weights):
        lines.setdefault(tuple(arc), line)
    pairs = numpy.random.default_rng(3).integers(1, graph.nodes + 1, (60, 2))
    with chtab.Network.open("crossings.gr", program=PROGRAM) as network:
        routes = [each for each in network.routes(pairs) if each.nodes]
        features = network.routes(pairs).to_geojson()["features"]
        assert len(features) == len(routes) > 50
        for each, feature in zip(routes, features):
            wanted = [coordinates.of(each.nodes[0])]
            for arc in zip(each.nodes, each.nodes[1:], each.weights):
                wanted += [place for place in lines[arc] if place != wanted[-1]]
            found = list(map(tuple, feature["geometry"]["coordinates"]))
            assert found == (wanted if len(wanted) > 1 else wanted * 2), (each.source, each.target)
            longer += len(wanted) > len(each.nodes)
        assert longer > 50
    pathlib.Path("crossings.bends").unlink()
    with chtab.Network.open("crossings.gr", program=PROGRAM) as network:
        [feature] = network.routes(pairs[:1]).to_geojson()["features"]
        assert len(feature["geometry"]["coordinates"]) == len(network.routes(pairs[:1])[0].nodes)


def test_reach_within_a_limit_leaves_out_nothing():
    """What is reached within a limit is all that a search without a limit finds so near. Also where a road takes no time, and where a node has no
    place."""
    graph, places = files.read_graph(f"{COUNTRY}.gr"), pathlib.Path(f"{COUNTRY}.co").read_text().splitlines(keepends=True)
    roads = list(zip(*graph[1:4]))
    quick, blank = [*roads[1:], (*roads[0][:2], 0)], [line for line in places if not line.startswith("v 1500 ")]
    for arcs, lines in (roads, places), (quick, places), (roads, blank):
        write_graph("own.gr", graph.nodes, arcs)
        pathlib.Path("own.co").write_text("".join(lines))
        with chtab.Network.open("own.gr", program=PROGRAM) as network:
            spot = network.snap(*VADUZ)
            whole = network.reach(spot)
            for limit in 0, 1, 60_000, 300_000, 600_000, 2_000_000, 2**60:
                assert numpy.array_equal(network.reach(spot, limit), numpy.where(whole <= limit, whole, -1)), limit


def test_commands_tell_trips_and_reach():
    """The commands `trips` and `reach` write what the package finds, and refuse what lies nowhere near."""
    places, swapped = "9.5209 47.1410 Vaduz\n9.6079 47.1020 Malbun\n9.5280 47.2390 Ruggell\n9.5020 47.0660\n", "47.1410 9.5209 Vaduz\n47.1 9.5\n"
    words = "--program", PROGRAM, COUNTRY
    with chtab.Network.open(f"{COUNTRY}.gr", program=PROGRAM) as network:
        spots = network.snap(*zip(VADUZ, MALBUN, RUGGELL, (9.5020, 47.0660)))
        table, metres = network.trip_table(spots, spots), spots.metres.round().astype(int)
        limits = [feature["geometry"] for feature in network.isochrones(spots[:1], [60_000, 300_000])["features"]]
    told = [f"Vaduz,Malbun,{table[0, 1]},{metres[0]},{metres[1]}", f"Ruggell,9.502 47.066,{table[2, 3]},{metres[2]},{metres[3]}"]
    assert command("trips", *words, text=places).splitlines() == ["from,to,weight,from_metres,to_metres", *told]
    names = ["Vaduz", "Malbun", "Ruggell", "9.502 47.066"]
    rows = [",".join(map(str, row)) for row in (["source", *names], *([name, *row] for name, row in zip(names, table.tolist())))]
    assert command("trips", "--table", *words, text=places).splitlines() == rows
    lines = json.loads(command("trips", "--geojson", *words, text=places))["features"]
    assert [each["properties"]["weight"] for each in lines] == [table[0, 1], table[2, 3]] and len(lines[0]["geometry"]["coordinates"]) > 10
    found = json.loads(command("reach", *words, "--limits", "60000,300000", text=places))["features"]
    assert [each["properties"] for each in found] == [{"limit": limit, "from": "Vaduz"} for limit in (300_000, 60_000)]
    assert [each["geometry"] for each in found] == json.loads(json.dumps(limits))
    for name, more in ("trips", ()), ("trips", ("--table",)), ("reach", ("--limits", 1000)):
        fault = command(name, *more, *words, text=swapped, status=1)
        assert "is 5,467 km from the nearest road, more than 1 km" in fault and fault.count("\n") == 1, fault
    assert "no second" in command("trips", *words, text=swapped[:20], status=1)
    assert "no place" in command("reach", "--limits", 1000, *words, status=1)


def test_trips_between_roads_with_turns():
    """Places beside roads of random maps with restricted turns: each trip is the best of the search from arc to arc."""
    draw, compared, longer = random.Random("places and turns"), 0, 0
    for _ in range(360):
        text, nodes = random_map(draw, 12), draw.choice(["crossings", "all"])
        world = mapping.Map(text, "car")
        found = mapping.arcs(world, nodes == "all")
        if never := mapping.forbidden(world, found):
            pathlib.Path("map.osm").write_text(text)
            command("osm_to_gr", "--quiet", "--turns", "--bends", "--part", "all", "--nodes", nodes, "map.osm", "map")
            with chtab.Network.open("map.gr", program=PROGRAM) as network:
                spots, ways = spots_and_arcs(draw, network, list(mapping.pieces(world, nodes == "all")), found)
                counts = same_trips(network, spots, ways, found, never) if len(ways) > 1 else (0, 0)
            compared, longer = compared + counts[0], longer + counts[1]
    assert compared > 2_000 and longer > 100, (compared, longer)


def test_commands_know_graphs_with_turns():
    """Trips and reach on the example with its restriction of turns, which is far from these places, are those without it."""
    places, told = "9.5209 47.1410 Vaduz\n9.6079 47.1020 Malbun\n9.5280 47.2390 Ruggell\n9.5020 47.0660 Balzers\n", []
    for words in [], ["--turns"]:
        command("osm_to_gr", "--quiet", "--bends", *words, f"{COUNTRY}.osm.bz2", "roads")
        found = json.loads(command("reach", "--program", PROGRAM, "--limits", "300000", "roads", text=places))
        told.append((command("trips", "--program", PROGRAM, "roads", text=places), found))
    assert "Trips to node" in pathlib.Path("roads.co").read_text() and told[0] == told[1], told


def spots_and_arcs(draw, network, pieces, found):
    """Spots on roads, where no other lies, and for each the arcs along its road with how far along these it is."""
    roads, names = network.roads, files.read_names("map.nodes")
    named, places, own, arcs = [{start[0], end[0]} for _, (start, end), *_ in pieces], [], [], []
    for road in range(len(roads)):
        first, last = (names[int(node)] for node in (roads.firsts[road], roads.lasts[road]))
        if named.count({first, last}) == 1 and first != last and not any(copy for _, copy in pieces[named.index({first, last})][1]):
            for part in draw.uniform(0.1, 0.5), draw.uniform(0.5, 0.9):
                places.append(roads.lines.stretch(road, part, part)[0].tolist())
                own.append((road, named.index({first, last}), (first, 0)))
    if not places:
        return None, []
    spots = network.snap(*zip(*places))
    kept = [place for place, (road, *_) in enumerate(own) if spots.roads[place] == road and 0 < spots.parts[place] < 1]
    for place in kept:
        (_, piece, node), part = own[place], float(spots.parts[place])
        arcs.append({number: part if arc[0] == node else 1 - part for number, arc in enumerate(found) if arc[4] == piece})
    return spots[kept], arcs


def same_trips(network, spots, ways, found, never):
    """Compares all trips between the spots; how many there are, and how many of them a restriction makes longer."""
    table, longer = network.trip_table(spots, spots).tolist(), 0
    pairs = list(itertools.permutations(range(len(ways)), 2))
    starts, ends = (spots[list(part)] for part in zip(*pairs))
    following = [mapping.follow(found, each) for each in (set(), never)]
    for (start, end), weight, way in zip(pairs, network.trips(starts, ends).tolist(), network.trip_routes(starts, ends)):
        plain, wanted = (mapping.trip(found, each, ways[start], ways[end]) for each in following)
        assert table[start][end] == weight == (-1 if way.weight is None else way.weight), (table[start][end], weight, way)
        assert weight < 0 if math.isinf(wanted) else abs(weight - wanted) <= 1.01, (weight, wanted, ways[start], ways[end])
        longer += wanted > plain + 2
        if way.line:
            ends = [[spots.longitudes[spot], spots.latitudes[spot]] for spot in (start, end)]
            assert abs(numpy.subtract([way.line[0], way.line[-1]], ends)).max() < 2e-6, (way, ends)
            assert abs(sum(map(metres_of, way.line, way.line[1:])) - way.metres) < 1 + 0.001 * way.metres, way
    return len(pairs), longer


def test_reach_of_more_nodes_than_a_table_has():
    """A road of 70,000 nodes: one run answers two blocks, and those within a limit."""
    degree = 1 / 111_195
    write_graph("long.gr", 70_000, [(node, node + 1, 1) for node in range(1, 70_000)])
    files.write_coordinates("long.co", [(node * degree, 0) for node in range(70_000)])
    with chtab.Network.open("long.gr", program=PROGRAM) as network:
        spot = network.snap(0.0, 0.0)
        assert network.reach(spot).tolist() == list(range(70_000))
        assert network.reach(spot, 68_000)[68_000:].tolist() == [68_000] + [-1] * 1_999
        [feature] = network.isochrones(spot, [69_000])["features"]
        east = max(place[0] for part in feature["geometry"]["coordinates"] for place in part[0])
        assert 69_000 * degree <= east <= 69_800 * degree, east / degree
