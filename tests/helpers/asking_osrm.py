"""Questions to a service in OSRM's form, and what an answer is compared with."""
import collections
import json
import math
import random

from helpers import serving
from helpers.running import run
from helpers.serving import here, send
from chtab import files

VADUZ, ESCHEN, MALBUN = (9.5209, 47.1410), (9.5450, 47.2200), (9.6079, 47.1020)
THREE, OF_TOWN = (VADUZ, ESCHEN, MALBUN), ((13.2632, 53.5511), (13.2795, 53.5623), (13.2850, 53.5525))
# An answer rounds metres to tenths, and a place to millionths of a degree, which is 0.11 m.
TENTH, MILLIONTH = 0.051, 0.000_000_6
# What lies between the places of a leg, as annotations name it.
PARTS = {"distance", "duration", "weight", "speed", "datasources"}


def three():
    """Three places of the network that checks ask."""
    return OF_TOWN if serving.IS_IN_TOWN else THREE


def text_of(places):
    return ";".join(f"{x:.6f},{y:.6f}" for x, y in places)


def get(address, path):
    """Status and value of an answer."""
    status, _, text = send(address, path)
    return status, json.loads(text)


def answer(address, name, places, profile="car", **options):
    """The value of an answer that is none of a refusal."""
    query = "&".join(f"{key}={value}" for key, value in options.items())
    status, value = get(address, f"/{name}/v1/{profile}/{text_of(places)}?{query}")
    assert (status, value["code"]) == (200, "Ok"), value
    return value


def some_nodes(count, seed):
    """Nodes of the network that checks ask with their places, at which no other node lies; where
    turns cost time, none but its copies."""
    coordinates = files.read_coordinates(f"{here()}.co")
    copies = coordinates.copies() if serving.IS_AT_A_COST else {}
    known = [node for node in coordinates.known() if node not in copies]
    every = known if serving.IS_AT_A_COST else coordinates.known()
    crowds = collections.Counter(map(coordinates.of, every))
    nodes = random.Random(seed).sample([node for node in known if crowds[coordinates.of(node)] == 1], count)
    return nodes, [coordinates.of(node) for node in nodes]


def distances(pairs):
    """What `chtab dist` says of pairs of nodes, in seconds, to the nodes where trips to them end."""
    ends = files.read_coordinates(f"{here()}.co").ends()
    files.write_queries("pairs.p2p", [(tail, ends.get(head, head)) for tail, head in pairs])
    done = run(["dist", f"{here()}.gr", "pairs.p2p"], ".")
    words = [line.split()[-1] for line in done.out.decode().splitlines()]
    assert done.status == 0 and len(words) == len(pairs)
    return [None if word == "-" else int(word) / 1000 for word in words]


def on_sphere(start, end):
    """Metres between two places, by the haversine."""
    (x, y), (u, v) = (map(math.radians, place) for place in (start, end))
    part = math.sin((v - y) / 2) ** 2 + math.cos(y) * math.cos(v) * math.sin((u - x) / 2) ** 2
    return 2 * 6_371_008.8 * math.asin(math.sqrt(part))


PLAIN = "9.5209,47.1410;9.5450,47.2200"


def write_network(out, places, arcs_there, comments):
    """A graph of nodes at some places, in degrees."""
    open(f"{out}.gr", "w").write(comments + f"p sp {len(places)} {len(arcs_there)}\n" + "".join(f"a {u} {v} {w}\n" for u, v, w in arcs_there))
    lines = "".join(f"v {node} {round(x * 1e6)} {round(y * 1e6)}\n" for node, (x, y) in enumerate(places, 1))
    open(f"{out}.co", "w").write(comments + f"p aux sp co {len(places)}\n{lines}")


def distance_to(x, y, line):
    """The metres from a place to a line, on a plane that touches the earth there."""
    wide = 111_195.08 * math.cos(math.radians(y))
    flat = [((u - x) * wide, (v - y) * 111_195.08) for u, v in line]
    best = math.inf
    for (a, b), (c, d) in zip(flat, flat[1:]):
        square = (c - a) ** 2 + (d - b) ** 2
        part = min(1, max(0, -(a * (c - a) + b * (d - b)) / square)) if square else 0
        best = min(best, math.hypot(a + part * (c - a), b + part * (d - b)))
    return best


def check_annotation(leg, line):
    parts = leg["annotation"]
    assert set(parts) == PARTS | {"nodes", "metadata"} and {len(parts[name]) for name in PARTS} == {len(line) - 1} and len(parts["nodes"]) == len(line)
    assert abs(sum(parts["distance"]) - leg["distance"]) < 0.5 and abs(sum(parts["duration"]) - leg["duration"]) < 1e-6
    assert parts["weight"] == parts["duration"] and set(parts["datasources"]) == {0} and len(parts["metadata"]["datasource_names"]) == 1
    for metres, seconds, speed in zip(parts["distance"], parts["duration"], parts["speed"]):
        assert metres >= 0 and seconds >= 0 and abs(speed - (metres / seconds if seconds else 0)) <= 0.051 + 0.001 / (seconds or 1), (metres, seconds, speed)
    for told, (start, end) in zip(parts["distance"], zip(line, line[1:])):
        assert abs(on_sphere(start[::-1], end[::-1]) - told) < 0.3


def check_leg(leg):
    steps = leg["steps"]
    assert [step["maneuver"]["type"] for step in (steps[0], steps[-1])] == ["depart", "arrive"]
    assert abs(sum(step["distance"] for step in steps) - leg["distance"]) < 0.06 * len(steps) + 0.5, leg
    assert abs(sum(step["duration"] for step in steps) - leg["duration"]) < 1e-6 and steps[-1]["distance"] == steps[-1]["duration"] == 0
    for step, then in zip(steps, steps[1:]):
        line = step["geometry"]["coordinates"]
        assert line[-1] == then["geometry"]["coordinates"][0] == then["maneuver"]["location"] and len(line) > 1
    names = [step["name"] or step.get("ref", "") for step in steps]
    assert all(name in names for name in filter(None, leg["summary"].split(", ") if not any(", " in name for name in names) else [])), leg["summary"]
    for step in steps:
        assert step["intersections"][0]["location"] == step["maneuver"]["location"]
        for each in step["intersections"]:
            assert len(each["bearings"]) == len(each["entry"]) and each["bearings"] == sorted(each["bearings"])
            assert all(0 <= bearing < 360 for bearing in each["bearings"]) and ("out" not in each or each["entry"][each["out"]])
