#!/usr/bin/python3
"""Tests the names and turns that the service tells: each rule of docs/SERVICE.md by a map of its own, random maps against the slow teller of
oracles/telling.py, and what steps add up to.

The last line is 'N passed, N failed'.
"""
import collections
import contextlib
import itertools
import json
import math
import pathlib
import random

# First of all, since it puts the package on the path.
from helpers.maps import COUNTRY, osm, tool, town, town_at_a_cost

from helpers import running
from helpers.asking_osrm import check_leg
from helpers.packages import run_checks
from helpers.running import PROGRAM
from oracles import mapping, telling
import chtab
from chtab import files
from chtab_maps import profiles
from chtab_server.osrm import answering, drawing, options, passing, url

# A thousandth of a degree is 111.195 m on the equator.
UNIT = 1_000


@contextlib.contextmanager
def asked(text, name="map", **choices):
    """A call that gives the routes of OSRM's interface on a map in XML, and the network."""
    pathlib.Path(f"{name}.osm").write_text(text, encoding="utf-8")
    words = [word for key, value in choices.items() for word in ([f"--{key}"] if value is True else [f"--{key}", value])]
    tool("osm_to_gr", "--quiet", "--bends", "--names", *({"part": 1} and ["--part", "all"]), *words, f"{name}.osm", name)
    with chtab.Network.open(f"{name}.gr", program=PROGRAM) as network:
        yield caller(network, name), network


def caller(network, name):
    """A call that answers a request of OSRM's interface: the value of its JSON, or the code of its fault."""
    streets = files.read_streets(f"{name}.names", len(network.roads.tails))
    answers = answering.Answers(network, (), answering.Limits(), streets, answering.numbers_in(f"{name}.nodes", network.nodes))

    def ask(service, places, **options):
        query = "&".join(f"{key}={value}" for key, value in options.items())
        coordinates = ";".join(f"{x:.7f},{y:.7f}" for x, y in places)
        question = answers.question(url.words_of(f"/{service}/v1/any/{coordinates}?{query}", 1 << 16))
        found = answers.routes([question])[0] if service == "route" else getattr(answers, service)(question)
        if isinstance(found, Exception):
            raise found
        return json.loads(found)

    return ask


def steps_of(ask, places, **options):
    [route] = ask("route", places, **{"steps": "true", "overview": "false", "geometries": "geojson", "annotations": "nodes"} | options)["routes"]
    return [step for leg in route["legs"] for step in leg["steps"]]


def told(ask, *places):
    """The maneuvers of a route over places in thousandths of a degree, departure and arrival aside, as words."""
    found = steps_of(ask, [(x / UNIT, y / UNIT) for x, y in places])
    assert [found[0]["maneuver"]["type"], found[-1]["maneuver"]["type"]] == ["depart", "arrive"]
    lines = []
    for step in found[1:-1]:
        maneuver = step["maneuver"]
        words = [maneuver["type"], maneuver["modifier"], str(maneuver["exit"]) if "exit" in maneuver else "", step.get("rotary_name", ""), step["name"]]
        lines.append(" ".join(filter(None, words)))
    return lines


# A cross of streets, whose middle is node 1: to the west 2, north 3, east 4, south 5, and far to the north-east 6.
CROSS = {1: (0, 0), 2: (-1, 0), 3: (0, 1), 4: (1, 0), 5: (0, -1), 6: (1, 1)}
WEST, NORTH, EAST, SOUTH, NORTHEAST = ((x * 0.9, y * 0.9) for x, y in (CROSS[node] for node in (2, 3, 4, 5, 6)))
ARM = {2: "West Street", 3: "North Street", 4: "East Street", 5: "South Street", 6: "Slope"}


def cross(arms, kind="residential", **more):
    """A map of some arms of the cross, each a way from its far end to the middle, with more tags by the number of the arm."""
    ways = [([arm, 1], {"highway": kind, "name": ARM[arm]} | more.get(f"_{arm}", {})) for arm in arms]
    return osm(CROSS, ways)


def turns_at_a_cross():
    """Right is right, left is left, and each step is called by the street behind its turn."""
    with asked(cross((2, 3, 4, 5))) as (ask, _):
        for start, goal, wanted in (
            (WEST, SOUTH, ["turn right South Street"]), (WEST, NORTH, ["turn left North Street"]), (WEST, EAST, ["new name straight East Street"]),
            (NORTH, WEST, ["turn right West Street"]), (NORTH, EAST, ["turn left East Street"]), (SOUTH, EAST, ["turn right East Street"]),
            (EAST, NORTH, ["turn right North Street"]), (EAST, SOUTH, ["turn left South Street"]),
        ):
            assert told(ask, start, goal) == wanted, (start, goal, told(ask, start, goal))
    for more, start, goal, wanted in (
        ({"_3": {"name": "West Street"}}, WEST, NORTH, ["continue left West Street"]), ({"_4": {"name": "West Street"}}, WEST, EAST, []),
        ({"_4": {"name": ""}}, WEST, EAST, []), ({"_2": {"name": ""}, "_3": {"name": ""}}, WEST, NORTH, ["turn left"]),
        ({"_4": {"name": "", "ref": "16"}}, WEST, EAST, ["new name straight"]), ({"_4": {"name": "West Street", "ref": "16"}}, WEST, EAST, []),
        ({"_3": {"name": "West Street", "ref": "16"}}, WEST, NORTH, ["continue left West Street"]), ({"_3": {"oneway": "yes"}}, NORTH, EAST, ["turn left East Street"]),
    ):
        with asked(cross((2, 3, 4, 5), **more)) as (ask, _):
            assert told(ask, start, goal) == wanted, (more, told(ask, start, goal))


def where_roads_end_and_bend():
    """A road that ends at another, a bend without a crossing, and one that changes its name there."""
    with asked(cross((2, 3, 5))) as (ask, _):
        assert told(ask, WEST, NORTH) == ["end of road left North Street"] and told(ask, WEST, SOUTH) == ["end of road right South Street"]
        assert told(ask, NORTH, WEST) == ["turn right West Street"]
    with asked(cross((2, 3))) as (ask, _):
        assert told(ask, WEST, NORTH) == ["new name left North Street"]
    with asked(cross((2, 3), _3={"name": "West Street"})) as (ask, _):
        assert told(ask, WEST, NORTH) == [] and told(ask, NORTH, WEST) == []
    with asked(osm(CROSS, [([2, 1, 3], {"highway": "residential", "name": "Bend"})])) as (ask, _):
        assert told(ask, WEST, NORTH) == []


def slight_ways():
    """A slight way off is a turn where another one is straighter, or the name changes; a fork where both are alike."""
    slope = {1: (0, 0), 2: (-1, 0), 4: (1, 0), 6: (1, 0.5), 7: (1, -0.5)}
    far, low = (0.9, 0.45), (0.9, -0.45)

    def ways(**names):
        kinds = {"2": "residential", "4": "residential", "6": "residential", "7": "residential"}
        return osm(slope, [([int(arm[1:]), 1], {"highway": kinds[arm[1:]], "name": name} if isinstance(name, str) else name) for arm, name in names.items()])

    for text, goal, wanted in (
        (ways(_2="Long", _4="Long", _6="Off"), far, ["turn slight left Off"]), (ways(_2="Long", _4="Long", _6="Off"), EAST, []),
        (ways(_2="Long", _4="Straight", _6="Off"), far, ["fork slight left Off"]), (ways(_2="Long", _4="Straight", _6="Off"), EAST, ["fork slight right Straight"]),
        (ways(_2="Long", _6="One", _7="Other"), far, ["fork slight left One"]), (ways(_2="Long", _6="One", _7="Other"), low, ["fork slight right Other"]),
        (ways(_2="Long", _6="Long", _7="Other"), far, []), (ways(_2="Long", _6="Long", _7="Long"), far, ["fork slight left Long"]),
        (ways(_2="Long", _4={"highway": "track", "name": "Straight"}, _6="Long"), far, ["continue slight left Long"]),
        (ways(_2="Long", _4={"highway": "track", "name": "Straight"}, _6="Off"), far, ["turn slight left Off"]),
        (ways(_2="Long", _4={"highway": "residential", "oneway": "yes", "name": "Closed"}, _6="Off"), far, ["new name slight left Off"]),
    ):
        with asked(text) as (ask, _):
            assert told(ask, WEST, goal) == wanted, (text, goal, told(ask, WEST, goal))


def fast_roads():
    """Ramps onto a motorway and off it, and where two of them join, on both sides of the road."""
    nodes = {1: (0, 0), 2: (-2, 0), 4: (2, 0), 5: (1, -0.3), 6: (-1, -0.3), 7: (-2, -0.5), 8: (2, -0.5), 9: (4, 0), 10: (4, -0.5), 11: (-3, -0.5)}
    main, ramp = {"highway": "motorway", "ref": "A13"}, {"highway": "motorway_link", "oneway": "yes"}
    road = {"highway": "primary", "name": "Low Road"}
    ways = [([2, 1, 4, 9], main), ([1, 5, 8], ramp | {"destination": "Chur;Sargans", "destination:ref": "28"}), ([7, 6, 1], ramp), ([11, 7, 8, 10], road)]
    with asked(osm(nodes, ways)) as (ask, _):
        assert told(ask, (-1.5, 0), (3, -0.5)) == ["off ramp straight", "new name straight Low Road"], told(ask, (-1.5, 0), (3, -0.5))
        assert told(ask, (-2.5, -0.5), (3, 0)) == ["on ramp straight", "merge slight left"], told(ask, (-2.5, -0.5), (3, 0))
        found = steps_of(ask, [(-0.0015, 0), (0.003, -0.0005)])
        assert found[1]["destinations"] == "28: Chur, Sargans" and found[0]["ref"] == "A13" and found[0]["driving_side"] == "right"
    with asked(osm(nodes, ways), **{"driving-side": "left"}) as (ask, _):
        assert steps_of(ask, [(-0.0015, 0), (0.003, -0.0005)])[0]["driving_side"] == "left"
    both = {1: (0, 0), 2: (-2, 0), 3: (-2, 1), 4: (2, 0)}
    joining = [([2, 1], main), ([3, 1], ramp), ([1, 4], main)]
    with asked(osm(both, joining)) as (ask, _):
        assert told(ask, (-1.5, 0.75), (1, 0)) == ["merge slight right"]
    ferry = [([2, 1], road), ([1, 4], {"route": "ferry", "name": "Over"})]
    with asked(osm(CROSS, ferry)) as (ask, _):
        found = steps_of(ask, [(-0.0009, 0), (0.0009, 0)])
        assert told(ask, WEST, EAST) == ["notification straight Over"] and [step["mode"] for step in found] == ["driving", "ferry", "ferry"]


RING = {
    1: (0, -1), 2: (1, 0), 3: (0, 1), 4: (-1, 0), 11: (0, -3), 12: (3, 0), 13: (0, 3), 14: (-3, 0),
}
ENDS = {11: (0, -2.5), 12: (2.5, 0), 13: (0, 2.5), 14: (-2.5, 0)}


def ring(more=(), ring_tags=(), **tags):
    """A ring with arms to the south 11, east 12, north 13 and west 14, driven on anticlockwise; more tags of arms by their numbers."""
    names = {11: "South", 12: "East", 13: "North", 14: "West"}
    ways = [([1, 2, 3, 4, 1], {"highway": "residential", "junction": "roundabout"} | dict(ring_tags))]
    ways += [([arm, arm - 10], {"highway": "residential", "name": name} | tags.get(f"_{arm}", {})) for arm, name in names.items()]
    return osm(RING, [*ways, *more])


def exits_of_rings():
    """Exits are counted that may be taken; one by a street that only leads into the ring is none."""
    with asked(ring()) as (ask, _):
        for goal, exit_number, name in (12, 1, "East"), (13, 2, "North"), (14, 3, "West"):
            found = told(ask, ENDS[11], ENDS[goal])
            assert found[0].startswith("roundabout ") and found[0].endswith(f" {exit_number} {name}"), found
            assert found[1].startswith("exit roundabout ") and found[1].endswith(f" {exit_number} {name}") and len(found) == 2, found
        assert [line.split()[-2:] for line in told(ask, ENDS[11], (0, 0.99))][:1] != [], "a goal on the ring"
    with asked(ring(_12={"oneway": "yes"})) as (ask, _):
        assert told(ask, ENDS[11], ENDS[13])[0].endswith(" 1 North"), told(ask, ENDS[11], ENDS[13])
    with asked(ring(_12={"oneway": "-1"})) as (ask, _):
        assert told(ask, ENDS[11], ENDS[13])[0].endswith(" 2 North")
    with asked(ring(ring_tags={"name": "The Circle"})) as (ask, _):
        assert told(ask, ENDS[11], ENDS[13])[0].startswith("rotary ") and told(ask, ENDS[11], ENDS[13])[0].endswith(" 2 The Circle North")
        assert told(ask, ENDS[11], ENDS[13])[1].startswith("exit rotary ")
        [onto] = told(ask, ENDS[11], (0.5, -0.5))
        assert onto.startswith("rotary ") and onto.endswith(" The Circle The Circle") and not any(map(str.isdigit, onto)), onto
        [off] = told(ask, (0.5, -0.5), ENDS[13])
        assert off.startswith("exit rotary ") and off.endswith(" 2 The Circle North"), off
    with asked(ring(ring_tags={"name": "North"})) as (ask, _):
        assert told(ask, ENDS[11], ENDS[13])[0].startswith("roundabout ") and told(ask, ENDS[11], ENDS[12])[0].startswith("rotary ")


def names_that_change_beside_a_turn():
    """A street that changes its name less than 30 metres behind a turn, or before one, is told with the turn; farther away it has a step of its own."""
    tags = {"highway": "residential"}

    def ways(first, bridge="Bridge"):
        names = (([2, 1], "West"), ([1, 3], first), ([3, 4], "North"), ([1, 5], "East"))
        return [(refs, tags | {"name": bridge if name == "Bridge" else name}) for refs, name in names]

    def nodes(far):
        return {1: (0, 0), 2: (-1, 0), 3: (0, far), 4: (0, 1), 5: (1, 0)}

    with asked(osm(nodes(0.2), ways("Bridge"))) as (ask, _):
        assert told(ask, WEST, NORTH) == ["turn left North"] and told(ask, NORTH, WEST) == ["end of road right West"]
        assert [step["name"] for step in steps_of(ask, [(-0.0009, 0), (0, 0.0009)])] == ["West", "North", "North"]
    with asked(osm(nodes(0.5), ways("Bridge"))) as (ask, _):
        assert told(ask, WEST, NORTH) == ["turn left Bridge", "new name straight North"]
        assert told(ask, NORTH, WEST) == ["new name straight Bridge", "end of road right West"]
    with asked(osm(nodes(0.2), ways("West"))) as (ask, _):
        assert told(ask, WEST, NORTH) == ["turn left North"], "no longer a street that continues"
        assert told(ask, NORTH, WEST) == ["turn right West"]


def restrictions_close_branches():
    """A turn that the map forbids is no branch that is open: what is left needs no word."""
    nodes = {1: (0, 0), 2: (-1, 0), 4: (1, 0), 6: (1, 0.5)}
    ways = [([2, 1], "Long"), ([1, 4], "Straight"), ([1, 6], "Off")]
    ways = [(refs, {"highway": "residential" if name != "Straight" else "track", "name": name}) for refs, name in ways]
    turn = [("way", 1, "from"), ("node", 1, "via"), ("way", 2, "to")], {"type": "restriction", "restriction": "no_straight_on"}
    for words in {}, {"turn-costs": True}:
        with asked(osm(nodes, ways), **words) as (ask, _):
            assert told(ask, WEST, (0.9, 0.45)) == ["turn slight left Off"]
            found = steps_of(ask, [(-0.0009, 0), (0.0009, 0.00045)])[1]["intersections"][0]
            assert found["entry"] == [True, True, False] and found["in"] == 2, found
    for turns in "turns", "turn-costs":
        with asked(osm(nodes, ways, [turn]), **{turns: True}) as (ask, _):
            assert told(ask, WEST, (0.9, 0.45)) == ["new name slight left Off"]
            found = steps_of(ask, [(-0.0009, 0), (0.0009, 0.00045)])[1]["intersections"][0]
            assert found["entry"] == [True, False, False] and (found["in"], found["out"]) == (2, 0), found


def nobody_turns_round_beside_a_forbidden_turn():
    """A route round a forbidden turn goes on where one way becomes another, and turns round at a dead end alone, or where three roads meet."""
    nodes = {1: (0, 0), 2: (-1, 0), 3: (0, 1), 4: (0.2, 0), 6: (1, 0), 7: (1, 1), 8: (0.2, -1)}
    ways, left = [[2, 1], [1, 3], [1, 4], [4, 6], [6, 7], [7, 3]], [("way", 1, "from"), ("node", 1, "via"), ("way", 2, "to")]
    turn = [(left, {"type": "restriction", "restriction": "no_left_turn"})]
    for roads, wanted in (ways, []), (ways[:3], [0.2]), ([*ways, [4, 8]], [0.2]), (ways[:5], [1]):
        with asked(osm(nodes, [(way, {"highway": "residential"}) for way in roads], turn), turns=True) as (ask, _):
            found = [step["maneuver"] for step in steps_of(ask, [(x / UNIT, y / UNIT) for x, y in (WEST, (0, 0.5))])]
            places = [each["location"][0] * UNIT for each in found if each.get("modifier") == "uturn"]
            assert [round(place, 3) for place in places] == wanted, (roads, found)


def steps_add_up():
    """On real roads: lines, lengths and times of steps add up to those of their leg, each begins where the one before ends, and what is told of
    crossings fits. A network without names tells turns all the same."""
    tool("osm_to_gr", "--quiet", "--bends", "--names", "--turns", f"{COUNTRY}.osm.bz2", "country")
    draw = random.Random("steps")
    with chtab.Network.open("country.gr", program=PROGRAM) as network:
        ask, known = caller(network, "country"), network.coordinates.known()
        plain = answering.Answers(network)
        for _ in range(20):
            places = [tuple(part + draw.gauss(0, 0.0005) for part in network.coordinates.of(draw.choice(known))) for _ in range(3)]
            value = ask("route", places, steps="true", overview="full", geometries="geojson")
            [route] = value["routes"]
            lines = []
            for leg in route["legs"]:
                check_leg(leg)
                lines += [step["geometry"]["coordinates"] for step in leg["steps"]]
            joined = [place for place, before in zip(sum(lines, []), [None, *sum(lines, [])]) if place != before]
            assert joined == [place for place, before in zip(route["geometry"]["coordinates"], [None, *route["geometry"]["coordinates"]]) if place != before]
            coordinates = ";".join(f"{x:.7f},{y:.7f}" for x, y in places)
            [text] = plain.routes([plain.question(url.words_of(f"/route/v1/x/{coordinates}?steps=true", 1 << 16))])
            for leg in json.loads(text)["routes"][0]["legs"]:
                assert leg["summary"] == "" and {step["name"] for step in leg["steps"]} == {""} and "driving_side" not in leg["steps"][0]


def what_is_kept_changes_no_answer():
    """Routes that are answered together, and again from what is kept, are those that are answered alone and for the first time."""
    tool("osm_to_gr", "--quiet", "--bends", "--names", f"{COUNTRY}.osm.bz2", "country")
    draw = random.Random("kept")
    with chtab.Network.open("country.gr", program=PROGRAM) as network:
        streets, known = files.read_streets("country.names", len(network.roads.tails)), network.coordinates.known()

        def place():
            return tuple(part + draw.choice((0, 0, 0.0005)) * draw.gauss(0, 1) for part in network.coordinates.of(draw.choice(known)))

        targets = []
        for _ in range(60):
            places = [place() for _ in range(draw.choice((2, 2, 3)))]
            places[-1] = draw.choice((places[-1], places[-1], places[0]))
            query = f"steps=true&geometries={draw.choice(options.FORMS)}&overview={draw.choice(('full', 'false', 'simplified'))}"
            targets.append(f"/route/v1/x/{';'.join(f'{x:.7f},{y:.7f}' for x, y in places)}?{query}")

        def answers_of(*groups):
            answers = answering.Answers(network, (), answering.Limits(), streets)
            return [text for group in groups for text in answers.routes([answers.question(url.words_of(target, 1 << 16)) for target in group])]

        alone = [text for target in targets for text in answers_of([target])]
        assert all('"maneuver"' in text for text in alone)
        assert answers_of(targets) == alone and answers_of(targets, targets[::-1], targets) == alone + alone[::-1] + alone
        most, passing.MOST_WAYS, drawing.MOST_TEXTS = (passing.MOST_WAYS, drawing.MOST_TEXTS), 100, 100
        try:
            groups = [targets[first:first + 5] for first in range(0, len(targets), 5)]
            assert answers_of(*groups, *groups) == alone + alone
        finally:
            passing.MOST_WAYS, drawing.MOST_TEXTS = most


def lone_routes_are_those_found_together():
    """A route between two places without a line is found in another way where it is asked for by
    itself: its answer is the same, letter for letter, also at nodes, on one road, and without a
    way."""
    for out in COUNTRY, town(), town_at_a_cost():
        draw, ways = random.Random("lone"), collections.Counter()
        with chtab.Network.open(f"{out}.gr", program=PROGRAM) as network:
            answers, known = answering.Answers(network), network.coordinates.known()
            for _ in range(400):
                one, other = ([
                    part + draw.gauss(0, draw.choice((0, 0, 2e-6, 2e-4, 3e-3)))
                    for part in network.coordinates.of(draw.choice(known))
                ] for _ in range(2))
                if draw.random() < 0.2:
                    other = [part + draw.gauss(0, 1e-4) for part in one]
                places = ";".join(f"{x:.6f},{y:.6f}" for x, y in (one, other))
                question = answers.question(url.words_of(f"/route/v1/x/{places}?overview=false", 1 << 16))
                [alone], together = answers.routes([question]), answers.routes_together([question])
                assert [str(alone)] == list(map(str, together)), (out, places)
                ways[str(alone)[:9]] += 1
        assert ways['{"code": '] > 300, ways


# Random maps.


def random_streets(draw):
    """A map of roads of all kinds on a small grid, with rings, ramps and turns that are forbidden."""
    nodes, high = {}, draw.choice((0.4, 1.5))
    for number in range(1, draw.randint(8, 20)):
        nodes[number] = (draw.randint(0, 4) * 1.5 + draw.uniform(-0.2, 0.2), draw.randint(0, 4) * high + draw.uniform(-0.2, 0.2))
    kinds = ["residential"] * 4 + ["primary", "motorway", "motorway_link", "trunk", "trunk_link", "primary_link", "track"]
    ways = []
    for _ in range(draw.randint(6, 16)):
        refs = draw.sample(list(nodes), draw.randint(2, 5))
        tags = {"highway": draw.choice(kinds), "oneway": draw.choice(["yes", "no", "no", "no", "-1"])} if draw.random() < 0.95 else {"route": "ferry"}
        tags |= {"name": draw.choice(["A", "B", "C"])} if draw.random() < 0.6 else {}
        tags |= {"ref": draw.choice(["1", "2"])} if draw.random() < 0.3 else {}
        if draw.random() < 0.25:
            tags |= {"junction": draw.choice(["roundabout", "circular"])}
            refs = [*refs, refs[0]] if len(refs) > 2 else refs
        ways.append((refs, tags))
    relations = []
    for _ in range(draw.randint(0, 6)):
        via = draw.choice(list(nodes))
        through = [number for number, (refs, _) in enumerate(ways, 1) if via in (refs[0], refs[-1])] or [1]
        members = [("way", draw.choice(through), "from"), ("node", via, "via"), ("way", draw.choice(through), "to")]
        relations.append((members, {"type": "restriction", "restriction": draw.choice(["no_left_turn", "only_straight_on"])}))
    return osm(nodes, ways, relations)


def random_fan(draw):
    """A map of roads that lead on in slight angles, part and join."""
    columns, nodes = [], {}
    for x in range(6):
        columns.append(range(len(nodes) + 1, len(nodes) + 1 + draw.randint(1, 3)))
        nodes |= {number: (2 * x + draw.uniform(-0.2, 0.2), 0.6 * place + draw.uniform(-0.2, 0.2)) for place, number in enumerate(columns[-1])}
    kinds, ways = draw.sample(["motorway", "motorway_link", "trunk", "trunk_link", "primary", "residential"], 3), []
    for column, others in zip(columns, columns[1:]):
        for node in column:
            for other in draw.sample(list(others), draw.randint(1, len(others))):
                tags = {"highway": draw.choice(kinds), "oneway": draw.choice(["yes", "no"])}
                ways.append(([node, other], tags | ({"name": draw.choice(["A", "B"])} if draw.random() < 0.5 else {})))
    return osm(nodes, ways)


def random_maps_agree_with_the_other_teller():
    """Maneuver for maneuver, with the streets that steps are called by, from nodes and from places beside the middle of roads."""
    draw, compared, kinds = random.Random("tellers"), 0, collections.Counter()
    for number in range(120):
        text, side = (random_fan if number % 3 == 0 else random_streets)(draw), draw.choice(files.SIDES)
        world = mapping.Map(text, "car")
        found = mapping.arcs(world)
        never = mapping.forbidden(world, found)
        turns = draw.choice(["turns", "turn-costs"])
        if turns == "turn-costs":
            never |= mapping.turned_back(found, never)
        with asked(text, **{turns: True, "driving-side": side}) as (ask, network):
            teller = telling.Teller(world, found, never, side)
            for _ in range(12):
                kinds += compare(draw, ask, teller, (number, text))
                compared += 1
    assert compared == 1_440 and all(kinds[kind] > 4 for kind in (
        "turn", "continue", "new name", "end of road", "fork", "merge", "on ramp", "off ramp", "roundabout", "exit roundabout", "notification",
    )), kinds


def compare(draw, ask, teller, told_of):
    """Compares a route between two arcs' middles or nodes; the kinds of its maneuvers."""
    start, end = draw.sample(range(len(teller.found)), 2)
    places = [middle(teller.lines[at]) for at in (start, end)]
    if any(is_crowded(teller, place, at) for place, at in zip(places, (start, end))):
        return collections.Counter()
    try:
        [route] = ask("route", places, steps="true", annotations="nodes", overview="false")["routes"]
    except answering.Refusal as fault:
        assert fault.code == "NoRoute", fault
        return collections.Counter()
    # Without the nodes beside the ends of the leg, and without bends.
    path = path_of(teller, start, end, [str(node) for node in route["legs"][0]["annotation"]["nodes"][1:-1] if node])
    if path is None:
        return collections.Counter()
    wanted, steps = teller.tell(path), route["legs"][0]["steps"]
    got = [[kind_of(step), step["maneuver"]["modifier"], step["maneuver"].get("exit", 0)] for step in steps[1:-1]]
    assert got == [each[:3] for each in wanted], (told_of, path, got, wanted, [(teller.found[at], teller.streets[at]) for at in path])
    called = [steps[0], *steps[1:-1], steps[-1]]
    for step, place in zip(called, [0, *(each[4] for each in wanted), len(path) - 1]):
        street = teller.streets[path[place]]
        if kind_of(step) != "roundabout":
            assert (step["name"], step.get("ref", "")) == (street["name"], street["ref"]), (told_of, step, street)
            assert step["mode"] == ("ferry" if street["highway"] == "ferry" else "driving")
    return collections.Counter(each[0] for each in wanted)


def kind_of(step):
    return step["maneuver"]["type"].replace("rotary", "roundabout")


def middle(line):
    """The place halfway along the first half of a line's longest piece."""
    (x, y), (u, v) = max(zip(line, line[1:]), key=lambda pair: telling.metres(*pair))
    return x + 0.4 * (u - x), y + 0.4 * (v - y)


def is_crowded(teller, place, at):
    """Whether another road lies within two metres of a place on an arc."""
    near = set()
    for other, line in enumerate(teller.lines):
        for (x, y), (u, v) in zip(line, line[1:]):
            square = (u - x) ** 2 + (v - y) ** 2
            share = min(1, max(0, ((place[0] - x) * (u - x) + (place[1] - y) * (v - y)) / square)) if square else 0
            if telling.metres(place, (x + share * (u - x), y + share * (v - y))) < 2:
                near.add(teller.found[other][4])
    return near != {teller.found[at][4]}


def path_of(teller, start, end, nodes):
    """The arcs of a route between places on two arcs' roads that passes these nodes; None where it is not told apart."""
    def by_road(at, tail=None, head=None):
        return [other for other, arc in enumerate(teller.found) if arc[4] == teller.found[at][4] and tail in (None, arc[0][0]) and head in (None, arc[1][0])]

    if not nodes:
        if teller.found[start][4] != teller.found[end][4]:
            return None
        options = [at for at in by_road(start) if len(by_road(start)) == 1]
        return options[:1] or None
    firsts, lasts = by_road(start, head=nodes[0]), by_road(end, tail=nodes[-1])
    path = [firsts[0]] if len(firsts) == 1 else None
    for tail, head in zip(nodes, nodes[1:]):
        options = [at for at, arc in enumerate(teller.found) if (arc[0][0], arc[1][0]) == (tail, head) and teller.is_road(at)]
        if path is None or len(options) != 1:
            return None
        path += options
    if path is None or len(lasts) != 1:
        return None
    return [*path, lasts[0]]


GROUPS = (
    (("python3-numpy", "python3-scipy", "python3-shapely"), [
        turns_at_a_cross, where_roads_end_and_bend, slight_ways, fast_roads, exits_of_rings, names_that_change_beside_a_turn, restrictions_close_branches,
        nobody_turns_round_beside_a_forbidden_turn, steps_add_up, what_is_kept_changes_no_answer, lone_routes_are_those_found_together,
        random_maps_agree_with_the_other_teller,
    ]),
)

if __name__ == "__main__":
    running.build()
    run_checks(GROUPS)
