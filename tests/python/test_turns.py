"""Tests turns that maps restrict (osm_to_gr.py --turns): crossroads with each kind of restriction, those that are left out, where trips
start and end; and random maps against the search from arc to arc of oracles/mapping.py.
"""
import itertools
import pathlib
import random

from helpers.maps import BLOCK, ROAD, converted, noted, osm, random_map, searched, tool
from oracles import mapping
from chtab_maps import profiles


def crossroads(restriction, more=(), members=(("way", 1, "from"), ("node", 1, "via"), ("way", 2, "to"))):
    """Roads to all four sides of node 1: way 1 to node 2 in the west, 2 to 3 in the north, 3 to 4 in the east, 4 to 5 in the south."""
    nodes = {1: (0, 0), 2: (-1, 0), 3: (0, 1), 4: (1, 0), 5: (0, -1)}
    relations = [(members, {"type": "restriction", "restriction": restriction} | dict(more))] if restriction else []
    return osm(nodes, [([1, 2], ROAD), ([1, 3], ROAD), ([4, 1], ROAD), ([5, 1], ROAD)], relations)


def turns_forbidden(text, profile="car"):
    """The turns over node 1 that take longer than both roads together: 'west to north' as 23. At 2, 3, 4 and 5 one may turn back."""
    made, _ = converted(text, turns=True, profile=profile)
    plain, found = searched(converted(text, profile=profile)[0]), searched(made)
    for name, begin in itertools.product(range(2, 6), (True, False)):
        pair = (1, name) if begin else (name, 1)
        assert found[pair] == plain[pair] and found[1, 1] == 0, (pair, found)
    return {f"{one}{other}" for one, other in itertools.permutations(range(2, 6), 2) if found.get((one, other)) != plain[one, other]}


def test_turns_hold():
    """Each word that forbids turns, and those that demand one, for whom it holds; at the crossing a trip begins and ends at nodes of its own."""
    for word, turns in {
        "no_left_turn": {"23"}, "no_right_turn": {"23"}, "no_straight_on": {"23"}, "no_entry": {"23"}, "no_exit": {"23"},
        "no_u_turn": {"23"}, "only_left_turn": {"24", "25"}, "only_straight_on": {"24", "25"}, "no_left_turn;no_u_turn": {"23"},
    }.items():
        assert turns_forbidden(crossroads(word)) == turns, word
        assert turns_forbidden(crossroads(word), "foot") == set() and turns_forbidden(crossroads(word), "bicycle") == turns
    made, _ = converted(crossroads("no_left_turn"), turns=True)
    assert made.names == [1, 1, 1, 2, 3, 4, 5] and made.ends == [(1, 3)]
    assert sorted(arc[:2] for arc in made.arcs) == [
        (1, 3), (1, 4), (1, 5), (1, 6), (1, 7), (2, 4), (2, 6), (2, 7), (4, 2), (4, 3), (5, 1), (6, 1), (7, 1)
    ]
    ways = ("way", 1, "from"), ("way", 4, "from"), ("node", 1, "via"), ("way", 2, "to"), ("way", 3, "to")
    for text, turns in (
        (crossroads("no_left_turn", {"except": "psv;motorcar"}), set()), (crossroads("no_left_turn", {"except": "bicycle;psv"}), {"23"}),
        (crossroads("no_left_turn", {"restriction:motorcar": "only_straight_on"}), {"24", "25"}),
        (crossroads("no_left_turn", {"hour_on": "07:00", "hour_off": "09:00"}), set()), (crossroads("no_entry", (), ways), {"23", "24", "53", "54"}),
        (crossroads("only_right_turn", (), ways), {"25", "52"}),
    ):
        assert turns_forbidden(text) == turns, text


def test_turns_back():
    """No turning back where the map says so: at a crossing, at a dead end, and on a way that leads through the node."""
    def made_of(ways, via, way, **choices):
        turn = [("way", way, "from"), ("node", via, "via"), ("way", way, "to")], {"type": "restriction", "restriction": "no_u_turn"}
        made, _ = converted(osm({1: (0, 0), 2: (1, 0), 3: (2, 0), 4: (1, 1)}, [(way, ROAD) for way in ways], [turn]), turns=True, **choices)
        return made, {number: {made.names[head - 1] for tail, head, _ in made.arcs if tail == number} for number in range(1, len(made.names) + 1)}

    made, outs = made_of([[1, 2], [2, 3], [2, 4]], 2, 1)
    assert made.names == [1, 2, 2, 2, 3, 4] and made.ends == [(2, 4)] and (outs[2], outs[3], outs[4]) == ({1, 2, 3, 4}, {3, 4}, set())
    made, _ = made_of([[1, 2], [2, 3]], 3, 2, part="largest")
    assert made.names == [1, 2, 3, 3] and searched(made)[1, 3] == 2 * BLOCK == searched(made)[3, 1]
    made, outs = made_of([[1, 2, 3], [2, 4]], 2, 1)
    assert made.names.count(2) == 4 and searched(made)[1, 3] == 2 * BLOCK and sorted(map(sorted, (outs[3], outs[4]))) == [[1, 4], [3, 4]]


def test_no_turning_back_where_one_way_becomes_another():
    """Round a forbidden turn a trip goes on over places where just two roads meet, and does not turn back there; it may do so at a dead end, and at a
    crossing of three roads."""
    nodes = {1: (0, 0), 2: (-1, 0), 3: (0, 1), 4: (0.2, 0), 6: (1, 0), 7: (1, 1)}
    ways, left = [[2, 1], [1, 3], [1, 4], [4, 6], [6, 7], [7, 3]], [("way", 1, "from"), ("node", 1, "via"), ("way", 2, "to")]
    turn = [(left, {"type": "restriction", "restriction": "no_left_turn"})]
    around, to_four = 4 * BLOCK, round(0.2 * BLOCK)

    def least(ways):
        return searched(converted(osm(nodes | {8: (0.2, -1)}, [(way, ROAD) for way in ways], turn), turns=True)[0])[2, 3]

    assert abs(least(ways) - around) < 4, "it goes on"
    assert abs(least(ways[:3]) - (2 * BLOCK + 2 * to_four)) < 4, "a dead end"
    assert abs(least([*ways, [4, 8]]) - (2 * BLOCK + 2 * to_four)) < 4, "a crossing"
    assert abs(least(ways[:5]) - (4 * BLOCK + 2 * BLOCK)) < 6, "it goes on to the dead end, over several such places"


def test_turns_not_read():
    """Restrictions that are deleted say nothing; others that can't be read, or hold for others or at times alone, are reported with the reason."""
    start, over, end = member = ("way", 1, "from"), ("node", 1, "via"), ("way", 2, "to")
    elsewhere = "without roads that meet at the node"
    for word, members, reason in [
        ("no_left_turn", [start, ("way", 4, "via"), end], "over ways"), ("no_left_turn", [*member, ("node", 2, "via")], "over ways"),
        ("no_left_turn", [start, over], "without from, via and to"), ("no_left_turn", [over, end], "without from, via and to"),
        ("no_stopping", member, "restriction=no_stopping"), ("no_left_turn;only_straight_on", member, "restriction=no_left_turn;only_straight_on"),
        ("no_left_turn", [("way", 99, "from"), over, end], elsewhere), ("no_left_turn", [start, ("node", 2, "via"), end], elsewhere),
        ("no_left_turn", [start, ("node", 99, "via"), end], elsewhere),
    ]:
        assert noted(crossroads(word, (), members), turns=True) == {"turns": {reason: 1}}, (word, members)
        assert turns_forbidden(crossroads(word, (), members)) == set()
    plain = crossroads("no_left_turn")
    through = osm({1: (0, 0), 2: (1, 0), 3: (2, 0), 4: (1, 1)}, [([1, 2, 3], ROAD), ([2, 4], ROAD)],
                  [([start, ("node", 2, "via"), end], {"type": "restriction", "restriction": "no_left_turn"})])
    for text, reason in (
        (crossroads("no_left_turn", {"except": "motor_vehicle"}), "not for cars"),
        (crossroads("no_left_turn", {"day_on": "Monday"}), "at times alone"),
        (plain.replace('k="restriction"', 'k="restriction:conditional"'), "at times alone"),
        (plain.replace('k="restriction"', 'k="restriction:hgv"'), "not for cars"), (through, "a way that leads through the node"),
    ):
        assert noted(text, turns=True) == {"turns": {reason: 1}}, (reason, noted(text, turns=True))
    blocked = plain.replace("lat='0.0'></node>", "lat='0.0'><tag k='barrier' v='bollard'/></node>", 1)
    assert noted(blocked, turns=True) == {"turns": {elsewhere: 1}, "barriers": {"barrier=bollard": 1}}, noted(blocked, turns=True)
    for head in "action='delete'", "visible='false'":
        text = plain.replace("<relation id='1'", f"<relation id='1' {head}")
        assert converted(text, turns=True)[0].names == [1, 2, 3, 4, 5] and noted(text, turns=True) == {}


def test_trips_begin_and_end_at_crossings_with_turns():
    """`nearest` takes the node where trips begin for the first place of a query, and the one where they end for the second."""
    pathlib.Path("turns.osm").write_text(crossroads("no_left_turn"))
    tool("osm_to_gr", "--turns", "turns.osm", "turns")
    assert pathlib.Path("turns.nodes").read_text().split() == ["1", "1", "1", "2", "3", "4", "5"]
    assert "c Trips to node 1 end at node 3.\n" in pathlib.Path("turns.co").read_text()
    places = b"0 0 middle\n0 0.001 north\n-0.001 0 west\n0 0 middle\n0 0 middle\n0 0 middle\n"
    for words in [], ["--plain"]:
        told, _ = tool("nearest", "--queries", *words, "turns.co", text=places)
        assert [line for line in told.splitlines() if line[0] == "q"] == ["q 1 5", "q 4 3", "q 1 3"]
        assert "c middle: node 3, 0 m away" in told
        assert "s 3" in tool("nearest", "--targets", *words, "turns.co", text=b"0 0\n")[0].splitlines()
        assert "s 1" in tool("nearest", *words, "turns.co", text=b"0 0\n")[0].splitlines()
    assert tool("nearest", "--all", "turns.co")[0].startswith("p aux sp ss 7\n")
    pictured, _ = tool("picture", "network", "turns")
    pathlib.Path("plain.osm").write_text(crossroads(None))
    tool("osm_to_gr", "plain.osm", "plain")
    assert pictured == tool("picture", "network", "plain")[0]


def test_trips_on_random_maps():
    """The least weight of each trip, which the other converter searches from arc to arc; for cars also where one turns back at dead ends alone."""
    draw, longer, back = random.Random("turns"), 0, 0
    for _ in range(400):
        text = random_map(draw, 12)
        for profile in profiles.NAMES:
            choices = {"nodes": draw.choice(["crossings", "all"]), "metric": draw.choice(["time", "metres"])}
            world = mapping.Map(text, profile)
            found = mapping.arcs(world, choices["nodes"] == "all", choices["metric"] == "metres")
            never = mapping.forbidden(world, found)
            longer += same_trips(text, found, never, profile, choices)
            if profile == "car":
                never |= mapping.turned_back(found, never, everywhere=True)
                back += same_trips(text, found, never, profile, choices | {"turning_back": "dead-ends"})
    assert longer > 60 and back > 20, (longer, back)
    pathlib.Path("back.osm").write_text(crossroads("no_left_turn"))
    tool("osm_to_gr", "--turning-back", "dead-ends", "back.osm", "back", status=2)
    tool("osm_to_gr", "--turns", "--turning-back", "dead-ends", "back.osm", "back")
    assert ", turning back at dead ends alone." in open("back.gr").readline()


def same_trips(text, found, never, profile="car", choices={}):
    """Compares the trips between nodes that stand once but for turns; how many there are that a restriction makes longer."""
    longer, copies = 0, {node[0] for arc in found for node in arc[:2] if node[1]}
    if not never:
        return 0
    nodes = {arc[0] for arc in found}
    trips = searched(converted(text, turns=True, profile=profile, **choices)[0], {int(node[0]) for node in nodes})
    plain, turning = (mapping.follow(found, each) for each in (set(), never))
    for start in nodes:
        before, wanted = (mapping.distances(found, each, start) for each in (plain, turning))
        for end in {arc[1] for arc in found} | {start}:
            if start[0] not in copies and end[0] not in copies:
                assert trips.get((int(start[0]), int(end[0]))) == wanted.get(end), (start, end, profile, choices, text)
                longer += wanted.get(end) != before.get(end)
    return longer
