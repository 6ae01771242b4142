"""Tests the making of graphs from maps (python/chtab_maps): each rule of docs/MAPS.md by a map of its own, the forms of files, the
example, and random maps against oracles/mapping.py; turns.py has the turns. What needs pyosmium is left out, and told, where it isn't
there.
"""
import bz2
import gzip
import lzma
import os
import pathlib
import random
import re
import subprocess

from helpers import tables
from helpers.commands import needs
from helpers.maps import BLOCK, COUNTRY, ROAD, arcs_of, called, converted, fault_of, in_line, noted, osm, random_map, refused, tool, weights
from helpers.packages import PYTHON
from helpers.running import ROOT
from oracles import mapping
from chtab import files
from chtab_maps import converting, parts, profiles


def test_barriers_leave_dead_ends():
    """A closed barrier cuts all roads at its node; tags of access and the way of travelling say which are closed."""
    bollard = {"barrier": "bollard"}
    made, report = converted(in_line(3, at={2: bollard}))
    assert made.arcs == [(1, 2, BLOCK), (2, 1, BLOCK), (3, 4, BLOCK), (4, 3, BLOCK)] and made.names == [1, 2, 2, 3]
    assert report.total("barriers") == 1
    for choices, names in ({}, [1, 2, 2, 4, 4, 5]), ({"nodes": "all"}, [1, 2, 2, 3, 4, 4, 5]):
        assert converted(in_line(5, at={2: bollard, 4: bollard}), **choices)[0].names == names
    star = osm({1: (0, 0, bollard), 2: (1, 0), 3: (0, 1), 4: (-1, 0)}, [([2, 1, 4], ROAD), ([1, 3], ROAD)])
    assert converted(star)[0].names == [1, 1, 1, 2, 3, 4]
    assert len(arcs_of(in_line(2, at={1: bollard, 2: bollard}))) == 2
    for tags, profile, is_open in [
        ({"barrier": "gate"}, "car", True), ({"barrier": "gate", "access": "private"}, "car", False),
        (bollard | {"motor_vehicle": "yes"}, "car", True), ({"barrier": "gate", "access": "no", "motorcar": "yes"}, "car", True),
        ({"barrier": "unheard_of"}, "car", False), ({"barrier": "kerb;bollard"}, "car", False),
        ({"barrier": "gate", "access": "private;destination"}, "car", True), ({"access": "no"}, "car", True), (bollard, "bicycle", True),
        (bollard, "foot", True), *(({"barrier": "stile"}, profile, profile == "foot") for profile in profiles.NAMES),
        ({"barrier": "gate"}, "bicycle", True), ({"barrier": "gate"}, "foot", True),
        ({"barrier": "cycle_barrier", "bicycle": "dismount"}, "bicycle", True),
    ]:
        assert len(arcs_of(in_line(3, at={2: tags}), profile=profile)) == (2 if is_open else 4), (tags, profile)


def test_lists_in_tags_are_sets():
    """Words of a list in any order, and of the tags of access the one that says most of cars; other tags close a way for whoever can't pass there."""
    for value, is_open in [
        ("forestry;agricultural", False), ("agricultural; forestry", False), ("psv;taxi", False), ("private;destination", True),
        ("destination;private", True), ("no;permissive", True), ("bus", False), ("yes", True), ("never heard of", True),
        ("never heard of;private", False), ("delivery", False), ("", True),
    ]:
        assert (weights(ROAD | {"access": value}) is not None) == is_open, value
    for tags, profile, is_open in [
        ({"smoothness": "impassable"}, "car", False), ({"smoothness": "bad"}, "car", True), ({"smoothness": "impassable"}, "bicycle", False),
        ({"smoothness": "impassable"}, "foot", True), ({"highway": "service", "service": "emergency_access"}, "car", False),
        ({"area": "yes"}, "car", False), ({"highway": "rest_area"}, "car", False), ({"access": "no", "motorcar": "yes"}, "car", True),
        ({"motorcar": "no", "access": "yes"}, "car", False), ({"vehicle": "no", "motor_vehicle": "yes"}, "car", True),
        ({"motor_vehicle": "private", "access": "yes"}, "car", False), ({"motorcar": "what?", "vehicle": "no"}, "car", False),
        ({"bicycle": "no"}, "car", True),
    ]:
        assert (weights(ROAD | tags, profile=profile) is not None) == is_open, (tags, profile)
    assert noted(in_line(2, ROAD | {"motorcar": "what?"})) == {"access": {"motorcar=what?": 1}}


def test_deleted_things_are_not_there():
    """Nodes and ways that an editor has marked so; other marks say nothing."""
    two = osm({1: (0, 0), 2: (1, 0), 3: (2, 0)}, [([1, 2], ROAD), ([2, 3], ROAD)])
    for head in "action='delete'", "visible='false'":
        found, left = arcs_of(in_line(4).replace("<node id='4'", f"<node id='4' {head}")), two.replace("<way id='2'", f"<way id='2' {head}")
        assert len(found) == 2 and found[0][:2] == (1, 3)
        assert arcs_of(left) == [(1, 2, BLOCK), (2, 1, BLOCK)] and noted(left) == {"deleted": {"": 1}}
    assert weights(ROAD) == (BLOCK, BLOCK) and arcs_of(in_line(2).replace("<node", "<node action='modify' visible='true'"))


def test_limits_of_speed():
    """Each form of a limit, in any unit, for both directions or one; what can't be read is reported, and the usual speed counts."""
    def at(speed):
        return round(111.19508 * 3600 / speed)

    for value, speed in {
        "50": 50, "5.5": 5.5, "50.0": 50, "30 mph": 30 * 1.609344, "30mph": 30 * 1.609344, "60 km/h": 60, "60kmh": 60, "10 knots": 18.52,
        "50;30": 30, "30; 50": 30, "none": 130, "walk": 7, "signals": 30, "variable": 30, "DE:urban": 50, "CH:rural": 80, "DE:zone:30": 30,
        "FR:zone30": 30, "GB:nsl_single": 96.56064, "DE:rural;70": 70, "none;100": 100, "signals;80": 80, "200": 200,
    }.items():
        found = weights(ROAD | {"maxspeed": value})
        assert found[0] == found[1] and abs(found[0] - at(speed)) <= 1, (value, found, at(speed))
        assert "speeds" not in noted(in_line(2, ROAD | {"maxspeed": value})), value
    for value in "fast", "-5", "0", "5,5", "1e2", "50 @ (22:00-06:00)", "XX:urban", "30 leagues", "", ".5", "٣٠", "1000", "201", "130 mph", "DE:zone:900":
        assert weights(ROAD | {"maxspeed": value}) == (BLOCK, BLOCK), value
        assert noted(in_line(2, ROAD | {"maxspeed": value})) == {"speeds": {f"maxspeed={value}": 1}}, value
    for tags, profile, speeds in (
        ({"maxspeed": "what;60"}, "car", (60, 60)),
        ({"maxspeed": "60", "maxspeed:forward": "120", "maxspeed:backward": "DE:urban"}, "car", (120, 50)),
        ({"maxspeed": "60", "maxspeed:backward": "120"}, "car", (60, 120)), ({"highway": "cycleway", "maxspeed": "5"}, "bicycle", (5, 5)),
        ({"highway": "cycleway", "maxspeed": "50"}, "bicycle", (18, 18)), ({"maxspeed": "3"}, "foot", (5, 5)),
    ):
        assert weights(ROAD | tags, profile=profile) == tuple(map(at, speeds)), tags


def test_directions():
    """In which directions a way is open: as it is drawn, against it, or both."""
    for tags, sides in [
        ({"oneway": "yes"}, "+"), ({"oneway": "1"}, "+"), ({"oneway": "true"}, "+"), ({"oneway": "-1"}, "-"), ({"oneway": "reverse"}, "-"),
        ({"oneway": "no"}, "+-"), ({"oneway": "alternating"}, "+-"), ({"oneway": "perhaps"}, "+-"), ({"junction": "roundabout"}, "+"),
        ({"junction": "circular", "oneway": "no"}, "+-"), ({"highway": "motorway"}, "+"), ({"highway": "motorway", "oneway": "no"}, "+-"),
        ({"highway": "motorway_link"}, "+-"), ({"oneway": "yes", "oneway:motor_vehicle": "no"}, "+-"),
        ({"oneway:bicycle": "no", "oneway": "yes"}, "+"), ({"oneway": "reversible"}, ""),
    ]:
        along, against = weights(ROAD | tags) or (None, None)
        assert (along is not None, against is not None) == ("+" in sides, "-" in sides), tags
    assert noted(in_line(2, ROAD | {"oneway": "perhaps"})) == {"oneway": {"oneway=perhaps": 1}}


def test_profiles_differ():
    for tags, car, bicycle, foot in [
        ({"highway": "motorway"}, 110, None, None), ({"highway": "trunk"}, 90, 18, 5),
        ({"highway": "trunk", "motorroad": "yes"}, 90, None, None), ({"highway": "cycleway"}, None, 18, 5),
        ({"highway": "footway"}, None, None, 5), ({"highway": "footway", "bicycle": "yes"}, None, 10, 5),
        ({"highway": "footway", "access": "yes"}, None, None, 5), ({"highway": "steps"}, None, None, 3), ({"highway": "path"}, None, 12, 5),
        ({"highway": "path", "bicycle": "no"}, None, None, 5), ({"highway": "pedestrian"}, None, None, 5),
        ({"highway": "pedestrian", "motor_vehicle": "destination"}, 10, None, 5),
        ({"highway": "residential", "access": "no", "bicycle": "yes"}, None, 16, None),
        ({"highway": "track", "motor_vehicle": "forestry"}, None, 12, 5), ({"highway": "residential", "vehicle": "no"}, None, None, 5),
        ({"highway": "primary", "bicycle": "use_sidepath"}, 70, None, 5), ({"highway": "pedestrian", "area": "yes"}, None, None, 5),
        ({"highway": "cycleway", "foot": "no"}, None, 18, None), ({"highway": "path", "bicycle": "dismount"}, None, None, 5),
        ({"highway": "busway", "bicycle": "designated"}, None, 18, None), ({"highway": "construction"}, None, None, None),
    ]:
        for profile, speed in (("car", car), ("bicycle", bicycle), ("foot", foot)):
            found = weights(tags, profile=profile)
            assert (found and max(part or 0 for part in found)) == (speed and round(111.19508 * 3600 / speed)), (tags, profile, found)
    against = [{"oneway:bicycle": "no"}, {"cycleway": "opposite"}, {"cycleway": "opposite_lane"}, {"cycleway:left": "opposite_track"}]
    for tags in against:
        for way in {"oneway": "yes"}, {"oneway": "-1"}, {"junction": "roundabout"}:
            assert None not in weights(ROAD | way | tags, profile="bicycle"), (way, tags)
            assert None in weights(ROAD | way | tags)
    assert None in weights(ROAD | {"oneway": "yes"}, profile="bicycle")
    assert None in weights(ROAD | {"oneway:bicycle": "yes"}, profile="bicycle")
    assert None not in weights(ROAD | {"oneway": "yes"}, profile="foot") and None in weights(ROAD | {"oneway:foot": "yes"}, profile="foot")


def test_tables_are_sound():
    """No word is in two lists, and each kind of way takes the speed of its line, where that is opened if need be."""
    for name in profiles.NAMES:
        profile = profiles.profile(name)
        assert not profile.access.open & profile.access.closed and not profile.barriers.open & profile.barriers.closed
        assert not profile.speeds.keys() & profile.speeds_where_opened.keys() and profile.limit in profiles.LIMITS
        for kind, speed in (profile.speeds | profile.speeds_where_opened).items():
            tags = {"highway": kind} | ({} if kind in profile.speeds else {profile.access.tags[0]: "yes"})
            assert weights(tags, profile=name)[0] == round(111.19508 * 3600 / speed), (name, kind)
            assert kind in profile.speeds or weights({"highway": kind}, profile=name) is None


def test_the_page_has_the_tables():
    """docs/MAPS.md has the tables as they are used, and docs/REFERENCE.md each option of the command."""
    page, reference = ((ROOT / "docs" / name).read_text() for name in ("MAPS.md", "REFERENCE.md"))
    for table in tables.everything():
        assert f"\n\n{table}\n\n" in page, f"docs/MAPS.md lacks this table; tests/helpers/tables.py prints all:\n{table}"
    for option in set(re.findall(r"--[a-z-]+", tool("osm_to_gr", "--help")[0])) - {"--help"}:
        assert f"| `{option}" in reference, option


def test_ferries_take_their_time():
    """Their duration is shared among their pieces; without one they have a speed. They carry whom their tags name, and can be left out."""
    ferry, nodes = {"route": "ferry"}, {1: (0, 0), 2: (30, 0), 3: (90, 0)}
    for duration, seconds in {"00:30": 1800, "1:00": 3600, "45": 2700, "00:20:30": 1230, "PT1H30M": 5400, "P1D": 86_400}.items():
        ways, third = [([1, 2, 3], ferry | {"duration": duration}), ([2, 1], {"highway": "track"})], seconds // 3
        found = {arc[:2]: arc[2] for arc in arcs_of(osm(nodes, ways))[:4]}
        first, last = seconds * 333 + third, seconds * 667 - third
        assert found == {(1, 2): first, (2, 1): first, (2, 3): last, (3, 2): last}, (duration, found)
    for tags in {}, {"duration": "soon"}, {"duration": "0"}:
        assert weights(ferry | tags)[0] == round(111.19508 * 3600 / 15)
        assert noted(in_line(2, ferry | tags)) == {"durations": {f"duration={tags['duration']}" if tags else "": 1}}
    assert arcs_of(osm(nodes, [([1, 2, 9, 3], ferry | {"duration": "00:30"})]))[0] == (1, 2, round(30 * 111195.08 * 3.6 / 15))
    assert weights(ferry, ferries=False) is None and weights({"route": "bus"}) is None and weights({"route": "ferry;bus"})
    for tags in {"foot": "yes"}, {"motor_vehicle": "no"}, {"access": "no"}, {"bicycle": "no"}:
        assert weights(ferry | tags) is None and weights(ferry | tags | {"motorcar": "yes"}), tags
    assert weights(ferry | {"foot": "yes"}, profile="foot") and weights(ferry | {"oneway": "yes", "duration": "1"})[1] is None
    mixed = osm(nodes, [([1, 2], ROAD), ([2, 3], ferry)])
    assert noted(mixed, ferries=False) == {"ferries": {"": 1}} and len(arcs_of(mixed, ferries=False)) == 2
    assert weights(ferry | {"duration": "1"}, metric="metres") == (111, 111)


def test_what_is_left_out_is_told():
    """In a table on standard error, unless that is to be quiet, and in a file with a line for each object."""
    nodes = {number: (number, 0) for number in range(1, 10)} | {3: (3, 0, {"barrier": "bollard"}), 4: (4, 0, {"barrier": "dragon"})}
    ways = [
        ([1, 2, 3, 4, 5], ROAD), ([5, 6], {"highway": "footway"}), ([5, 7], {"highway": "footway"}), ([5, 8], {"highway": "steps"}),
        ([5, 6], ROAD | {"access": "private"}), ([6, 7], ROAD | {"oneway": "reversible"}), ([5], ROAD), ([1, 99], ROAD),
        ([1, 9], ROAD | {"maxspeed": "fast"}), ([9, 8], {"route": "ferry"}), ([9, 8], ROAD | {"oneway": "perhaps", "motorcar": "what?"}),
        ([1, 2], {"building": "yes"}),
    ]
    text = osm(nodes, ways, [((("way", 1, "from"), ("way", 1, "via"), ("way", 1, "to")), {"type": "restriction", "restriction": "no_u_turn"})])
    pathlib.Path("all.osm").write_text(text)
    told, table = tool("osm_to_gr", "--turns", "all.osm", "all")
    assert told == "4 nodes and 8 arcs in all.gr, all.co, all.nodes and all.ways\n", told
    assert table.splitlines() == [
        "left out of all.osm, for cars:",
        "  3  ways of other kinds                                  2 highway=footway, 1 highway=steps",
        "  1  ways closed by their tags                            1 access=private",
        "  1  ways whose direction changes with the time",
        "  2  ways of fewer than two nodes",
        "  1  nodes of roads that the map doesn't have: dead ends",
        "  2  closed barriers: dead ends                           1 barrier=bollard, 1 barrier=dragon",
        "  1  barriers of unknown kind                             1 barrier=dragon",
        "  1  access tags passed over: no known word               1 motorcar=what?",
        "  1  one-way tags passed over: no known word              1 oneway=perhaps",
        "  1  limits of speed passed over: unreadable or too high  1 maxspeed=fast",
        "  1  ferries without a readable duration",
        "  1  turn restrictions left out                           1 over ways",
        "  4  nodes of smaller components                          4 of 8, in 2 parts of 2 nodes and fewer",
    ], table
    assert tool("osm_to_gr", "--turns", "--quiet", "--log", "all.csv", "all.osm", "all")[1] == ""
    head, *rows = [line.split(",", 3) for line in pathlib.Path("all.csv").read_text().splitlines()]
    objects = {}
    for thing, number, reason, words in rows:
        objects.setdefault(reason.partition(":")[0], set()).add(f"{thing} {number} {words}".strip())
    apart = {each.split()[1] for each in objects.pop("nodes of smaller components")}
    assert apart and not apart & {*pathlib.Path("all.nodes").read_text().split()} - {"3", "4"} and head == ["object", "id", "reason", "words"]
    assert objects == {
        "ways of other kinds": {"way 2 highway=footway", "way 3 highway=footway", "way 4 highway=steps"},
        "ways closed by their tags": {"way 5 access=private"}, "ways whose direction changes with the time": {"way 6"},
        "ways of fewer than two nodes": {"way 7", "way 8"}, "nodes of roads that the map doesn't have": {"node 99"},
        "closed barriers": {"node 3 barrier=bollard", "node 4 barrier=dragon"}, "barriers of unknown kind": {"node 4 barrier=dragon"},
        "access tags passed over": {"way 11 motorcar=what?"}, "one-way tags passed over": {"way 11 oneway=perhaps"},
        "limits of speed passed over": {"way 9 maxspeed=fast"}, "ferries without a readable duration": {"way 10"},
        "turn restrictions left out": {"relation 1 over ways"},
    }, objects
    pathlib.Path("two.osm").write_text(in_line(2))
    assert tool("osm_to_gr", "two.osm", "two")[1] == "left out of two.osm, for cars: nothing\n"


def test_what_comes_twice_or_lies_nowhere_is_told():
    """Ways and nodes of one number are told; a road's node that lies nowhere is refused with its number."""
    text = osm({1: (1, 0), 2: (2, 0), 3: (3, 0)}, [([1, 2], ROAD), ([2, 3], ROAD)])
    assert noted(text) == {}
    twice = text.replace("<way id='2'", "<way id='1'")
    made, report = converted(twice)
    assert len(made.arcs) == 4 and {kind: dict(counts) for kind, counts in report.counts.items() if counts} == {"twice": {"way": 1}}
    node = next(line for line in text.splitlines() if line.startswith("<node id='2'"))
    assert noted(text.replace(node, f"{node}\n{node}")) == {"twice": {"node": 1}}
    assert "node 2 at longitude 999, latitude 0 is no place on the earth" in fault_of(text.replace("lon='0.002'", "lon='999'"))
    assert fault_of(osm({1: (1, 0), 2: (2, 0), 9: (999_000, 0)}, [([1, 2], ROAD)])) == ""


def test_parts_are_kept():
    """All, the largest, one by its number, or the large ones: components of at least a hundredth of the largest one, and of two nodes, on large maps
    of 250, with what lies between them."""
    nodes = {number: (number, 0) for number in range(1, 10)}
    ways = [([1, 2], ROAD), ([3, 4, 5, 6], ROAD), ([4, 9], ROAD), ([7, 8], ROAD | {"oneway": "yes"})]
    text, joined = osm(nodes, ways), osm(nodes, [*ways, ([2, 3], ROAD | {"oneway": "yes"})])
    assert {name: converted(text, part=name)[0].names for name in ("all", "largest", 1, 2, 3, 4)} == {
        "all": [1, 2, 3, 4, 6, 7, 8, 9], "largest": [3, 4, 6, 9], 1: [3, 4, 6, 9], 2: [1, 2], 3: [7], 4: [8]
    }
    assert noted(text, part="largest") == {"parts": {"of 8, in 3 parts of 2 nodes and fewer": 4}} and noted(text) == {}
    pathlib.Path("parts.osm").write_text(text)
    assert refused("--part", "5", "parts.osm", "parts") == "osm_to_gr: there is no part 5: the roads have 4\n"
    for word in "0", "-1", "some":
        tool("osm_to_gr", "--part", word, "parts.osm", "parts", status=2)
    assert parts.large([(0, 8), (1, 2), (2, 1)]) == 2 and parts.large([(4, 1), (2, 1)]) == 1
    assert parts.large([(0, 900), (1, 10), (2, 9), (3, 8)]) == 3 and parts.large([(0, 100_000), (1, 250), (2, 249)]) == 2
    made, report = converted(joined, part="large")
    assert made.names == [1, 2, 3, 4, 6, 9] and report.total("parts") == 2
    assert (2, 3) in {(made.names[tail - 1], made.names[head - 1]) for tail, head, _ in made.arcs}, "one way from one to the other"
    assert converted(osm(nodes, [([1, 2], ROAD | {"oneway": "yes"})]), part="large")[0].names == [1]


def test_classes_of_ways_are_excluded():
    """Toll roads, motorways with their links, and ferries, as they are named; their number is printed, and the graph says what it lacks."""
    kinds = [ROAD, ROAD | {"toll": "yes"}, {"highway": "motorway"}, {"highway": "motorway_link"}, {"route": "ferry"}, ROAD | {"toll": "no"}]
    text = osm({number: (number, 0) for number in range(1, 8)}, [([number, number + 1], tags) for number, tags in enumerate(kinds, 1)])
    for classes, kept, count in (
        ((), [1, 2, 3, 4, 5, 6], 0), (["toll"], [1, 3, 4, 5, 6], 1), (["motorway"], [1, 2, 5, 6], 2), (["ferry"], [1, 2, 3, 4, 6], 1),
        (["toll", "motorway", "ferry"], [1, 6], 4),
    ):
        made, report = converted(text, exclude=classes)
        assert (sorted({*made.ways}), report.total("excluded")) == (kept, count), classes
    tool("osm_to_gr", "--quiet", "--part", "all", "--exclude", "ferry,toll", "map.osm", "classes")
    assert "part all, without toll, without ferry." in open("classes.gr").readline()
    for word in "", "toll,", "bridge", "toll;ferry":
        tool("osm_to_gr", "--exclude", word, "map.osm", "classes", status=2)


def test_files_of_all_forms():
    """Plain and packed, as files and through a pipe; what is cut short, spoilt or no map is refused in one line, and so are binary ones without
    pyosmium, the one package that is needed for any."""
    text = in_line(3, at={2: {"barrier": "bollard"}}).encode()
    wanted = "p sp 4 4\na 1 2 13343\na 2 1 13343\na 3 4 13343\na 4 3 13343\n"
    os.mkdir("none")
    for package in "numpy", "osmium", "scipy":
        pathlib.Path("none", f"{package}.py").write_text("raise ImportError\n")
    alone = os.environ | {"PYTHONPATH": "none"}
    for suffix, packer in {"osm": bytes, "osm.gz": gzip.compress, "osm.bz2": bz2.compress, "osm.xz": lzma.compress}.items():
        pathlib.Path(f"map.{suffix}").write_bytes(packer(text))
        for words, given in (([f"map.{suffix}"], None), (["-"], packer(text))):
            tool("osm_to_gr", "--part", "all", *words, "out", text=given, env=alone)
            assert "".join(line for line in open("out.gr") if line[0] != "c") == wanted, suffix
            assert ("from standard input:" if given else f"from map.{suffix}:") in open("out.gr").readline()
        pathlib.Path("short").write_bytes(packer(text)[:-20])
        assert "short: cut short" in refused("short", "none"), suffix
        assert "standard input: cut short" in refused("-", "none", text=packer(text)[:-20])
    spoilt = bytearray(gzip.compress(text))
    spoilt[40] ^= 255
    pathlib.Path("spoilt").write_bytes(spoilt)
    refused("spoilt", "none")
    faults = {
        "": "no element found", "<osm/>": "the map has no road for cars", "<gpx/>": "its first element is gpx", "roads": "not a map in XML",
        "<osm><way><nd/></way></osm>": "line 1: an element has no attribute ref", "<osm>\n<node id='x' lon='0' lat='0'/></osm>": "line 2: ",
        text.decode().replace("lon='0.002'", "lon='200'"): "line 3: ", text.decode().replace("lat='0.0'", "lat='nan'"): "line 2: ",
        in_line(2, {"highway": "footway"}): "the map has no road for cars", text.decode().replace("<nd ref='1'", "<nd ref='1e99'"): "line 5: ",
    }
    for given, fault in faults.items():
        assert fault in (told := refused("-", "none", text=given.encode())), (given, told)
    assert "No such file" in refused("nowhere.osm", "none")
    assert "no road for people on foot" in refused("--profile", "foot", "-", "none", text=b"<osm/>")
    pathlib.Path("empty.osm.pbf").write_bytes(b"\0\0\0\x0e\x0a\x09OSMHeader\x18\x10")
    assert "python3-pyosmium" in refused("empty.osm.pbf", "none", env=alone) and "Example:" in tool("osm_to_gr", "--help", env=alone)[0]


@needs("python3-pyosmium")
def test_maps_in_binary():
    """The same graphs from .osm.pbf as from XML: Liechtenstein, a map with all that is odd, and a file that is cut short."""
    import osmium

    nodes = {1: (0, 0), 2: (1, 0, {"barrier": "gate, locked = 5 %;bollard"}), -3: (2, 0), 4: (3, 1)}
    turn = [("way", 1, "from"), ("node", 1, "via"), ("way", 1, "to")], {"type": "restriction", "restriction": "no_u_turn"}
    pathlib.Path("odd.osm").write_text(osm(nodes, [([1, 2, -3, 99, 4, 1], ROAD), ([], ROAD)], [turn]))
    for name, given in (("odd", "odd.osm"), ("country", f"{COUNTRY}.osm.bz2")):
        writer = osmium.SimpleWriter(f"{name}.osm.pbf")
        calls = {kind: lambda _, each, add=getattr(writer, f"add_{kind}"): add(each) for kind in ("node", "way", "relation")}
        type("Copy", (osmium.SimpleHandler,), calls)().apply_file(str(given))
        writer.close()
        made = [converting.convert(path, converting.Choices(turns=True, nodes="all", part="all", names=True)) for path in (str(given), f"{name}.osm.pbf")]
        assert made[0][0] == made[1][0] and made[0][1].counts == made[1][1].counts, name
    assert told_by_the_way("odd.osm.pbf").startswith("reading: 7 objects\nroads: 1 of 1 roads\n"), told_by_the_way("odd.osm.pbf")
    whole = pathlib.Path("country.osm.pbf").read_bytes()
    assert tool("osm_to_gr", "--quiet", "-", "out", text=whole)[0] == tool("osm_to_gr", "--quiet", "country.osm.pbf", "out")[0]
    writer = osmium.SimpleWriter("lost.osm.pbf")
    for number, longitude in (1, 9.5), (2, 9.6), (3, 999.0):
        writer.add_node(osmium.osm.mutable.Node(id=number, location=(longitude, 47.0), version=1))
    writer.add_way(osmium.osm.mutable.Way(id=1, nodes=[1, 2, 3], tags=ROAD, version=1))
    writer.close()
    assert "node 3 is at no place on the earth" in refused("lost.osm.pbf", "none")
    for size in 20, 100, len(whole) // 2, len(whole) - 1:
        pathlib.Path("short.osm.pbf").write_bytes(whole[:size])
        assert "short.osm.pbf: cut short or spoilt: " in refused("short.osm.pbf", "none"), size


def told_by_the_way(*words):
    """What the command tells on standard error where each step is told, numbers of seconds aside."""
    text = "import sys; sys.path.insert(0, sys.argv[1])\nimport chtab._engine.progress\nchtab._engine.progress.SECONDS = 0\n"
    text += "from chtab_maps import command\ncommand.main(sys.argv[2:])\n"
    done = subprocess.run([PYTHON, "-c", text, ROOT / "python", *words, "out"], capture_output=True, text=True)
    assert done.returncode == 0, done.stderr
    return re.sub(r" after \d+ s(, some \d+ s left)?", "", done.stderr)


def test_signs_of_life():
    """The bytes that were read, of the ways and then of the nodes, and the roads; with --quiet nothing."""
    text = in_line(3).encode()
    for packer in bytes, gzip.compress, bz2.compress, lzma.compress:
        pathlib.Path("map").write_bytes(packer(text))
        size = os.path.getsize("map")
        told = f"reading: {size} of {2 * size} bytes\nreading: {2 * size} of {2 * size} bytes\nroads: 1 of 1 roads\n"
        assert told_by_the_way("map") == told + "left out of map, for cars: nothing\n", told_by_the_way("map")
        assert told_by_the_way("--quiet", "map") == ""


def test_weights_are_rounded_once():
    """On the equator and on a meridian a degree is 111,195.08 m; no arc is 0 but where two nodes lie at one place."""
    draw = random.Random("weights")
    for _ in range(50):
        x, y = draw.uniform(-179_997, 179_997), draw.uniform(-89_997, 89_997)
        places = [(x + draw.uniform(-3, 3), y + draw.uniform(-3, 3)) for _ in range(10)]
        speed = draw.choice((7, 30, 50, 130))
        text = osm(dict(enumerate(places, 1)), [(list(range(1, 11)), ROAD | {"maxspeed": str(speed)})])
        bends = [arc[2] for arc in arcs_of(text, nodes="all") if arc[0] < arc[1]]
        whole = sum(map(mapping.Map(text, "car").metres, map(str, range(1, 10)), map(str, range(2, 11)))) * 3600 / speed
        assert abs(sum(bends) - whole) <= len(bends) / 2 + 0.001 and abs(arcs_of(text)[0][2] - whole) <= 0.501
    tiny = osm({1: (0, 0), 2: (0.0001, 0), 3: (0.0001, 0)}, [([1, 2, 3], {"highway": "motorway"})])
    for metric in "time", "metres":
        assert [arc[2] for arc in arcs_of(tiny, nodes="all", metric=metric)] == [1, 0]
    assert arcs_of(osm({1: (179_999.5, 0), 2: (-179_999.5, 0)}, [([1, 2], ROAD)]))[0][2] == BLOCK
    assert arcs_of(osm({1: (0, 0), 2: (180_000, 0)}, [([1, 2], ROAD)]), metric="metres")[0][2] == 20_015_114
    assert len(arcs_of(osm({1: (0, 0), 2: (1, 0)}, [([1, 1, 2, 2], ROAD)]), nodes="all")) == 2


def test_bends_of_arcs():
    """The places between the ends of each arc are written if that is asked for; else those of an earlier run are removed."""
    pathlib.Path("map.osm").write_text(osm({1: (0, 0), 2: (1, 0), 3: (1, 1), 4: (2, 2)}, [([1, 2, 3, 4], ROAD)]))
    tool("osm_to_gr", "--bends", "--quiet", "map.osm", "own")
    bent = pathlib.Path("own.gr").read_bytes()
    assert files.read_bends("own.bends") == {0: [(0.001, 0), (0.001, 0.001)], 1: [(0.001, 0.001), (0.001, 0)]}
    tool("osm_to_gr", "--quiet", "map.osm", "own")
    assert not pathlib.Path("own.bends").exists() and pathlib.Path("own.gr").read_bytes() == bent


def test_the_example_is_made_again():
    tool("osm_to_gr", "--quiet", f"{COUNTRY}.osm.bz2", "liechtenstein")
    for name in "gr", "co":
        assert pathlib.Path(f"liechtenstein.{name}").read_bytes() == pathlib.Path(f"{COUNTRY}.{name}").read_bytes(), name


def test_random_maps_agree_with_the_other_converter():
    """Arc for arc, for each way of travelling, all parts and the largest."""
    draw, compared = random.Random("maps"), 0
    for place in range(250):
        text = random_map(draw)
        for profile in profiles.NAMES:
            choices = {"nodes": draw.choice(["crossings", "all"]), "metric": draw.choice(["time", "metres"]), "ferries": draw.random() < 0.8}
            world = mapping.Map(text, profile, choices["ferries"])
            tags = {way.get("id"): world.tags(way) for way in world.ways}
            found = mapping.arcs(world, choices["nodes"] == "all", choices["metric"] == "metres")
            if not found:
                assert "no road" in fault_of(text, profile=profile, **choices), (place, text)
                continue
            for part, wanted in (("all", found), ("largest", mapping.largest(found))):
                made, _ = converted(text, profile=profile, part=part, names=True, **choices)
                assert called(made) == [mapping.street(tags[arc[3]], arc[5]) for arc in wanted], (place, profile, part, choices, text)
                assert made.ways == [int(arc[3]) for arc in wanted], (place, profile, part, choices, text)
                assert (made.arcs, made.names if made.arcs else []) == mapping.numbered(wanted), (place, profile, part, choices, text)
                compared += len(made.arcs)
    assert compared > 10_000, compared
