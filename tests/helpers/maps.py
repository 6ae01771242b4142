"""For the tests of maps: small maps in XML, what the package makes of them, and random ones."""
import functools
import os
import pathlib
import random
import subprocess
import sys
import tempfile
from xml.sax.saxutils import quoteattr

from helpers.packages import PYTHON
from helpers.running import ROOT
from oracles import dijkstra

sys.path.insert(0, str(ROOT / "python"))

from chtab import files  # noqa: E402
from chtab_maps import converting  # noqa: E402

COUNTRY = ROOT / "examples" / "liechtenstein"
# The files of the town, in a folder that is there as long as this process.
FOLDER = tempfile.TemporaryDirectory()
ROAD = {"highway": "residential"}
# A thousandth of a degree is 111.195 m at the equator, which takes 13,343 ms at 30 km/h.
BLOCK = 13_343
# Values of the tag of a traffic light's direction; most lights have none that says something.
LIGHTS = "forward", "backward", "both", ""


@functools.cache
def town(name="town", *words):
    """The start of the names of the files of the town that examples/town.py draws, with its bends
    and names, and by default with its restricted turns. Made once."""
    out, drawn = pathlib.Path(FOLDER.name) / name, pathlib.Path(FOLDER.name) / "town.osm"
    if not drawn.exists():
        subprocess.run([ROOT / "examples" / "town.py"], cwd=FOLDER.name, check=True)
    tool("osm_to_gr", "--quiet", "--bends", "--names", *(words or ["--turns"]), drawn, out)
    return out


def town_at_a_cost():
    """The same of the town where turns cost time."""
    return town("costs", "--turn-costs", "--turning-back", "dead-ends")


def osm(nodes, ways, relations=(), head=""):
    """A map in XML. `nodes` are {number: (x, y) or (x, y, tags)} in thousandths of a degree, `ways` are (nodes, tags) with numbers from 1
    on, `relations` (members, tags) with members (type, number, role)."""
    lines = ["<osm version='0.6'>"]
    for number, (x, y, *tags) in nodes.items():
        lines.append(f"<node id='{number}' lon='{x / 1000}' lat='{y / 1000}'{head}>{xml_of(*tags)}</node>")
    for number, (refs, tags) in enumerate(ways, 1):
        lines.append(f"<way id='{number}'>" + "".join(f"<nd ref='{ref}'/>" for ref in refs) + xml_of(tags) + "</way>")
    for number, (members, tags) in enumerate(relations, 1):
        parts = "".join(f"<member type='{kind}' ref='{ref}' role='{role}'/>" for kind, ref, role in members)
        lines.append(f"<relation id='{number}'>{parts}{xml_of(tags)}</relation>")
    return "\n".join([*lines, "</osm>"])


def xml_of(tags=()):
    return "".join(f"<tag k={quoteattr(key)} v={quoteattr(value)}/>" for key, value in dict(tags).items())


def converted(text, **choices):
    """What comes of a map in XML, all parts, and its report."""
    pathlib.Path("map.osm").write_text(text)
    return converting.convert("map.osm", converting.Choices(**{"part": "all"} | choices))


def arcs_of(text, **choices):
    """The arcs by the map's numbers of nodes: (from, to, weight)."""
    made, _ = converted(text, **choices)
    return [(made.names[tail - 1], made.names[head - 1], weight) for tail, head, weight in made.arcs]


def noted(text, **choices):
    """What was left out, by kind: {kind: {words: count}}."""
    _, report = converted(text, **choices)
    return {kind: dict(counts) for kind, counts in report.counts.items() if counts}


def in_line(count, tags=ROAD, at=None):
    """Nodes 1, 2, .. in a line, of which some have tags, and one way through all of them."""
    nodes = {number: (number, 0, (at or {}).get(number, {})) for number in range(1, count + 1)}
    return osm(nodes, [(list(nodes), tags)])


def weights(tags, **choices):
    """The weights along and against a way of one block, None where it is closed; None where it is no road."""
    try:
        found = {arc[:2]: arc[2] for arc in arcs_of(in_line(2, tags), **choices)}
    except files.FileFault:
        return None
    return found.get((1, 2)), found.get((2, 1))


def tool(name, *words, text=None, status=0, env=None):
    """What a command writes to standard output and standard error."""
    command = [PYTHON, ROOT / "tools" / f"{name}.py", *words]
    done = subprocess.run([str(word) for word in command], input=text, capture_output=True, env=env)
    assert done.returncode == status, (words, done.returncode, done.stderr.decode())
    return done.stdout.decode(), done.stderr.decode()


def refused(*words, **more):
    """The one line on standard error of a run that is refused and writes nothing."""
    before = set(os.listdir())
    _, told = tool("osm_to_gr", *words, status=1, **more)
    assert told.count("\n") == 1 and told.startswith("osm_to_gr: ") and set(os.listdir()) == before, told
    return told


def fault_of(text, **choices):
    """The text of the fault of a map, empty where it has none."""
    try:
        converted(text, **choices)
    except files.FileFault as fault:
        return str(fault)
    return ""


def random_map(draw, most_relations=6):
    """A map of a few ways on a small grid, with tags of all kinds."""
    kinds = ["residential"] * 6 + ["motorway", "primary", "footway", "cycleway", "steps", "path", "pedestrian", "busway", "track", "dream"]
    words = ["yes", "no", "private", "destination", "agricultural;forestry", "psv;taxi", "private;destination", "what?", "dismount"]
    more = [
        ("oneway", ["yes", "-1", "no", "1", "reversible", "perhaps", "alternating"]), ("junction", ["roundabout", "circular", "filter"]),
        ("maxspeed", ["30", "5.5", "20 mph", "DE:urban", "walk", "none", "50;30", "signals", "fast", "CH:zone:20"]),
        ("maxspeed:forward", ["100", "what"]), ("maxspeed:backward", ["60", "signals"]), ("smoothness", ["impassable", "bad"]),
        ("area", ["yes"]), ("cycleway", ["opposite", "lane"]), ("oneway:bicycle", ["no", "yes"]),
        ("access", words), ("motor_vehicle", words), ("vehicle", words), ("bicycle", words), ("foot", words), ("motorroad", ["yes"]),
        ("service", ["emergency_access", "driveway"]), ("route", ["ferry", "bus"]), ("duration", ["10", "00:20", "soon"]),
        ("oneway:foot", ["yes"]), ("name", ["Long Street", "A \"<b>&", "\u00d6\u2028\n "]), ("ref", ["16", "A13; E43"]),
        ("destination", ["Chur;Sargans", " ; "]), ("destination:backward", ["Z\u00fcrich"]), ("destination:ref", ["A13"]), ("destination:ref:forward", ["28"]),
    ]
    barriers = ["gate", "bollard", "stile", "dragon", "kerb;block", "wall"]
    nodes = {}
    for number in draw.sample(range(1, 60), draw.randint(3, 12)):
        tags = {"barrier": draw.choice(barriers)} if draw.random() < 0.12 else {}
        tags |= {draw.choice(["access", "motorcar", "bicycle", "foot"]): draw.choice(words)} if draw.random() < 0.1 else {}
        luck = random.Random(f"{number} {len(nodes)}")
        if luck.random() < 0.2:
            tags |= {"highway": "traffic_signals", "traffic_signals:direction": luck.choice(LIGHTS)}
        nodes[number] = (draw.randint(0, 6) + 180_000 * draw.random() * (draw.random() < 0.02), draw.randint(0, 6), tags)
    ways = []
    for _ in range(draw.randint(2, 10)):
        refs = [draw.choice([*nodes, *nodes, *nodes, 77]) for _ in range(draw.randint(1, 6))]
        tags = {"highway": draw.choice(kinds)} if draw.random() < 0.93 else {"route": "ferry"}
        ways.append((refs, tags | {key: draw.choice(values) for key, values in more if draw.random() < 0.06}))
    text = osm(nodes, ways, [random_relation(draw, nodes, ways) for _ in range(draw.randint(0, most_relations))])
    for _ in range(draw.randint(0, 1)):
        text = text.replace(f"<way id='{draw.randint(1, len(ways))}'", f"<way visible='false' id='{len(ways) + 1}'")
    return text


def random_relation(draw, nodes, ways):
    turns = ["left_turn", "right_turn", "straight_on", "u_turn", "u_turn", "entry", "stopping"]
    via = draw.choice([*nodes])
    through = [number for number, (refs, _) in enumerate(ways, 1) if via in refs] or [1]
    members = [("way", draw.choice(through), "from"), ("node", via, "via"), ("way", draw.choice(through), "to")]
    members += [("way", draw.choice(through), draw.choice(["to", "from", "via"]))] * (draw.random() < 0.1)
    key = draw.choice(["restriction"] * 8 + ["restriction:bicycle", "restriction:foot"])
    tags = {"type": "restriction", key: draw.choice(["no_", "no_", "only_"]) + draw.choice(turns)}
    return members, tags | ({"except": draw.choice(["bicycle", "motorcar;psv"])} if draw.random() < 0.1 else {})


def first_nodes(names):
    """The first node of each of the map's nodes, by the names of all nodes in order."""
    return {name: number for number, name in reversed([*enumerate(names, 1)])}


def searched(made, starts=None):
    """The least weight from some nodes of the map, or each, to each other one: from where trips start to where they end."""
    firsts, ends, ahead = first_nodes(made.names), dict(made.ends), dijkstra.arcs_ahead(made.arcs)
    rows = {name: dijkstra.distances_from(firsts[name], ahead) for name in (firsts if starts is None else starts)}
    return {(name, other): row[end] for name, row in rows.items() for other, number in firsts.items() if (end := ends.get(number, number)) in row}


def called(made):
    """What each arc is called, without what is empty."""
    found, numbers, _ = made.streets
    assert len(set(found)) == len(found) and list(dict.fromkeys(filter(None, numbers))) == list(range(1, len(found) + 1)), numbers
    return [{key: text for key, text in found[number - 1]._asdict().items() if text} if number else {} for number in numbers]
