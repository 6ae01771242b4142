"""Makes the arcs of a map by the rules of docs/MAPS.md. It is independent of the package: it shares its tables, and no code.

It takes small maps alone: it looks at each pair of segments, and searches from each node.
"""
import collections
import itertools
import math
import pathlib
import tomllib
import xml.etree.ElementTree
from fractions import Fraction

from oracles import dijkstra

TABLES = pathlib.Path(__file__).resolve().parent.parent.parent / "python" / "chtab_maps" / "tables"
TURNS = {f"no_{turn}" for turn in ("left_turn", "right_turn", "straight_on", "u_turn", "entry", "exit")}
TURNS |= {f"only_{turn}" for turn in ("left_turn", "right_turn", "straight_on", "u_turn")}


def table(name):
    return tomllib.loads((TABLES / f"{name}.toml").read_text())


def split(text):
    return [word.strip() for word in text.split(";") if word.strip()]


class Map:
    """What a map says to those of one profile."""

    def __init__(self, text, profile, ferries=True):
        self.rules, self.limits, self.ferries = table(profile), table("limits"), ferries
        root = xml.etree.ElementTree.fromstring(text)
        there = [each for each in root if each.get("visible") != "false" and each.get("action") != "delete"]
        self.nodes = {each.get("id"): each for each in there if each.tag == "node" and each.get("lon")}
        self.ways = [each for each in there if each.tag == "way"]
        self.relations = [each for each in there if each.tag == "relation"]
        # The numbers of nodes at which pieces are cut besides crossings.
        self.cuts = set()

    @staticmethod
    def tags(element):
        return {tag.get("k"): tag.get("v") for tag in element.findall("tag")}

    def access(self, tags, more=()):
        """Which tag opens (True) or closes (False)."""
        for key in self.rules["access"]["tags"]:
            words = split(tags.get(key, ""))
            if any(word in self.rules["access"]["open"] or word in more for word in words):
                return key, True
            if any(word in self.rules["access"]["closed"] for word in words):
                return key, False
        return None, None

    def is_blocked(self, number):
        tags, rules = self.tags(self.nodes[number]), self.rules["barriers"]
        if "barrier" not in tags:
            return False
        key, is_open = self.access(tags, rules["open_words"])
        if key is not None:
            return not is_open
        kinds = split(tags["barrier"])
        if any(kind in rules["closed"] for kind in kinds):
            return True
        return rules["others"] == "closed" and not all(kind in rules["open"] for kind in kinds)

    def limit(self, tags, side):
        """Kilometres an hour as an exact number, or None."""
        words = split(tags.get(f"maxspeed:{side}", tags.get("maxspeed", "")))
        known, found = self.limits["words"] | self.limits["zones"], []
        for word in words:
            digits = word.rstrip("abcdefghijklmnopqrstuvwxyz/ ")
            unit = word[len(digits):].strip() or "km/h"
            if word in known:
                found.append(Fraction(known[word]))
            elif digits.replace(".", "", 1).isascii() and digits.replace(".", "", 1).isdecimal() and digits[0] != "." and digits[-1] != ".":
                found += [Fraction(digits) * Fraction(str(self.limits["units"][unit]))] if unit in self.limits["units"] else []
            elif ":" in word and word[:2].isupper() and word[:2] not in ("GB", "UK", "US"):
                zone = word.split(":", 1)[1].removeprefix("zone").removeprefix(":")
                found += [Fraction(zone)] if zone.isdecimal() else []
        return min((each for each in found if 0 < each <= self.limits["most"]), default=None)

    def is_ferry(self, tags):
        return "ferry" in split(tags.get("route", "")) and tags.get("highway") not in self.rules["speeds"]

    def usual(self, tags):
        """The usual speed of a way that is open, or None."""
        rules, kind, (key, is_open) = self.rules, tags.get("highway"), self.access(tags)
        if is_open is False or any(word in words for tag, words in rules["closed_by"].items() for word in split(tags.get(tag, ""))):
            return None
        if self.is_ferry(tags):
            is_for_others = key is None and any(other in tags for other in rules["ferries"]["for_others"])
            return rules["ferries"]["speed"] if self.ferries and not is_for_others else None
        if kind in rules["speeds"]:
            return rules["speeds"][kind]
        return rules["speeds_where_opened"].get(kind) if key not in (None, "access") else None

    def sides(self, tags):
        """Whether the way is open along it and against it."""
        rules = self.rules["oneway"]

        def has(table):
            return any(word in table[key] for key in table for word in split(tags.get(key, "")))

        words = {"yes": 1, "true": 1, "1": 1, "-1": -1, "reverse": -1, "no": 0, "false": 0, "0": 0, "alternating": 0, "reversible": 9}
        known = [words[tags[key]] for key in rules["tags"] if tags.get(key) in words]
        side = known[0] if known else int(has(rules["implied"]))
        if side == 9:
            return False, False
        if has(rules["opened_by"]):
            side = 0
        return side >= 0, side <= 0

    def speeds(self, tags):
        """The speeds along and against the way, 0 where it is closed."""
        usual = self.usual(tags)
        if usual is None:
            return 0, 0
        found = []
        for side, is_open in zip(("forward", "backward"), self.sides(tags)):
            limit = None if self.rules["maxspeed"]["limit"] == "says nothing" else self.limit(tags, side)
            if limit and self.rules["maxspeed"]["limit"] == "bounds the speed":
                limit = min(limit, usual)
            found.append((limit or usual) if is_open else 0)
        return tuple(found)

    def place(self, number):
        return math.radians(float(self.nodes[number].get("lon"))), math.radians(float(self.nodes[number].get("lat")))

    def metres(self, one, other):
        """By the tangent of the angle between two points, which is exact for short and long ways alike."""
        (x, y), (u, v) = self.place(one), self.place(other)
        a, b = ((math.cos(q) * math.cos(p), math.cos(q) * math.sin(p), math.sin(q)) for p, q in ((x, y), (u, v)))
        cross = (a[1] * b[2] - a[2] * b[1], a[2] * b[0] - a[0] * b[2], a[0] * b[1] - a[1] * b[0])
        return 6_371_008.8 * math.atan2(math.hypot(*cross), sum(map(float.__mul__, a, b)))


def seconds(duration):
    """Of hours and minutes alone, which is all that the tests' maps have."""
    parts = duration.split(":")
    if not all(part.isascii() and part.isdecimal() for part in parts) or len(parts) > 3:
        return 0
    parts = [0] * (2 - len(parts)) + [int(part) for part in parts]
    return parts[0] * 3600 + parts[1] * 60 + (parts[2] if len(parts) == 3 else 0)


def pieces(world, each_bend):
    """The pieces of roads: (way, ends, all nodes, metres, speed along, speed against); ends are
    (number, copy)."""
    lines = []
    for way in world.ways:
        tags = world.tags(way)
        if not any(world.speeds(tags)):
            continue
        nodes = [number for number, _ in itertools.groupby(each.get("ref") for each in way.findall("nd"))]
        if len(nodes) > 1:
            lines.append((way.get("id"), tags, nodes))
    met = collections.Counter(number for _, _, nodes in lines for number in nodes)
    ends = {number for _, _, nodes in lines for number in (nodes[0], nodes[-1])}
    copies = itertools.count(1)
    for way, tags, nodes in lines:
        speeds = world.speeds(tags)
        if all(number in world.nodes for number in nodes):
            length = sum(map(world.metres, nodes, nodes[1:]))
            time = seconds(tags.get("duration", "")) if world.is_ferry(tags) else 0
            speeds = tuple(length * 3.6 / time if speed else 0 for speed in speeds) if time and length else speeds
        piece = []
        for at, number in enumerate(nodes):
            if number not in world.nodes:
                piece = []
                continue
            piece.append(number)
            is_last = at + 1 == len(nodes) or nodes[at + 1] not in world.nodes
            is_cut = each_bend or number in ends or met[number] > 1 or number in world.cuts
            is_cut = is_cut or world.is_blocked(number)
            if len(piece) > 1 and (is_last or is_cut):
                outer = [(end, next(copies) if world.is_blocked(end) else 0) for end in (piece[0], piece[-1])]
                yield way, outer, piece, sum(map(world.metres, piece, piece[1:])), *speeds
                piece = [number]


def arcs(world, each_bend=False, in_metres=False):
    """The arcs (from, to, weight, way, piece, whether it leads along the way) in the order of the ways."""
    found = []
    for piece, (way, (start, end), _, metres, along, against) in enumerate(pieces(world, each_bend)):
        for speed, ends, is_along in ((along, (start, end), True), (against, (end, start), False)):
            if speed:
                weight = round(metres) if in_metres else round(metres * 3600 / float(speed))
                found.append((*ends, max(weight, int(metres > 0)), way, piece, is_along))
    return found


def street(tags, is_along):
    """What an arc of a way with these tags is called, without what is empty."""
    def told(key):
        return ", ".join(split(tags.get(f"{key}:{'forward' if is_along else 'backward'}", tags.get(key, ""))))

    found = {"highway": tags.get("highway", "ferry"), "name": tags.get("name", "").strip(), "ref": ", ".join(split(tags.get("ref", "")))}
    found["junction"] = tags["junction"] if tags.get("junction") in ("roundabout", "circular") else ""
    found["destinations"] = ": ".join(filter(None, (told("destination:ref"), told("destination"))))
    return {key: text for key, text in found.items() if text}


def largest(found):
    """The arcs of the largest part; of equal ones that with the least number."""
    nodes = list(dict.fromkeys(node for arc in found for node in arc[:2]))
    ahead = {node: [arc[1] for arc in found if arc[0] == node] for node in nodes}
    reached = {}
    for node in nodes:
        reached[node], todo = {node}, [node]
        for here in todo:
            todo += set(ahead[here]) - reached[node]
            reached[node].update(ahead[here])
    parts = [{other for other in reached[node] if node in reached[other]} for node in nodes]
    best = max(parts, key=lambda part: (len(part), -min(int(number) for number, _ in part)), default=set())
    return [arc for arc in found if arc[0] in best and arc[1] in best]


def numbered(found):
    """The arcs with numbers for nodes: by the map's numbers, copies of one in the order in which they come."""
    nodes = sorted({node for arc in found for node in arc[:2]}, key=lambda node: (int(node[0]), node[1]))
    numbers = {node: place for place, node in enumerate(nodes, 1)}
    return [(numbers[arc[0]], numbers[arc[1]], arc[2]) for arc in found], [int(node[0]) for node in nodes]


def forbidden(world, found):
    """The pairs of arcs, by their places, of which the second may not follow on the first."""
    rules, never, only = world.rules["turns"], set(), {}
    for relation in world.relations:
        tags, members = world.tags(relation), [(each.get("role"), each.get("type"), each.get("ref")) for each in relation.findall("member")]
        words = next((split(tags[key]) for key in rules["tags"] if key in tags), [])
        ways = {role: [ref for part, kind, ref in members if (part, kind) == (role, "way")] for role in ("from", "to")}
        vias = [(kind, ref) for part, kind, ref in members if part == "via"]
        is_for_us = tags.get("type") == "restriction" and not set(split(tags.get("except", ""))) & set(rules["except"])
        is_known = words and set(words) <= TURNS and len({word.split("_")[0] for word in words}) == 1
        if not is_for_us or not is_known or len(vias) != 1 or vias[0][0] != "node" or not all(ways.values()):
            continue
        ins, outs = ([[at for at, arc in enumerate(found) if arc[end] == (vias[0][1], 0) and arc[3] == way] for way in ways[role]]
                     for end, role in ((1, "from"), (0, "to")))
        if not all(ins + outs):
            continue
        is_back = set(words) <= {"no_u_turn", "only_u_turn"} and ways["from"] == ways["to"]
        turns = set(itertools.product(sum(ins, []), sum(outs, [])))
        if is_back:
            turns = {(a, b) for a, b in turns if a != b and found[a][4] == found[b][4]}
        elif any(len(each) > 1 for each in ins + outs):
            continue
        if words[0].startswith("no"):
            never |= turns
        else:
            for a, b in turns:
                only.setdefault(a, set()).add(b)
    never |= {(a, b) for a, may in only.items() for b, arc in enumerate(found) if arc[0] == found[a][1] and b not in may}
    return never | turned_back(found, never) if never else never


def turned_back(found, never, everywhere=False):
    """The pairs of arcs by which one turns back where just two roads meet, or everywhere, and may go on by another one."""
    branches, leaving, pairs = branches_of(found), collections.defaultdict(list), set()
    for b, arc in enumerate(found):
        leaving[arc[0]].append(b)
    for a, (_, node, *_, piece, _) in enumerate(found):
        outs = [b for b in leaving[node] if (a, b) not in never]
        if (everywhere or branches[node] == 2) and any(found[b][4] != piece for b in outs):
            pairs |= {(a, b) for b in outs if found[b][4] == piece and a != b}
    return pairs


def branches_of(found):
    """How many ends of pieces meet at each node."""
    ends = {arc[4]: arc[:2] for arc in found}
    return collections.Counter(node for pair in ends.values() for node in pair)


def follow(found, never):
    """For each arc those that may follow on it, each with its weight."""
    leaving = collections.defaultdict(list)
    for at, arc in enumerate(found):
        leaving[arc[0]].append((at, arc[2]))
    return [[(at, weight) for at, weight in leaving[arc[1]] if (here, at) not in never] for here, arc in enumerate(found)]


def trip(found, following, leaving, arriving):
    """The least weight of a trip that begins on some arcs and ends on some, each with the part of it that lies behind (0 to 1): {arc: part}.
    Infinite where there is none. Searched from arc to arc."""
    best = dijkstra.reached([((1 - part) * found[at][2], at) for at, part in leaving.items()], following.__getitem__)
    ends = [(arriving[at] - part) * found[at][2] for at, part in leaving.items() if part <= arriving.get(at, -1)]
    ends += [weight + arriving[at] * found[at][2] for here, weight in best.items() for at, _ in following[here] if at in arriving]
    return min(ends, default=math.inf)


def distances(found, following, start):
    """The least weight of a trip from a node to each other one, in which no arc follows that may not: searched from arc to arc."""
    best, ends = dijkstra.reached([(arc[2], at) for at, arc in enumerate(found) if arc[0] == start], following.__getitem__), {start: 0}
    for at, weight in best.items():
        ends[found[at][1]] = min(weight, ends.get(found[at][1], math.inf))
    return ends
