"""Tells the maneuvers of a route by the rules of docs/SERVICE.md. It is independent of the package: it shares no code with it.

It takes small maps alone: at each crossing it looks at all arcs of the map.
"""
import itertools
import math

from oracles import mapping

FAST, RAMPS = ("motorway", "trunk"), ("motorway_link", "trunk_link")


def places_of(world, way, ends):
    """The places of a piece of a way in degrees, rounded as files have them: from one of its ends to the other."""
    numbers = [each.get("ref") for each in way.findall("nd")]
    start, end = (number for number, _ in ends)
    for at, number in enumerate(numbers):
        if number == start:
            part = numbers[at:]
            stop = next((place for place, other in enumerate(part) if place and other == end and other != part[place - 1]), None)
            if stop is not None and is_whole(world, part[:stop + 1]):
                return [place_of(world, other) for other in part[:stop + 1]]
    raise AssertionError((numbers, ends))


def is_whole(world, numbers):
    return all(number in world.nodes for number in numbers)


def place_of(world, number):
    node = world.nodes[number]
    return round(float(node.get("lon")) * 1e6) / 1e6, round(float(node.get("lat")) * 1e6) / 1e6


def metres(one, other):
    (x, y), (u, v) = (map(math.radians, place) for place in (one, other))
    part = math.sin((v - y) / 2) ** 2 + math.cos(y) * math.cos(v) * math.sin((u - x) / 2) ** 2
    return 2 * 6_371_008.8 * math.asin(math.sqrt(part))


def ahead(places):
    """The direction from the first place to the point ten metres along, in whole degrees."""
    left, target = 10.0, places[-1]
    for one, other in zip(places, places[1:]):
        length = metres(one, other)
        if length >= left:
            share = left / length
            target = tuple(a + share * (b - a) for a, b in zip(one, other))
            break
        left -= length
    (x, y), (u, v) = (tuple(map(math.radians, place)) for place in (places[0], target))
    east, north = math.sin(u - x) * math.cos(v), math.cos(y) * math.sin(v) - math.sin(y) * math.cos(v) * math.cos(u - x)
    return round(math.degrees(math.atan2(east, north))) % 360


def between(came, goes):
    """The angle from straight on, above 0 to the right."""
    return (goes - came + 180) % 360 - 180


def word(angle):
    side = "right" if angle > 0 else "left"
    for most, told in (20, "straight"), (40, f"slight {side}"), (120, side), (180, f"sharp {side}"):
        if abs(angle) <= most:
            return told
    raise AssertionError(angle)


class Teller:
    """A map, its arcs as `mapping.arcs` gives them, and the pairs of arcs that may not follow on each other."""

    def __init__(self, world, found, never, side="right"):
        self.found, self.never, self.side = found, never, side
        tags, ways = {way.get("id"): world.tags(way) for way in world.ways}, {way.get("id"): way for way in world.ways}
        self.streets = [{"name": "", "ref": "", "junction": "", "highway": ""} | mapping.street(tags[arc[3]], arc[5]) for arc in found]
        self.lines = []
        for arc in found:
            ends = (arc[0], arc[1]) if arc[5] else (arc[1], arc[0])
            line = places_of(world, ways[arc[3]], ends)
            self.lines.append(line if arc[5] else line[::-1])

    def branch(self, at, leaves):
        """The end of a road that an arc leaves by, or comes by: roads that lie alike are one."""
        arc = self.found[at]
        line = self.lines[at] if leaves else self.lines[at][::-1]
        return (arc[0], arc[1]) if leaves else (arc[1], arc[0]), tuple(line)

    def is_road(self, at):
        return len(set(self.lines[at])) > 1 or self.found[at][0] != self.found[at][1]

    def branches(self, node):
        """All branches of a node, each with the arcs that leave by it."""
        known = {}
        for at, arc in enumerate(self.found):
            if self.is_road(at) and arc[0] == node:
                known.setdefault(self.branch(at, True), []).append(at)
            if self.is_road(at) and arc[1] == node:
                known.setdefault(self.branch(at, False), [])
        return known

    def street_by(self, branch, arcs):
        """The street of leaving by a branch: of several arcs that of the lightest one, or of coming back where none leaves."""
        if not arcs:
            arcs = [at for at in range(len(self.found)) if self.is_road(at) and self.branch(at, False) == branch]
        return self.streets[min(arcs, key=lambda at: (self.found[at][2], at))]

    def tell(self, path):
        """The maneuvers of a route over these arcs between its departure and its arrival: (type, modifier, exit, node, place in the path), and the
        rotaries' names by the place."""
        told, last = [], self.streets[path[0]]
        for place, (one, other) in enumerate(zip(path, path[1:]), 1):
            kind, modifier = self.maneuver(one, other)
            street = self.streets[other]
            if kind is None and called(street) not in ("", called(last)) and not street["junction"]:
                kind, modifier = "new name", word(self.angle(one, other))
            if kind or called(street):
                last = street
            if kind:
                told.append([kind, modifier, 0, self.found[one][1][0], place])
        self.count_exits(path, told)
        return self.joined(path, told)

    def joined(self, path, told):
        """What is told without new names less than 30 metres behind a turn, which then leads onto the street of that name, or before one."""
        ends = [0.0, *itertools.accumulate(metres_of(self.lines[at]) for at in path)]
        found, last = [], None
        for number, each in enumerate(told):
            then = told[number + 1] if number + 1 < len(told) else None
            if each[0] != "new name":
                last = each
            elif is_joining(last) and ends[each[4]] - ends[last[5] if len(last) > 5 else last[4]] < 30:
                last[5:] = [last[5] if len(last) > 5 else last[4]]
                last[0], last[4] = "turn" if last[0] == "continue" else last[0], each[4]
                continue
            elif is_joining(then) and ends[then[4]] - ends[each[4]] < 30:
                then[0] = "turn" if then[0] == "continue" else then[0]
                continue
            else:
                last = None
            found.append(each)
        return [each[:5] for each in found]

    def angle(self, one, other):
        came = (ahead(self.lines[one][::-1]) + 180) % 360
        return between(came, ahead(self.lines[other]))

    def maneuver(self, one, other):
        """What is done from one arc to another, new names aside."""
        old, new, angle = self.streets[one], self.streets[other], self.angle(one, other)
        came, goes = self.branch(one, False), self.branch(other, True)
        known = self.branches(self.found[one][1])
        heading = (ahead(self.lines[one][::-1]) + 180) % 360
        may = {branch: arcs for branch, arcs in known.items() if branch not in (came, goes) and any((one, at) not in self.never for at in arcs)}
        angles = {branch: between(heading, ahead(branch[1])) for branch in known}
        if came == goes:
            return "continue", "uturn"
        if old["junction"] and new["junction"]:
            return None, None
        if new["junction"]:
            return "roundabout", word(angle)
        if old["junction"]:
            return "exit roundabout", word(angle)
        if (old["highway"] == "ferry") != (new["highway"] == "ferry"):
            return "notification", word(angle)
        if len(known) < 3:
            return None, None
        is_slow = old["highway"] not in FAST and not old["highway"].endswith("_link")
        if old["highway"] in RAMPS and new["highway"] in FAST:
            return "merge", self.merging(known, came, goes, heading)
        if old["highway"] in FAST and new["highway"].endswith("_link"):
            return "off ramp", word(angle)
        if is_slow and new["highway"] in RAMPS:
            return "on ramp", word(angle)
        if len(may) == 1:
            [(branch, arcs)] = may.items()
            street = self.street_by(branch, arcs)
            if street["highway"] == new["highway"] and max(abs(angle), abs(angles[branch])) <= 40 and same(old, street) == same(old, new):
                return "fork", "slight left" if angle < angles[branch] else "slight right"
        others = [angles[branch] for branch in known if branch not in (came, goes)]
        is_straighter = any(abs(angles[branch]) < abs(angle) for branch in may)
        if not (abs(angle) > 40 or is_straighter and (abs(angle) > 20 or not same(old, new))):
            return None, None
        if same(old, new):
            return "continue", word(angle)
        is_end = len(known) == 3 and abs(angle) > 40 and abs(others[0]) > 40 and (angle > 0) != (others[0] > 0)
        return "end of road" if is_end else "turn", word(angle)

    def merging(self, known, came, goes, heading):
        """The side on which the fast road lies that is joined."""
        offs = [
            between((ahead(branch[1]) + 180) % 360, heading) for branch, arcs in known.items()
            if branch not in (came, goes) and self.street_by(branch, arcs)["highway"] in FAST
        ]
        if any(-90 < off < 0 for off in offs):
            return "slight left"
        return "slight right" if any(0 < off < 90 for off in offs) or self.side == "left" else "slight left"

    def count_exits(self, path, told):
        """Writes the exits of rings into what is told."""
        entered, count = None, 0
        kinds = {each[4]: each for each in told}
        for place, (one, other) in enumerate(zip(path, path[1:]), 1):
            came, goes = self.branch(one, False), self.branch(other, True)
            if self.streets[one]["junction"] and came != goes:
                offs = [
                    branch for branch, arcs in self.branches(self.found[one][1]).items()
                    if branch not in (came, goes) and any((one, at) not in self.never for at in arcs) and not self.street_by(branch, arcs)["junction"]
                ]
                count += bool(offs) or not self.streets[other]["junction"]
            each = kinds.get(place)
            if each and each[0] == "roundabout":
                entered, count = each, 0
            if each and each[0] == "exit roundabout":
                each[2] = count
                if entered:
                    entered[2] = count
                entered, count = None, 0


def is_joining(each):
    """Whether a new name beside it is told with it."""
    return each is not None and each[0] in ("turn", "continue", "end of road") and each[1] != "uturn"


def metres_of(line):
    return sum(itertools.starmap(metres, zip(line, line[1:])))


def called(street):
    """The name of a street, or its number where it has none."""
    return street["name"] or street["ref"]


def same(one, other):
    """Whether two streets are the same."""
    return called(one) == called(other) != ""
