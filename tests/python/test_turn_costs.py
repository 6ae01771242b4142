"""Tests costs of turns (osm_to_gr.py --turn-costs), arc by arc, against the search from arc to arc
of oracles/turning.py: on random maps, on both example maps, and on crossroads whose costs are
worked by hand.
"""
import bz2
import collections
import math
import pathlib
import random

from helpers.commands import needs
from helpers.maps import BLOCK, COUNTRY, ROAD, converted, first_nodes, osm, random_map, searched, tool, town
from helpers.running import PROGRAM
from oracles import dijkstra, turning

HALF = 0.5 + 1e-6
# The roads of a crossing, as (longitude, latitude) in thousandths of a degree: in the west, the
# north, the east and the south.
WEST, NORTH, EAST, SOUTH = {2: (-1, 0)}, {3: (0, 1)}, {4: (1, 0)}, {5: (0, -1)}
SIGNALS = {"highway": "traffic_signals"}


class Made:
    """The graph of a conversion, taken apart: the weights of roads, those of turns between them as
    {(road in, road out): weight}, and where trips start and end."""

    def __init__(self, made, roads):
        self.made, self.roads = made, made.arcs[:roads]
        begins, stops = ({arc[end]: road for road, arc in enumerate(self.roads)} for end in (0, 1))
        assert len(begins) == len(stops) == roads, "each road has nodes of its own"
        self.turns, self.starts, self.ends = {}, {}, {}
        kinds = collections.Counter()
        crossing = dict(made.copies) | {end: node for node, end in made.ends}
        for tail, head, weight in made.arcs[roads:]:
            assert crossing.get(tail, tail) == crossing.get(head, head), "a turn is at one place"
            if tail in stops and head in begins:
                self.turns[stops[tail], begins[head]] = weight
                continue
            assert weight == 0 and {tail, head}.isdisjoint({*begins, *stops} - {tail, head})
            kinds[tail in stops, head in begins, (tail, head) in made.ends] += 1
        ends = len(made.ends)
        assert kinds == +collections.Counter(
            {(False, True, False): roads, (True, False, False): roads, (False, False, True): ends}
        ), kinds
        assert made.ways[roads:] == [0] * (len(made.arcs) - roads)


def compared(text, side="right", **choices):
    """Compares each arc of a map's graph with the other program; both."""
    made, _ = converted(text, turn_costs=True, driving_side=side, **choices)
    everywhere = choices.get("turning_back") == "dead-ends"
    wanted = turning.Turns(text, choices.get("nodes") == "all", everywhere, side == "left")
    taken = Made(made, len(wanted.arcs))
    for (tail, head, weight), arc in zip(taken.roads, wanted.arcs):
        names = made.names[tail - 1], made.names[head - 1]
        assert (*names, weight) == (int(arc[0][0]), int(arc[1][0]), arc[2]), (arc, names, text)
    assert taken.turns.keys() == wanted.costs.keys(), (text, choices)
    for pair, cost in wanted.costs.items():
        assert abs(taken.turns[pair] - cost) <= HALF, (pair, taken.turns[pair], cost, text)
    return taken, wanted


def same_trips(taken, wanted, starts):
    """Compares the trips from some nodes, which stand once, with a search from arc to arc."""
    named = collections.Counter(node[0] for node in {node for arc in wanted.arcs for node in arc[:2]})
    starts, tried = [start for start in starts if named[start[0]] == 1], 0
    trips = searched(taken.made, [int(start[0]) for start in starts])
    for start in starts:
        for end, weight in wanted.distances(start, taken.turns).items():
            if named[end[0]] == 1 and end != start:
                assert trips[int(start[0]), int(end[0])] == weight, (start, end)
                tried += 1
    return tried


def test_random_maps():
    draw, turns, trips, lit = random.Random("costs of turns"), 0, 0, 0
    for _ in range(300):
        text = random_map(draw, 12)
        choices = {"nodes": draw.choice(["crossings", "all"]), "side": draw.choice(["right", "left"]),
                   "turning_back": draw.choice(["crossings", "dead-ends"])}
        if turning.Turns(text).arcs:
            taken, wanted = compared(text, **choices)
            turns, lit = turns + len(taken.turns), lit + bool(wanted.lights)
            trips += same_trips(taken, wanted, sorted({arc[0] for arc in wanted.arcs}))
    assert turns > 3_000 and trips > 3_000 and lit > 100, (turns, trips, lit)


def test_both_examples():
    for text in bz2.open(f"{COUNTRY}.osm.bz2", "rt").read(), pathlib.Path(f"{town()}.osm").read_text():
        for back in "crossings", "dead-ends":
            taken, wanted = compared(text, turning_back=back)
            assert wanted.lights and len(taken.turns) > 3_000, (len(wanted.lights), len(taken.turns))
        starts = random.Random("trips").sample(sorted({arc[0] for arc in wanted.arcs}), 20)
        assert same_trips(taken, wanted, starts) > 5_000


def least(text, start, end, **choices):
    """The least weight from a node of the map to another."""
    made, _ = converted(text, turn_costs=True, **choices)
    return searched(made, [start]).get((start, end), math.inf)


def roads(*outer, at=(), more=()):
    """A crossing at node 1 with a road to each of some nodes, and tags of node 1."""
    nodes = {1: (0, 0, dict(at))} | {number: place for each in outer for number, place in each.items()}
    return osm(nodes, [([1, number], ROAD) for number in nodes if number != 1], more)


def test_by_hand():
    """Costs as OSRM's formula gives them: 2.1 s for a right turn and 5.4 s for a left one, nothing
    where one road leads on, and 27.5 s for turning back at a dead end."""
    four = roads(WEST, NORTH, EAST, SOUTH)
    both = 2 * BLOCK
    right, left, ahead = (
        round(7_500 / (1 + math.exp(power))) for power in (0.940988, -0.940988, 6.9875)
    )
    assert (right, left, ahead) == (2_105, 5_395, 7)
    for goal, cost in (5, right), (3, left), (4, ahead):
        assert abs(least(four, 2, goal) - both - cost) <= 1, (goal, cost)
    assert abs(least(four, 2, 5, driving_side="left") - both - left) <= 1
    assert abs(least(four, 2, 3, driving_side="left") - both - right) <= 1
    assert least(roads(WEST, NORTH), 2, 3) == both, "a bend is no turn"
    lit = roads(WEST, EAST, at=SIGNALS)
    assert least(lit, 2, 4) == both + 2_000
    assert abs(least(roads(WEST, EAST, NORTH, at=SIGNALS), 2, 4) - both - ahead - 2_000) <= 1
    # At the dead end 4 one turns back.
    forbidden = [((("way", 1, "from"), ("node", 1, "via"), ("way", 2, "to")),
                  {"type": "restriction", "restriction": "no_left_turn"})]
    back = round(20_000 + 7_500 / (1 + math.exp(6.9875 - 13 / 1.075)))
    three = roads(WEST, NORTH, EAST, more=forbidden)
    assert abs(least(three, 2, 3) - 4 * BLOCK - ahead - back - right) <= 2
    assert least(three, 2, 3, turning_back="dead-ends") == least(three, 2, 3)


def test_lights_count_in_their_direction():
    for direction, costs in ("forward", (2_000, 0)), ("backward", (0, 2_000)), ("both", (2_000, 2_000)):
        tags = SIGNALS | {"traffic_signals:direction": direction}
        text = osm({1: (0, 0), 2: (1, 0, tags), 3: (2, 0)}, [([1, 2, 3], ROAD)])
        found = tuple(least(text, *pair) - 2 * BLOCK for pair in ((1, 3), (3, 1)))
        assert found == costs, (direction, found)


def test_the_option():
    """It is for cars and for times, goes without --turns, and is named in the files; without it
    nothing is known of lights."""
    pathlib.Path("four.osm").write_text(roads(WEST, NORTH, EAST, SOUTH, at=SIGNALS))
    for words in ["--profile", "foot"], ["--metric", "metres"]:
        told = tool("osm_to_gr", "--turn-costs", *words, "four.osm", "four", status=2)
        assert "--turn-costs are milliseconds of cars" in told[1], told
    tool("osm_to_gr", "--turn-costs", "--turning-back", "dead-ends", "four.osm", "four")
    line = open("four.gr").readline()
    assert ", turns as the map restricts them, at a cost, turning back at dead ends alone." in line
    assert not pathlib.Path("four.bends").exists()
    tool("osm_to_gr", "--turns", "four.osm", "plain")
    assert len(pathlib.Path("plain.nodes").read_text().split()) == 5


def opened(text, **choices):
    """A network of a map, and the other program's arcs with the costs that its graph has."""
    import chtab

    words = [word for key, value in choices.items() for word in (f"--{key}", value)]
    pathlib.Path("costs.osm").write_text(text)
    tool("osm_to_gr", "--quiet", "--turn-costs", "--bends", "--part", "all", *words, "costs.osm", "costs")
    return chtab.Network.open("costs.gr", program=PROGRAM), turning.Turns(text)


def between_places(wanted, costs, is_open, start, end):
    """The least weight of a trip from the middle of one arc's road to that of another, from arc to
    arc; infinite where there is none. `is_open` says which arcs may be driven on."""
    following, arcs = wanted.following(costs, is_open), wanted.arcs
    begun, goals = ([a for a, arc in enumerate(arcs) if arc[4] == road and is_open(a)] for road in (start, end))
    best = dijkstra.reached([(arcs[a][2] / 2, a) for a in begun], following.__getitem__)
    found = [weight + step - arcs[b][2] / 2 for a, weight in best.items() for b, step in following[a] if b in goals]
    return min(found + [0.0] * bool(start == end and goals), default=math.inf)


def middle(wanted, piece):
    """The place in the middle of a piece of a single straight stretch; None for other pieces."""
    numbers = wanted.lines[piece]
    # On a short road a place is at one of its ends.
    if len(numbers) != 2 or wanted.world.metres(*numbers) < 5:
        return None
    # Files have places in millionths of a degree.
    (x, y), (u, v) = ((round(part, 6) for part in turning.point(wanted.world, number)) for number in numbers)
    return (x + u) / 2, (y + v) / 2


@needs("python3-scipy")
def test_places_and_scenarios():
    """Trips between the middles of roads, as they are and in scenarios in which roads are closed: a
    way, those between two nodes, or the road at a place."""
    text = pathlib.Path(f"{town()}.osm").read_text()
    network, wanted = opened(text)
    costs = {pair: round(cost) for pair, cost in wanted.costs.items()}
    draw, tried, longer = random.Random("places"), 0, 0
    places = {piece: at for piece in range(len(wanted.lines)) if (at := middle(wanted, piece))}
    with network:
        numbers = first_nodes([*map(int, open("costs.nodes"))])
        for _ in range(9):
            name, shut = closing(draw, network, wanted, places, numbers)
            with network.changed(closed=[name] if isinstance(name, tuple | str) else name) as closed:
                for one, other in (draw.sample(sorted(places), 2) for _ in range(12)):
                    if shut & {a for a, arc in enumerate(wanted.arcs) if arc[4] in (one, other)}:
                        continue
                    before, after = (trip_of(each, places[one], places[other]) for each in (network, closed))
                    known = between_places(wanted, costs, lambda a: True, one, other)
                    known_after = between_places(wanted, costs, lambda a: a not in shut, one, other)
                    assert close(before, known) and close(after, known_after), (one, other, before, known, after, known_after, name)
                    tried, longer = tried + 1, longer + (known != known_after)
    assert tried > 60 and longer > 3, (tried, longer)


def closing(draw, network, wanted, places, numbers):
    """What is closed in a scenario, and the arcs that are closed then."""
    arc = draw.choice(wanted.arcs)
    kind = draw.choice(["way", "nodes", "place"])
    if kind == "way":
        return f"way/{arc[3]}", {a for a, each in enumerate(wanted.arcs) if each[3] == arc[3]}
    if kind == "nodes":
        ends = arc[:2]
        shut = {a for a, each in enumerate(wanted.arcs) if each[:2] == ends}
        return tuple(numbers[int(number)] for number, _ in ends), shut
    piece = draw.choice(sorted(places))
    x, y = places[piece]
    return network.snap([x], [y]), {a for a, each in enumerate(wanted.arcs) if each[4] == piece}


def close(weight, known):
    """Whether a trip has a weight that is known, but for the rounding of places to a tenth of a
    metre. Each cost of a turn was compared by itself."""
    return weight < 0 and math.isinf(known) or abs(weight - known) <= 15


def trip_of(network, start, end):
    """The weight of a trip between two places."""
    starts, ends = (network.snap([x], [y]) for x, y in (start, end))
    return int(network.trips(starts, ends)[0])
