"""Tests alternatives to routes (`alternatives=N`): on random networks, on both example maps and on
some drawn by hand each property of those that are told is looked at by a program of its own, which
searches as Dijkstra did.
"""
import collections
import itertools
import json
import math
import random

from helpers.commands import needs
from helpers.maps import COUNTRY, town, town_at_a_cost
from helpers.running import PROGRAM
from oracles import dijkstra
import chtab
from chtab_server.osrm import answering, url

LONGER, SHARED, LOCAL = 1.25, 0.8, 0.25


class Judge:
    """A network, read anew from its files, and what may be said of alternatives there."""

    def __init__(self, out):
        lines = open(f"{out}.gr").read().splitlines()
        self.arcs = [tuple(map(int, line.split()[1:])) for line in lines if line.startswith("a ")]
        self.ahead = dijkstra.arcs_ahead(self.arcs)
        self.crossing = {}
        for line in open(f"{out}.co"):
            words = line.replace(",", "").replace(".", "").split()
            if words[:2] == ["c", "Node"]:
                self.crossing[int(words[2])] = int(words[5])
            if words[:3] == ["c", "Trips", "to"]:
                self.crossing[int(words[8])] = int(words[4])

    def reached(self, starts, most=math.inf):
        """The least weights from some nodes, each with an added weight, up to a limit."""
        return dijkstra.reached([(weight, node) for node, weight in starts], self.ahead.__getitem__, most)

    def road(self, arc):
        """An arc by the crossings at its ends, or by itself if it stays at one, as a turn does."""
        ends = tuple(self.crossing.get(node, node) for node in self.arcs[arc][:2])
        return (arc, "turn") if ends[0] == ends[1] else ends

    def see(self, legs, leg, best):
        """Checks one of some legs: it is a walk of its weight, little longer than the best weight,
        locally optimal, and comes over no road twice. Its roads, {road: weight}."""
        first, last = legs.walks.firsts[leg:leg + 2]
        arcs = legs.arcs[first:last].tolist()
        walked = [self.arcs[arc] for arc in arcs]
        assert all(one[1] == other[0] for one, other in itertools.pairwise(walked)), "a walk"
        ends = int(legs.first_nodes[leg]), walked[-1][1] if walked else int(legs.first_nodes[leg])
        assert walked[0][0] == ends[0]
        for node, nodes, weights, own in (
            (ends[0], legs.starts.out_nodes, legs.starts.out_weights, legs.out_weights),
            (ends[1], legs.ends.in_nodes, legs.ends.in_weights, legs.in_weights),
        ):
            assert (node, own[leg]) in list(zip(nodes[leg].tolist(), weights[leg].tolist()))
        weight = sum(arc[2] for arc in walked)
        total = weight + int(legs.out_weights[leg]) + int(legs.in_weights[leg])
        assert total == legs.weights[leg] and best <= total <= LONGER * best, (total, best)
        self.see_that_local(walked, LOCAL * best)
        roads = collections.Counter(map(self.road, arcs))
        assert max(roads.values()) == 1 and not any(road[::-1] in roads for road in roads)
        return self.weights(arcs)

    def weights(self, arcs):
        """The weights of some arcs by their roads."""
        return {self.road(arc): self.arcs[arc][2] for arc in arcs}

    def see_that_local(self, walked, short):
        """Each part of a walk of at most a weight is a best way."""
        nodes = [walked[0][0], *(arc[1] for arc in walked)]
        far = [0, *itertools.accumulate(arc[2] for arc in walked)]
        for first, node in enumerate(nodes):
            best = self.reached([(node, 0)], short)
            for last in range(first, len(nodes)):
                if far[last] - far[first] <= short:
                    assert best[nodes[last]] == far[last] - far[first], (node, nodes[last])

    def see_all(self, found, legs, leg):
        """Checks the alternatives to a leg, which were found beside it."""
        starts = zip(legs.starts.out_nodes[leg].tolist(), legs.starts.out_weights[leg].tolist())
        best = self.reached([each for each in starts if each[0] > 0])
        ends = zip(legs.ends.in_nodes[leg].tolist(), legs.ends.in_weights[leg].tolist())
        least = min(best[node] + more for node, more in ends if node in best)
        assert least == legs.weights[leg]
        first, last = legs.walks.firsts[leg:leg + 2]
        own = self.weights(legs.arcs[first:last].tolist())
        taken = [own]
        for place in range(len(found)):
            roads = self.see(found, place, least)
            before = set().union(*taken)
            assert sum(weight for road, weight in roads.items() if road in before) <= SHARED * least
            more = sum(weight for road, weight in roads.items() if road not in own)
            instead = sum(weight for road, weight in own.items() if road not in roads)
            # The parts of roads at both ends may be others, too.
            ends = sum(int(column[at]) for each, at in ((found, place), (legs, leg)) for column in (each.out_weights, each.in_weights))
            assert more <= LONGER * (instead + ends) and more > 0, (more, instead)
            taken.append(roads)


def asked(answers, places, most, query=""):
    """The value of an answer to a question for a route over places."""
    text = ";".join(f"{x:.7f},{y:.7f}" for x, y in places)
    question = answers.question(url.words_of(f"/route/v1/car/{text}?alternatives={most}{query}", 1 << 16))
    [found] = answers.routes([question])
    return json.loads(found) if isinstance(found, str) else None


def compared(out, count, seed, near=0.0005):
    """Compares alternatives on a network; how many there are for how many routes."""
    from chtab._roads.legs import legs_between
    from chtab_server.osrm import alternatives

    judge, draw, found = Judge(out), random.Random(seed), 0
    with chtab.Network.open(f"{out}.gr", program=PROGRAM) as network:
        answers = answering.Answers(network, (), answering.Limits())
        known = [node for node in network.coordinates.known() if node not in network.coordinates.copies()]
        for _ in range(count):
            places = [
                tuple(round(part + draw.gauss(0, near), 6) for part in network.coordinates.of(draw.choice(known)))
                for _ in range(2)
            ]
            spots = network.roads.find_any(*zip(*places))
            legs = legs_between(network._trips, spots[:1], spots[1:])
            some = alternatives.alternatives(network._trips, legs, 0, 3) if legs.weights[0] >= 0 else None
            value = asked(answers, places, 3)
            if value is None:
                assert legs.weights[0] < 0
                continue
            alone = asked(answers, places, "false")
            assert value["routes"][0] == alone["routes"][0] and len(alone["routes"]) == 1, "the best one is first"
            told = [route["duration"] for route in value["routes"][1:]]
            assert told == ([] if some is None else (some.weights / 1000).tolist())
            assert value["waypoints"] == alone["waypoints"]
            if some is not None:
                judge.see_all(some, legs, 0)
                found += len(some)
    return found


@needs("python3-scipy", "python3-shapely")
def test_both_examples():
    assert compared(COUNTRY, 60, "country") > 20
    assert compared(town(), 60, "town") > 20
    assert compared(town_at_a_cost(), 60, "costs") > 20


def grid(draw, side):
    """A network of streets on a grid, with weights by chance, some of them in one direction."""
    places = [(9.5 + 0.002 * x, 47.1 + 0.0014 * y) for y in range(side) for x in range(side)]
    arcs = []
    for node in range(side * side):
        for other in [node + 1] * (node % side < side - 1) + [node + side] * (node + side < side * side):
            weight = draw.randint(10_000, 30_000)
            luck = draw.random()
            arcs += [(node + 1, other + 1, weight)] * (luck > 0.1) + [(other + 1, node + 1, weight)] * (luck < 0.9)
    return places, arcs


def written(out, places, arcs):
    comments = "c Roads for cars, by hand.\nc Weights are milliseconds.\n"
    text = "".join(f"a {tail} {head} {weight}\n" for tail, head, weight in arcs)
    open(f"{out}.gr", "w").write(f"{comments}p sp {len(places)} {len(arcs)}\n{text}")
    lines = "".join(f"v {node} {round(x * 1e6)} {round(y * 1e6)}\n" for node, (x, y) in enumerate(places, 1))
    open(f"{out}.co", "w").write(f"{comments}p aux sp co {len(places)}\n{lines}")


@needs("python3-scipy", "python3-shapely")
def test_random_networks():
    draw, found = random.Random("networks"), 0
    for number in range(12):
        written(f"grid{number}", *grid(draw, draw.randint(3, 12)))
        found += compared(f"grid{number}", 20, number)
    assert found > 60, found


def ladder(middle, shared=10_000):
    """Two ways from west to east, of 100 s in the south and of `middle` in the north, with a road
    of `shared` before and behind both."""
    places = [(9.49, 47.1), (9.5, 47.1), (9.51, 47.09), (9.51, 47.11), (9.52, 47.1), (9.53, 47.1)]
    pairs = [(1, 2, shared), (2, 3, 50_000), (3, 5, 50_000), (2, 4, middle // 2), (4, 5, middle // 2), (5, 6, shared)]
    return places, [arc for tail, head, weight in pairs for arc in ((tail, head, weight), (head, tail, weight))]


@needs("python3-scipy", "python3-shapely")
def test_by_hand():
    """One more way, if it is at most a quarter longer, also as a detour, and shares little."""
    for middle, shared, count in (110_000, 10_000, 2), (124_000, 10_000, 2), (126_000, 10_000, 1), (110_000, 1_000_000, 1):
        out = f"ladder{middle}_{shared}"
        written(out, *ladder(middle, shared))
        with chtab.Network.open(f"{out}.gr", program=PROGRAM) as network:
            answers = answering.Answers(network, (), answering.Limits())
            ends = [(9.4901, 47.1), (9.5299, 47.1)]
            value = asked(answers, ends, 3, "&steps=true&overview=full&geometries=geojson&annotations=true")
            routes = value["routes"]
            assert len(routes) == count, (middle, shared, [route["duration"] for route in routes])
            for route, north in zip(routes, (False, True)):
                line = route["geometry"]["coordinates"]
                assert ([9.51, 47.11] in line) == north and ([9.51, 47.09] in line) != north
                assert abs(sum(route["legs"][0]["annotation"]["duration"]) - route["duration"]) < 1e-6
                assert route["legs"][0]["steps"][-1]["maneuver"]["type"] == "arrive"
            for word, most in (("true", 2), ("false", 1), ("0", 1), ("1", 2), ("999", 2)):
                assert len(asked(answers, ends, word)["routes"]) == min(most, count), word
            middle_stop = [ends[0], (9.51, 47.09), ends[1]]
            assert len(asked(answers, middle_stop, 3)["routes"]) == 1, "between two places alone"
