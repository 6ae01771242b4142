#!/usr/bin/python3
"""Calls the library for C as a hostile program would: with files that are changed, handles in every state, and nodes, lengths and rooms at random.

  fuzz.py [CALLS [SEED]]

Makes CALLS calls (5,000) on random networks, drawn from a seed (1). Their hierarchies are those of an independent program. Each status must be
the one that the header says, a refusal must write nothing, and an answer must be that of Dijkstra's algorithm. A crash ends this script, and
memory must not grow. The last line is 'N passed, N failed'.
"""
import random
import resource
import sys
from pathlib import Path

sys.path.insert(0, str(Path(__file__).resolve().parent.parent))

from helpers.cases import Case  # noqa: E402
from helpers.in_process import ALL, NO_DISTANCE, Handle, Library, Topology, statuses  # noqa: E402
from helpers.running import Count  # noqa: E402
from oracles.dijkstra import arcs_ahead, distances_from  # noqa: E402
from oracles.rules import hierarchy_text  # noqa: E402
from oracles.topologies import triangles_of  # noqa: E402

STATUS = statuses()
# What a change of a file's bytes may put there.
BYTES = b"0123456789 pascolch\n\0\xff"
# How many kilobytes memory may grow once half of the calls are made.
MOST_GROWTH = 4096
# How many calls are made on one network.
PER_NETWORK = 200


def changed(draw, text):
    """The bytes with a few of them replaced, left out or doubled."""
    text = bytearray(text)
    for _ in range(draw.randrange(4)):
        place = draw.randrange(len(text))
        text[place:place + draw.choice((0, 1, 1, 1))] = bytes([draw.choice(BYTES)]) * draw.choice((0, 1, 1, 2))
    return bytes(text)


class Caller:
    """The files of a small network, its distances, and two handles in it."""

    def __init__(self, draw, case, library, tally):
        self.draw, self.library, self.tally, self.count, self.arcs = draw, library, tally, case.nodes, case.arcs
        self.graph = "".join([f"p sp {case.nodes} {len(case.arcs)}\n", *(f"a {start} {end} {weight}\n" for start, end, weight in case.arcs)]).encode()
        self.saved = hierarchy_text(case.nodes, case.arcs, 5, "difference").encode()
        # The least weights and numbers of arcs, from each node to each, or None.
        self.away = [[case.costs[source].get(target) for target in range(1, case.nodes + 1)] for source in range(1, case.nodes + 1)]
        self.handles = [Handle(), Handle()]
        # Two topologies of the graph, and the order of each that is open.
        self.topologies, self.orders = [Topology(), Topology()], {}
        # What each handle keeps: the places, the limit, the count and the direction; and the values.
        self.kept, self.values = {}, {}

    def word(self, source, target, limit=NO_DISTANCE):
        away = self.away[source][target]
        return NO_DISTANCE if away is None or away[0] > limit else away[0]

    def forget(self, handle):
        """A closed handle keeps nothing."""
        self.kept.pop(id(handle), None)
        self.values.pop(id(handle), None)

    def expect(self, holds, *told):
        self.tally.expect(holds, told)

    def node(self):
        """A node mostly, or a number that is none."""
        return self.draw.randrange(self.count) if self.draw.random() < 0.95 else self.draw.choice((self.count, self.count + 1, 2**31, 2**32 - 1))

    def nodes(self):
        return [self.node() for _ in range(self.draw.choice((0, 1, 1, 2, 3, 8)))]

    def are_nodes(self, *lists):
        return all(node < self.count for nodes in lists for node in nodes)

    def open_changed(self):
        """A changed network opens only where both files are right; nothing of it is kept."""
        status, handle, fault = self.library.open(changed(self.draw, self.graph), changed(self.draw, self.saved))
        names = "OK", "BAD_GRAPH", "BAD_SAVED", "WRONG_SAVED"
        self.expect(status in [STATUS[name] for name in names], "opened changed files", status)
        is_told = fault.told() != (0, 0, 0)
        self.expect(is_told == (status != 0) and bool(handle.is_open) == (status == 0), "the fault of changed files", status, fault.told())
        self.expect(self.library.close(handle) == (STATUS["OK"] if status == 0 else STATUS["CLOSED"]), "closed changed files", status)

    def open_arrays(self):
        """A network of the graph's arrays, some of them changed: the first fault is reported, and without one the distances are those of the graph."""
        handle, nodes = self.draw.choice(self.handles), self.draw.choice((self.count, self.count, self.count, 0, 2**25 + 1))
        arrays = [[arc[0] - 1 for arc in self.arcs], [arc[1] - 1 for arc in self.arcs], [arc[2] for arc in self.arcs]]
        change = self.draw.randrange(6)
        if change < 3 and self.arcs:
            arrays[change][self.draw.randrange(len(self.arcs))] = self.draw.choice((2**32 - 1, self.count)) if change < 2 else 2**64 - 1
        elif change == 3:
            arrays[self.draw.randrange(3)].append(0)
        saved = self.draw.choice((b"", self.saved, changed(self.draw, self.saved)))
        is_open, arcs = handle.is_open, list(zip(*arrays))
        status, _, fault = self.library.open_arrays(nodes, *arrays, saved, handle)
        faults = [(place, 6 if max(arc[:2]) >= nodes else 7) for place, arc in enumerate(arcs) if max(arc[:2]) >= nodes or nodes * arc[2] > 2**60]
        if is_open:
            owed = {"IS_OPEN"}, {(0, 0, 0)}
        elif change == 3:
            owed = {"LENGTHS"}, {(0, 0, 0)}
        elif nodes > 2**25 or faults:
            owed = {"BAD_GRAPH"}, {(0, 0, 8) if nodes > 2**25 else (0, *faults[0])}
        elif saved in (b"", self.saved) and nodes == self.count:
            owed = {"OK"}, {(0, 0, 0)}
        else:
            owed = {"OK", "BAD_SAVED", "WRONG_SAVED"}, {fault.told()}
        is_owed = status in {STATUS[name] for name in owed[0]} and fault.told() in owed[1]
        self.expect(is_owed, "opened arrays", nodes, arrays, saved, status, fault.told(), owed)
        if status != STATUS["OK"]:
            self.expect(bool(handle.is_open) == bool(is_open), "a handle that is not opened by arrays stays", status)
            return
        source, every = self.draw.randrange(nodes) if nodes else None, range(nodes)
        if nodes == self.count and source is not None:
            away = [self.word(source, target) for target in every]
            self.expect(self.library.table(handle, [source], every) == (STATUS["OK"], away), "a table of arrays", source, arrays)
        self.expect(self.library.close(handle) == STATUS["OK"], "closed what was opened of arrays")
        self.forget(handle)

    def open_quick(self):
        """A network of a graph alone, which is changed or not; nothing of it is kept."""
        graph = changed(self.draw, self.graph) if self.draw.random() < 0.5 else self.graph
        status, handle, fault = self.library.open_quick(graph)
        self.expect(status == STATUS["OK"] or status == STATUS["BAD_GRAPH"] and graph != self.graph, "opened alone", graph, status)
        self.expect((fault.told() != (0, 0, 0)) == (status != 0) and bool(handle.is_open) == (status == 0), "the fault", status, fault.told())
        self.expect(self.library.close(handle) == (STATUS["OK"] if status == 0 else STATUS["CLOSED"]), "closed what was alone", status)

    def open_like(self):
        """A network in the order of a handle, of the graph with other arcs and weights, which answers for these; the handle goes on as it did."""
        handle, other = self.handles if self.draw.random() < 0.5 else self.handles[::-1]
        fresh, count = self.draw.choice((0, 5, 50, 100, 101, 2**32 - 1)), self.count if self.draw.random() < 0.9 else self.count + 1
        arcs = [(start, end, self.draw.randrange(99)) for start, end, _ in self.arcs if self.draw.random() < 0.9]
        graph = "".join([f"p sp {count} {len(arcs)}\n", *(f"a {start} {end} {weight}\n" for start, end, weight in arcs)]).encode()
        is_open, given = handle.is_open, graph if self.draw.random() < 0.8 else changed(self.draw, graph)
        status, _, fault = self.library.open_like(given, other, fresh, handle)
        last = "FRESH_RANGE" if fresh > 100 else "OK"
        if is_open or not other.is_open:
            names = {"IS_OPEN" if is_open else "CLOSED"}
        elif given == graph:
            names = {last if count == self.count else "OTHER_NODES"}
        else:
            names = {"BAD_GRAPH", "OTHER_NODES", last}
        self.expect(status in [STATUS[name] for name in names], "opened like", fresh, count, given, status, names)
        self.expect((fault.told() != (0, 0, 0)) == (status == STATUS["BAD_GRAPH"]), "the fault", status, fault.told())
        if is_open or status != STATUS["OK"]:
            self.expect(bool(handle.is_open) == bool(is_open), "a handle that is not opened stays", status)
            return
        if given == graph:
            ahead, source = arcs_ahead(arcs), self.draw.randrange(count)
            away = distances_from(source + 1, ahead)
            owed = [away.get(target + 1, NO_DISTANCE) for target in range(count)]
            self.expect(self.library.table(handle, [source], range(count)) == (STATUS["OK"], owed), "a table by new weights", source, fresh, graph)
        self.expect(self.library.close(handle) == STATUS["OK"], "closed what was opened like")

    def open_topology(self):
        """A topology of the graph or of its arrays, in an order that is found, given, or changed; one that is refused stays closed."""
        topology, order = self.draw.choice(self.topologies), self.draw.sample(range(self.count), self.count)
        named = "".join([f"p ch {self.count} 0\n", *(f"o {node + 1}\n" for node in order)]).encode()
        given, is_by_arrays = self.draw.choice((b"", named, named, self.saved, changed(self.draw, named))), self.draw.random() < 0.5
        graph = changed(self.draw, self.graph) if self.draw.random() < 0.1 and not is_by_arrays else self.graph
        is_open, ends = topology.is_open, [[arc[end] - 1 for arc in self.arcs] for end in range(2)]
        if is_by_arrays:
            status, _, fault = self.library.topology_open_arrays(self.count, *ends, given, topology)
        else:
            status, _, fault = self.library.topology_open(graph, given, topology)
        if is_open:
            names = {"IS_OPEN"}
        elif graph != self.graph or given not in (b"", named):
            names = {"OK", "BAD_GRAPH", "BAD_SAVED", "WRONG_SAVED", "TRIANGLES"}
        elif given:
            names = {"OK" if triangles_of(self.count, self.arcs, order) <= 40 * self.count else "TRIANGLES"}
        else:
            # In the order that is found there may be too many, but not of so few nodes.
            names = {"OK", "TRIANGLES"} if self.count > 17 else {"OK"}
        self.expect(status in [STATUS[name] for name in names], "opened a topology", graph, given, status, names)
        has_fault = status in [STATUS[name] for name in ("BAD_GRAPH", "BAD_SAVED", "WRONG_SAVED")]
        self.expect((fault.told() != (0, 0, 0)) == has_fault, "the fault of a topology", status, fault.told())
        if is_open or status != STATUS["OK"]:
            self.expect(bool(topology.is_open) == bool(is_open), "a topology that is not opened stays", status)
        elif graph != self.graph:
            self.expect(self.library.topology_close(topology) == STATUS["OK"], "closed a topology of another graph")
        else:
            self.orders[id(topology)] = self.library.topology_order(topology, self.count)
            found = (STATUS["OK"], order) if given == named else self.orders[id(topology)]
            self.expect(self.orders[id(topology)] == found and sorted(found[1]) == [*range(self.count)], "an order", given, found)

    def share_or_close_topology(self):
        topology, other = self.topologies if self.draw.random() < 0.5 else self.topologies[::-1]
        if self.draw.random() < 0.5:
            wanted = STATUS["OK" if topology.is_open else "CLOSED"]
            self.expect(self.library.topology_close(topology) == wanted and not topology.is_open, "closed a topology", wanted)
            return
        wanted = STATUS["IS_OPEN" if other.is_open else "OK" if topology.is_open else "CLOSED"]
        self.expect(self.library.topology_share(topology, other) == wanted, "shared a topology", wanted)
        if wanted == STATUS["OK"]:
            self.orders[id(other)] = self.orders[id(topology)]

    def ask_order(self):
        topology, room = self.draw.choice(self.topologies), self.count if self.draw.random() < 0.8 else self.draw.randrange(9)
        owed = STATUS["CLOSED"], [7] * room
        if topology.is_open:
            owed = self.orders[id(topology)] if room == self.count else (STATUS["LENGTHS"], [7] * room)
        self.expect(self.library.topology_order(topology, room) == owed, "an order", room, owed)

    def customize(self):
        """A network of new weights on the arcs of a topology, which answers for these; the topology stays."""
        topology, handle = self.draw.choice(self.topologies), self.draw.choice(self.handles)
        most = self.draw.choice((1, 9, 1_000_000))
        weights = [self.draw.randrange(most) for _ in range(len(self.arcs) + self.draw.choice((0,) * 18 + (1, -1)))]
        if weights and self.draw.random() < 0.2:
            weights[self.draw.randrange(len(weights))] = self.draw.choice((2**64 - 1, 2**60 // self.count + 1))
        is_open, large = handle.is_open, [place for place, weight in enumerate(weights) if self.count * weight > 2**60]
        status, _, fault = self.library.customized(topology, weights, handle)
        name, told = "OK", (0, 0, 0)
        if is_open or not topology.is_open:
            name = "IS_OPEN" if is_open else "CLOSED"
        elif len(weights) != len(self.arcs):
            name = "LENGTHS"
        elif large:
            name, told = "BAD_GRAPH", (0, large[0], 7)
        self.expect((status, fault.told()) == (STATUS[name], told), "customized", weights, status, fault.told(), name)
        if name != "OK":
            self.expect(bool(handle.is_open) == bool(is_open), "a handle that is not customized stays", status)
            return
        ahead, source = arcs_ahead([(start, end, weight) for (start, end, _), weight in zip(self.arcs, weights)]), self.draw.randrange(self.count)
        away = distances_from(source + 1, ahead)
        owed = [away.get(target + 1, NO_DISTANCE) for target in range(self.count)]
        self.expect(self.library.table(handle, [source], range(self.count)) == (STATUS["OK"], owed), "a table by new weights", source, weights)
        self.expect(self.library.close(handle) == STATUS["OK"], "closed what was customized")
        self.forget(handle)

    def open_or_close(self):
        handle = self.draw.choice(self.handles)
        if self.draw.random() < 0.3:
            wanted = STATUS["OK" if handle.is_open else "CLOSED"]
            self.expect(self.library.close(handle) == wanted and not handle.is_open, "close", wanted)
            self.forget(handle)
        else:
            wanted = STATUS["IS_OPEN" if handle.is_open else "OK"]
            self.expect(self.library.open(self.graph, self.saved, handle)[0] == wanted and handle.is_open, "open", wanted)

    def share(self):
        handle, other = self.handles if self.draw.random() < 0.5 else self.handles[::-1]
        wanted = STATUS["IS_OPEN" if other.is_open else "OK" if handle.is_open else "CLOSED"]
        self.expect(self.library.share(handle, other) == wanted, "share", wanted)
        if wanted == STATUS["OK"] and id(handle) in self.values:
            self.values[id(other)] = self.values[id(handle)]

    def ask_nodes(self):
        handle = self.draw.choice(self.handles)
        self.expect(self.library.nodes(handle) == ((STATUS["OK"], self.count) if handle.is_open else (STATUS["CLOSED"], 0)), "nodes")

    def save(self):
        handle, length = self.draw.choice(self.handles), len(self.saved)
        room = self.draw.choice((0, 1, length - 1, length, length, length + 3))
        wanted = (STATUS["CLOSED"], 7, b"\7" * room)
        if handle.is_open:
            wanted = (STATUS["TOO_SHORT"], length, b"\7" * room) if room < length else (STATUS["OK"], length, self.saved + b"\7" * (room - length))
        self.expect(self.library.save(handle, room) == wanted, "save", room, wanted[0])

    def ask_distances(self):
        handle, sources, targets = self.draw.choice(self.handles), self.nodes(), self.nodes()
        if self.draw.random() < 0.7:
            targets = [self.node() for _ in sources]
        room = len(sources) if self.draw.random() < 0.8 else self.draw.randrange(9)
        wanted, words = "OK", [7] * room
        if not handle.is_open:
            wanted = "CLOSED"
        elif not len(sources) == len(targets) == room:
            wanted = "LENGTHS"
        elif not self.are_nodes(sources, targets):
            wanted = "NODE_RANGE"
        else:
            words = [self.word(*pair) for pair in zip(sources, targets)]
        self.expect(self.library.distances(handle, sources, targets, room) == (STATUS[wanted], words), "distances", sources, targets, room, wanted)

    def ask_table(self):
        handle, sources, targets = self.draw.choice(self.handles), self.nodes(), self.nodes()
        limit = self.draw.choice((0, 1, 5, 100, 2**60, NO_DISTANCE))
        room = len(sources) * len(targets) if self.draw.random() < 0.8 else self.draw.randrange(9)
        wanted, words = "OK", [7] * room
        if not handle.is_open:
            wanted = "CLOSED"
        elif len(sources) * len(targets) != room:
            wanted = "LENGTHS"
        elif not self.are_nodes(sources, targets):
            wanted = "NODE_RANGE"
        else:
            words = [self.word(source, target, limit) for source in sources for target in targets]
        self.expect(self.library.table(handle, sources, targets, limit, room) == (STATUS[wanted], words), "table", sources, targets, limit, room, wanted)

    def ask_route(self):
        handle, source, target, room = self.draw.choice(self.handles), self.node(), self.node(), self.draw.choice((0, 1, 2, 3, self.count))
        status, weight, count, nodes = self.library.route(handle, source, target, room)
        told = "route", source, target, room, status, weight, count, nodes
        untouched = [7] * room
        if not handle.is_open:
            self.expect((status, weight, count, nodes) == (STATUS["CLOSED"], 7, 7, untouched), *told)
        elif not self.are_nodes([source, target]):
            self.expect((status, weight, count, nodes) == (STATUS["NODE_RANGE"], 7, 7, untouched), *told)
        elif self.away[source][target] is None:
            self.expect((status, weight, count, nodes) == (STATUS["OK"], NO_DISTANCE, 0, untouched), *told)
        else:
            least, arcs = self.away[source][target]
            owed = (STATUS["OK"], least, arcs + 1) if arcs < room else (STATUS["TOO_SHORT"], 7, 7)
            self.expect((status, weight, count) == owed and (self.is_way(nodes[:count], least) if arcs < room else nodes == untouched), *told)

    def keep_places(self):
        handle, places = self.draw.choice(self.handles), self.nodes()
        limit, count = self.draw.choice((0, 1, 5, 100, NO_DISTANCE)), self.draw.choice((0, 1, 2, 3, ALL))
        is_from = self.draw.choice((0, 1, 2**32 - 1))
        wanted = "OK" if handle.is_open and self.are_nodes(places) else "NODE_RANGE" if handle.is_open else "CLOSED"
        self.expect(self.library.near_places(handle, places, limit, count, is_from) == STATUS[wanted], "near places", places, wanted)
        if wanted == "OK":
            self.kept[id(handle)] = places, limit, count, is_from

    def sweep(self):
        handle = self.draw.choice(self.handles)
        wanted = "CLOSED" if not handle.is_open else "OK" if id(handle) in self.kept else "NO_PLACES"
        self.expect(self.library.near_sweep(handle) == STATUS[wanted], "sweep", wanted)

    def near_row(self, handle, source):
        """The row of a source to the kept places: weights and places in order."""
        places, limit, count, is_from = self.kept[id(handle)]
        away = [self.word(place, source, limit) if is_from else self.word(source, place, limit) for place in places]
        return sorted((weight, place) for place, weight in enumerate(away) if weight != NO_DISTANCE)[:count]

    def ask_near(self):
        handle, sources, room = self.draw.choice(self.handles), self.nodes(), self.draw.choice((0, 1, 2, 5, 40, 40, 80))
        places_room = room if self.draw.random() < 0.9 else self.draw.randrange(9)
        ends_room = len(sources) if self.draw.random() < 0.9 else self.draw.randrange(9)
        status, rows, ends, weights, places = told = self.library.near_rows(handle, sources, room, places_room, ends_room)
        wanted = "OK"
        if not handle.is_open:
            wanted = "CLOSED"
        elif ends_room != len(sources) or places_room != room:
            wanted = "LENGTHS"
        elif id(handle) not in self.kept:
            wanted = "NO_PLACES"
        elif not self.are_nodes(sources):
            wanted = "NODE_RANGE"
        if wanted != "OK":
            self.expect(told == (STATUS[wanted], 7, [7] * ends_room, [7] * room, [7] * places_room), "near rows", sources, room, wanted, told)
            return
        owed, begins = [self.near_row(handle, source) for source in sources], [0]
        while len(begins) <= len(owed) and begins[-1] + len(owed[len(begins) - 1]) <= room:
            begins.append(begins[-1] + len(owed[len(begins) - 1]))
        self.expect((status, rows) == (STATUS["OK" if len(begins) > len(owed) else "TOO_SHORT"], len(begins) - 1), "near rows", sources, room, told)
        self.expect(ends == [*begins[1:], *[7] * (len(owed) + 1 - len(begins))], "ends", sources, room, told)
        pairs = [pair for row in owed[:rows] for pair in row]
        self.expect([*zip(weights, places)] == [*pairs, *[(7, 7)] * (room - len(pairs))], "near pairs", sources, room, told)

    def line(self, one, other):
        """The line of the arc from a node to another: of several the one of least weight, and of these the first; none before the first node."""
        return ALL if one is None else min((weight, line) for line, (start, end, weight) in enumerate(self.arcs) if (start, end) == (one + 1, other + 1))[1]

    def ask_routes(self):
        handle, sources, room = self.draw.choice(self.handles), self.nodes(), self.draw.choice((0, 1, 2, 5, 40, 40, 80))
        targets = [self.node() for _ in sources] if self.draw.random() < 0.9 else self.nodes()
        rooms = [len(sources) if self.draw.random() < 0.9 else self.draw.randrange(9) for _ in range(2)]
        rooms.append(self.draw.choice((0, room)) if self.draw.random() < 0.9 else self.draw.randrange(9))
        status, routes, weights, ends, nodes, lines = told = self.library.routes(handle, sources, targets, room, *rooms)
        wanted = "OK"
        if not handle.is_open:
            wanted = "CLOSED"
        elif not len(targets) == rooms[0] == rooms[1] == len(sources) or rooms[2] not in (0, room):
            wanted = "LENGTHS"
        elif not self.are_nodes(sources, targets):
            wanted = "NODE_RANGE"
        if wanted != "OK":
            self.expect(told == (STATUS[wanted], 7, *([7] * length for length in (*rooms[:2], room, rooms[2]))), "routes", sources, targets, wanted, told)
            return
        away = [self.away[source][target] for source, target in zip(sources, targets)]
        begins = [0]
        for one in away:
            if begins[-1] + (one[1] + 1 if one else 0) > room:
                break
            begins.append(begins[-1] + (one[1] + 1 if one else 0))
        left = len(sources) - routes
        self.expect((status, routes) == (STATUS["TOO_SHORT" if left else "OK"], len(begins) - 1), "routes", sources, targets, room, told)
        self.expect(ends == [*begins[1:], *[7] * left] and nodes[begins[-1]:] == [7] * (room - begins[-1]), "ends of routes", told)
        self.expect(weights == [*(one[0] if one else NO_DISTANCE for one in away[:routes]), *[7] * left], "weights of routes", told)
        for one, begin, end, source, target in zip(away, begins, begins[1:], sources, targets):
            way = nodes[begin:end]
            self.expect(not one or (way[0], way[-1]) == (source, target) and self.is_way(way, one[0]), "nodes of a route", told)
            owed = [self.line(*pair) for pair in zip([None, *way], way)]
            self.expect(not lines or lines[begin:end] == owed, "lines of a route", owed, told)
        self.expect(lines[begins[-1]:] == [7] * (len(lines) and room - begins[-1]), "behind the lines", told)

    def ask_sums(self):
        handle, sources = self.draw.choice(self.handles), self.nodes()
        places, *_ = self.kept.get(id(handle), ([],))
        limits = [self.draw.choice((0, 1, 5, 100, 2**60)) for _ in range(self.draw.randrange(4))]
        values = [self.draw.choice((0, 1, 9, 2**62, 2**63)) for _ in range(len(places) + (self.draw.random() < 0.1))]
        room = len(sources) * len(limits) + (self.draw.random() < 0.1)
        status, rows, sums = told = self.library.near_sums(handle, sources, values, limits, room)
        wanted = "OK"
        if not handle.is_open:
            wanted = "CLOSED"
        elif id(handle) not in self.kept:
            wanted = "NO_PLACES"
        elif len(values) != len(places) or room != len(sources) * len(limits):
            wanted = "LENGTHS"
        elif not self.are_nodes(sources):
            wanted = "NODE_RANGE"
        if wanted != "OK":
            self.expect(told == (STATUS[wanted], 7, [7] * room), "sums", sources, values, limits, wanted, told)
            return
        owed = []
        for source in sources:
            row = self.near_row(handle, source)
            here = [sum(values[place] for weight, place in row if weight <= limit) for limit in limits]
            if max(here, default=0) >= 2**64:
                break
            owed.append(here)
        flat = [word for here in owed for word in here]
        self.expect((status, rows) == (STATUS["OK" if len(owed) == len(sources) else "SUM_TOO_LARGE"], len(owed)), "sums", sources, values, limits, told)
        self.expect(sums == [*flat, *[7] * (room - len(flat))], "sums", sources, values, limits, owed, told)

    def ask_cells(self):
        handle, sources = self.draw.choice(self.handles), self.nodes()
        places, limit, count, is_from = self.kept.get(id(handle), ([], 0, 0, 0))
        room = len(sources) * len(places) + (self.draw.random() < 0.1)
        told = self.library.near_table(handle, sources, room)
        wanted = "OK"
        if not handle.is_open:
            wanted = "CLOSED"
        elif id(handle) not in self.kept or count < len(places):
            wanted = "NO_PLACES"
        elif room != len(sources) * len(places):
            wanted = "LENGTHS"
        elif not self.are_nodes(sources):
            wanted = "NODE_RANGE"
        if wanted != "OK":
            self.expect(told == (STATUS[wanted], 7, [7] * room), "cells", sources, wanted, told)
            return
        ends = [(place, source) if is_from else (source, place) for source in sources for place in places]
        self.expect(told == (0, len(sources), [self.word(*pair, limit) for pair in ends]), "cells", sources, places, limit, told)

    def ask_route_sums(self):
        """The sums are those of the lines of the routes, which `ask_routes` compares."""
        handle, sources = self.draw.choice(self.handles), self.nodes()
        targets = [self.node() for _ in sources] if self.draw.random() < 0.9 else self.nodes()
        values = [self.draw.choice((0, 1, 9, 2**62, 2**63)) for _ in range(len(self.arcs) + (self.draw.random() < 0.1))]
        rooms = [len(sources) if self.draw.random() < 0.9 else self.draw.randrange(9) for _ in range(2)]
        self.see_route_sums(handle, sources, targets, values, rooms)

    def see_route_sums(self, handle, sources, targets, values, rooms):
        """What the call gives of these pairs."""
        told = self.library.route_sums(handle, sources, targets, values, *rooms)
        wanted = "OK"
        if not handle.is_open:
            wanted = "CLOSED"
        elif not len(targets) == rooms[0] == rooms[1] == len(sources) or len(values) != len(self.arcs):
            wanted = "LENGTHS"
        elif not self.are_nodes(sources, targets):
            wanted = "NODE_RANGE"
        if wanted != "OK":
            self.expect(told == (STATUS[wanted], 7, *([7] * length for length in rooms)), "sums along routes", sources, targets, values, wanted, told)
            return
        owed = self.owed_sums(handle, sources, targets, values)
        self.expect(told == owed, "sums along routes", sources, targets, values, owed, told)

    def owed_sums(self, handle, sources, targets, values):
        """The answer to pairs by the lines of their routes."""
        room = len(sources) * self.count
        _, _, weights, ends, _, lines = self.library.routes(handle, sources, targets, room, lines_room=room)
        sums = [sum(values[line] for line in lines[begin + 1:end]) for begin, end in zip([0, *ends], ends)]
        fit = next((place for place, one in enumerate(sums) if one >= 2**64), len(sums))
        left = [7] * (len(sums) - fit)
        return STATUS["SUM_TOO_LARGE" if left else "OK"], fit, [*weights[:fit], *left], [*sums[:fit], *left]

    def keep_values(self):
        handle = self.draw.choice(self.handles)
        values = [self.draw.choice((0, 1, 9, 2**62, 2**63)) for _ in range(len(self.arcs) + (self.draw.random() < 0.2))]
        wanted = "CLOSED" if not handle.is_open else "OK" if len(values) == len(self.arcs) else "LENGTHS"
        self.expect(self.library.keep_values(handle, values) == STATUS[wanted], "values", values, wanted)
        if wanted == "OK":
            self.values[id(handle)] = values

    def ask_kept_sums(self):
        """A table of the kept values, at times after sums of other values, which do not change what is kept. These repeat each pair, since only many pairs
        have trees."""
        handle, sources, targets = self.draw.choice(self.handles), self.nodes(), self.nodes()
        pairs = [source for source in sources for _ in targets], targets * len(sources)
        cells, values = len(pairs[0]), self.values.get(id(handle))
        if self.draw.random() < 0.3:
            self.see_route_sums(handle, pairs[0] * 6, pairs[1] * 6, [self.draw.choice((0, 1, 9)) for _ in self.arcs], [6 * cells] * 2)
        rooms = [cells if self.draw.random() < 0.9 else self.draw.randrange(9) for _ in range(2)]
        told = self.library.kept_table_sums(handle, sources, targets, *rooms)
        wanted = "CLOSED" if not handle.is_open else "NO_VALUES" if values is None else "OK" if rooms == [cells, cells] else "LENGTHS"
        if wanted == "OK" and not self.are_nodes(sources, targets):
            wanted = "NODE_RANGE"
        owed = STATUS[wanted], 7, *([7] * length for length in rooms)
        if wanted == "OK":
            owed = self.owed_sums(handle, *pairs, values)
        self.expect(told == owed, "a table of sums", sources, targets, values, owed, told)

    def ask_flows(self):
        """The flows are those on the lines of the routes, which `ask_routes` compares."""
        sources = self.nodes()
        targets = [self.node() for _ in sources] if self.draw.random() < 0.9 else self.nodes()
        self.see_flows(self.library.flows, sources, targets, sources, targets, len(targets) == len(sources))

    def ask_flows_table(self):
        """The same of each source with each target."""
        sources, targets = self.nodes(), self.nodes()
        self.see_flows(self.library.flows_table, sources, targets, [s for s in sources for _ in targets], targets * len(sources), True)

    def see_flows(self, call, sources, targets, starts, ends, is_even):
        """What a call gives of pairs with these starts and ends."""
        handle = self.draw.choice(self.handles)
        demands = [self.draw.choice((0, 1, 9, 2**61, 2**62, 2**63)) for _ in range(len(starts) + (self.draw.random() < 0.1))]
        room = len(self.arcs) + (self.draw.random() < 0.1)
        told = call(handle, sources, targets, demands, room)
        wanted = "OK"
        if not handle.is_open:
            wanted = "CLOSED"
        elif not is_even or len(demands) != len(starts) or room != len(self.arcs):
            wanted = "LENGTHS"
        elif not self.are_nodes(sources, targets):
            wanted = "NODE_RANGE"
        if wanted != "OK":
            self.expect(told == (STATUS[wanted], 7, [7] * room), "flows", sources, targets, demands, wanted, told)
            return
        places = len(starts) * self.count
        _, _, weights, begins, _, lines = self.library.routes(handle, starts, ends, places, lines_room=places)
        flows = [0] * room
        for demand, begin, end in zip(demands, [0, *begins], begins):
            for line in lines[begin + 1:end]:
                flows[line] += demand
        if max(flows, default=0) > 2**63:
            owed = STATUS["SUM_TOO_LARGE"], 7, [7] * room
        else:
            owed = STATUS["OK"], weights.count(NO_DISTANCE), flows
        self.expect(told == owed, "flows", sources, targets, demands, owed, told)

    def is_way(self, nodes, least):
        """Whether the least weights from node to node add up."""
        return sum(self.away[one][other][0] for one, other in zip(nodes, nodes[1:])) == least

    def close(self):
        for handle in self.handles:
            self.library.close(handle)
        for topology in self.topologies:
            self.library.topology_close(topology)

    def call(self):
        calls = (
            self.open_changed, self.open_or_close, self.share, self.ask_nodes, self.ask_distances, self.ask_table, self.ask_route,
            self.keep_places, self.sweep, self.ask_near, self.save, self.ask_routes, self.ask_sums, self.open_like,
            self.ask_route_sums, self.ask_flows, self.ask_flows_table, self.open_arrays, self.open_quick,
            self.open_topology, self.share_or_close_topology, self.ask_order, self.customize, self.ask_cells,
            self.keep_values, self.ask_kept_sums,
        )
        self.draw.choices(calls, (20, 5, 3, 2, 20, 15, 15, 10, 3, 20, 5, 20, 15, 10, 15, 15, 15, 10, 10, 10, 5, 3, 20, 15, 10, 20))[0]()


def memory():
    """The most kilobytes that this process has held."""
    return resource.getrusage(resource.RUSAGE_SELF).ru_maxrss


def main():
    calls, seed = (int(word) for word in (sys.argv[1:] + ["5000", "1"][len(sys.argv) - 1:]))
    tally, library, draw = Count(), Library(), random.Random(f"library {seed}")
    for done in range(calls):
        if done % PER_NETWORK == 0:
            caller = Caller(draw, Case(f"library {seed} {done}"), library, tally)
        if done == calls // 2:
            before = memory()
        caller.call()
        if done % PER_NETWORK == PER_NETWORK - 1 or done == calls - 1:
            caller.close()
    tally.expect(memory() - before <= MOST_GROWTH, f"memory grew by {memory() - before} KB over {calls - calls // 2} calls")
    tally.finish()


if __name__ == "__main__":
    main()
