"""Reads streams of requests by the rules of docs/DEFINITIONS.md, and says what `chtab ask` owes for them.

It is independent of the program: it shares no code with it. Nodes are numbered from 1.
"""
from collections import namedtuple
from functools import cache

from oracles.dijkstra import arcs_ahead, distances_from
from oracles.reading import FORMS, MOST_WEIGHT, Fault, lines_of, numbers_after, words_of
from oracles.rules import routes_text

MOST_LISTED = FORMS["sources"].parts[0].most
MOST_CELLS = 2**22
MOST_NEW_WEIGHTS = 2**22

MOST_LINE = 65_536

Query = namedtuple("Query", "start end")
Route = namedtuple("Route", "start end")
Table = namedtuple("Table", "sources targets within", defaults=[None])
Places = namedtuple("Places", "nodes count")
Near = namedtuple("Near", "source within", defaults=[None])

# New weights: the line that begins their list, and of each its nodes, its weight and its line.
NewWeights = namedtuple("NewWeights", "line listed")


class Reader:
    """Judges the lines of a stream on a graph of so many nodes. Between lines it knows the request whose list it reads: what is made of its
    nodes, how many it wants, and those that were listed. It reads no list where none is wanted. The same of new weights, where the letter of
    the wanted lines is `a`."""

    def __init__(self, nodes):
        self.nodes, self.line = nodes, 0
        self.begin(0, None)

    def begin(self, wanted, make, letter=b"s"):
        self.wanted, self.make, self.letter, self.listed = wanted, make, letter, []

    def take(self, line):
        """The requests that are whole with this line: one or none. Raises its fault."""
        self.line += 1
        self.expect(len(line) <= MOST_LINE, "bad line")
        words = words_of(line)
        if not words or words[0].startswith(b"c"):
            return []
        kinds = {b"q": self.query, b"r": self.route, b"t": self.table, b"p": self.places, b"n": self.near, b"s": self.node,
                 b"w": self.weights, b"a": self.weight}
        self.expect(words[0] in kinds, "unknown line")
        return kinds[words[0]](words)

    def end(self):
        """Raises the fault of the end, which counts as one more line."""
        self.line += 1
        self.expect_whole()

    def query(self, words):
        self.expect_whole()
        start, end = self.numbers(words, 2)
        self.expect_node(start)
        self.expect_node(end)
        return [Query(start, end)]

    def route(self, words):
        (start, end), = self.query(words)
        return [Route(start, end)]

    def near(self, words):
        self.expect_whole()
        (source,), within = self.numbers_and_limit(words, 1)
        self.expect_node(source)
        self.expect_limit(within)
        return [Near(source, within)]

    def table(self, words):
        self.expect_whole()
        (sources, targets), within = self.numbers_and_limit(words, 2)
        self.expect(max(sources, targets) <= MOST_LISTED, "size too large")
        self.expect_limit(within)
        self.expect(sources * targets <= MOST_CELLS, "too many cells")
        self.begin(sources + targets, lambda listed: Table(listed[:sources], listed[sources:], within))
        return self.finished()

    def places(self, words):
        self.expect_whole()
        places, count = self.numbers(words, 2)
        self.expect(max(places, count) <= MOST_LISTED, "size too large")
        self.begin(places, lambda listed: Places(listed, count))
        return self.finished()

    def weights(self, words):
        self.expect_whole()
        count, = self.numbers(words, 1)
        self.expect(count <= MOST_NEW_WEIGHTS, "size too large")
        line = self.line
        self.begin(count, lambda listed: NewWeights(line, listed), b"a")
        return self.finished()

    def weight(self, words):
        start, end, weight = self.numbers(words, 3)
        self.expect_room(b"a")
        self.expect_node(start)
        self.expect_node(end)
        self.expect(self.nodes * weight <= MOST_WEIGHT, "weight too large")
        self.listed.append((start, end, weight, self.line))
        return self.finished()

    def node(self, words):
        node, = self.numbers(words, 1)
        self.expect_room(b"s")
        self.expect_node(node)
        self.listed.append(node)
        return self.finished()

    def finished(self):
        """The request that was begun, where it has its nodes."""
        if len(self.listed) < self.wanted:
            return []
        request = self.make(self.listed)
        self.begin(0, None)
        return [request]

    def numbers_and_limit(self, words, size):
        """So many numbers, and the limit that may follow them, or None."""
        if len(words) == size + 2:
            *numbers, within = self.numbers(words, size + 1)
            return numbers, within
        return self.numbers(words, size), None

    def numbers(self, words, size):
        numbers = numbers_after(words[:1], size, words)
        self.expect(numbers is not None, "bad line")
        return numbers

    def expect_whole(self):
        self.expect(len(self.listed) == self.wanted, "too few lines")

    def expect_room(self, letter):
        self.expect(letter == self.letter and len(self.listed) < self.wanted, "too many lines")

    def expect_limit(self, within):
        self.expect(within is None or within <= MOST_WEIGHT, "weight too large")

    def expect_node(self, node):
        self.expect(1 <= node <= self.nodes, "node out of range")

    def expect(self, holds, text):
        if not holds:
            raise Fault(self.line, text)


def told(data, nodes):
    """The requests that are whole before the first fault of a stream, and the text of this fault, or None."""
    reader, given = Reader(nodes), []
    try:
        for line in lines_of(data):
            given += reader.take(line)
        reader.end()
    except Fault as fault:
        return given, str(fault)
    return given, None


def whole_in(data, nodes):
    """The requests that are whole in the first bytes of a stream: those of lines that a line feed ends."""
    return told(data[:data.rfind(b"\n") + 1], nodes)[0]


def fault_line(fault):
    """What the program writes to standard error for a fault."""
    return f"chtab: request {fault}\n".encode()


class Answers:
    """The answers on a graph: cells of tables and near rows where they are at most `within`, where the request has no limit of its own; and
    routes by the order and the legs of a hierarchy, of each query where the run `tells_routes`. New weights hold where it is
    `customizable`."""

    def __init__(self, nodes, arcs, within=MOST_WEIGHT, hierarchy=None, tells_routes=True, customizable=False):
        self.nodes, self.arcs, self.within, self.hierarchy, self.tells_routes = nodes, arcs, within, hierarchy, tells_routes
        self.customizable = customizable
        ahead = arcs_ahead(arcs)
        self.distances = cache(lambda source: distances_from(source, ahead))

    def answer(self, request, places):
        """The text of a request, where these places were given last before it."""
        match request:
            case Places():
                return ""
            case Table(sources, targets, within):
                return "".join(self.row(source, targets, self.limit(within)) for source in sources)
            case Near(source, within):
                return self.near_row(source, places, self.limit(within))
            case Route():
                return routes_text(*self.hierarchy, [Query(*request)])
        if self.hierarchy and self.tells_routes:
            return routes_text(*self.hierarchy, [request])
        return f"d {request.start} {request.end} {self.distances(request.start).get(request.end, '-')}\n"

    def limit(self, within):
        return self.within if within is None else within

    def row(self, source, targets, within):
        found = self.distances(source)
        cells = (found.get(target, MOST_WEIGHT + 1) for target in targets)
        return " ".join(["t", str(source), *(str(cell) if cell <= within else "-" for cell in cells)]) + "\n"

    def near_row(self, source, places, within):
        """The places that are nearest, those that are equally near in the order in which they were given."""
        found = self.distances(source)
        reached = [(found[node], place) for place, node in enumerate(places.nodes) if node in found and found[node] <= within]
        nearest = sorted(reached)[:places.count or None]
        return " ".join(["n", str(source), str(len(nearest)), *(f"{places.nodes[place]} {weight}" for weight, place in nearest)]) + "\n"

    def weighed(self, new):
        """The answers with these new weights, without routes. Raises the fault of the first that is for no arc."""
        if not self.customizable:
            raise Fault(new.line, "needs --customizable")
        pairs = {(start, end) for start, end, _ in self.arcs}
        for start, end, _, line in new.listed:
            if (start, end) not in pairs:
                raise Fault(line, "no such arc")
        latest = {(start, end): weight for start, end, weight, _ in new.listed}
        arcs = [(start, end, latest.get((start, end), weight)) for start, end, weight in self.arcs]
        return Answers(self.nodes, arcs, self.within, customizable=True)

    def served(self, requests):
        """The text of these requests, in order, up to new weights that are refused; and the fault of these, or None."""
        present, places, texts = self, Places([], 0), []
        for request in requests:
            if isinstance(request, NewWeights):
                try:
                    present = present.weighed(request)
                except Fault as fault:
                    return "".join(texts).encode(), str(fault)
                continue
            texts.append(present.answer(request, places))
            if isinstance(request, Places):
                places = request
        return "".join(texts).encode(), None

    def owed(self, data):
        """Status, output and errors of a run over a stream."""
        given, fault = told(data, self.nodes)
        text, refused = self.served(given)
        fault = refused or fault
        return (1, text, fault_line(fault)) if fault else (0, text, b"")

    def owed_so_far(self, data):
        """What is written once these first bytes of a stream were read, and no more were."""
        return self.served(whole_in(data, self.nodes))[0]
