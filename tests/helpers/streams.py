"""Streams of requests: written, and drawn from a seed on random graphs, with the options of their run and what is owed for them."""
import random
from itertools import pairwise

from helpers.cases import Case
from helpers.mutating import MUTATIONS, with_lines
from helpers.writing import write_graph
from oracles.contracting import contract_in_order, text_of
from oracles.reading import read
from oracles.requesting import Answers, Near, NewWeights, Places, Query, Route, Table
from oracles.rules import hierarchy_text

# The options of a run that `dist` knows, and those that `table` does. Each is a word and its value, or None.
FOR_ALL = "--saved", "--workers", "--piece", "--hops"
FOR_QUERIES = "--routes", "--deep", *FOR_ALL
FOR_TABLES = "--within", *FOR_ALL


def words_of(options, known=(*FOR_QUERIES, *FOR_TABLES)):
    """The words of those options that are known."""
    return [str(word) for option, value in options.items() if option in known for word in (option, value) if word is not None]


def stream_of(requests):
    """The bytes that ask for these."""
    lines = [line for request in requests for line in lines_of_request(request)]
    return "".join(f"{line}\n" for line in lines).encode()


def lines_of_request(request):
    match request:
        case Query(start, end):
            return [f"q {start} {end}"]
        case Route(start, end):
            return [f"r {start} {end}"]
        case Near(source, within):
            return [" ".join(["n", str(source), *limit_words(within)])]
        case Table(sources, targets, within):
            head = " ".join(["t", str(len(sources)), str(len(targets)), *limit_words(within)])
            return [head, *(f"s {node}" for node in sources + targets)]
        case Places(nodes, count):
            return [f"p {len(nodes)} {count}", *(f"s {node}" for node in nodes)]
        case NewWeights(_, listed):
            return [f"w {len(listed)}", *(f"a {start} {end} {weight}" for start, end, weight, _ in listed)]


def limit_words(within):
    return [] if within is None else [str(within)]


def drawn_requests(draw, nodes, how_many, sizes):
    """So many requests, of which one of five is a table, with lists of these sizes."""
    def drawn(count):
        return [draw.randint(1, nodes) for _ in range(count)]

    return [Table(drawn(draw.choice(sizes)), drawn(draw.choice(sizes))) if draw.random() < 0.2 else Query(*drawn(2)) for _ in range(how_many)]


def drawn_of_all_kinds(draw, nodes, how_many, sizes, limits):
    """So many requests of all kinds, with lists of these sizes; half of those that may have a limit of their own have one of these."""
    def drawn(count):
        return [draw.randint(1, nodes) for _ in range(count)]

    def limit():
        return draw.choice([None, draw.choice(limits)])

    def drawn_request():
        kind = draw.choice("qqrrtpnnnn")
        if kind == "t":
            return Table(drawn(draw.choice(sizes)), drawn(draw.choice(sizes)), limit())
        if kind == "p":
            return Places(drawn(draw.choice(sizes)), draw.choice([0, 1, 2, 3, 65_536]))
        return Near(*drawn(1), limit()) if kind == "n" else (Query if kind == "q" else Route)(*drawn(2))

    return [drawn_request() for _ in range(how_many)]


def with_skipped(draw, stream):
    """The stream with lines that are skipped among the others, and sometimes without its last line feed."""
    lines = stream.split(b"\n")
    for _ in range(draw.choice([0, 0, 1, 3])):
        lines.insert(draw.randint(0, len(lines)), draw.choice([b"", b"c q 1 1", b" \t\r", b"comment \0\xff"]))
    return b"\n".join(lines)[:draw.choice([None, -1])]


def resize_table(draw, lines):
    """Gives a table other sizes, small ones and those at the limits."""
    tables = [place for place, line in enumerate(lines) if line.startswith((b"t ", b"p "))]
    if tables:
        place = draw.choice(tables)
        lines[place] = lines[place][:2] + b"%d %d" % tuple(draw.choice([0, 2, 65, 65_536, 65_537]) for _ in range(2))


def limit_request(draw, lines):
    """Gives a request a limit, a small one or one at the greatest."""
    limited = [place for place, line in enumerate(lines) if line.startswith((b"t ", b"n ", b"q ", b"p "))]
    if limited:
        lines[draw.choice(limited)] += b" %d" % draw.choice([0, 5, 2**60, 2**60 + 1, 2**64, 10**30])


def lengthen_line(draw, lines):
    """Makes a line as long as one may be, or a byte longer."""
    place = draw.randrange(len(lines))
    lines[place] = lines[place].ljust(draw.choice([65_535, 65_536, 65_537, 200_000]))


SIZE_MUTATIONS = 6 * [with_lines(resize_table)] + 6 * [with_lines(limit_request)] + 3 * [with_lines(lengthen_line)]


def cut_at_random(draw, stream):
    """The parts of a stream, none of them empty."""
    inner = range(1, len(stream))
    places = sorted(draw.sample(inner, min(len(inner), draw.choice([0, 1, 3, 20]))))
    return [stream[start:end] for start, end in pairwise([0, *places, len(stream)]) if start < end]


def drawn_weights(draw, case):
    """New weights of arcs of a graph, some of them twice, and now and then one that is for no arc."""
    listed = [(start, end, draw.choice([0, weight, draw.randint(0, 2**60 // case.nodes)]), 0)
              for start, end, weight in draw.choices(case.arcs, k=draw.choice([0, 1, 1, 3, 30]) if case.arcs else 0)]
    if draw.random() < 0.05:
        listed.insert(draw.randint(0, len(listed)), (draw.randint(1, case.nodes), draw.randint(1, case.nodes), 1, 0))
    return NewWeights(0, listed)


class Weighed:
    """A random graph, a stream of requests and new weights on it, and where it is cut."""

    def __init__(self, seed):
        draw = random.Random(f"weighed {seed}")
        self.case = case = Case(seed)
        self.given = []
        for _ in range(draw.randint(1, 5)):
            requests = drawn_of_all_kinds(draw, case.nodes, draw.randint(0, 5), (0, 1, 2, 5), [0, case.limit, 2**60])
            self.given += [Query(*request) if isinstance(request, Route) else request for request in requests]
            self.given.append(drawn_weights(draw, case))
        self.is_mutated = draw.random() < 0.3
        self.stream = with_skipped(draw, stream_of(self.given))
        if self.is_mutated:
            self.stream = draw.choice(MUTATIONS)(draw, self.stream)
        self.parts = cut_at_random(draw, self.stream)
        self.options = {"--workers": draw.choice([1, 2]), "--piece": 1} | ({"--within": case.limit} if draw.random() < 0.4 else {})

    def owed(self):
        return Answers(self.case.nodes, self.case.arcs, self.options.get("--within", 2**60), customizable=True).owed(self.stream)


class Drawn:
    """A random graph, a stream of requests on it, where it is cut, and the options of its run."""

    def __init__(self, seed):
        draw = random.Random(f"stream {seed}")
        self.case = Case(seed)
        self.is_mutated = draw.random() < 0.5
        limits = [0, self.case.limit, 2 * self.case.limit, 2**60]
        self.stream = with_skipped(draw, stream_of(drawn_of_all_kinds(draw, self.case.nodes, draw.randint(0, 16), (0, 1, 2, 5), limits)))
        if self.is_mutated:
            for _ in range(draw.choice([1, 1, 2])):
                self.stream = draw.choice([*MUTATIONS, *SIZE_MUTATIONS])(draw, self.stream)
        self.parts = cut_at_random(draw, self.stream)
        self.options = self.drawn_options(draw)

    def drawn_options(self, draw):
        options = {"--workers": draw.choice([1, 2, 64]), "--piece": draw.choice([1, 3]), "--hops": self.case.hops[0]}
        more = {"--routes": None, "--deep": None, "--within": self.case.limit, "--saved": "own.ch"}
        return options | {option: value for option, value in more.items() if draw.random() < 0.4}

    def write(self, folder):
        """The graph, and a hierarchy of it in an order of its own."""
        case = self.case
        write_graph(folder / "graph.gr", case.nodes, case.arcs)
        (folder / "own.ch").write_text(text_of(case.nodes, case.order, contract_in_order(case.nodes, case.arcs, case.order)))

    def hierarchy(self, folder):
        """The order and the legs of the hierarchy that routes follow: the saved one, or the one that the run builds."""
        case = self.case
        if "--saved" in self.options:
            text = (folder / "own.ch").read_text()
        else:
            text = hierarchy_text(case.nodes, case.arcs, case.hops[0], self.order())
        _, (order, legs) = read("saved", text.encode(), case.nodes)
        return [node for node, in order], legs

    def order(self):
        """The order in which the run builds the hierarchy."""
        return "depth" if "--deep" in self.options or "--routes" not in self.options else "difference"

    def owed(self, folder):
        within = self.options.get("--within", 2**60)
        return Answers(self.case.nodes, self.case.arcs, within, self.hierarchy(folder), "--routes" in self.options).owed(self.stream)
