"""Small random graphs, drawn from a seed, with questions and what is owed for them by Dijkstra's algorithm."""
import random
import subprocess
from pathlib import Path

from helpers.running import PROGRAM
from helpers.writing import write_graph, write_list, write_queries
from oracles.dijkstra import arcs_ahead, least_costs
from oracles.nearest import near_text
from oracles.routes import checked

# The number of nodes times any weight is at most this.
LIMIT = 2**60


def drawn(draw, sizes, densities):
    """A graph: the number of its nodes, one of these sizes, and its arcs (from, to, weight), so many for each node as one of these densities."""
    nodes = draw.choice(sizes)
    greatest = draw.choice((0, 1, 3, 100, 10**6, LIMIT // nodes))
    arcs = []
    for _ in range(round(nodes * draw.choice(densities))):
        weight = draw.choice((0, greatest, draw.randint(0, greatest), draw.randint(0, greatest)))
        start, end = draw.randint(1, nodes), draw.randint(1, nodes)
        arcs.append((start, end, weight))
        if draw.random() < 0.4:
            arcs.append((end, start, weight))
        if draw.random() < 0.1:
            arcs.append((start, end, draw.choice((weight, draw.randint(0, greatest)))))
    draw.shuffle(arcs)
    return nodes, arcs


class Case:
    """A random graph with queries and lists, and what is owed for them."""

    SIZES = 1, 2, 3, 5, 8, 13, 20, 33
    DENSITIES = 0, 0.5, 1, 1.5, 2, 3, 5

    def __init__(self, seed):
        draw = random.Random(seed)
        self.nodes, self.arcs = drawn(draw, self.SIZES, self.DENSITIES)
        ahead = arcs_ahead(self.arcs)
        self.costs = {source: least_costs(source, ahead) for source in range(1, self.nodes + 1)}
        self.queries = [(draw.randint(1, self.nodes), draw.randint(1, self.nodes)) for _ in range(draw.choice((0, 1, 40)))]
        self.lists = [[draw.randint(1, self.nodes) for _ in range(draw.choice((0, 1, 12)))] for _ in range(2)]
        self.limit = draw.choice([0, LIMIT, *(weight for known in self.costs.values() for weight, _ in known.values())])
        self.order = draw.sample(range(1, self.nodes + 1), self.nodes)
        self.hops = draw.sample(range(1, 17), 2)
        self.count = draw.choice((1, 2, 3, 65_536))
        self.fresh = draw.choice((0, 5, 100, draw.randint(0, 100)))

    def answers(self):
        """Each query with the least weight and the least number of arcs of a walk of that weight, or twice None where there is no walk."""
        return [(start, end, *self.costs[start].get(end, (None, None))) for start, end in self.queries]

    def distances(self):
        return "".join(f"d {start} {end} {'-' if weight is None else weight}\n" for start, end, weight, _ in self.answers())

    def has_right_routes(self, text):
        """Whether each route is a walk of the graph of the least weight and of the fewest arcs."""
        try:
            return checked(set(self.arcs), text) == self.answers()
        except (AssertionError, IndexError, ValueError):
            return False

    def cell(self, source, target, most):
        weight, _ = self.costs[source].get(target, (most + 1, None))
        return str(weight) if weight <= most else "-"

    def table(self, most=LIMIT):
        """The rows, in which cells above `most` are none."""
        rows = [["t", str(source), *(self.cell(source, target, most) for target in self.lists[1])] for source in self.lists[0]]
        return "".join(" ".join(row) + "\n" for row in rows)

    def near(self, sources, is_from=False, most=None, count=None):
        """The near rows of these sources: their targets at most so far away, and no more than `count` of them. With `is_from` the distances
        are those from the targets."""
        weights = {source: {} for source in sources}
        for source in weights:
            for target in self.lists[1]:
                start, end = (target, source) if is_from else (source, target)
                if end in self.costs[start]:
                    weights[source][target] = self.costs[start][end][0]
        return near_text(weights, sources, self.lists[1], most, count)

    def write(self, folder):
        """The files graph.gr, queries.p2p, from.ss and to.ss."""
        write_graph(folder.path / "graph.gr", self.nodes, self.arcs)
        write_queries(folder.path / "queries.p2p", self.queries)
        for name, nodes in zip(("from.ss", "to.ss"), self.lists):
            write_list(folder.path / name, nodes)


class WideCase(Case):
    """The same with as many nodes as workers share while a hierarchy is built: 64 and more."""

    SIZES = 64, 150, 300
    DENSITIES = 0.5, 1, 1.5


class Folder:
    """The files of one graph, and runs of the program on them."""

    def __init__(self, path):
        self.path = Path(path)

    def save(self, name, text):
        """Writes the text, and gives it back."""
        (self.path / name).write_text(text)
        return text

    def run(self, tool, *words):
        """The text of a run, which ends well."""
        done = subprocess.run([PROGRAM, tool, *words], cwd=self.path, capture_output=True, text=True)
        assert (done.returncode, done.stderr) == (0, ""), (tool, words, done.returncode, done.stderr)
        return done.stdout
