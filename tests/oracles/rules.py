"""The contraction hierarchies that docs/DEFINITIONS.md names, in each order, and the routes by them, computed plainly from the rules.

Nodes are numbered from 1. An arc is (from, to, weight); a leg is (from, to, weight, arcs, middle), where no middle is 0.
"""
from itertools import product

from oracles.checking import LIMIT, levels_of, plus
from oracles.contracting import contract_in_order, text_of


class Contraction:
    """What is left of a graph while its nodes are contracted: for each node its legs to others and those from others, each a cost (weight,
    arcs) and a middle."""

    def __init__(self, nodes, arcs, hops):
        self.nodes, self.hops = nodes, hops
        self.depth = dict.fromkeys(range(1, nodes + 1), 0)
        self.ahead = {node: {} for node in self.depth}
        self.behind = {node: {} for node in self.depth}
        for start, end, weight in arcs:
            if start != end and (weight, 1) < self.ahead[start].get(end, ((LIMIT + 1, 0), 0))[0]:
                self.put(start, end, (weight, 1), 0)

    def put(self, start, end, cost, middle):
        self.ahead[start][end] = self.behind[end][start] = cost, middle

    def neighbours(self, node):
        return self.ahead[node].keys() | self.behind[node].keys()

    def touching(self, node):
        """How many legs touch a node."""
        return len(self.ahead[node]) + len(self.behind[node])

    def has_witness(self, avoided, start, end, most, hops):
        """Whether a chain of at most so many legs leads from one node to another, never over the avoided one, and costs at most so much."""
        front = {start: (0, 0)}
        for _ in range(hops):
            reached = {}
            for place, known in front.items():
                for other, (cost, _) in self.ahead[place].items():
                    sum_of_both = plus(known, cost)
                    if other != avoided and sum_of_both <= min(most, reached.get(other, most)):
                        reached[other] = sum_of_both
            if end in reached:
                return True
            front = reached
        return False

    def shortcuts(self, node, hops):
        """The cost of the shortcut of each pair that needs one, where a witness has at most so many legs."""
        found = {}
        for (start, (one, _)), (end, (other, _)) in product(self.behind[node].items(), self.ahead[node].items()):
            cost = plus(one, other)
            if start != end and cost[0] <= LIMIT and cost[1] < self.nodes and not self.has_witness(node, start, end, cost, hops):
                found[start, end] = cost
        return found

    def count(self, node):
        """How many shortcuts a node needs."""
        return len(self.shortcuts(node, self.hops))

    def by_depth(self, node, count):
        """The key of a node of so many shortcuts in the order by depth."""
        return 2 * count + self.depth[node] - self.touching(node)

    def take_out(self, node):
        """Takes a node out, and makes its neighbours deeper than it. Its legs, and these neighbours."""
        neighbours = self.neighbours(node)
        ahead, behind = self.ahead.pop(node), self.behind.pop(node)
        for end in ahead:
            del self.behind[end][node]
        for start in behind:
            del self.ahead[start][node]
        for other in neighbours:
            self.depth[other] = max(self.depth[other], self.depth[node] + 1)
        legs = [(node, end, *cost, middle) for end, (cost, middle) in ahead.items()]
        return legs + [(start, node, *cost, middle) for start, (cost, middle) in behind.items()], neighbours

    def put_all(self, node, shortcuts):
        """Puts the shortcuts of a node that was taken out in its place."""
        for (start, end), cost in shortcuts.items():
            self.put(start, end, cost, node)


def contract_one(left, node, hops):
    """Contracts a node, where a witness has at most so many legs. Its legs, and the nodes that it shared one with."""
    shortcuts = left.shortcuts(node, hops)
    taken, neighbours = left.take_out(node)
    left.put_all(node, shortcuts)
    return taken, neighbours


def singly(left, key, given=()):
    """Contracts one node after the other: first those given, as they come, and then at each step one of least key, and of these the least
    numbered. Keys are computed when the given nodes are contracted. The order, and all legs."""
    order, legs = list(given), []
    for node in given:
        legs += contract_one(left, node, left.hops)[0]
    waiting = {node: key(node) for node in left.depth.keys() - set(given)}
    while waiting:
        node = min(waiting, key=lambda other: (waiting[other], other))
        del waiting[node]
        order.append(node)
        taken, neighbours = contract_one(left, node, left.hops)
        legs += taken
        waiting.update({other: key(other) for other in neighbours})
    return order, legs


def by_difference(left):
    return singly(left, lambda node: left.count(node) - left.touching(node))


def by_depth(left, given=()):
    return singly(left, lambda node: left.by_depth(node, left.count(node)), given)


# How each order contracts what is left of a graph.
ORDERS = {"difference": by_difference, "depth": by_depth}


def hierarchy_text(nodes, arcs, hops, order):
    """What `chtab save` owes for a graph: the order and the legs of its hierarchy, in the order of this name."""
    ranked, legs = ORDERS[order](Contraction(nodes, arcs, hops))
    return text_of(nodes, ranked, in_order(ranked, legs))


def text_like(nodes, arcs, hops, given, fresh):
    """The saved hierarchy of a graph in an order like the given one: the last nodes, so many per cent of all, rounded down, are ordered afresh
    by depth."""
    ranked, legs = by_depth(Contraction(nodes, arcs, hops), given[: nodes - nodes * fresh // 100])
    return text_of(nodes, ranked, in_order(ranked, legs))


def text_quick(nodes, arcs, hops, order):
    """The saved hierarchy of a graph whose nodes are contracted in this order, which `save --quick` found: only a leg is a witness until the
    first node with more than two neighbours is contracted, and then chains of at most so many legs are."""
    left, legs, bound = Contraction(nodes, arcs, hops), [], 1
    for node in order:
        if len(left.neighbours(node)) > 2:
            bound = hops
        legs += contract_one(left, node, bound)[0]
    return text_of(nodes, order, in_order(order, legs))


def text_customized(nodes, arcs, order):
    """The saved hierarchy of a graph that is customized in this order."""
    return text_of(nodes, order, in_order(order, contract_in_order(nodes, arcs, order)))


def in_order(order, legs):
    """The legs as `save` has them: for each node by level those up, by their end, and then those down, by their start."""
    level = levels_of(order)

    def place(leg):
        start, end = leg[:2]
        return (level[start], 0, end) if level[start] < level[end] else (level[end], 1, start)

    return sorted(legs, key=place)


class Routes:
    """The routes that docs/DEFINITIONS.md names, by a hierarchy: its order and its legs."""

    def __init__(self, order, legs):
        self.order, self.level = order, levels_of(order)
        self.legs = {(start, end): ((weight, count), middle) for start, end, weight, count, middle in legs}
        self.up = {node: [] for node in order}
        self.down = {node: [] for node in order}
        for start, end in self.legs:
            if self.level[start] < self.level[end]:
                self.up[start].append(end)
            else:
                self.down[end].append(start)

    def cost(self, start, end, is_up):
        return self.legs[(start, end) if is_up else (end, start)][0]

    def reached(self, source, is_up):
        """The least cost of a path of rising level from the source, or to it, for each node that has one of at most the limit."""
        costs = {source: (0, 0)}
        for node in self.order:
            for higher in (self.up if is_up else self.down)[node] if node in costs else ():
                path = plus(costs[node], self.cost(node, higher, is_up))
                if path[0] <= LIMIT and path <= costs.get(higher, path):
                    costs[higher] = path
        return costs

    def half(self, costs, source, meet, is_up):
        """The nodes from the meet down to the source, each the least numbered one before, on a least path."""
        nodes = [meet]
        while nodes[-1] != source:
            last = nodes[-1]
            nodes.append(min(node for node, known in costs.items() if last in (self.up if is_up else self.down)[node]
                             and plus(known, self.cost(node, last, is_up)) == costs[last]))
        return nodes

    def unpacked(self, start, end):
        cost, middle = self.legs[start, end]
        return self.unpacked(start, middle) + self.unpacked(middle, end) if middle else [(start, end, cost[0])]

    def route(self, start, end):
        """The arcs of the route, or None where there is no walk."""
        ups, downs = self.reached(start, True), self.reached(end, False)
        sums = {node: plus(ups[node], downs[node]) for node in ups.keys() & downs.keys()}
        if not sums:
            return None
        meet = min(sums, key=lambda node: (sums[node], node))
        nodes = self.half(ups, start, meet, True)[::-1] + self.half(downs, end, meet, False)[1:]
        return [arc for pair in zip(nodes, nodes[1:]) for arc in self.unpacked(*pair)]


def routes_text(order, legs, queries):
    """What `chtab dist --routes` owes for queries by this hierarchy."""
    routes, lines = Routes(order, legs), []
    for start, end in queries:
        arcs = routes.route(start, end)
        lines.append(f"d {start} {end} {'-' if arcs is None else sum(weight for _, _, weight in arcs)}")
        if arcs is not None:
            lines += [f"r {len(arcs)}", *(f"a {tail} {head} {weight}" for tail, head, weight in arcs)]
    return "".join(f"{line}\n" for line in lines)
