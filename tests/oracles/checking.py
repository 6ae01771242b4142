"""Judges saved hierarchies by the rules of docs/DEFINITIONS.md.

Nodes are numbered from 1. An arc is (from, to, weight); a leg is (from, to, weight, arcs, middle), where no middle is 0.
"""
from itertools import product

# The most weight of a leg, and of a path upward or downward.
LIMIT = 2**60


def plus(one, other):
    return one[0] + other[0], one[1] + other[1]


def first_fault(nodes, arcs, order, legs):
    """The word for the first fault of a saved hierarchy of this graph, or None where it is right."""
    judges = {"order": has_order_fault, "pair": has_pair_fault, "bound": has_bound_fault, "base": has_base_fault,
              "middle": has_middle_fault, "arc": has_arc_fault, "lower": has_lower_fault}
    return next((word for word, judge in judges.items() if judge(nodes, arcs, order, legs)), None)


def has_order_fault(nodes, arcs, order, legs):
    return sorted(order) != list(range(1, nodes + 1))


def has_pair_fault(nodes, arcs, order, legs):
    pairs = [(start, end) for start, end, *_ in legs]
    return len(set(pairs)) < len(pairs) or any(start == end for start, end in pairs)


def has_bound_fault(nodes, arcs, order, legs):
    return any(weight > LIMIT or count >= nodes for _, _, weight, count, _ in legs)


def has_base_fault(nodes, arcs, order, legs):
    given = set(arcs)
    return any(middle == 0 and (count != 1 or (start, end, weight) not in given) for start, end, weight, count, middle in legs)


def costs_of(legs):
    return {(start, end): (weight, count) for start, end, weight, count, _ in legs}


def has_middle_fault(nodes, arcs, order, legs):
    level, costs = levels_of(order), costs_of(legs)

    def adds_up(start, end, cost, middle):
        halves = costs.get((start, middle)), costs.get((middle, end))
        return level[middle] < min(level[start], level[end]) and None not in halves and plus(*halves) == cost

    return any(middle and not adds_up(start, end, (weight, count), middle) for start, end, weight, count, middle in legs)


def has_arc_fault(nodes, arcs, order, legs):
    costs = costs_of(legs)
    return any(start != end and costs.get((start, end), (LIMIT + 1, 0)) > (weight, 1) for start, end, weight in arcs)


def levels_of(order):
    return {node: place for place, node in enumerate(order)}


def rising(order, steps):
    """The least cost of a path of rising level from each node to each that it reaches so, of at most the limit."""
    reached = {}
    for node in reversed(order):
        own = reached[node] = {node: (0, 0)}
        for end, cost in steps.get(node, ()):
            for top, rest in reached[end].items():
                path = plus(cost, rest)
                if path[0] <= LIMIT and (top not in own or path < own[top]):
                    own[top] = path
    return reached


def has_lower_fault(nodes, arcs, order, legs):
    level = levels_of(order)
    up, down = {}, {}
    for start, end, weight, count, _ in legs:
        if level[start] < level[end]:
            up.setdefault(start, []).append((end, (weight, count)))
        else:
            down.setdefault(end, []).append((start, (weight, count)))
    ups, downs = rising(order, up), rising(order, down)

    def is_covered(start, end, cost):
        return any(top in downs[end] and plus(path, downs[end][top]) <= cost for top, path in ups[start].items())

    return any(start != end and not is_covered(start, end, plus(front, back))
               for node in order for (start, front), (end, back) in product(down.get(node, ()), up.get(node, ())))
