"""Networks that are hard to contract, of any size, from fixed seeds: for `stops`, and for the test of how counts grow."""
import pathlib
import random
import subprocess
import tempfile

import roads


def lattice(side, weight, origin=0):
    """A square of streets, both ways: the arcs of its nodes, numbered from `origin`."""
    for place in range(side * side):
        for other in (place + 1) * ((place + 1) % side > 0), (place + side) * (place + side < side * side):
            if other:
                yield from both(origin + place, origin + other, weight())


def both(start, end, weight):
    """An arc and the one back. Nodes count from 0."""
    return (start, end, weight), (end, start, weight)


def drawn(seed=1, most=1_000):
    """Weights from 1 to `most`."""
    draw = random.Random(seed)
    return lambda: draw.randint(1, most)


def bridged(side):
    """Two lattices of random weights, and one street between them."""
    weight = drawn()
    return [*lattice(side, weight), *lattice(side, weight, side * side), *both(side * side - 1, side * side, 5)]


def star(leaves):
    weight = drawn()
    return [arc for leaf in range(1, leaves + 1) for arc in both(0, leaf, weight())]


def path(nodes):
    weight = drawn()
    return [arc for node in range(1, nodes) for arc in both(node - 1, node, weight())]


def tree(nodes):
    draw, weight = random.Random(2), drawn()
    return [arc for node in range(1, nodes) for arc in both(draw.randrange(node), node, weight())]


def clique(nodes):
    weight = drawn(most=1_000_000)
    return [arc for end in range(nodes) for start in range(end) for arc in both(start, end, weight())]


def bipartite(side):
    weight = drawn()
    return [arc for one in range(side) for other in range(side) for arc in both(one, side + other, weight())]


def hubs(count, nodes):
    """Nodes that are each joined to three hubs and to nothing else."""
    draw, weight = random.Random(3), drawn()
    return [arc for node in range(count, count + nodes) for hub in draw.sample(range(count), 3) for arc in both(hub, node, weight())]


def cut_like_a_grid(nodes):
    _, _, arcs = roads.network(nodes)
    return [(start - 1, end - 1, weight) for start, end, weight in arcs]


def with_small_cuts(nodes):
    """The roads of `cities.py`, which needs scipy."""
    with tempfile.NamedTemporaryFile() as file:
        subprocess.run([pathlib.Path(__file__).parent / "cities.py", str(nodes), file.name], check=True)
        lines = [line.split() for line in open(file.name) if line.startswith("a ")]
    return [(int(start) - 1, int(end) - 1, int(weight)) for _, start, end, weight in lines]


# Each network's arcs, from the part of its nodes that is wanted: a side has the square root of the part.
NETWORKS = {
    "lattice of equal weights": lambda part: lattice(round(300 * part**0.5), lambda: 1_000),
    "lattice of random weights": lambda part: lattice(round(300 * part**0.5), drawn()),
    "lattice of weights 0": lambda part: lattice(round(300 * part**0.5), lambda: 0),
    "two lattices with a bridge": lambda part: bridged(round(200 * part**0.5)),
    "star": lambda part: star(round(50_000 * part)),
    "path": lambda part: path(round(200_000 * part)),
    "tree": lambda part: tree(round(100_000 * part)),
    "clique": lambda part: clique(round(1_000 * part**0.5)),
    "complete bipartite graph": lambda part: bipartite(round(300 * part**0.5)),
    "hubs": lambda part: hubs(20, round(50_000 * part)),
    "roads": lambda part: cut_like_a_grid(round(100_000 * part)),
    "roads with small cuts": lambda part: with_small_cuts(round(100_000 * part)),
}


def write(path, arcs):
    """The graph of these arcs, with as many nodes as they need."""
    arcs = list(arcs)
    nodes = 1 + max(max(start, end) for start, end, _ in arcs)
    lines = (f"a {start + 1} {end + 1} {weight}\n" for start, end, weight in arcs)
    path.write_text(f"p sp {nodes} {len(arcs)}\n" + "".join(lines))
    return nodes
