#!/usr/bin/python3
"""Compares hierarchies of networks that are hard to contract with those of networks of the same kind with about twice the arcs.

In each order the number of edges grows at most 2.5 times, and a run takes little memory. So no builder stops dead there for its shortcuts, or for a
list of the pairs of a hub's neighbours. No time is looked at, except that a run that hangs is stopped.

The last line is 'N passed, N failed'.
"""
import sys
import tempfile
from pathlib import Path

from helpers.packages import missing
from helpers.running import PROGRAM, ROOT, Count, build, run, side_by_side

sys.path.append(str(ROOT / "bench"))
import networks  # noqa: E402

# How many times as many edges a hierarchy has at most where the network has twice the arcs.
MOST_GROWTH = 2.5
# The most memory of a run in bytes, its code and stacks with it. A list of all pairs of the leaves of the larger star would take more.
MOST_MEMORY = 64_000_000
# The part of the nodes of bench/networks.py that the smaller network has. The rules of the named orders cost far more than the square of the arcs on
# some networks, which are small for that.
PART = 0.03
SMALL_PARTS = {"clique": 0.001, "complete bipartite graph": 0.002, "hubs": 0.002}
# The options of `save` for each order. The last one takes the order by depth, with five per cent afresh.
ORDERS = {"difference": [], "depth": ["--deep"], "quickly": ["--quick"], "like depth": ["--like", "depth.ch"]}
LIMITED = "prlimit", f"--as={MOST_MEMORY}", PROGRAM


def saved(name, part):
    """The number of arcs of a network, and for each order the answer of `save` and the number of edges that it has written, or 0."""
    arcs, answers = list(networks.NETWORKS[name](part)), {}
    with tempfile.TemporaryDirectory() as folder:
        networks.write(Path(folder) / "graph.gr", arcs)
        for order, options in ORDERS.items():
            answer = run(["save", *options, "graph.gr"], folder, command=LIMITED)
            answers[order] = answer, int(answer.out.split(maxsplit=4)[3]) if answer.status == 0 else 0
            (Path(folder) / f"{order}.ch").write_bytes(answer.out)
    return len(arcs), answers


def compared(name):
    """For each order whether a network has few edges beside one with half of its arcs, and the text of a failure if not."""
    part = SMALL_PARTS.get(name, PART)
    (few_arcs, few), (many_arcs, many) = saved(name, part), saved(name, 2 * part)
    for order in ORDERS:
        (first, small), (second, large) = few[order], many[order]
        is_few = 0 < large * 2 * few_arcs <= small * many_arcs * MOST_GROWTH
        yield is_few, f"{name}, {order}: {small} edges over {few_arcs} arcs, {large} over {many_arcs} {first.err} {second.err}"


def main():
    build()
    tally = Count()
    lacking = missing("python3-scipy")
    if lacking:
        print("left out: roads with small cuts need", *lacking)
    for holds in side_by_side(lambda name: [*compared(name)], [name for name in networks.NETWORKS if not (lacking and "small cuts" in name)]):
        for holding, told in holds:
            tally.expect(holding, told)
    tally.finish()


if __name__ == "__main__":
    main()
