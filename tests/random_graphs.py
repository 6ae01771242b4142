#!/usr/bin/python3
"""Compares the built program with an independent Dijkstra on small random graphs, drawn from a seed.

  random_graphs.py [GRAPHS [SEED]]

Weights of 0, parallel arcs, loops, unreachable parts and weights up to the limit are among them (300 graphs, seed 1). For each graph,
by the difference and by depth, with bounds on hops from 1 to 16 and with 1, 2 and 64 workers: `dist`, `dist --routes`, `table` and
`near`, also within a limit; `near --all`, to and from the targets, and no more than a count; `save`, and the same by the saved hierarchy;
and `dist --plain`. Distances are those of Dijkstra's algorithm over
pairs of weight and number of arcs, each route is a walk of the graph of that weight and that number of arcs, and the one that the rules
name, all runs of one kind write the same bytes, what is saved is the hierarchy that the rules name, and an independent checker finds no
fault in it. A hierarchy that an independent program makes by an order of its own is accepted, and gives the same distances.
With `--like`, that order and the hierarchy by it of other weights give the hierarchy that the rules name, and the same distances. With
`--customizable` too they give the hierarchy that an independent program makes in that order, if it counts at most 40 triangles a node.
Without a file, what is saved is the one that it makes in the order of that text, for any workers.

With `save --quick`, runs by 1, 2, 3, 4 and 64 workers and with pieces of 1 and 64 nodes write the same text. It is that of the nodes contracted
in the order that it tells, and gives the same distances. Workers share a job of building only if it has 64 nodes, so a graph of up to 300
nodes is drawn for each tenth of the others. The last line is 'N passed, N failed', of graphs.
"""
import sys
import tempfile
from functools import partial
from itertools import product

from helpers.cases import Case, Folder, WideCase
from helpers.running import Count, build, side_by_side
from oracles.checking import first_fault
from oracles.contracting import contract_in_order, text_of
from oracles.reading import read
from oracles.rules import hierarchy_text, routes_text, text_customized, text_like, text_quick
from oracles.topologies import triangles_of

# The words for each order of contraction.
WORDS = {"difference": (), "depth": ("--deep",)}

# The numbers of workers and the pieces with which a graph is contracted quickly.
SHARES = [("--workers", str(workers), "--piece", str(piece)) for workers, piece in product((1, 2, 3, 4, 64), (1, 64))]


def check_saved(case, hops, order, text):
    """The text is that of the graph's hierarchy in this order, and an independent checker finds no fault in it. Gives the routes by it."""
    return check_text(case, text, hierarchy_text(case.nodes, case.arcs, hops, order))


def check_text(case, text, wanted):
    """The text of a saved hierarchy is this one, and an independent checker finds no fault in it. Gives the routes by it."""
    assert text == wanted, text
    _, (order, legs) = read("saved", text.encode(), case.nodes)
    order = [node for node, in order]
    assert first_fault(case.nodes, case.arcs, order, legs) is None, text
    return routes_text(order, legs, case.queries)


def check_near(case, folder, *options):
    """The near rows of runs with these options are right: of the sources and of all nodes, to the targets and from them."""
    limits = ["--count", str(case.count), "--within", str(case.limit)]
    for words, sources in (["graph.gr", "from.ss", "to.ss"], case.lists[0]), (["--all", "graph.gr", "to.ss"], range(1, case.nodes + 1)):
        for direction in [], ["--from"]:
            is_from = bool(direction)
            assert folder.run("near", *direction, *options, *words) == case.near(sources, is_from), (direction, words)
            found = folder.run("near", *limits, *direction, *options, *words)
            assert found == case.near(sources, is_from, case.limit, case.count), (limits, direction, words)


def check_runs(case, folder, *options, order="difference"):
    """The distances, tables and near rows of runs with these options are right; gives the text of routes, in this order."""
    lists = ["graph.gr", "from.ss", "to.ss"]
    assert folder.run("dist", *options, "graph.gr", "queries.p2p") == case.distances()
    assert folder.run("table", *options, *lists) == case.table()
    assert folder.run("table", "--within", str(case.limit), *options, *lists) == case.table(case.limit)
    check_near(case, folder, *options)
    text = folder.run("dist", "--routes", *WORDS[order], *options, "graph.gr", "queries.p2p")
    assert case.has_right_routes(text), text
    return text


def order_in(case, text):
    """The nodes of a saved hierarchy in order of level."""
    _, (order, _) = read("saved", text.encode(), case.nodes)
    return [node for node, in order]


def check_quick(case, folder):
    """With `--quick`, runs with any workers and pieces save one text, that of its order. By it and without it, runs have the right answers."""
    hops = case.hops[0]
    bound = ["--hops", str(hops)]
    saved = folder.save("saved.ch", folder.run("save", "--quick", *bound, "graph.gr"))
    routes = check_text(case, saved, text_quick(case.nodes, case.arcs, hops, order_in(case, saved)))
    for share in SHARES:
        assert folder.run("save", "--quick", *share, *bound, "graph.gr") == saved, share
        assert folder.run("dist", *share, *bound, "graph.gr", "queries.p2p") == case.distances(), share
    assert check_runs(case, folder, "--saved", "saved.ch") == routes


def check_like(case, folder):
    """In an order like a given one, runs save the hierarchy that the rules name, and write the routes by it. The order is a list of nodes, or that
    of a saved hierarchy of other weights."""
    hops = case.hops[0]
    legs_of_ones = contract_in_order(case.nodes, [(start, end, 1) for start, end, _ in case.arcs], case.order)
    folder.save("order.ch", text_of(case.nodes, case.order, []))
    folder.save("ones.ch", text_of(case.nodes, case.order, legs_of_ones))
    fresh = [] if case.fresh == 5 else ["--fresh", str(case.fresh)]
    wanted = text_like(case.nodes, case.arcs, hops, case.order, case.fresh)
    texts = set()
    for file, workers in ("order.ch", 1), ("ones.ch", 1), ("ones.ch", 3):
        options = ["--like", file, *fresh, "--hops", str(hops), "--workers", str(workers), "--piece", "3"]
        texts.add(check_text(case, folder.run("save", *options, "graph.gr"), wanted))
        texts.add(check_runs(case, folder, *options))
    assert len(texts) == 1, "routes are not those of the rules, or depend on the number of workers, or on the legs of the file"


def check_customized(case, folder, order, *options):
    """Runs with these options customize the hierarchy, in this order or in one that they find, unless that has too many triangles. The text of it."""
    saved = folder.save("customized.ch", folder.run("save", "--customizable", *options, "graph.gr"))
    own = order or order_in(case, saved)
    few = triangles_of(case.nodes, case.arcs, [node - 1 for node in own]) <= 40 * case.nodes
    customized = text_customized(case.nodes, case.arcs, own)
    # The order of a hierarchy that is built quickly may have few triangles where the one that was given up has not.
    is_customized = few and (order is not None or saved == customized)
    routes = check_text(case, saved, customized if is_customized else text_quick(case.nodes, case.arcs, case.hops[0], order_in(case, saved)))
    assert check_runs(case, folder, "--saved", "customized.ch") == routes
    assert check_runs(case, folder, "--customizable", *options) == routes
    return saved


def check_customizable(case, folder):
    """With `--customizable`, runs take the whole order of a file, or find one that is the same for any workers."""
    hops = ["--hops", str(case.hops[0])]
    found = {check_customized(case, folder, None, *hops, *share) for share in (SHARES[0], SHARES[4])}
    given = {check_customized(case, folder, case.order, *hops, "--like", file) for file in ("order.ch", "ones.ch")}
    assert len(found) == len(given) == 1, "hierarchies depend on the number of workers, or on the legs of the file"


def check_wide_graph(seed):
    case = WideCase(seed)
    with tempfile.TemporaryDirectory() as kept:
        folder = Folder(kept)
        case.write(folder)
        check_quick(case, folder)
        check_like(case, folder)
        check_customizable(case, folder)


def check_graph(seed):
    case = Case(seed)
    with tempfile.TemporaryDirectory() as kept:
        folder = Folder(kept)
        case.write(folder)
        assert folder.run("dist", "--plain", "graph.gr", "queries.p2p") == case.distances()
        texts = set()
        for workers, hops, order in ((1, case.hops[0], "difference"), (2, case.hops[0], "difference"),
                                     (1, case.hops[1], "depth"), (64, case.hops[1], "depth")):
            options = ["--workers", str(workers), "--piece", "3"]
            bound = ["--hops", str(hops)]
            saved = folder.save("saved.ch", folder.run("save", *WORDS[order], *options, *bound, "graph.gr"))
            texts.add((hops, saved, check_saved(case, hops, order, saved)))
            texts.add((hops, saved, check_runs(case, folder, *options, *bound, order=order)))
            texts.add((hops, saved, check_runs(case, folder, *options, "--saved", "saved.ch")))
        assert len(texts) == 2, "routes are not those of the rules, or depend on the number of workers, or on whether the hierarchy was saved"
        check_quick(case, folder)
        check_like(case, folder)
        check_customizable(case, folder)
        own = contract_in_order(case.nodes, case.arcs, case.order)
        folder.save("own.ch", text_of(case.nodes, case.order, own))
        check_runs(case, folder, "--saved", "own.ch")


def fault_of(check, seed):
    """The fault that this check finds in the graph that is drawn from this seed, or None."""
    try:
        check(seed)
    except AssertionError as fault:
        return fault
    return None


def main():
    graphs, seed = (int(word) for word in (sys.argv[1:] + ["300", "1"][len(sys.argv) - 1:]))
    build()
    tally = Count()
    for check, count in (check_graph, graphs), (check_wide_graph, graphs // 10):
        seeds = [f"{seed} {place}" for place in range(count)]
        for name, fault in zip(seeds, side_by_side(partial(fault_of, check), seeds)):
            tally.expect(fault is None, f"{check.__name__} {name}: {fault}")
    tally.finish()


if __name__ == "__main__":
    main()
