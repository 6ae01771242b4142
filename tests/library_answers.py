#!/usr/bin/python3
"""Tests the answers of the library for C: distances, tables, routes, near rows, sums, and hierarchies that it builds or customizes.

Makes the library where that is needed. Answers are those of the program and of Dijkstra's algorithm on the shipped graphs, and hierarchies those of
an independent program. Four threads, with a handle each, answer what one does. The last line is 'N passed, N failed'.
"""
import itertools
import math
import random
import re
import tempfile
import threading
from pathlib import Path

from helpers import in_process
from helpers.cases import Case
from helpers.in_process import ALL, NO_DISTANCE, Handle, Library, Topology, statuses
from helpers.running import ROOT, Count, build, run
from helpers.writing import write_list, write_queries
from oracles.dijkstra import arcs_ahead, distances_from
from oracles.reading import graph_of
from oracles.rules import text_like
from oracles.topologies import triangles_of

GRAPHS = ROOT / "examples/first.gr", ROOT / "examples/liechtenstein.gr"
STATUS = statuses()
# How many questions of each kind are compared on a graph.
ASKED = 400
# The sources, and the targets, of a table of sums: so many that it is worth their time to find a tree for each.
SIDE = 16
# Arcs between the same nodes: the second is the first of least weight from node 1 to node 2. The third leads back.
PARALLEL = b"p sp 3 6\na 1 2 5\na 1 2 4\na 2 1 4\na 1 2 4\na 2 3 7\na 2 2 0\n"
# New weights: by a factor of each arc, a jam on some, and all equal.
WEIGHTS = {
    "weights times 0.5 to 3": lambda draw, weight: int(weight * draw.uniform(0.5, 3)),
    "some arcs ten times as slow": lambda draw, weight: weight * (10 if draw.random() < 0.05 else 1),
    "all weights 1": lambda draw, weight: 1,
}


def words_of(text):
    """The distances of a text of `dist` or `table`, as words."""
    return [NO_DISTANCE if word == "-" else int(word) for word in text]


def asked_of_program(folder, graph, hierarchy, pairs, sources, targets, limit):
    """The program's distances, cells and routes, each route as its nodes."""
    write_queries(folder / "pairs.p2p", [(source + 1, target + 1) for source, target in pairs])
    for name, nodes in ("from.ss", sources), ("to.ss", targets):
        write_list(folder / name, [node + 1 for node in nodes])
    routes = run(["dist", "--routes", "--saved", hierarchy, graph, "pairs.p2p"], folder)
    cells = run(["table", "--saved", hierarchy, "--within", str(limit), graph, "from.ss", "to.ss"], folder)
    assert routes.status == cells.status == 0, (routes, cells)
    distances, nodes = [], []
    for letter, *numbers in (line.split() for line in routes.out.decode().splitlines()):
        if letter == "d":
            distances.append(numbers[2])
            nodes.append([] if numbers[2] == "-" else [int(numbers[0]) - 1])
        elif letter == "a":
            nodes[-1].append(int(numbers[1]) - 1)
    return words_of(distances), words_of([word for line in cells.out.decode().splitlines() for word in line.split()[2:]]), nodes


def compare_answers(tally, folder, library, graph, hierarchy):
    """Distances, cells and routes are those of the program."""
    count, _ = graph_of(graph)
    draw = random.Random(f"library {graph.name}")
    pairs = [(draw.randrange(count), draw.randrange(count)) for _ in range(ASKED)]
    sources, targets = ([draw.randrange(count) for _ in range(40)] for _ in range(2))
    limit = 9_000
    distances, cells, routes = asked_of_program(folder, graph, hierarchy, pairs, sources, targets, limit)
    status, handle, _ = library.open(graph.read_bytes(), hierarchy.read_bytes())
    tally.expect(status == STATUS["OK"] and library.nodes(handle) == (0, count), f"{graph.name} opens")
    tally.expect(library.distances(handle, *map(list, zip(*pairs))) == (0, distances), f"{graph.name}: distances")
    tally.expect(library.table(handle, sources, targets, limit) == (0, cells), f"{graph.name}: a table within {limit}")
    whole = library.table(handle, sources, targets)
    for place, (source, target) in enumerate((source, target) for source in sources for target in targets):
        tally.expect(library.distances(handle, [source], [target]) == (0, [whole[1][place]]), f"{graph.name}: the cell of {source} and {target}")
    for (source, target), distance, nodes in zip(pairs, distances, routes):
        wanted = 0, distance, len(nodes), nodes
        status, weight, length, came = library.route(handle, source, target, count)
        tally.expect((status, weight, length, came[:length]) == wanted, f"{graph.name}: the route from {source} to {target}")
    library.close(handle)


def compare_many_routes(tally, library, graph, hierarchy):
    """Many routes in one call are those of single calls, also where they come in parts, and their weights those of Dijkstra's algorithm."""
    count, arcs = graph_of(graph)
    draw = random.Random(f"library routes {graph.name}")
    sources, targets = ([draw.randrange(count) for _ in range(ASKED)] for _ in range(2))
    ahead = arcs_ahead(arcs)
    away = {source: distances_from(source + 1, ahead) for source in set(sources)}
    status, handle, _ = library.open(graph.read_bytes(), hierarchy.read_bytes())
    single = [library.route(handle, source, target, count) for source, target in zip(sources, targets)]
    owed = [nodes[:length] for _, _, length, nodes in single]
    weights = [away[source].get(target + 1, NO_DISTANCE) for source, target in zip(sources, targets)]
    for room in sum(map(len, owed)), max(map(len, owed)), count:
        came, begin = [], 0
        while begin < len(sources):
            status, routes, found, ends, nodes, _ = library.routes(handle, sources[begin:], targets[begin:], room)
            tally.expect(status == STATUS["OK" if begin + routes == len(sources) else "TOO_SHORT"] and routes > 0, f"{graph.name}: {routes} routes into {room}")
            came += [(weight, nodes[start:end]) for weight, start, end in zip(found[:routes], [0, *ends], ends[:routes])]
            begin += max(1, routes)
        tally.expect(came == [*zip(weights, owed)], f"{graph.name}: many routes into a room of {room}")
    first = {}
    for line, (start, end, weight) in enumerate(arcs):
        if (start, end) not in first or weight < arcs[first[start, end]][2]:
            first[start, end] = line
    room = sum(map(len, owed))
    lines = [line for way in owed for line in [ALL, *(first[one + 1, other + 1] for one, other in zip(way, way[1:]))][:len(way)]]
    told = library.routes(handle, sources, targets, room, lines_room=room)
    tally.expect(told[0] == 0 and told[5] == lines, f"{graph.name}: the lines of arcs")
    for values in [weight for _, _, weight in arcs], [draw.randrange(1 << 50) for _ in arcs]:
        sums = [sum(values[line] for line in lines[begin + 1:end]) for begin, end in zip([0, *told[3]], told[3])]
        tally.expect(library.route_sums(handle, sources, targets, values) == (0, len(sources), weights, sums), f"{graph.name}: sums along routes")
    for begin, end, weight in zip([0, *told[3]], told[3], weights):
        tally.expect(begin == end or sum(arcs[line][2] for line in lines[begin + 1:end]) == weight, f"{graph.name}: the weights on the lines of a route")
    library.close(handle)


def compare_table_sums(tally, library, graph, hierarchy):
    """Sums along the routes of all pairs of a table are those on the lines of these routes, for the same values again and for others."""
    count, arcs = graph_of(graph)
    draw = random.Random(f"library sums of tables {graph.name}")
    status, handle, _ = library.open(graph.read_bytes(), hierarchy.read_bytes())
    rows, columns = ([draw.randrange(count) for _ in range(SIDE)] for _ in range(2))
    sources, targets = map(list, zip(*itertools.product(rows, columns)))
    room = sum(library.route(handle, source, target, count)[2] for source, target in zip(sources, targets))
    _, _, weights, ends, _, lines = library.routes(handle, sources, targets, room, lines_room=room)
    first, second = ([draw.randrange(1 << 40) for _ in arcs] for _ in range(2))
    changed = [*first]
    for line in {*lines} - {ALL}:
        changed[line] += 1
    for values in first, first, second, changed, first:
        sums = [sum(values[line] for line in lines[begin + 1:end]) for begin, end in zip([0, *ends], ends)]
        told = library.route_sums(handle, sources, targets, values)
        tally.expect(told == (0, len(sources), weights, sums), f"{graph.name}: sums along the routes of a table")
        told = library.keep_values(handle, values), library.route_sums(handle, sources, targets, second), library.kept_table_sums(handle, rows, columns)
        tally.expect((told[0], told[2]) == (0, (0, len(sources), weights, sums)), f"{graph.name}: a table of sums of kept values")
    library.close(handle)


def compare_random_kept_sums(tally, library):
    """Random graphs with loops and parallel arcs: tables of the values that are kept are those of these values, by a hierarchy that is built and by one that
    is customized. Which of equal routes is taken, the library's own routes say."""
    for seed in range(120):
        case, draw = Case(f"library kept sums {seed}"), random.Random(f"library kept sums {seed}")
        every, weights = [*range(case.nodes)], [weight for _, _, weight in case.arcs]
        pairs = [list(ends) for ends in zip(*itertools.product(every, every))]
        topology = library.topology_open(graph_text(case.nodes, case.arcs))[1]
        for handle in library.open_quick(graph_text(case.nodes, case.arcs))[1], *[library.customized(topology, weights)[1]] * bool(topology.is_open):
            room = len(pairs[0]) * case.nodes
            _, _, away, ends, _, lines = library.routes(handle, *pairs, room, lines_room=room)
            owed = [distance for source in every for distance in away_of(case.arcs, [[source] * case.nodes, every])]
            for values in weights, [draw.randrange(1 << 50) for _ in weights]:
                sums = [sum(values[line] for line in lines[begin + 1:end]) for begin, end in zip([0, *ends], ends)]
                told = library.keep_values(handle, values), library.kept_table_sums(handle, every, every)
                tally.expect(away == owed and told == (0, (0, len(owed), owed, sums)), f"sums of kept values on graph {seed}")
                compare_summed_rows(tally, library, handle, owed, sums, draw, f"graph {seed}")
            tally.expect(library.close(handle) == 0, f"graph {seed} closes")
        library.topology_close(topology)


def compare_summed_rows(tally, library, handle, away, sums, draw, name):
    """Near rows with the sums of the kept values, in both directions, of places that repeat: weights and sums are those of the table of all nodes, also in
    a second call, which finds no tree of a place again, and after the sweep."""
    nodes = math.isqrt(len(away))
    for is_from in 0, 1, 0:
        places, most = [draw.randrange(nodes) for _ in range(draw.randrange(9))] if nodes else [], draw.choice([ALL, 1, 3])
        limit = draw.choice([NO_DISTANCE, *(weight for weight in away if weight != NO_DISTANCE)])
        tally.expect(library.near_places(handle, places, limit, most, is_from) == 0, f"places for sums on {name}")
        cells = [[target * nodes + source if is_from else source * nodes + target for target in places] for source in range(nodes)]
        rows = [sorted((away[cell], place, sums[cell]) for place, cell in enumerate(row) if away[cell] <= limit and away[cell] != NO_DISTANCE)[:most] for row in cells]
        pairs = [pair for row in rows for pair in row]
        columns = [list(column) for column in zip(*pairs)] or [[], [], []]
        owed = 0, nodes, list(itertools.accumulate(map(len, rows))), *columns
        for sweep in False, False, True:
            told = sweep and library.near_sweep(handle), library.kept_near_sums(handle, range(nodes), len(pairs))
            tally.expect(told == (0, owed), f"near rows with sums on {name}: {told} for {owed}")


def compare_flows(tally, library, graph, hierarchy):
    """Flows are the sums of the demands over the lines of the routes, pair by pair, also in a second call and in parts."""
    count, arcs = graph_of(graph)
    draw = random.Random(f"library flows {graph.name}")
    status, handle, _ = library.open(graph.read_bytes(), hierarchy.read_bytes())
    sources, targets = ([draw.randrange(count) for _ in range(ASKED)] for _ in range(2))
    sources[3] = targets[3]
    room = sum(library.route(handle, source, target, count)[2] for source, target in zip(sources, targets))
    _, _, weights, ends, _, lines = library.routes(handle, sources, targets, room, lines_room=room)
    for greatest in 2, 2**53:
        demands = [draw.randrange(greatest) for _ in sources]
        owed = [0] * len(arcs)
        for demand, begin, end in zip(demands, [0, *ends], ends):
            for line in lines[begin + 1:end]:
                owed[line] += demand
        missed = weights.count(NO_DISTANCE)
        tally.expect(library.flows(handle, sources, targets, demands, len(arcs)) == (0, missed, owed), f"{graph.name}: flows of demands below {greatest}")
        parts = [library.flows(handle, sources[some], targets[some], demands[some], len(arcs)) for some in (slice(7), slice(7, None))]
        together = [one + other for one, other in zip(parts[0][2], parts[1][2])]
        tally.expect((parts[0][1] + parts[1][1], together) == (missed, owed), f"{graph.name}: flows of parts add up")
    library.close(handle)


def near_of_program(folder, graph, hierarchy, options, sources, places):
    """The program's near rows: the pairs of a weight and a node of each source."""
    write_list(folder / "from.ss", [node + 1 for node in sources or []])
    write_list(folder / "to.ss", [node + 1 for node in places])
    lists = ["to.ss"] if sources is None else ["from.ss", "to.ss"]
    told = run(["near", "--saved", hierarchy, *options, *["--all"] * (sources is None), graph, *lists], folder)
    assert told.status == 0, told
    rows = [list(map(int, line.split()[1:])) for line in told.out.decode().splitlines()]
    return [[(weight, node - 1) for node, weight in zip(row[2::2], row[3::2])] for row in rows]


def compare_near(tally, folder, library, graph, hierarchy):
    """Near rows are those of the program: of some sources by searches, and of all nodes by the sweep."""
    count, _ = graph_of(graph)
    draw = random.Random(f"library near {graph.name}")
    status, handle, _ = library.open(graph.read_bytes(), hierarchy.read_bytes())
    for most, limit, is_from in (3, NO_DISTANCE, 0), (ALL, 9_000, 0), (1, NO_DISTANCE, 1), (5, 4_000, 1):
        places, some = ([draw.randrange(count) for _ in range(30)] for _ in range(2))
        words = [["--count", str(most)] * (most != ALL), ["--within", str(limit)] * (limit != NO_DISTANCE), ["--from"] * is_from]
        options = [word for part in words for word in part]
        tally.expect(library.near_places(handle, places, limit, most, is_from) == 0, f"{graph.name}: places")
        for sources in some, None:
            listed = range(count) if sources is None else sources
            owed = near_of_program(folder, graph, hierarchy, options, sources, places)
            if sources is None:
                tally.expect(library.near_sweep(handle) == 0, f"{graph.name}: the sweep")
            status, rows, ends, weights, found = library.near_rows(handle, list(listed), sum(map(len, owed)))
            tally.expect((status, rows) == (0, len(owed)), f"{graph.name}: near rows {options} {status} {rows}")
            pairs = [[*zip(weights[begin:end], (places[place] for place in found[begin:end]))] for begin, end in zip([0, *ends], ends)]
            tally.expect(pairs == owed, f"{graph.name}: near rows {options} of {'all' if sources is None else 'some'} nodes")
            by_place = [[*zip(weights[begin:end], found[begin:end])] for begin, end in zip([0, *ends], ends)]
            tally.expect(all(row == sorted(row) for row in by_place), f"{graph.name}: rows are in order")
    library.close(handle)


def word_within(away, node, most):
    """The word of a node: its distance if that is at most `most`, or the one for none."""
    weight = away.get(node + 1, NO_DISTANCE)
    return weight if weight <= most else NO_DISTANCE


def compare_sums(tally, library, graph, hierarchy):
    """Sums over near rows, and cells of kept places, are those of Dijkstra's algorithm: of some sources by searches, and of all nodes after the sweep."""
    count, arcs = graph_of(graph)
    draw = random.Random(f"library sums {graph.name}")
    status, handle, _ = library.open(graph.read_bytes(), hierarchy.read_bytes())
    for most, is_from in (NO_DISTANCE, 0), (9_000, 0), (9_000, 1):
        places, some = ([draw.randrange(count) for _ in range(30)] for _ in range(2))
        values, limits = [draw.randrange(1 << 40) for _ in places], [0, 4_000, 9_000, 2_000, NO_DISTANCE - 1]
        ahead = arcs_ahead(arcs if is_from else [(end, start, weight) for start, end, weight in arcs])
        away = [distances_from(place + 1, ahead) for place in places]
        tally.expect(library.near_places(handle, places, most, ALL, is_from) == 0, f"{graph.name}: places of sums")
        for sources in some, range(count):
            near = [[(row[source + 1], value) for row, value in zip(away, values) if source + 1 in row and row[source + 1] <= most] for source in sources]
            owed = [sum(value for weight, value in row if weight <= limit) for row in near for limit in limits]
            if sources is not some:
                tally.expect(library.near_sweep(handle) == 0, f"{graph.name}: the sweep of sums")
            tally.expect(library.near_sums(handle, sources, values, limits) == (0, len(sources), owed), f"{graph.name}: sums within {most} of {len(sources)} nodes")
            cells = [word_within(row, source, most) for source in sources for row in away]
            tally.expect(library.near_table(handle, sources, len(cells)) == (0, len(sources), cells), f"{graph.name}: cells within {most} of {len(sources)} nodes")
    library.close(handle)


def tell_lines(tally, library):
    """The line of the arc of least weight, of several the first, by a hierarchy that is built."""
    status, handle, _ = library.open(PARALLEL, b"")
    told = library.routes(handle, [0, 1, 2, 1], [2, 0, 0, 1], 9, lines_room=9)
    owed = (0, 4, [11, 4, NO_DISTANCE, 0], [3, 5, 5, 6], [0, 1, 2, 1, 0, 1, 7, 7, 7], [ALL, 1, 4, ALL, 2, ALL, 7, 7, 7])
    tally.expect((status, told) == (0, owed), f"lines of arcs between the same nodes: {told}")
    tally.expect(library.routes(handle, [0], [2], 3, lines_room=2)[0] == STATUS["LENGTHS"], "fewer lines than nodes")
    told = library.route_sums(handle, [0, 2, 1], [2, 0, 0], [1, 10, 100, 1_000, 10_000, 100_000])
    tally.expect(told == (0, 3, [11, NO_DISTANCE, 4], [10_010, 0, 100]), f"sums on lines of arcs between the same nodes: {told}")
    told = library.flows(handle, [0, 2, 1, 0, 1], [2, 0, 0, 1, 1], [1, 10, 100, 1_000, 10_000], 6)
    tally.expect(told == (0, 1, [0, 1_001, 100, 0, 1, 0]), f"flows on lines of arcs between the same nodes: {told}")
    library.close(handle)


def graph_text(nodes, arcs):
    """The bytes of a graph."""
    return "".join([f"p sp {nodes} {len(arcs)}\n", *(f"a {start} {end} {weight}\n" for start, end, weight in arcs)]).encode()


def compare_built(tally, library, graph):
    """Without a saved hierarchy, one is built: the one that `chtab save --deep` writes."""
    status, handle, _ = library.open(graph.read_bytes(), b"")
    owed = run(["save", "--deep", graph], graph.parent).out
    tally.expect((status, *library.save(handle, len(owed))) == (0, 0, len(owed), owed), f"{graph.name}: the hierarchy that is built")
    library.close(handle)


def compare_arrays(tally, library, graph, hierarchy):
    """A graph of arrays has the hierarchy and the lines of its file, with a saved hierarchy and without."""
    count, arcs = graph_of(graph)
    draw = random.Random(f"library arrays {graph.name}")
    pairs = [[draw.randrange(count) for _ in range(100)] for _ in range(2)]
    columns = [[start - 1 for start, _, _ in arcs], [end - 1 for _, end, _ in arcs], [weight for _, _, weight in arcs]]
    room, values = 50_000, [draw.randrange(1_000) for _ in arcs]
    for saved in b"", hierarchy.read_bytes():
        answers = []
        of_file = library.open(graph.read_bytes(), saved) if saved else library.open_quick(graph.read_bytes())
        for status, handle, _ in of_file, library.open_arrays(count, *columns, saved):
            text = library.save(handle, library.save(handle, 0)[1])
            sums = library.route_sums(handle, *pairs, values)
            answers.append((status, text, library.distances(handle, *pairs), library.routes(handle, *pairs, room, lines_room=room), sums))
            library.close(handle)
        tally.expect(answers[0] == answers[1] and answers[0][0] == 0, f"{graph.name}: arrays answer as the file")


def compare_random_arrays(tally, library):
    """Arrays of random graphs, with loops and parallel arcs: their distances are those of Dijkstra's algorithm, and their text is that of the file."""
    for seed in range(60):
        case = Case(f"library arrays {seed}")
        columns = [[arc[0] - 1 for arc in case.arcs], [arc[1] - 1 for arc in case.arcs], [arc[2] for arc in case.arcs]]
        status, handle, _ = library.open_arrays(case.nodes, *columns)
        from_file = library.open_quick(graph_text(case.nodes, case.arcs))[1]
        texts = [library.save(each, library.save(each, 0)[1]) for each in (handle, from_file)]
        tally.expect(status == 0 and texts[0] == texts[1], f"the hierarchy of the arrays of graph {seed}")
        ahead, every = arcs_ahead(case.arcs), range(case.nodes)
        for source in every:
            away = distances_from(source + 1, ahead)
            owed = [away.get(target + 1, NO_DISTANCE) for target in every]
            tally.expect(library.table(handle, [source], every) == (0, owed), f"distances of the arrays of graph {seed} from {source}")
        compare_random_cells(tally, library, handle, case, seed)
        library.close(handle)
        library.close(from_file)


def compare_random_cells(tally, library, handle, case, seed):
    """Cells of places that repeat, in both directions and within limits, are distances; the rows of a table don't change near rows."""
    draw, every = random.Random(f"library cells {seed}"), list(range(case.nodes))
    backwards = arcs_ahead([(end, start, weight) for start, end, weight in case.arcs])
    for is_from, ahead in (0, backwards), (1, arcs_ahead(case.arcs)):
        places = [draw.randrange(case.nodes) for _ in range(draw.randrange(9))] if case.nodes else []
        away = [distances_from(place + 1, ahead) for place in places]
        known = sorted({weight for row in away for weight in row.values()})
        for most in NO_DISTANCE, draw.choice(known or [0]), max(0, draw.choice(known or [0]) - 1):
            tally.expect(library.near_places(handle, places, most, len(places), is_from) == 0, f"places of graph {seed}")
            rows = library.near_rows(handle, every, case.nodes * len(places))
            cells = [word_within(row, source, most) for source in every for row in away]
            tally.expect(library.near_table(handle, every, len(cells)) == (0, case.nodes, cells), f"cells of graph {seed} within {most} {is_from}")
            tally.expect(library.near_rows(handle, every, case.nodes * len(places)) == rows, f"near rows of graph {seed} after its cells")


def compare_quick(tally, library, graph):
    """A graph alone: the answers are those of Dijkstra's algorithm, and the hierarchy is the one that `chtab save --quick` writes."""
    count, arcs = graph_of(graph)
    draw, ahead = random.Random(f"library quick {graph.name}"), arcs_ahead(arcs)
    status, handle, _ = library.open_quick(graph.read_bytes())
    owed = run(["save", "--quick", graph], graph.parent).out
    tally.expect((status, *library.save(handle, len(owed))) == (0, 0, len(owed), owed), f"{graph.name}: the hierarchy that is built quickly")
    pairs = [[draw.randrange(count) for _ in range(40)] for _ in range(2)]
    away = {source: distances_from(source + 1, ahead) for source in set(pairs[0])}
    owed = [away[source].get(target + 1, NO_DISTANCE) for source, target in zip(*pairs)]
    tally.expect(library.distances(handle, *pairs) == (0, owed), f"{graph.name}: distances by the hierarchy that is built quickly")
    library.close(handle)


def compare_like(tally, library, graph):
    """In the order of another network: the answers are those of Dijkstra's algorithm by the new arcs, the other network answers as it did, and with
    100 per cent afresh the hierarchy is the one that is built."""
    count, arcs = graph_of(graph)
    draw = random.Random(f"library like {graph.name}")
    status, handle, _ = library.open(graph.read_bytes(), b"")
    pairs = [[draw.randrange(count) for _ in range(40)] for _ in range(2)]
    before = library.distances(handle, *pairs)
    for name, weight_of in WEIGHTS.items():
        new = [(start, end, weight_of(draw, weight)) for start, end, weight in arcs if draw.random() < 0.98]
        new += [(draw.randint(1, count), draw.randint(1, count), draw.randint(0, 9_000)) for _ in range(3)]
        text, ahead = graph_text(count, new), arcs_ahead(new)
        away = {source: distances_from(source + 1, ahead) for source in set(pairs[0])}
        owed = [away[source].get(target + 1, NO_DISTANCE) for source, target in zip(*pairs)]
        built = library.open(text, b"")[1]
        whole = library.save(built, library.save(built, 0)[1])
        for fresh in 0, 5, 50, 100:
            status, other, _ = library.open_like(text, handle, fresh)
            tally.expect(status == 0 and library.distances(other, *pairs) == (0, owed), f"{graph.name}: {name} in the order of another network, {fresh} per cent afresh")
            tally.expect(fresh < 100 or library.save(other, whole[1]) == whole, f"{graph.name}: {name}, all afresh")
            library.close(other)
        library.close(built)
    tally.expect(library.distances(handle, *pairs) == before, f"{graph.name}: the network that gave its order")
    library.close(handle)


def text_of_order(order):
    """The lines of a saved hierarchy that name an order of nodes, which count from 0."""
    return "".join([f"p ch {len(order)} 0\n", *(f"o {node + 1}\n" for node in order)]).encode()


def text_of(library, handle):
    """The hierarchy of a handle as text."""
    return library.save(handle, library.save(handle, 0)[1])


def away_of(arcs, pairs):
    """The distances of pairs by Dijkstra's algorithm."""
    ahead = arcs_ahead(arcs)
    away = {source: distances_from(source + 1, ahead) for source in set(pairs[0])}
    return [away[source].get(target + 1, NO_DISTANCE) for source, target in zip(*pairs)]


def compare_customized(tally, library, graph, hierarchy):
    """New weights on the arcs of a topology: the answers are those of Dijkstra's algorithm, and each network that was opened before answers as it did.
    The routes, their lines and flows are those of the same graph by a hierarchy that is built."""
    count, arcs = graph_of(graph)
    draw = random.Random(f"library customized {graph.name}")
    pairs = [[draw.randrange(count) for _ in range(40)] for _ in range(2)]
    demands, columns = [draw.randrange(99) for _ in pairs[0]], [[arc[end] - 1 for arc in arcs] for end in range(2)]
    status, topology, _ = library.topology_open(graph.read_bytes())
    found, order = library.topology_order(topology, count)
    tally.expect((status, found) == (0, 0) and sorted(order) == [*range(count)], f"{graph.name}: a topology and its order")
    topologies = [topology, *(opened[1] for opened in (
        library.topology_open(graph.read_bytes(), text_of_order(order)), library.topology_open_arrays(count, *columns),
        library.topology_open_arrays(count, *columns, text_of_order(order))))]
    by_depth = [int(node) - 1 for node in re.findall(r"^o (\d+)$", hierarchy.read_text(), re.MULTILINE)]
    status, other, _ = library.topology_open(graph.read_bytes(), hierarchy.read_bytes())
    tally.expect(status == (0 if triangles_of(count, arcs, by_depth) <= 40 * count else STATUS["TRIANGLES"]), f"{graph.name}: the order by depth, {status}")
    topologies += [other] * (status == 0)
    before, texts = [], []
    for name, weight_of in {"its own weights": lambda draw, weight: weight, **WEIGHTS, "weights of 0": lambda draw, weight: 0}.items():
        weights = [weight_of(draw, weight) for _, _, weight in arcs]
        new = [(start, end, weight) for (start, end, _), weight in zip(arcs, weights)]
        owed = away_of(new, pairs)
        built = library.open_quick(graph_text(count, new))[1]
        room = 50 * count
        for place, each in enumerate(topologies):
            status, handle, fault = library.customized(each, weights)
            tally.expect((status, fault.told()) == (0, (0, 0, 0)) and library.distances(handle, *pairs) == (0, owed), f"{graph.name}: {name}, topology {place}")
            sums = library.route_sums(handle, *pairs, weights)
            tally.expect(sums == (0, len(owed), owed, [0 if away == NO_DISTANCE else away for away in owed]), f"{graph.name}: {name}, sums on lines")
            _, routes, _, ends, nodes, lines = library.routes(handle, *pairs, room, lines_room=room)
            steps = [(nodes[k - 1] + 1, nodes[k] + 1, lines[k]) for begin, end in zip([0, *ends], ends) for k in range(begin + 1, end)]
            tally.expect(routes == len(owed) and all(arcs[line][:2] == (one, other) for one, other, line in steps), f"{graph.name}: {name}, lines of routes")
            flows = [0] * len(arcs)
            for demand, begin, end in zip(demands, [0, *ends], ends):
                for line in lines[begin + 1:end]:
                    flows[line] += demand
            tally.expect(library.flows(handle, *pairs, demands, len(arcs)) == (0, owed.count(NO_DISTANCE), flows), f"{graph.name}: {name}, flows")
            tally.expect(library.table(handle, *pairs) == library.table(built, *pairs), f"{graph.name}: {name}, a table")
            texts.append((name, place == 4, text_of(library, handle)))
            before.append((handle, owed))
        library.close(built)
    for name, is_given, text in texts:
        tally.expect(text in [other for one, given, other in texts if (one, given) == (name, is_given)][:1], f"{graph.name}: {name}, one hierarchy for one order")
    tally.expect([library.topology_close(each) for each in topologies] == [0] * len(topologies), "topologies close")
    for handle, owed in before:
        tally.expect(library.distances(handle, *pairs) == (0, owed), f"{graph.name}: a network of earlier weights, once its topology is closed")
        library.close(handle)


def compare_random_customized(tally, library):
    """Random graphs with loops and parallel arcs, in random orders, with random weights: all distances are those of Dijkstra's algorithm. An order has a
    topology just if it has at most 40 triangles a node, which an independent count says."""
    for seed in range(120):
        case, draw = Case(f"library customized {seed}"), random.Random(f"library customized {seed}")
        order = draw.sample(range(case.nodes), case.nodes)
        columns, every = [[arc[end] - 1 for arc in case.arcs] for end in range(2)], range(case.nodes)
        given = draw.choice((b"", text_of_order(order), text_of_order(order)))
        opened = library.topology_open(graph_text(case.nodes, case.arcs), given), library.topology_open_arrays(case.nodes, *columns, given)
        for status, topology, fault in opened:
            few = not given or triangles_of(case.nodes, case.arcs, order) <= 40 * case.nodes
            tally.expect((status, fault.told()) == (0 if few else STATUS["TRIANGLES"], (0, 0, 0)), f"the topology of graph {seed}: {status}")
            tally.expect(not few or not given or library.topology_order(topology, case.nodes) == (0, order), f"the order of graph {seed}")
            for most in (1, 9, 1_000_000) if few else ():
                new = [(start, end, draw.randrange(most)) for start, end, _ in case.arcs]
                status, handle, _ = library.customized(topology, [weight for _, _, weight in new])
                owed = [away for source in every for away in away_of(new, [[source] * case.nodes, every])]
                tally.expect(status == 0 and library.table(handle, every, every) == (0, owed), f"graph {seed} with weights below {most}")
                library.close(handle)
            library.topology_close(topology)


def weigh_in_threads(tally, library, graph):
    """While three threads ask networks that are customized, each in one of two weights, a fourth customizes new ones, by a topology that all share."""
    count, arcs = graph_of(graph)
    draw = random.Random("library weights in threads")
    pairs = [[draw.randrange(count) for _ in range(200)] for _ in range(2)]
    weighings = [[weight for _, _, weight in arcs], [draw.randrange(9_000) for _ in arcs]]
    owed = [away_of([(start, end, weight) for (start, end, _), weight in zip(arcs, weights)], pairs) for weights in weighings]
    status, topology, _ = library.topology_open(graph.read_bytes())
    topologies = [Topology() for _ in range(4)]
    shared = [library.topology_share(topology, other) for other in topologies]
    tally.expect(status == 0 and shared == [0] * 4, "four threads share a topology")
    answers, kept = [[] for _ in range(4)], Handle()

    def ask(place):
        for turn in range(12):
            which = (place + turn) % 2
            status, handle, _ = library.customized(topologies[place], weighings[which])
            answers[place].append(status == 0 and library.distances(handle, *pairs) == (0, owed[which]))
            is_first = place == turn == 0
            answers[place].append((not is_first or library.share(handle, kept) == 0) and library.close(handle) == 0)

    threads = [threading.Thread(target=ask, args=(place,)) for place in range(4)]
    for thread in threads:
        thread.start()
    tally.expect(library.topology_close(topology) == 0, "the first topology closes while others are in use")
    for thread in threads:
        thread.join()
    tally.expect([all(answer) for answer in answers] == [True] * 4 and {*map(len, answers)} == {24}, "new weights while threads ask")
    tally.expect(library.distances(kept, *pairs) == (0, owed[0]), "a shared network outlives its topology")
    tally.expect([library.topology_close(each) for each in topologies] == [0] * 4 and library.close(kept) == 0, "all close")


def compare_bad_orders(tally, library):
    """In the order of numbers, where the first node joins many others: with 128 edges it is contracted first, and with more the hierarchy is the one by depth."""
    for before, after in (64, 64), (65, 64), (64, 65), (128, 1), (127, 1):
        nodes = 1 + before + after
        arcs = [(node, 1, node) for node in range(2, before + 2)] + [(1, node, node) for node in range(before + 2, nodes + 1)]
        status, numbers, _ = library.open(graph_text(nodes, []), b"")
        for fresh in 0, 50, 98:
            owed = text_like(nodes, arcs, 5, [*range(1, nodes + 1)], fresh if before + after <= 128 else 100).encode()
            status, handle, _ = library.open_like(graph_text(nodes, arcs), numbers, fresh)
            told = status, *library.save(handle, len(owed))
            tally.expect(told == (0, 0, len(owed), owed), f"{before} and {after} edges at the first node, {fresh} per cent afresh")
            library.close(handle)
        library.close(numbers)


def compare_orders(tally, library):
    """Of random graphs, in the order of another one with as many nodes: the hierarchy is that of an independent program."""
    for seed in range(60):
        case, draw = Case(f"library orders {seed}"), random.Random(f"library orders {seed}")
        arcs = [(draw.randint(1, case.nodes), draw.randint(1, case.nodes), draw.randrange(99)) for _ in range(2 * case.nodes)]
        status, handle, _ = library.open(graph_text(case.nodes, arcs), b"")
        text = library.save(handle, library.save(handle, 0)[1])[2].decode()
        given = [int(node) for node in re.findall(r"^o (\d+)$", text, re.MULTILINE)]
        for fresh in 0, 5, draw.randrange(101), 100:
            owed = text_like(case.nodes, case.arcs, 5, given, fresh).encode()
            status, other, _ = library.open_like(graph_text(case.nodes, case.arcs), handle, fresh)
            tally.expect((status, *library.save(other, len(owed))) == (0, 0, len(owed), owed), f"the hierarchy of graph {seed} in another order, {fresh} per cent afresh")
            library.close(other)
        library.close(handle)


def ask_in_threads(tally, library, graph, hierarchy):
    """Four threads, with a handle each, answer what one does."""
    count, _ = graph_of(graph)
    draw = random.Random("library threads")
    pairs = [[draw.randrange(count) for _ in range(2_000)] for _ in range(2)]
    status, first, _ = library.open(graph.read_bytes(), hierarchy.read_bytes())
    handles = [first, *(Handle() for _ in range(3))]
    shared = [library.share(first, handle) for handle in handles[1:]]
    answers = [None] * len(handles)

    def ask(place):
        answers[place] = library.distances(handles[place], *pairs)

    threads = [threading.Thread(target=ask, args=(place,)) for place in range(len(handles))]
    for thread in threads:
        thread.start()
    for thread in threads:
        thread.join()
    tally.expect([status, *shared] == [0] * 4 and answers[0][0] == 0 and answers.count(answers[0]) == 4, "four threads answer the same")
    tally.expect([library.close(handle) for handle in handles] == [0] * 4, "four handles close")


def main():
    build()
    in_process.make()
    tally, library = Count(), Library()
    compare_orders(tally, library)
    compare_bad_orders(tally, library)
    compare_random_arrays(tally, library)
    compare_random_customized(tally, library)
    compare_random_kept_sums(tally, library)
    tell_lines(tally, library)
    with tempfile.TemporaryDirectory() as kept:
        folder = Path(kept)
        for graph in GRAPHS:
            saved = folder / f"{graph.stem}.ch"
            saved.write_bytes(run(["save", graph], folder).out)
            compare_answers(tally, folder, library, graph, saved)
            compare_near(tally, folder, library, graph, saved)
            compare_many_routes(tally, library, graph, saved)
            compare_table_sums(tally, library, graph, saved)
            compare_flows(tally, library, graph, saved)
            compare_sums(tally, library, graph, saved)
            compare_built(tally, library, graph)
            compare_arrays(tally, library, graph, saved)
            compare_quick(tally, library, graph)
            compare_like(tally, library, graph)
            compare_customized(tally, library, graph, saved)
        weigh_in_threads(tally, library, GRAPHS[1])
        ask_in_threads(tally, library, GRAPHS[1], saved)
    tally.finish()


if __name__ == "__main__":
    main()
