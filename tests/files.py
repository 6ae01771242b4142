#!/usr/bin/python3
"""Runs the built program on faulty files, and compares its answer with that of an independent reader.

  files.py [COUNT [SEED]]

COUNT runs, 2,000 where it is left out, are drawn from the seed: small files that are cut, doubled, swapped and mutated by
lines and bytes, with huge numbers, without line feeds, with CR, NUL and bytes beyond ASCII; saved hierarchies with legs that are
left out, doubled or changed; and orders, with legs of other weights or without. For each the fault line and the status are compared, and where all files are accepted the text, by
Dijkstra's algorithm. Then files of 50 and 100 MB are read, in
linear time and bounded memory, and orders whose three million legs take no memory. The last line is 'N passed, N failed', where each run of the program is counted.
"""
import os
import random
import subprocess
import sys
import tempfile
from collections import Counter
from pathlib import Path

from helpers.mutating import MUTATIONS, with_lines
from helpers.running import PROGRAM, Answer, Count, build, side_by_side, run, with_files
from oracles.checking import first_fault
from oracles.contracting import contract_in_order, text_of as saved_text_of
from oracles.dijkstra import arcs_ahead, distances_from
from oracles.nearest import near_text
from oracles.reading import FORMS, Fault, read

# The words of each kind of run, and its files in the order in which they are read.
KINDS = [
    (["dist"], ["graph", "queries"]),
    (["dist", "--plain"], ["graph", "queries"]),
    (["table"], ["graph", "sources", "targets"]),
    (["near"], ["graph", "sources", "targets"]),
    (["near", "--all"], ["graph", "targets"]),
    (["dist"], ["graph", "saved", "queries"]),
    (["table"], ["graph", "saved", "sources", "targets"]),
    (["near"], ["graph", "saved", "sources", "targets"]),
    (["near", "--all"], ["graph", "saved", "targets"]),
    (["dist"], ["graph", "order", "queries"]),
    (["table"], ["graph", "order", "sources", "targets"]),
    (["near", "--all"], ["graph", "order", "targets"]),
    (["dist", "--customizable"], ["graph", "order", "queries"]),
    (["table", "--customizable"], ["graph", "order", "sources", "targets"]),
    (["near", "--customizable"], ["graph", "sources", "targets"]),
]

# The faults of files, those of saved hierarchies, that of orders, and that none is found.
HOW_MANY_FAULTS = 10 + 7 + 1 + 1

# A graph of more nodes than this is not run where it is accepted: it would take long to prepare.
MOST_NODES_RUN = 1000


def draw_sound(draw, name, nodes):
    """A graph, queries or a list without a fault."""
    count = draw.randint(0, 6)
    if nodes == 0:
        count = 0
    form = FORMS[name]
    part, = form.parts
    sizes = [nodes, count] if name == "graph" else [count]
    lines = [b" ".join([*form.problem_words, *(b"%d" % size for size in sizes)])]
    for _ in range(count):
        numbers = [draw.randint(1, nodes) for _ in range(part.node_count)]
        numbers += [draw.randint(0, 9) for _ in range(part.size - part.node_count)]
        lines.append(b" ".join([part.letter, *(b"%d" % value for value in numbers)]))
    return with_comment(draw, lines)


def draw_order(draw, graph):
    """An order of the nodes of this graph: a saved hierarchy of other weights, or its nodes alone."""
    nodes, (arcs,) = read("graph", graph)
    if draw.random() < 0.5:
        order = draw.sample(range(1, nodes + 1), nodes)
        return with_comment(draw, saved_text_of(nodes, order, []).encode().splitlines())
    lines = [b"p sp %d %d" % (nodes, len(arcs)), *(b"a %d %d %d" % (start, end, draw.randint(0, 9)) for start, end, _ in arcs)]
    return draw_saved(draw, b"\n".join(lines) + b"\n")


def draw_saved(draw, graph):
    """A saved hierarchy of this graph, by any order."""
    nodes, (arcs,) = read("graph", graph)
    order = draw.sample(range(1, nodes + 1), nodes)
    front, *lines = saved_text_of(nodes, order, contract_in_order(nodes, map(tuple, arcs), order)).encode().splitlines()
    if draw.random() < 0.2:
        # Nodes and legs may be mixed, and no order of legs matters.
        kinds = [line for line in lines if line.startswith(b"o")], [line for line in lines if line.startswith(b"l")]
        draw.shuffle(kinds[1])
        letters = draw.sample([0] * len(kinds[0]) + [1] * len(kinds[1]), len(lines))
        lines = [kinds[letter].pop(0) for letter in letters]
    return with_comment(draw, [front, *lines])


def with_comment(draw, lines):
    """The bytes of these lines, sometimes with a comment among them."""
    if draw.random() < 0.2:
        lines.insert(draw.randint(0, len(lines)), b"c any bytes \0\xff")
    return b"\n".join(lines) + b"\n"


def places_of(letter, lines):
    return [place for place, line in enumerate(lines) if line.startswith(letter + b" ")]


def drop_leg(draw, lines):
    legs = places_of(b"l", lines)
    if legs:
        lines.pop(draw.choice(legs))
        count_legs(lines)


def double_leg(draw, lines):
    legs = places_of(b"l", lines)
    if legs:
        lines.insert(draw.choice(legs), lines[draw.choice(legs)])
        count_legs(lines)


def count_legs(lines):
    """Writes the number of legs into the problem line."""
    for place in places_of(b"p", lines):
        lines[place] = b"%s %d" % (lines[place].rsplit(b" ", 1)[0], len(places_of(b"l", lines)))


def change_saved(draw, lines):
    """Changes a number of a leg, or a node of the order, to another small one."""
    places = places_of(draw.choice([b"l", b"l", b"o"]), lines)
    if places:
        place = draw.choice(places)
        words = lines[place].split(b" ")
        words[draw.randint(1, len(words) - 1)] = b"%d" % draw.randint(0, 5)
        lines[place] = b" ".join(words)


def swap_levels(draw, lines):
    """Swaps two nodes of the order."""
    nodes = places_of(b"o", lines)
    if nodes:
        one, other = draw.choice(nodes), draw.choice(nodes)
        lines[one], lines[other] = lines[other], lines[one]


# How the files are drawn that are for one graph.
DRAWN_FOR = {"saved": draw_saved, "order": draw_order}

# Mutations of saved hierarchies that leave the grammar of their files alone.
SAVED_MUTATIONS = list(map(with_lines, [drop_leg, double_leg, change_saved, change_saved, swap_levels]))


def draw_case(draw):
    """The words of a run and the bytes of its files, of which one is mutated, and sometimes another or the same once more."""
    words, names = draw.choice(KINDS)
    nodes = draw.randint(0, 5)
    files = {}
    for name in names:
        files[name] = DRAWN_FOR[name](draw, files["graph"]) if name in DRAWN_FOR else draw_sound(draw, name, nodes)
    for _ in range(draw.choice([1, 1, 1, 2, 3])):
        name, mutations = draw.choice(names), MUTATIONS
        drawn = [each for each in files if each in DRAWN_FOR]
        if drawn and draw.random() < 0.5:
            name, mutations = drawn[0], SAVED_MUTATIONS
        files[name] = draw.choice(mutations)(draw, files[name])
    return words, files


def text_of(words, nodes, items):
    """The text of a run of these words on files that have these items, on so many nodes."""
    ahead = arcs_ahead(items["graph"][0])
    if "queries" in items:
        return "".join(f"d {start} {end} {distances_from(start, ahead).get(end, '-')}\n" for start, end in items["queries"][0])
    targets = [target for target, in items["targets"][0]]
    if "near" in words:
        sources = [source for source, in items["sources"][0]] if "sources" in items else range(1, nodes + 1)
        return near_text({source: distances_from(source, ahead) for source in sources}, sources, targets)
    rows = [(source, distances_from(source, ahead)) for source, in items["sources"][0]]
    return "".join(" ".join(["t", str(source), *(str(found.get(target, "-")) for target in targets)]) + "\n"
                   for source, found in rows)


def check_fault(nodes, arcs, order, legs):
    """The word for the first fault of a saved hierarchy, by what its file and the graph's have."""
    return first_fault(nodes, list(map(tuple, arcs)), [node for node, in order], legs)


def owed(words, files):
    """The answer that the program owes, and the fault if there is one; None where it would take long."""
    nodes, items = None, {}
    for name, data in files.items():
        try:
            nodes, items[name] = read(name, data, nodes)
        except Fault as fault:
            return Answer(1, b"", f"chtab: {name} {fault}\n".encode()), str(fault).split(": ")[1]
        if nodes > MOST_NODES_RUN:
            return None
        word = check_fault(nodes, *items["graph"], *items["saved"]) if name == "saved" else None
        if word:
            return Answer(1, b"", f"chtab: saved hierarchy refused: {word}\n".encode()), word
        if name == "order" and len({node for node, in items[name][0]}) < nodes:
            return Answer(1, b"", b"chtab: order refused: a node occurs twice\n"), "a node occurs twice"
    return Answer(0, text_of(words, nodes, items).encode(), b""), "accepted"


def compare_drawn(tally, folder, how_many, seed):
    """Runs the program on drawn files."""
    draw = random.Random(seed)
    cases = []
    while len(cases) < how_many:
        words, files = draw_case(draw)
        wanted = owed(words, files)
        if wanted:
            cases.append((len(cases), words, files, *wanted))

    def compare(case):
        number, words, files, wanted, _ = case
        paths = {name: f"{number}.{name}" for name in files}
        for name, data in files.items():
            (folder / paths[name]).write_bytes(data)
        answer = run(with_files(words, paths), folder)
        tally.expect(answer == wanted, f"{words} on {files}\n  wanted: {wanted}\n  came:   {answer}")
        for path in paths.values():
            (folder / path).unlink()

    side_by_side(compare, cases)
    kinds = Counter(kind for *_, kind in cases)
    print("faults of drawn files:", ", ".join(f"{kind} {times}" for kind, times in kinds.most_common()))
    if how_many >= 2000:
        tally.expect(len(kinds) == HOW_MANY_FAULTS, f"some kind of fault was not drawn: {kinds}")


# Long files: what they are, and their bytes: a beginning, a byte or some so many times, and an end; and the answer.
LONG = [
    ("a line of zeros and a 7", b"p sp 2 1\na 1 2 ", b"0", 100_000_000, b"7", Answer(0, b"d 1 2 7\n", b"")),
    ("a line of one word", b"", b"x", 100_000_000, b"", Answer(1, b"", b"chtab: graph line 1: unknown line\n")),
    ("a line of many words", b"p sp ", b"1 ", 50_000_000, b"", Answer(1, b"", b"chtab: graph line 1: bad problem line\n")),
    ("empty lines", b"", b"\n", 10_000_000, b"", Answer(1, b"", b"chtab: graph line %d: no problem line\n")),
]

# A run holds at most twice the bytes of a long file and so many more. How often the CPU time of a run is measured, because other work of the machine
# may lengthen it.
MORE_BYTES, TRIALS = 64 * 2**20, 5


def write_long(path, front, part, times, back):
    chunk = 1_000_000
    with open(path, "wb") as file:
        file.write(front)
        for _ in range(times // chunk):
            file.write(part * chunk)
        file.write(part * (times % chunk) + back)


def measured(folder, words):
    """The answer of a run, the seconds of its processor, and the most bytes that it held."""
    with open(folder / "out", "w+b") as out, open(folder / "err", "w+b") as err:
        process = subprocess.Popen([PROGRAM, *words], cwd=folder, stdin=subprocess.DEVNULL, stdout=out, stderr=err)
        _, status, usage = os.wait4(process.pid, 0)
        out.seek(0), err.seek(0)
        answer = Answer(os.waitstatus_to_exitcode(status), out.read(), err.read())
    return answer, usage.ru_utime + usage.ru_stime, usage.ru_maxrss * 1024


def read_long(tally, folder, what, front, part, times, back, wanted):
    """Runs the program on a long file of half the size and of the whole."""
    def run_on(count):
        write_long(folder / "long.gr", front, part, count, back)
        return measured(folder, ["dist", "long.gr", "one.p2p"])

    taken = []
    for count in times // 2, times:
        answer, seconds, held = run_on(count)
        size = (folder / "long.gr").stat().st_size
        told = wanted.err.replace(b"%d", b"%d" % (count + 1))
        tally.expect(answer == wanted._replace(err=told), f"{what}, {count} times: {answer}")
        tally.expect(held <= 2 * size + MORE_BYTES, f"{what}: {held} bytes held for {size}")
        taken.append(seconds)
        print(f"{what}, {size / 1e6:.0f} MB: {seconds:.2f} seconds, {held / 1e6:.0f} MB held")
    for _ in range(TRIALS):
        if taken[1] > 3 * taken[0] + 1:
            taken = [min(seconds, run_on(count)[1]) for seconds, count in zip(taken, (times // 2, times))]
    tally.expect(taken[1] <= 3 * taken[0] + 1, f"{what}: {taken[0]} and then {taken[1]} seconds")


def read_long_orders(tally, folder):
    """Runs the program on an order with many legs, of which the last has a fault or none. The legs are judged, and take no memory."""
    (folder / "line.gr").write_text("p sp 2 1\na 1 2 7\n")
    front, leg, count = b"p ch 2 3000001\no 2\no 1\n", b"l 1 2 7 1 0\n", 3_000_000
    refused = Answer(1, b"", b"chtab: order line %d: node out of range\n" % (3 + count + 1))
    for last, wanted in (leg, Answer(0, b"d 1 2 7\n", b"")), (leg.replace(b"2", b"3"), refused):
        write_long(folder / "long.ch", front, leg, count, last)
        size = (folder / "long.ch").stat().st_size
        for workers in "1", "2":
            answer, _, held = measured(folder, ["dist", "--workers", workers, "--like", "long.ch", "line.gr", "one.p2p"])
            tally.expect(answer == wanted, f"an order with {count} legs by {workers} workers: {answer}")
            tally.expect(held <= 2 * size + MORE_BYTES // 4, f"an order with {count} legs by {workers} workers: {held} bytes held for {size}")


def main():
    how_many = int(sys.argv[1]) if len(sys.argv) > 1 else 2000
    seed = sys.argv[2] if len(sys.argv) > 2 else "drawn files"
    build()
    tally = Count()
    with tempfile.TemporaryDirectory() as place:
        folder = Path(place)
        compare_drawn(tally, folder, how_many, seed)
        (folder / "one.p2p").write_text("p aux sp p2p 1\nq 1 2\n")
        for long_file in LONG:
            read_long(tally, folder, *long_file)
        read_long_orders(tally, folder)
    tally.finish()


if __name__ == "__main__":
    main()
