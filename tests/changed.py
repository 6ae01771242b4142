#!/usr/bin/python3
"""Changes saved hierarchies a little, and sees that the program refuses them or answers as it does with `--plain`.

  changed.py [FILES [SEED]]

FILES saved files, 700 where it is left out, are drawn from the seed. In five of seven one number is changed; in the others a leg is
left out, or two nodes of the order are swapped. Four of five are hierarchies of random graphs, made by `chtab save` or by an independent
program with an order of its own; there the fault line is that of an independent reader and an independent checker, and each route is a walk of
the graph. The others are the hierarchy of examples/liechtenstein.gr. The last line is 'N passed, N failed', of changed files.
"""
import random
import re
import subprocess
import sys
import tempfile
from collections import Counter
from pathlib import Path

from helpers.cases import Case, Folder
from helpers.running import PROGRAM, ROOT, Answer, Count, build, side_by_side, run
from oracles.checking import first_fault
from oracles.contracting import contract_in_order, text_of
from oracles.reading import Fault, read

GRAPH = ROOT / "examples/liechtenstein.gr"
QUERIES = ROOT / "examples/liechtenstein.p2p"

# The largest numbers, and those next to them, of which a change draws some.
EDGES = [2**60 - 1, 2**60, 2**60 + 1, 2**25, 2**25 + 1, 2**50 + 1, 2**64, 10**40]


def changed(draw, text):
    """The file with a small change."""
    return draw.choice(5 * [with_number_changed] + [with_leg_left_out, with_nodes_swapped])(draw, text)


def with_leg_left_out(draw, text):
    lines = text.splitlines(keepends=True)
    legs = [place for place, line in enumerate(lines) if line.startswith("l ")]
    if legs:
        lines.pop(draw.choice(legs))
        lines[0] = f"{lines[0].rsplit(' ', 1)[0]} {len(legs) - 1}\n"
    return "".join(lines)


def with_nodes_swapped(draw, text):
    lines = text.splitlines(keepends=True)
    nodes = [place for place, line in enumerate(lines) if line.startswith("o ")]
    one, other = draw.choice(nodes), draw.choice(nodes)
    lines[one], lines[other] = lines[other], lines[one]
    return "".join(lines)


def with_number_changed(draw, text):
    """The file with one number changed, mostly by little or to another number of the file."""
    numbers = list(re.finditer(r"\d+", text))
    place = draw.choice(numbers)
    old = int(place[0])
    new = draw.choice([old + 1, max(old - 1, 0), int(draw.choice(numbers)[0]), int(draw.choice(numbers)[0]), 0, draw.choice(EDGES)])
    return text[:place.start()] + str(new) + text[place.end():]


def refusal(nodes, arcs, text):
    """The fault line that is owed for a saved file, and its fault; None and `accepted` where it has none."""
    try:
        _, (order, legs) = read("saved", text.encode(), nodes)
    except Fault as fault:
        return f"chtab: saved {fault}\n", str(fault).split(": ")[1]
    word = first_fault(nodes, arcs, [node for node, in order], legs)
    return (f"chtab: saved hierarchy refused: {word}\n", word) if word else (None, "accepted")


def check_small(tally, seed):
    """Changes a hierarchy of a random graph; gives the fault."""
    draw = random.Random(seed)
    case = Case(seed)
    case.queries = [(start, end) for start in case.order[:7] for end in case.order[-7:]]
    with tempfile.TemporaryDirectory() as kept:
        folder = Folder(kept)
        case.write(folder)
        own = text_of(case.nodes, case.order, contract_in_order(case.nodes, case.arcs, case.order))
        text = changed(draw, draw.choice([own, folder.run("save", "graph.gr")]))
        folder.save("changed.ch", text)
        line, fault = refusal(case.nodes, case.arcs, text)
        answer = run(["dist", "--routes", "--saved", "changed.ch", "graph.gr", "queries.p2p"], folder.path)
        tables = run(["table", "--saved", "changed.ch", "graph.gr", "from.ss", "to.ss"], folder.path)
        if line:
            refused = Answer(1, b"", line.encode())
            tally.expect(answer == tables == refused, f"{seed}, {fault}: {answer} {tables}")
        else:
            is_right = answer.status == 0 and tables == Answer(0, case.table().encode(), b"")
            tally.expect(is_right and case.has_right_routes(answer.out.decode()), f"{seed}: {answer} {tables}")
    return fault


def check_large(tally, folder, saved, plain, seed):
    """Changes the hierarchy of Liechtenstein; gives the fault."""
    path = Path(folder) / f"{seed}.ch"
    path.write_text(changed(random.Random(seed), saved))
    answer = run(["dist", "--saved", path, GRAPH, QUERIES], folder)
    path.unlink()
    is_refused = (answer.status, answer.out) == (1, b"") and answer.err.startswith(b"chtab: saved ")
    tally.expect(is_refused or answer == plain, f"{seed}: {answer}")
    return answer.err.decode().strip().split(": ")[-1] or "accepted"


def told(faults):
    return ", ".join(f"{fault} {times}" for fault, times in Counter(faults).most_common())


def main():
    files, seed = (sys.argv[1:] + ["700", "1"][len(sys.argv) - 1:])
    build()
    tally = Count()
    large = int(files) // 5
    seeds = [f"{seed} {place}" for place in range(int(files))]
    print("random graphs:", told(side_by_side(lambda name: check_small(tally, name), seeds[large:])))
    with tempfile.TemporaryDirectory() as folder:
        plain = run(["dist", "--plain", GRAPH, QUERIES], folder)
        saved = subprocess.run([PROGRAM, "save", GRAPH], capture_output=True, text=True, check=True).stdout
        print("Liechtenstein:", told(side_by_side(lambda name: check_large(tally, folder, saved, plain, name), seeds[:large])))
    tally.finish()


if __name__ == "__main__":
    main()
