#!/usr/bin/python3
"""Brings hierarchies from elsewhere: one that an independent program contracts in an order of its own (oracles/contracting.py).

  foreign.py GRAPH FILE   writes the hierarchy of GRAPH to FILE
  foreign.py              the test, on examples/liechtenstein.gr

The test compares what `--saved` answers with what the program answers by its own hierarchy, and its routes with those that the rules name for
the file. Then it leaves shortcuts out of the file, one at a time: the program has to say that it is refused, or to give the same distances.
Some of these files are refused, so a program that leaves `--saved` aside fails. The last line is 'N passed, N failed'.
"""
import random
import sys
import tempfile
from pathlib import Path

from helpers.running import ROOT, Answer, Count, build, side_by_side, run
from helpers.writing import write_lines, write_list, write_queries
from oracles.contracting import contract, text_of
from oracles.reading import graph_of
from oracles.routes import checked
from oracles.rules import routes_text

GRAPH = ROOT / "examples" / "liechtenstein.gr"
# How many shortcuts are left out, each from a file of its own.
LEFT_OUT = 300


def hierarchy_of(graph):
    """The nodes of a graph file in an order, and the legs of its hierarchy in this order."""
    return contract(*graph_of(graph))


def text_by(order, legs):
    """The saved file of a hierarchy."""
    return text_of(len(order), order, legs)


def without(place, lines):
    """The file without the leg that stands at this place."""
    word, letters, nodes, legs = lines[0].split()
    return [f"{word} {letters} {nodes} {int(legs) - 1}", *lines[1:place], *lines[place + 1:]]


class Runs:
    """Runs of the program on the graph, in a folder of files: queries, sources, targets and saved hierarchies."""

    def __init__(self, folder):
        self.folder = Path(folder)
        nodes, arcs = graph_of(GRAPH)
        self.arcs = set(arcs)
        draw = random.Random("foreign")
        self.trips = [(draw.randint(1, nodes), draw.randint(1, nodes)) for _ in range(200)]
        write_queries(self.folder / "trips.p2p", self.trips)
        for name in "from.ss", "to.ss":
            write_list(self.folder / name, [draw.randint(1, nodes) for _ in range(40)])

    def answer(self, tool, *words):
        files = ["trips.p2p"] if tool == "dist" else ["from.ss", "to.ss"]
        return run([tool, *words, GRAPH, *files], self.folder)


def check_routes(tally, runs, order, legs, distances):
    """The routes by the file are those that the rules name for it, and walks of the graph of these distances."""
    answer = runs.answer("dist", "--routes", "--saved", "own.ch")
    tally.expect(answer == Answer(0, routes_text(order, legs, runs.trips).encode(), b""), "routes that the rules do not name")
    found = checked(runs.arcs, answer.out.decode())
    told = [f"d {start} {end} {'-' if weight is None else weight}" for start, end, weight, _ in found]
    tally.expect(told == distances.decode().splitlines(), "routes of other distances")


def check_without(tally, runs, lines, distances):
    """Leaves shortcuts out, one at a time: the file is refused, or the distances are the same."""
    shortcuts = [place for place, line in enumerate(lines) if line.startswith("l") and not line.endswith(" 0")]

    def without_one(place):
        name = f"without.{place}"
        write_lines(runs.folder / name, without(place, lines))
        answer = runs.answer("dist", "--saved", name)
        (runs.folder / name).unlink()
        return answer

    places = random.Random("shortcuts").sample(shortcuts, LEFT_OUT)
    refused = 0
    for place, answer in zip(places, side_by_side(without_one, places)):
        is_refused = answer.status == 1 and answer.out == b"" and answer.err.startswith(b"chtab: saved hierarchy refused: ")
        tally.expect(is_refused or answer == distances, f"without {lines[place]}: {answer.status}, {answer.err or 'other distances'}")
        refused += is_refused
    tally.expect(refused > 0, "no file without a shortcut is refused")
    print(f"{len(shortcuts)} shortcuts: of {LEFT_OUT} files without one {refused} are refused, the others give the same distances")


def test():
    build()
    tally = Count()
    order, legs = hierarchy_of(GRAPH)
    lines = text_by(order, legs).splitlines()
    with tempfile.TemporaryDirectory() as folder:
        runs = Runs(folder)
        write_lines(runs.folder / "own.ch", lines)
        distances = runs.answer("dist")
        tally.expect(distances.out.count(b"\n") == 200 and runs.answer("dist", "--plain") == distances, f"own distances: {distances}")
        for words in [], ["--workers", "2", "--piece", "7"]:
            for tool in "dist", "table":
                own, saved = (runs.answer(tool, *words, *more) for more in ([], ["--saved", "own.ch"]))
                tally.expect(own.status == 0 and saved == own, f"{tool} {words}: {saved.err or 'other answers'}")
        check_routes(tally, runs, order, legs, distances.out)
        check_without(tally, runs, lines, distances)
    tally.finish()


def main():
    if len(sys.argv) == 1:
        test()
    if len(sys.argv) != 3:
        sys.exit(__doc__)
    Path(sys.argv[2]).write_text(text_by(*hierarchy_of(sys.argv[1])))


if __name__ == "__main__":
    main()
