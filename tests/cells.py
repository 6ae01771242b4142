#!/usr/bin/python3
"""Compares each cell of tables on the roads of Liechtenstein with what `dist` answers for the same pair.

  cells.py [SIDE [SEED]]

SIDE sources and SIDE targets (60) are drawn from a seed (1), some of them twice. The tables are made by 1, 2, 4 and 64 workers, in pieces
of 1 to 4,096, by few hops; within several limits, where the cells above the limit are `-`; and by a saved hierarchy. The last line is
'N passed, N failed', of rows.
"""
import random
import sys
import tempfile
from pathlib import Path

from helpers.running import ROOT, Count, build, run
from helpers.writing import write_list, write_queries
from oracles.reading import graph_of

GRAPH = ROOT / "examples" / "liechtenstein.gr"
# The words of the tables, but for limits.
WAYS = [], ["--workers", "2", "--piece", "1"], ["--workers", "4", "--piece", "7"], ["--workers", "64", "--piece", "4096"], ["--hops", "1"]


def drawn(side, seed):
    """The sources and the targets. Every tenth is one that came before, or one of the other list."""
    draw = random.Random(f"cells {seed}")
    most, _ = graph_of(GRAPH)
    lists = [[draw.randint(1, most) for _ in range(side)] for _ in range(2)]
    for nodes in lists:
        for place in range(9, side, 10):
            nodes[place] = draw.choice(lists[0])
    return lists


def asked(folder, sources, targets):
    """The rows of distances, as `dist` answers one pair after the other."""
    pairs = [(source, target) for source in sources for target in targets]
    write_queries(folder / "pairs.p2p", pairs)
    answer = run(["dist", GRAPH, "pairs.p2p"], folder)
    lines = [line.split() for line in answer.out.decode().splitlines()]
    assert answer.status == 0 and [(int(start), int(end)) for _, start, end, _ in lines] == pairs, answer.err
    return [[line[3] for line in lines[at:at + len(targets)]] for at in range(0, len(lines), len(targets))]


def within(limit, rows):
    return [[cell if cell != "-" and int(cell) <= limit else "-" for cell in row] for row in rows]


def limits(rows):
    """None of them, one in a hundred, a half, all but the longest, and all; the weights of cells themselves, so that `at most` shows."""
    weights = sorted(int(cell) for row in rows for cell in row if cell != "-")
    return [0, weights[len(weights) // 100], weights[len(weights) // 2], weights[-1] - 1, weights[-1], 2**60]


def compare(tally, folder, sources, wanted, words):
    """Each row of a table."""
    answer = run(["table", *words, GRAPH, "from.ss", "to.ss"], folder)
    rows = [line.split() for line in answer.out.decode().splitlines()]
    tally.expect((answer.status, answer.err, len(rows)) == (0, b"", len(sources)), f"{words}: {answer.status} {answer.err}")
    for source, row, cells in zip(sources, rows, wanted):
        tally.expect(row == ["t", str(source), *cells], f"{words}: the row of source {source}")


def main():
    side, seed = (int(word) for word in (sys.argv[1:] + ["60", "1"][len(sys.argv) - 1:]))
    build()
    tally = Count()
    with tempfile.TemporaryDirectory() as kept:
        folder = Path(kept)
        sources, targets = drawn(side, seed)
        for name, nodes in ("from.ss", sources), ("to.ss", targets):
            write_list(folder / name, nodes)
        wanted = asked(folder, sources, targets)
        (folder / "own.ch").write_bytes(run(["save", GRAPH], folder).out)
        for words in *WAYS, ["--saved", "own.ch"]:
            compare(tally, folder, sources, wanted, words)
        for limit in limits(wanted):
            for words in WAYS[0], WAYS[1], ["--saved", "own.ch"]:
                compare(tally, folder, sources, within(limit, wanted), ["--within", str(limit), *words])
    tally.finish()


if __name__ == "__main__":
    main()
