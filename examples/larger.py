#!/usr/bin/python3
"""Writes a larger example into the folder that it is run in, the same bytes for the same number of nodes.

  larger.py [NODES]

larger.gr    a road network of NODES nodes (10,000), some 2.4 arcs for each, weights in milliseconds, made by bench/roads.py
larger.p2p   a thousand queries
larger.ss    a hundred nodes, as sources or targets of a table
"""
import random
import subprocess
import sys
from pathlib import Path

ROADS = Path(__file__).resolve().parent.parent / "bench" / "roads.py"


def write(path, problem, letter, items):
    """A file of items, each a tuple of nodes."""
    lines = [f"p aux sp {problem} {len(items)}", *(" ".join(map(str, (letter, *item))) for item in items)]
    Path(path).write_text("".join(f"{line}\n" for line in lines))


def main():
    if sys.argv[2:] or not "".join(sys.argv[1:] or ["1"]).isdigit():
        sys.exit(__doc__)
    nodes = int(sys.argv[1]) if sys.argv[1:] else 10_000
    subprocess.run([ROADS, str(nodes), "larger.gr"], check=True)
    draw = random.Random(nodes)
    write("larger.p2p", "p2p", "q", [(draw.randint(1, nodes), draw.randint(1, nodes)) for _ in range(1000)])
    write("larger.ss", "ss", "s", [(draw.randint(1, nodes),) for _ in range(100)])


if __name__ == "__main__":
    main()
