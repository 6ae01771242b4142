"""Writes files for the program."""
from pathlib import Path


def lines_of(problem, letter, items):
    """The lines of a file with this problem line, but for the number of items, which are given as tuples of numbers."""
    return [f"p {problem} {len(items)}", *(" ".join(map(str, (letter, *item))) for item in items)]


def write_lines(path, lines):
    Path(path).write_text("".join(f"{line}\n" for line in lines))


def write_graph(path, nodes, arcs):
    """A graph file; an arc is (from, to, weight)."""
    write_lines(path, lines_of(f"sp {nodes}", "a", arcs))


def write_queries(path, pairs):
    """A file of queries (from, to)."""
    write_lines(path, lines_of("aux sp p2p", "q", pairs))


def write_list(path, nodes):
    """A file of sources or of targets."""
    write_lines(path, lines_of("aux sp ss", "s", [(node,) for node in nodes]))
