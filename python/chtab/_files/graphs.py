"""Graphs, the places of their nodes, and the points of their arcs between their ends."""
from __future__ import annotations

import array
import itertools
import math
import re
from collections.abc import Iterable, Mapping, Sequence
from typing import TYPE_CHECKING, Any, NamedTuple

from chtab.errors import FileFault
from chtab._files.forms import (
    ROWS_AT_ONCE, columns, comments_of, name_of, reading, write_columns, write_comments, write_rows,
    writing)

if TYPE_CHECKING:
    from chtab.typing import Path, Point, Source, Target

# The units of weights that a comment of a graph may name, each with the unit for people and how
# many of the first make one of it.
UNITS = {"milliseconds": ("min", 60_000), "metres": ("km", 1_000)}
# Comments on restricted turns (docs/MAPS.md): where trips to a node end, and a node's copies.
END = re.compile(r"Trips to node (\d+) end at node (\d+)\.")
COPY = re.compile(r"Node (\d+) is node (\d+), as some turns come to it\.")


class Graph(NamedTuple):
    """A graph: arc k leads from `tails[k]` to `heads[k]` and has the weight `weights[k]`; columns
    of 64-bit numbers."""

    nodes: int
    tails: array.array[int]
    heads: array.array[int]
    weights: array.array[int]
    # `milliseconds` or `metres` if a comment says `Weights are ..`, and otherwise empty.
    unit: str

    def __eq__(self, other: object) -> bool:
        return isinstance(other, Graph) and are_equal(self, other)


class Coordinates(NamedTuple):
    """The places of nodes: node k is at `longitudes[k - 1]`, `latitudes[k - 1]`, in degrees; NaN if
    the file has no line for it."""

    longitudes: array.array[float]
    latitudes: array.array[float]
    comments: list[str]

    def __eq__(self, other: object) -> bool:
        return isinstance(other, Coordinates) and are_equal(self, other)

    def of(self, node: int) -> Point:
        """Longitude and latitude of a node."""
        if 1 <= node <= len(self.longitudes) and not math.isnan(self.longitudes[node - 1]):
            return float(self.longitudes[node - 1]), float(self.latitudes[node - 1])
        raise FileFault(f"the coordinate file has no node {node}")

    def ends(self) -> dict[int, int]:
        """The nodes where trips end whose target is a node with restricted turns: {target: node}.
        All other trips end at their target."""
        return self.pairs(END)

    def copies(self) -> dict[int, int]:
        """The copies of nodes with restricted turns, those where trips end among them: {copy:
        node}."""
        return self.pairs(COPY) | {end: node for node, end in self.ends().items()}

    def pairs(self, form: re.Pattern[str]) -> dict[int, int]:
        """The pairs of nodes in comments of a form."""
        matches = map(form.fullmatch, self.comments)
        return {int(found[1]): int(found[2]) for found in matches if found}

    def turns(self) -> list[str]:
        """The comments from which `ends` and `copies` are read."""
        return [each for each in self.comments if END.fullmatch(each) or COPY.fullmatch(each)]

    def known(self) -> list[int]:
        """The nodes that have a place, in order."""
        return [node for node, x in enumerate(self.longitudes, 1) if not math.isnan(x)]


def are_equal(one: tuple[Any, ...], other: tuple[Any, ...]) -> bool:
    """Whether the parts of two tuples are equal, among which there may be arrays of any kind."""
    return all(
        list(part) == list(its) if hasattr(part, "tolist") else part == its
        for part, its in zip(one, other))


def read_graph(source: Source) -> Graph:
    """Reads a graph (`.gr`), without checking its limits, which the program does.

    Parameters
    ----------
    source : path, open file or lines
        The file to read.

    Returns
    -------
    Graph
        Nodes from 1 on; weights are in the graph's unit.

    Raises
    ------
    FileFault
        The file isn't of this kind; the message names it, and the line if there is one.

    Examples
    --------
    >>> chtab.files.read_graph("examples/first.gr").weights.tolist()     # doctest: +SKIP
    [4, 5]
    """
    (tails, heads, weights), lines = columns(source, b"a", 3)
    problem: list[bytes] = next((line.split() for line in lines if line[:1] == b"p"), [])
    if problem[:2] != [b"p", b"sp"] or len(problem) != 4 or not problem[2].isdigit():
        raise FileFault(f"{name_of(source)}: not a graph, whose problem line is `p sp N M`")
    nodes = int(problem[2])
    if len(tails) and (min(min(tails), min(heads)) < 1 or max(max(tails), max(heads)) > nodes):
        raise FileFault(f"{name_of(source)}: an arc has a node that is not from 1 to {nodes}")
    return Graph(nodes, tails, heads, weights, unit_of(lines))


def read_unit(path: Path) -> str:
    """The unit of weights that a comment before the first arc names; empty if none does."""
    with open(path, "rb") as file:
        return unit_of(list(itertools.takewhile(lambda line: line[:1] != b"a", file)))


def unit_of(lines: Iterable[bytes]) -> str:
    """The unit that comments among some lines name; empty if none does."""
    comments = (each for each in comments_of(lines) if each.startswith("Weights are "))
    unit = next(comments, ".").split()[-1].strip(".")
    return unit if unit in UNITS else ""


def counts_in(path: Path) -> tuple[int, int]:
    """How many nodes and arcs a graph's problem line declares, without the rest of the file."""
    with open(path, "rb") as file:
        for line in file:
            words = line.split()
            counts = [int(word) for word in words[2:] if word.isdigit()]
            if words[:2] == [b"p", b"sp"] and len(words) == 4 and len(counts) == 2:
                return counts[0], counts[1]
    raise FileFault(f"{path}: not a graph, whose problem line is `p sp N M`")


def write_graph(
    target: Target, nodes: int, arcs: Sequence[tuple[int, int, float]],
    comments: Iterable[str] = (), scale: float | None = None,
) -> None:
    """Writes a graph (`.gr`).

    Parameters
    ----------
    target : path or open file
        The file to write. Nothing is written if an arc is refused.
    nodes : int
        How many nodes there are.
    arcs : list of (from, to, weight)
        The arcs, all of whole numbers: nodes from 1 on, and weights from 0 on.
    comments : list of str
        The first lines, such as `Weights are milliseconds.`, which names the unit.
    scale : number, optional
        Weights are multiplied by this and rounded to whole numbers, and a comment says so: 1000
        makes milliseconds of seconds.

    Raises
    ------
    FileFault
        A number is not whole; the text names its arc.
    """
    if scale is not None:
        comments = [*comments, scale_comment(scale)]
        arcs = [
            (tail, head, scaled(place, weight, scale))
            for place, (tail, head, weight) in enumerate(arcs)]
    see_that_whole(arcs)
    with writing(target) as file:
        write_comments(file, comments)
        file.write(f"p sp {nodes} {len(arcs)}\n")
        write_rows(file, "a %d %d %d\n", arcs)


def scale_comment(scale: float) -> str:
    """The comment, without its `c`, of a graph whose weights were multiplied and rounded."""
    return f"Weights were multiplied by {scale} and rounded to whole numbers."


def write_graph_columns(
    target: Target, nodes: int, columns_of_arcs: Sequence[Any], comments: Iterable[str] = ()
) -> None:
    """Writes the same from arrays of tails, heads and weights. Nothing is checked."""
    with writing(target) as file:
        write_comments(file, comments)
        file.write(f"p sp {nodes} {len(columns_of_arcs[0])}\n")
        write_columns(file, "a %d %d %d\n", columns_of_arcs)


def read_coordinates(source: Source) -> Coordinates:
    """Reads the nodes' places (`.co`).

    Parameters
    ----------
    source : path, open file or lines
        The file to read.

    Returns
    -------
    Coordinates
        Degrees.

    Raises
    ------
    FileFault
        The file isn't of this kind; the message names it, and the line if there is one.
    """
    (nodes, xs, ys), lines = columns(source, b"v", 3)
    if not nodes:
        raise FileFault(f"{name_of(source)} has no line `v NODE X Y`")
    if min(nodes) < 1 or max(nodes) > 2**25:
        raise FileFault(f"{name_of(source)}: a node is not from 1 to {2**25}")
    longitudes, latitudes = (array.array("d", [math.nan]) * max(nodes) for _ in range(2))
    for node, x, y in zip(nodes, xs, ys):
        longitudes[node - 1], latitudes[node - 1] = x / 1e6, y / 1e6
    return Coordinates(longitudes, latitudes, comments_of(lines))


def read_turns(source: Source) -> Coordinates:
    """What a file of places (`.co`) says about restricted turns, without its places."""
    with reading(source, "rb") as file:
        comments = comments_of(itertools.takewhile(lambda line: line[:1] != b"v", file))
        return Coordinates(array.array("d"), array.array("d"), comments)


def scaled(place: int, weight: float, scale: float) -> int:
    """A weight times a scale, rounded."""
    try:
        return round(weight * scale)
    except (ValueError, OverflowError):
        raise FileFault(f"arcs[{place}]: {weight} is no weight") from None


def see_that_whole(arcs: Sequence[tuple[int, int, float]]) -> None:
    """Refuses the first arc that has a number which is not whole."""
    for start in range(0, len(arcs), ROWS_AT_ONCE):
        some = arcs[start:start + ROWS_AT_ONCE]
        # Nearly always all are of this type, and this check is faster than one of each value.
        if set(map(type, itertools.chain.from_iterable(some))) == {int}:
            continue
        for place, arc in enumerate(some, start):
            for value in arc:
                if not is_whole(value):
                    raise FileFault(
                        f"arcs[{place}]: {value} is not a whole number; `scale` multiplies weights "
                        "and rounds them")


def is_whole(value: Any) -> bool:
    try:
        return int(value) == value
    except (TypeError, ValueError, OverflowError):
        return False


def write_coordinates(
    target: Target, places: Sequence[Point], comments: Iterable[str] = (),
    ends: Iterable[tuple[int, int]] = (), copies: Iterable[tuple[int, int]] = (),
) -> None:
    """Writes the nodes' places (`.co`).

    Parameters
    ----------
    target : path or open file
        The file to write.
    places : list of (float, float), n of them
        Longitudes and latitudes of nodes 1, 2, .. in degrees; they are rounded to millionths.
    comments : list of str
        The first lines.
    ends : list of (int, int)
        Pairs of nodes as `Coordinates.ends` gives them.
    copies : list of (int, int)
        The others of `Coordinates.copies`.

    Raises
    ------
    OSError
        The file can't be written.
    """
    with writing(target) as file:
        write_comments(file, comments)
        write_comments(file, (f"Trips to node {node} end at node {end}." for node, end in ends))
        write_comments(
            file,
            (f"Node {copy} is node {node}, as some turns come to it." for copy, node in copies))
        file.write(f"p aux sp co {len(places)}\n")
        rows = ((node, round(x * 1e6), round(y * 1e6)) for node, (x, y) in enumerate(places, 1))
        write_rows(file, "v %d %d %d\n", rows)


def write_point_columns(
    target: Target, kind: str, columns_of_points: Sequence[Any], comments: Iterable[str] = ()
) -> None:
    """Writes places of nodes (`co`) or points of arcs (`bends`) from arrays: numbers from 1 on, and
    millionths of a degree."""
    letter = "v" if kind == "co" else "b"
    with writing(target) as file:
        write_comments(file, comments)
        file.write(f"p aux sp {kind} {len(columns_of_points[0])}\n")
        write_columns(file, f"{letter} %d %d %d\n", columns_of_points)


def read_bends(source: Source) -> dict[int, list[Point]]:
    """Reads the points of arcs between their ends (`.bends`).

    Parameters
    ----------
    source : path, open file or lines
        The file to read.

    Returns
    -------
    dict of int to list of (float, float)
        The longitudes and latitudes in degrees of the arcs that have such points; arcs are numbered
        by their order in the graph, from 0.

    Raises
    ------
    FileFault
        The file isn't of this kind; the message names it, and the line if there is one.
    """
    (arcs, xs, ys), _ = columns(source, b"b", 3)
    bends: dict[int, list[Point]] = {}
    for arc, x, y in zip(arcs, xs, ys):
        bends.setdefault(arc - 1, []).append((x / 1e6, y / 1e6))
    return bends


def write_bends(
    target: Target, bends: Mapping[int, Sequence[Point]], comments: Iterable[str] = ()
) -> None:
    """Writes the points of arcs between their ends (`.bends`): a line `b ARC X Y` for each, where
    ARC is numbered from 1.

    Parameters
    ----------
    target : path or open file
        The file to write.
    bends : dict of int to list of (float, float)
        As `read_bends` gives them.
    comments : list of str
        The first lines.

    Raises
    ------
    OSError
        The file can't be written.
    """
    with writing(target) as file:
        write_comments(file, comments)
        file.write(f"p aux sp bends {sum(map(len, bends.values()))}\n")
        points = ((arc + 1, *place) for arc, places in sorted(bends.items()) for place in places)
        write_rows(
            file, "b %d %d %d\n", ((arc, round(x * 1e6), round(y * 1e6)) for arc, x, y in points))
