"""Names of nodes, queries, lists of nodes, and places."""
from __future__ import annotations

import array
import itertools
import re
from collections.abc import Iterable, Iterator, Sequence
from typing import TYPE_CHECKING, NamedTuple

from chtab.errors import FileFault
from chtab._files.forms import columns, reading, write_comments, writing

if TYPE_CHECKING:
    from chtab.typing import Source, Target

# The comment before each node that the command `nearest` finds.
NOTE = re.compile(r"c (.*): node (\d+), [\d,]+ m away")


class Place(NamedTuple):
    """A place on the earth, in degrees, with a name, which may be empty."""

    longitude: float
    latitude: float
    name: str

    def told(self) -> str:
        """The name of the place, or its longitude and latitude if it has none."""
        return self.name or f"{self.longitude} {self.latitude}"


def read_names(source: Source) -> dict[int, str]:
    """Reads the names of nodes.

    In a `.nodes` file, line k is the name of node k. In a list or a query file of the command
    `nearest`, the name is that of the place; a node of several places has all of their names.

    Parameters
    ----------
    source : path, open file or lines
        The file to read.

    Returns
    -------
    dict of int to str
        Names by node.

    Raises
    ------
    FileFault
        The file is no text.
    """
    with reading(source) as file:
        lines = [line.strip() for line in file]
    if not any(line.startswith("p aux sp ") for line in lines):
        return dict(enumerate(lines, 1))
    names: dict[int, dict[str, None]] = {}
    for note in filter(None, map(NOTE.fullmatch, lines)):
        names.setdefault(int(note[2]), {})[note[1]] = None
    return {node: " / ".join(given) for node, given in names.items()}


def write_names(target: Target, names: Iterable[object]) -> None:
    """Writes the names of nodes, one in each line (`.nodes`).

    Parameters
    ----------
    target : path or open file
        The file to write.
    names : list of str
        The names of nodes 1, 2, ..

    Raises
    ------
    OSError
        The file can't be written.
    """
    with writing(target) as file:
        file.writelines(f"{name}\n" for name in names)


def read_queries(source: Source) -> list[array.array[int]]:
    """Reads queries (`.p2p`).

    Parameters
    ----------
    source : path, open file or lines
        The file to read.

    Returns
    -------
    list of two arrays
        Sources and targets, nodes from 1 on.

    Raises
    ------
    FileFault
        The file isn't of this kind; the message names it, and the line if there is one.
    """
    return columns(source, b"q", 2)[0]


def write_queries(
    target: Target, pairs: Sequence[tuple[int, int]], notes: Iterable[Iterable[str]] | None = None,
) -> None:
    """Writes queries in order (`.p2p`).

    Parameters
    ----------
    target : path or open file
        The file to write.
    pairs : list of (int, int)
        Pairs of nodes from 1 on.
    notes : list of list of str, optional
        For each the comments before it.

    Raises
    ------
    OSError
        The file can't be written.
    """
    with writing(target) as file:
        file.write(f"p aux sp p2p {len(pairs)}\n")
        for (start, end), before in zip(pairs, notes or itertools.repeat(())):
            write_comments(file, before)
            file.write(f"q {start} {end}\n")


def read_list(source: Source) -> array.array[int]:
    """Reads a list of nodes (`.ss`).

    Parameters
    ----------
    source : path, open file or lines
        The file to read.

    Returns
    -------
    array.array of 64-bit numbers
        The nodes in order; they may repeat.

    Raises
    ------
    FileFault
        The file isn't of this kind; the message names it, and the line if there is one.
    """
    return columns(source, b"s", 1)[0][0]


def write_list(
    target: Target, nodes: Sequence[int], notes: Iterable[str | None] | None = None,
) -> None:
    """Writes a list of nodes (`.ss`).

    Parameters
    ----------
    target : path or open file
        The file to write.
    nodes : list of int
        Nodes from 1 on.
    notes : list of str, optional
        For each the comment before it, or None.

    Raises
    ------
    OSError
        The file can't be written.
    """
    with writing(target) as file:
        file.write(f"p aux sp ss {len(nodes)}\n")
        for node, note in zip(nodes, notes or itertools.repeat(None)):
            write_comments(file, () if note is None else (note,))
            file.write(f"s {node}\n")


def read_places(source: Source) -> Iterator[Place]:
    """Reads places, each line with a longitude, a latitude and a name. Empty lines, and lines that
    start with #, are ignored.

    Parameters
    ----------
    source : path, open file or lines
        The file to read.

    Yields
    ------
    Place
        The next place, in degrees.

    Raises
    ------
    FileFault
        A line has no two degrees; the message has its number.

    Examples
    --------
    >>> next(chtab.files.read_places(["9.5209 47.1410 Vaduz"]))
    Place(longitude=9.5209, latitude=47.141, name='Vaduz')
    """
    with reading(source) as file:
        for number, line in enumerate(file, 1):
            words = line.split(None, 2)
            if not words or words[0].startswith("#"):
                continue
            try:
                longitude, latitude = map(float, words[:2])
            except ValueError:
                raise FileFault(f"line {number}: not a longitude and a latitude") from None
            if not (-180 <= longitude <= 180 and -90 <= latitude <= 90):
                raise FileFault(
                    f"line {number}: longitude from -180 to 180 comes first, then latitude from "
                    "-90 to 90")
            yield Place(longitude, latitude, " ".join(words[2:]).strip())
