"""The ways of OpenStreetMap that the arcs of a graph are parts of."""
from __future__ import annotations

import array
from collections.abc import Iterable, Sequence
from typing import TYPE_CHECKING

from chtab.errors import FileFault
from chtab._files.forms import (
    columns, name_of, see_that_of_graph, write_comments, write_rows, writing)

if TYPE_CHECKING:
    from chtab.typing import Source, Target


def write_ways(target: Target, numbers: Sequence[int], comments: Iterable[str] = ()) -> None:
    """Writes the ways of arcs (`.ways`): a line `w NUMBER` for each arc, in order.

    Parameters
    ----------
    target : path or open file
        The file to write.
    numbers : list of int
        For each arc OpenStreetMap's number of the way that it is a part of, 0 for an arc that is a
        part of none.
    comments : list of str
        The first lines.

    Raises
    ------
    OSError
        The file can't be written.
    """
    with writing(target) as file:
        write_comments(file, comments)
        file.write(f"p aux sp ways {len(numbers)}\n")
        write_rows(file, "w %d\n", ((number,) for number in numbers))


def read_ways(source: Source, arcs: int) -> array.array[int]:
    """Reads the ways of arcs (`.ways`).

    Parameters
    ----------
    source : path, open file or lines
        The file to read.
    arcs : int
        How many arcs the graph has.

    Returns
    -------
    array.array of 64-bit numbers
        The number of each arc's way, 0 where it is a part of none.

    Raises
    ------
    FileFault
        The file isn't of this kind, or belongs to another graph; the message names it, and the line
        if there is one.
    """
    (numbers,), lines = columns(source, b"w", 1)
    problems = [line.split() for line in lines if line[:1] == b"p"]
    if problems != [[b"p", b"aux", b"sp", b"ways", str(len(numbers)).encode()]]:
        text = "cut short, or not a file of ways, whose problem line is `p aux sp ways ARCS`"
        raise FileFault(f"{name_of(source)}: {text}")
    see_that_of_graph(source, "ways", len(numbers), arcs)
    return numbers
