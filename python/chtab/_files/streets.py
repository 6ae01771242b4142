"""The streets of the arcs of a graph, and the side of the road that is driven on."""
from __future__ import annotations

import json
from collections.abc import Iterable
from typing import TYPE_CHECKING, Any, NamedTuple

from chtab.errors import FileFault
from chtab._files.forms import (
    name_of, reading, see_that_of_graph, write_comments, write_rows, writing)

if TYPE_CHECKING:
    from chtab.typing import Source, Target

SIDES = "right", "left"
FIELDS = "highway", "junction", "name", "ref", "destinations"
SIDE = "Driving side: "


class Street(NamedTuple):
    """What travellers read about a road in one direction: its kind (`highway` of OpenStreetMap, or
    `ferry`), `roundabout` or `circular` if it is a ring, its name, its number, and the destinations
    on its signs; each may be empty."""

    highway: str = ""
    junction: str = ""
    name: str = ""
    ref: str = ""
    destinations: str = ""


class Streets(NamedTuple):
    """The streets of a graph. `of_arcs` has for each arc the place of its street in `streets`, from
    1 on, or 0 for none. `side` is the side of the road that is driven on, `right` or `left`."""

    streets: list[Street]
    of_arcs: list[int]
    side: str


def write_streets(target: Target, found: Streets, comments: Iterable[str] = ()) -> None:
    """Writes streets (`.names`): a line `s {..}` for each, an object of JSON without empty fields,
    and then a line `a STREET` for each arc, in order.

    Parameters
    ----------
    target : path or open file
        The file to write.
    found : Streets
        The streets.
    comments : list of str
        The first lines.

    Raises
    ------
    OSError
        The file can't be written.
    """
    with writing(target) as file:
        write_comments(file, [*comments, f"{SIDE}{found.side}."])
        file.write(f"p aux sp names {len(found.streets)} {len(found.of_arcs)}\n")
        for street in found.streets:
            fields = {key: value for key, value in street._asdict().items() if value}
            file.write(f"s {json.dumps(fields)}\n")
        write_rows(file, "a %d\n", ((number,) for number in found.of_arcs))


def read_streets(source: Source, arcs: int) -> Streets:
    """Reads streets (`.names`).

    Parameters
    ----------
    source : path, open file or lines
        The file to read.
    arcs : int
        How many arcs the graph has.

    Returns
    -------
    Streets
        A street for each arc.

    Raises
    ------
    FileFault
        The file isn't of this kind, or belongs to another graph; the message names it, and the line
        if there is one.
    """
    streets: list[Street] = []
    of_arcs: list[int] = []
    side, counts = SIDES[0], None
    with reading(source) as file:
        for number, line in enumerate(file, 1):
            try:
                if line.startswith("a "):
                    of_arcs.append(int(line[2:]))
                elif line.startswith("s "):
                    streets.append(street_in(json.loads(line[2:])))
                elif line.startswith("p "):
                    counts = counts_in(line)
                elif line.startswith(f"c {SIDE}"):
                    side = SIDES[SIDES.index(line[2:].strip().removeprefix(SIDE).removesuffix("."))]
            except (ValueError, RecursionError):
                raise FileFault(f"{name_of(source)} line {number}: not a line of streets") from None
    are_there = all(0 <= number <= len(streets) for number in of_arcs)
    if counts != (len(streets), len(of_arcs)) or not are_there:
        text = "cut short, or not a file of streets, whose problem line is"
        raise FileFault(f"{name_of(source)}: {text} `p aux sp names STREETS ARCS`")
    see_that_of_graph(source, "streets", len(of_arcs), arcs)
    return Streets(streets, of_arcs, side)


def counts_in(line: str) -> tuple[int, int]:
    """The numbers of streets and of arcs in a problem line."""
    *words, streets, arcs = line.split()
    if words != ["p", "aux", "sp", "names"]:
        raise ValueError
    return int(streets), int(arcs)


def street_in(value: Any) -> Street:
    """The street of an object of JSON, whose fields are all strings."""
    if not isinstance(value, dict) or not all(isinstance(text, str) for text in value.values()):
        raise ValueError
    if not set(value) <= set(FIELDS):
        raise ValueError
    return Street(**value)
