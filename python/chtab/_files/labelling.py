"""The labels that the owner of a network gave its nodes, and how its weights were rounded: a file
of JSON (RFC 8259)."""
from __future__ import annotations

import itertools
import json
import math
from typing import TYPE_CHECKING, Any, NamedTuple

from chtab.errors import FileFault
from chtab._files.forms import name_of, reading, writing

if TYPE_CHECKING:
    from chtab.typing import Source, Target


class Labelling(NamedTuple):
    """The labels of nodes, and where the weights of the graph are from. In place of lists of labels
    of rows and of rows there may be arrays, and those of nodes are left out, where none is read."""

    # A list of `int`, of `str` or of tuples, no two equal; None: nodes are called by their numbers.
    labels: Any
    # The caller's weights were multiplied by `scale`, if it isn't None, and rounded by so much.
    scale: float | None
    rounding: float
    # The SHA-256 of the graph's file, in hexadecimal; and the unit of the caller's weights.
    graph: str
    unit: str | None = None
    # The number of the caller's rows, and the row of each arc if it isn't arc modulo `rows`.
    rows: int | None = None
    arcs: Any = None
    # The key of each row in a graph with several edges between two nodes, and its ways on the map.
    keys: list[Any] | None = None
    ways: list[list[int]] | None = None
    # What the first rows are called; None for 0, 1, .., and empty if that is not known.
    row_labels: Any = None


def write_labels(target: Target, labelling: Labelling) -> None:
    """Writes the labels of a network."""
    with writing(target) as file:
        # In one piece, because only then the encoder in C makes it.
        file.write(json.dumps(labelling._asdict()))


def read_labels(source: Source) -> Labelling:
    """Reads what `write_labels` writes; anything else is a `FileFault`, and so are equal labels."""
    with reading(source) as file:
        try:
            found = Labelling(**json.load(file))
        except (ValueError, TypeError, RecursionError):
            raise FileFault(f"{name_of(source)}: not the labels of a network") from None
    found = found._replace(
        labels=with_tuples(found.labels), row_labels=with_tuples(found.row_labels))
    if is_right(found if found.labels is not None else found._replace(labels=[1])):
        return found
    raise FileFault(f"{name_of(source)}: not the labels of a network")


def with_tuples(labels: Any) -> Any:
    """A list of labels as it was written. JSON has lists in place of tuples."""
    if not isinstance(labels, list):
        return labels
    return [tuple(label) if type(label) is list else label for label in labels]


def are_labels(labels: Any) -> bool:
    """Whether these are a list of integers, of strings, or of tuples of these and of floats."""
    if not isinstance(labels, list):
        return False
    kinds = set(map(type, labels))
    if kinds == {tuple}:
        return set(map(type, itertools.chain(*labels))) <= {int, str, float}
    return kinds in ({int}, {str})


def is_right(found: Labelling) -> bool:
    """Whether each part has the right type, and no two labels are equal."""
    if not are_labels(found.labels):
        return False
    scale = 1 if found.scale is None else found.scale
    is_scaled = type(scale) in (int, float) and 0 < scale < math.inf
    is_rounded = type(found.rounding) in (int, float) and found.rounding >= 0
    is_named = isinstance(found.graph, str) and isinstance(found.unit, str | None)
    is_named &= type(found.rows) in (int, type(None))
    is_named &= found.row_labels in (None, []) or are_labels(found.row_labels)
    columns = found.arcs, found.keys, found.ways
    is_named &= all(each is None or isinstance(each, list) for each in columns)
    is_named &= set(map(type, found.arcs or ())) <= {int}
    is_named &= set(map(type, found.ways or ())) <= {list}
    is_named &= {type(number) for way in found.ways or () for number in way} <= {int}
    return is_scaled and is_rounded and is_named and len(set(found.labels)) == len(found.labels)
