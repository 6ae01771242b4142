"""The texts that the program writes: distances, routes, tables and near rows; and tables as CSV and
as arrays of numpy."""
from __future__ import annotations

import csv
import itertools
from collections.abc import Iterable, Iterator
from typing import TYPE_CHECKING, Any, NamedTuple

from chtab.errors import FileFault
from chtab._files.forms import reading, writing

if TYPE_CHECKING:
    from chtab.typing import Source, Target


class Answer(NamedTuple):
    """The answer of `dist` to a query. `weight` is None if there is no walk. `nodes` of the route
    and `weights` of its arcs are None if there is no walk, or if the text has only distances."""

    source: Any
    target: Any
    weight: Any
    nodes: list[Any] | None
    weights: list[Any] | None


def number_of(cell: str) -> int | None:
    return None if cell == "-" else int(cell)


def read_answers(source: Source) -> Iterator[Answer]:
    """Reads the answers of a text of `chtab dist`, one at a time.

    Parameters
    ----------
    source : path, open file or lines
        The file to read.

    Yields
    ------
    Answer
        The answer to the next query.

    Raises
    ------
    FileFault
        A route is cut short, or a line has another form.
    """
    with reading(source) as file:
        lines = iter(file)
        line = next(lines, "")
        while line:
            words = line.split()
            if words[:1] != ["d"] or len(words) != 4:
                raise FileFault(f"not a line of `chtab dist`: {line.strip()[:60]}")
            answer = Answer(int(words[1]), int(words[2]), number_of(words[3]), None, None)
            line = next(lines, "")
            if line.startswith("r") and answer.weight is not None:
                answer = with_route(answer, line, lines)
                line = next(lines, "")
            yield answer


def with_route(answer: Answer, line: str, lines: Iterator[str]) -> Answer:
    """The answer with its route, whose first line is `line`."""
    nodes: list[int] = [answer.source]
    weights: list[int] = []
    words = line.split()
    count = int(words[1]) if len(words) == 2 and words[1].isdigit() else -1
    for arc in itertools.islice(lines, max(count, 0)):
        words = arc.split()
        if words[:1] != ["a"] or len(words) != 4 or int(words[1]) != nodes[-1]:
            break
        nodes.append(int(words[2]))
        weights.append(int(words[3]))
    if len(weights) != count or nodes[-1] != answer.target:
        raise FileFault("the text is cut short, or is not what `chtab dist --routes` writes")
    return answer._replace(nodes=nodes, weights=weights)


def read_routes(source: Source) -> Iterator[Answer]:
    """Reads the answers of a text of `chtab dist --routes` that have a walk.

    Parameters
    ----------
    source : path, open file or lines
        The file to read.

    Yields
    ------
    Answer
        The next answer, with its route.

    Raises
    ------
    FileFault
        The text has no routes, or is no such text.
    """
    count = 0
    for answer in read_answers(source):
        count += 1
        if answer.weight is not None and answer.nodes is None:
            raise FileFault("the text has no routes: `chtab dist` writes them with --routes")
        if answer.nodes:
            yield answer
    if not count:
        raise FileFault("the text is empty: there is no line of `chtab dist --routes`")


def read_rows(source: Source, width: int) -> Iterator[tuple[int, list[int | None]]]:
    """Reads the rows of a text of `chtab table`, or of a table in CSV as `write_csv` writes it.

    Parameters
    ----------
    source : path, open file or lines
        The file to read.
    width : int
        The number of targets.

    Yields
    ------
    (int, list)
        The next source and its cells, None where there is no walk.

    Raises
    ------
    FileFault
        A line is no row with this many targets.
    """
    with reading(source) as file:
        first = next(file, "")
        is_csv = first.startswith("source,")
        for line in file if is_csv else itertools.chain([first], file):
            words = (
                ["t", *(cell or "-" for cell in line.strip("\n").split(","))] if is_csv
                else line.split())
            if words[:1] != ["t"] or len(words) != 2 + width:
                raise FileFault(
                    f"not a row of `chtab table` with {width} targets: {line.strip()[:60]}")
            yield int(words[1]), [number_of(cell) for cell in words[2:]]


def read_near(source: Source) -> Iterator[tuple[int, list[tuple[int, int]]]]:
    """Reads the rows of a text of `chtab near`.

    Parameters
    ----------
    source : path, open file or lines
        The file to read.

    Yields
    ------
    (int, list of (int, int))
        The next source, and the targets that are near with their weights.

    Raises
    ------
    FileFault
        A line is no such row, or the text is empty.
    """
    count = 0
    with reading(source) as file:
        for count, line in enumerate(file, 1):
            words = line.split()
            if (
                words[:1] != ["n"] or len(words) < 3 or not all(map(str.isdigit, words[1:]))
                or len(words) != 3 + 2 * int(words[2])):
                raise FileFault(f"not a row of `chtab near`: {line.strip()[:60]}")
            yield int(words[1]), list(zip(map(int, words[3::2]), map(int, words[4::2])))
    if not count:
        raise FileFault("the text is empty: there is no row of `chtab near`")


def write_csv(
    target: Target, targets: Iterable[object], rows: Iterable[tuple[object, Iterable[object]]]
) -> None:
    """Writes a table as CSV: a row for each source, a column for each target.

    Parameters
    ----------
    target : path or open file
        The file to write.
    targets : list of int
        The targets, which the first line names.
    rows : list of (int, list)
        Each source with its cells; None makes an empty cell.

    Raises
    ------
    OSError
        The file can't be written.
    """
    with writing(target) as file:
        lines = csv.writer(file, lineterminator="\n")
        lines.writerow(["source", *targets])
        lines.writerows(
            [source, *("" if cell is None else cell for cell in cells)] for source, cells in rows)
