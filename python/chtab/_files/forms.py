"""Parts of files of all kinds: paths and open files, columns of numbers, comments, and lines that
are written many at a time."""
from __future__ import annotations

import array
import contextlib
import io
import itertools
import os
import secrets
from collections.abc import Iterable, Iterator, Sequence
from typing import IO, TYPE_CHECKING, Any, cast

from chtab.errors import FileFault

if TYPE_CHECKING:
    from chtab.typing import Path, Source, Target

# How many lines are formatted at a time.
ROWS_AT_ONCE = 1_000
# How many rows of columns become lists at a time.
COLUMNS_AT_ONCE = 1 << 16


@contextlib.contextmanager
def reading(source: Source, mode: str = "r") -> Iterator[Any]:
    """Opens the file of a path, or takes an open file or lines. A fault if these are no text."""
    opened: Any = contextlib.nullcontext(source)
    if isinstance(source, str | os.PathLike):
        opened = open(source, mode)
    elif isinstance(source, bytes):
        opened = io.BytesIO(source)
    with opened as file:
        try:
            yield file
        except UnicodeDecodeError:
            raise FileFault(f"{name_of(source)}: not a text") from None


@contextlib.contextmanager
def writing(target: Target, mode: str = "w") -> Iterator[IO[Any]]:
    """Takes an open file as it is, or makes the file of a path anew."""
    if hasattr(target, "write"):
        yield cast(IO[Any], target)
        return
    with open(cast("Path", target), mode) as file:
        yield file


def name_of(source: Source) -> str:
    return "a file" if isinstance(source, bytes) else str(getattr(source, "name", source))


def columns(
    source: Source, letter: bytes, count: int,
) -> tuple[list[array.array[int]], list[bytes]]:
    """The columns of numbers in lines that start with a letter; comments and problem lines."""
    heads: list[bytes] = []

    def items(file: Iterable[bytes]) -> Iterator[bytes]:
        for number, line in enumerate(file, 1):
            words = line.split()
            if words[:1] == [letter]:
                if len(words) != count + 1:
                    wanted = f"`{letter.decode()}` and {count} number{'s' * (count > 1)}"
                    raise FileFault(f"{name_of(source)} line {number}: not {wanted}")
                yield from words[1:]
            elif line[:1] in (b"c", b"p"):
                heads.append(line)

    with reading(source, "rb") as file:
        try:
            numbers = array.array("q", map(int, items(file)))
        except OverflowError:
            raise FileFault(f"{name_of(source)}: a number is too large") from None
        except FileFault:
            raise
        except ValueError as fault:
            raise FileFault(f"{name_of(source)}: {fault}") from None
    return [numbers[place::count] for place in range(count)], heads


def see_that_of_graph(source: Source, what: str, own: int, arcs: int) -> None:
    """Refuses a file for another number of arcs than those of a graph."""
    if own != arcs:
        text = f"{what} of {own:,} arcs, where the graph has {arcs:,}"
        raise FileFault(f"{name_of(source)}: {text}: they are those of another graph")


def comments_of(heads: Iterable[bytes]) -> list[str]:
    return [line[1:].strip().decode(errors="replace") for line in heads if line[:1] == b"c"]


def write_comments(file: IO[str], comments: Iterable[str]) -> None:
    file.writelines(f"c {comment}\n" for comment in comments)


def write_rows(file: IO[str], form: str, rows: Iterable[Iterable[Any]]) -> None:
    """Writes a line of this form for each row of numbers, many at a time."""
    rows = iter(rows)
    while some := list(itertools.islice(rows, ROWS_AT_ONCE)):
        file.write(form * len(some) % tuple(itertools.chain.from_iterable(some)))


def write_columns(file: IO[str], form: str, numbers: Sequence[Any]) -> None:
    """Writes a line of this form for each row of columns, which become lists part by part."""
    for start in range(0, len(numbers[0]), COLUMNS_AT_ONCE):
        some = slice(start, start + COLUMNS_AT_ONCE)
        write_rows(file, form, zip(*(column[some].tolist() for column in numbers)))


@contextlib.contextmanager
def whole(path: str) -> Iterator[str]:
    """Lends a path beside this one, whose file gets this name if nothing fails, or is removed."""
    part = f"{path}.part-{secrets.token_hex(8)}"
    try:
        yield part
        os.replace(part, path)
    finally:
        with contextlib.suppress(FileNotFoundError):
            os.unlink(part)
