"""Columns in a file that is mapped into memory: processes have it there together, and read of it
what they need.

The file has a line, and behind it the columns, each at a multiple of `STEP` bytes. The line begins
with a sum of what follows there: an object of JSON with the form of the file, sums of the files
that the columns were made of, texts, and of each column its type, shape, place and sum. A file with
other sums is not used.
"""
from __future__ import annotations

import hashlib
import json
import zlib
from collections.abc import Mapping
from typing import IO, TYPE_CHECKING, Any, NamedTuple

import numpy

from chtab.errors import FileFault
from chtab.files import whole

if TYPE_CHECKING:
    from numpy.typing import NDArray

# The form of these files, the bytes between which columns begin, and the most bytes of the line.
FORM, STEP, LONGEST = "chtab columns 2", 4_096, 1 << 24
# The types of columns.
TYPES = "|b1", "|u1", "<i4", "<i8", "<u8", "<f8"
# The bytes of a sum of a file or of the line.
SIZE = 16


class Mapped(NamedTuple):
    """What a file has: texts by their names, and columns, which can't be written to."""

    texts: dict[str, Any]
    columns: dict[str, NDArray[Any]]


def digest() -> Any:
    """What makes a sum of bytes."""
    return hashlib.blake2b(digest_size=SIZE)


def digest_of(path: str) -> str:
    """A sum of a file."""
    with open(path, "rb") as file:
        return hashlib.file_digest(file, digest).hexdigest()


def signed(line: bytes) -> bytes:
    """A line behind its sum."""
    made = digest()
    made.update(line)
    return made.hexdigest().encode() + line


def sum_of(column: NDArray[Any]) -> int:
    """The CRC-32 of the bytes of a column."""
    return zlib.crc32(numpy.ascontiguousarray(column).reshape(-1).view(numpy.uint8).data)


def write(
    path: str, sums: Mapping[str, str], texts: Mapping[str, Any],
    columns: Mapping[str, NDArray[Any]],
) -> None:
    """Writes columns of `TYPES`, which were made of files with these sums. The file gets its name
    once it is complete.

    Raises
    ------
    OSError
        The file can't be written.
    """
    described, end = {}, 0
    for name, column in columns.items():
        described[name] = [column.dtype.str, column.shape, end, sum_of(column)]
        end += -(-column.nbytes // STEP) * STEP
    head = {"form": FORM, "sums": dict(sums), "texts": dict(texts), "columns": described}
    line = signed(json.dumps(head).encode() + b"\n")
    with whole(path) as part, open(part, "wb") as file:
        file.write(line)
        for name, column in columns.items():
            pad(file)
            file.write(numpy.ascontiguousarray(column).data)
        pad(file)


def pad(file: IO[bytes]) -> None:
    """Writes bytes up to a multiple of `STEP`."""
    file.write(bytes(-file.tell() % STEP))


def read(path: str, sums: Mapping[str, str]) -> Mapped:
    """Maps a file into memory.

    Raises
    ------
    FileFault
        It has another form, was spoilt, or is of other files than those with these sums.
    OSError
        The file can't be read.
    """
    with open(path, "rb") as file:
        line = file.readline(LONGEST)
    if len(line) <= 2 * SIZE or signed(line[2 * SIZE:]) != line:
        raise FileFault(f"{path}: not a file of columns")
    try:
        head = json.loads(line[2 * SIZE:])
        form, own, texts, described = (head[name] for name in ("form", "sums", "texts", "columns"))
    except (ValueError, KeyError, TypeError, RecursionError):
        raise FileFault(f"{path}: not a file of columns") from None
    if form != FORM or own != dict(sums):
        raise FileFault(f"{path}: it is of other files, or of another version")
    try:
        columns = columns_in(numpy.memmap(path, numpy.uint8, "r"), len(line), described)
    except (ValueError, TypeError, AttributeError):
        raise FileFault(f"{path}: cut short or spoilt") from None
    return Mapped(texts, columns)


def columns_in(
    data: NDArray[numpy.uint8], head: int, described: Mapping[str, Any],
) -> dict[str, NDArray[Any]]:
    """The columns behind the first line, of so many bytes. Raises a `ValueError` for one that is
    not there, or has another sum."""
    first, found = -(-head // STEP) * STEP, {}
    for name, (kind, shape, place, total) in described.items():
        if kind not in TYPES or place < 0 or min(shape) < 0:
            raise ValueError
        size = numpy.dtype(kind).itemsize * int(numpy.prod(shape, dtype=object))
        part = data[first + place:first + place + size]
        if len(part) != size or sum_of(part) != total:
            raise ValueError
        found[name] = numpy.asarray(part).view(kind).reshape(shape)
    return found
