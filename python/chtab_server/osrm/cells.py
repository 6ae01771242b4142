"""Cells of tables as texts of JSON, all of a table at once by numpy, because a table has more
numbers than all other answers.

A number is put together from words of four letters each: three digits or fewer, or the digits
behind the point. Letters that are not written are zeros, which are left out at the end.
"""
from __future__ import annotations

import functools
import json
from collections.abc import Iterable
from typing import TYPE_CHECKING, Any

import numpy

if TYPE_CHECKING:
    from numpy.typing import NDArray
    from chtab.typing import Integers, Marks

# Above this not each whole number is one of JSON's readers, which take numbers of 53 bits.
MOST = 1 << 53
# How many numbers a word has before the point.
THOUSAND = 1_000


def words(texts: Iterable[str]) -> NDArray[numpy.uint32]:
    """Texts of at most four letters as words."""
    return numpy.frombuffer(
        b"".join([text.encode().rjust(4, b"\0") for text in texts]), numpy.uint32)


@functools.cache
def endings(digits: int) -> NDArray[numpy.uint32]:
    """The point and the last digits, so many, of each number. None ends with a zero, but where it
    is the only digit."""
    return words("." + (f"{rest:0{digits}}".rstrip("0") or "0") for rest in range(10**digits))


# The lowest three digits before the point, without zeros before them, and from `THOUSAND` on with
# these, where higher digits come before.
LOWEST = words([*map(str, range(THOUSAND)), *(f"{part:03}" for part in range(THOUSAND))])
# The same of the digits above, where 0 is written only behind higher ones.
HIGHER = numpy.append(numpy.uint32(0), LOWEST[1:])
BETWEEN, BEHIND_ROW, NULL = words([", ", "], [", "null"])


def rows(numbers: Integers, digits: int, is_there: Marks) -> str:
    """The text of a table of at least one cell: whole numbers (n, m) from 0 to `MOST`, of each of
    which the last digits, so many, lie behind the point; null where nothing is there."""
    return tables(numbers[None], digits, is_there[None])[0]


def tables(numbers: Integers, digits: int, is_there: Marks) -> list[str]:
    """The texts of several tables of one size (k, n, m)."""
    is_complete = bool(is_there.all())
    rest, behind = numpy.divmod(
        numbers if is_complete else numpy.where(is_there, numbers, 0), 10**digits)
    columns, most, table = [endings(digits).take(behind)], int(rest.max()), LOWEST
    while most >= THOUSAND:
        above, part = numpy.divmod(rest, THOUSAND)
        columns.append(table.take(part + THOUSAND * (above > 0)))
        rest, most, table = above, most // THOUSAND, HIGHER
    columns.append(table.take(rest))
    letters = numpy.empty((*numbers.shape, len(columns) + 1), numpy.uint32)
    for place, column in enumerate(reversed(columns)):
        letters[..., place] = column
    if not is_complete:
        letters[~is_there] = 0
        letters[~is_there, 0] = NULL
    letters[..., -1] = BETWEEN
    letters[:, :, -1, -1] = BEHIND_ROW
    texts = [each.tobytes().translate(None, b"\0").decode("ascii") for each in letters]
    return [f"[[{text[:-3]}]" for text in texts]


def rows_of(numbers: Any, digits: int, is_there: Marks) -> str:
    """The rows of a table as a text of JSON: numbers of which so many digits lie behind the point,
    null where there is no way."""
    if numbers.max(initial=0, where=is_there) < MOST:
        are_integers = numbers.dtype.kind != "f"
        return rows(
            numbers if are_integers
            else numpy.rint(numpy.where(is_there, numbers, 0)).astype(numpy.int64), digits,
            is_there)
    rounded = (numbers / 10**digits).round(digits)
    return json.dumps([
        [cell if is_way else None for cell, is_way in zip(*row)]
        for row in zip(rounded.tolist(), is_there.tolist())])
