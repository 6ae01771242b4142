"""Columns as callers give them: arrays, lists, and columns of frames. A refused value raises a
`DataFault`, which names its row.

Nothing is guessed. Missing and masked values are refused, and so are columns of several kinds:
numpy alone would turn the label 1 beside the label "a" into the label "1".
"""
from __future__ import annotations

import contextlib
import datetime
import reprlib
from collections.abc import Callable, Iterable, Sequence, Sized
from typing import TYPE_CHECKING, Any

import numpy

from chtab.errors import DataFault

if TYPE_CHECKING:
    from numpy.typing import ArrayLike, NDArray
    from chtab.typing import Column, Floats, LabelArray, Marks

# The whole numbers of 64 bits, and the most bits of a label, because Python itself does not write
# integers of many thousand digits.
LEAST, GREATEST = -(2**63), 2**63 - 1
MOST_BITS = 4_096
# Up to this number each whole number is a float that is no other one's: 2^53 + 1 becomes 2^53.
EXACT = 2**53 - 1
INTEGERS, STRINGS, TUPLES = "integers", "strings", "tuples"
NO_LABEL = "is no label; a label is an integer, a string or a tuple"


def quoted(value: object) -> str:
    """A value as text for a message, shortened."""
    bits = value.bit_length() if isinstance(value, int) else 0
    return f"an integer of {bits:,} bits" if bits > MOST_BITS else reprlib.repr(value)


def refused(name: str, row: int, text: str) -> DataFault:
    """The fault of a value in a row of a column."""
    return DataFault(f"{name}[{row}]: {text}", name, row)


def first_of(marks: ArrayLike) -> int | None:
    """The first place where an array is true; None if there is none."""
    marks = numpy.reshape(marks, -1)
    place = int(marks.argmax()) if marks.size else 0
    return place if marks.size and marks[place] else None


def refuse(name: str, wrong: ArrayLike, text: Callable[[int], str]) -> None:
    """Refuses the first row of a column that is marked as wrong, with a text about it."""
    place = first_of(wrong)
    if place is not None:
        raise refused(name, place, text(place))


def array_of(name: str, column: Column) -> NDArray[Any]:
    """The array of a column; that of a list has objects, so that numpy converts no value."""
    if isinstance(column, numpy.ma.MaskedArray):
        see_that_there(name, numpy.ma.getmaskarray(column), "is masked")
        column = column.data
    elif hasattr(column, "isna"):
        see_that_there(name, numpy.asarray(column.isna()), "is missing")
    return numpy.asarray(column, None if hasattr(column, "__array__") else object)


def see_that_there(name: str, marks: Marks, what: str) -> None:
    """Refuses the first value of a column that is marked as missing."""
    place = first_of(marks)
    if place is not None:
        raise refused(name, row_of(marks, place), f"the value {what}")


def width_of(array: NDArray[Any]) -> int:
    """How many values of an array are in a row."""
    return int(numpy.prod(array.shape[1:]))


def row_of(array: NDArray[Any], place: int) -> int:
    """The row of the value at a place of an array, in the order of its values."""
    return place // width_of(array)


def see_that_flat(name: str, array: NDArray[Any]) -> None:
    """Refuses an array that is no column."""
    if array.ndim != 1:
        raise DataFault(f"{name} has the shape {array.shape}, and not that of one column", name)


def see_that_long(names: Sequence[str], columns: Sequence[Sized]) -> None:
    """Refuses columns that are not of one length."""
    rows = len(columns[0])
    for name, count in zip(names, map(len, columns)):
        if count != rows:
            short, row = (name, count) if count < rows else (names[0], rows)
            raise DataFault(
                f"{names[0]} has {rows:,} rows and {name} has {count:,}: row {row} of {short} is "
                "missing", short, row)


# Labels.


def is_integer(kind: type) -> bool:
    return issubclass(kind, int | numpy.integer) and not issubclass(kind, bool)


def kind_of(kind: type) -> str | None:
    """The kind of labels that values of a type are; None if they are no labels."""
    if issubclass(kind, str | tuple):
        return STRINGS if issubclass(kind, str) else TUPLES
    return INTEGERS if is_integer(kind) else None


def are_whole(column: NDArray[Any]) -> Marks:
    """Which floats are whole, and small enough to be no other whole number's float."""
    return (column == numpy.floor(column)) & (abs(column) <= EXACT)


def labels_in(name: str, column: Column) -> LabelArray:
    """The labels of a column of any shape: int64, or objects of one kind. Others are refused."""
    array = array_of(name, column)
    if array.size == 0:
        return array.astype(numpy.int64)
    # numpy would compare unsigned numbers of 64 bits with Python's as floats.
    if array.dtype.kind == "i" or array.dtype.kind == "u" and int(array.max()) <= GREATEST:
        return array.astype(numpy.int64)
    if array.dtype.kind == "u":
        return integers_like(name, array, array.reshape(-1).tolist())
    if array.dtype.kind == "U":
        return array.astype(object)
    if array.dtype.kind == "f" and are_whole(array).all():
        return array.astype(numpy.int64)
    if array.dtype.kind != "O":
        raise no_label(name, array)
    values = array.reshape(-1).tolist()
    if any(issubclass(kind, float | numpy.floating) for kind in set(map(type, values))):
        values = list(map(whole_as_integer, values))
    types = see_that_labels(name, values, width_of(array))
    kind = kind_of(next(iter(types)))
    if kind == INTEGERS:
        return integers_like(name, array, values)
    if kind == TUPLES:
        return tuples_in(name, values)
    return array if types == {str} else objects_like(array, map(str, values))


def column_labels_in(name: str, column: Column) -> LabelArray:
    """The labels of a single column; a list of tuples is one column here, not several."""
    if isinstance(column, list | tuple) and isinstance(next(iter(column), None), tuple):
        return tuples_in(name, column)
    labels = labels_in(name, column)
    see_that_flat(name, labels)
    return labels


def tuples_in(name: str, column: Iterable[Any]) -> LabelArray:
    """The labels of a column of tuples, whose parts are integers, strings or floats."""
    values = list(column)
    see_that_labels(name, values)
    def is_part(part: Any) -> bool:
        return isinstance(part, str) or is_number(type(part)) and part == part

    for row, value in enumerate(values):
        if not all(map(is_part, value)):
            text = "is no label; the parts of a tuple are integers, floats and strings"
            raise refused(name, row, f"{quoted(value)} {text}")
    return objects_of([
        tuple(part.item() if isinstance(part, numpy.generic) else part for part in value)
        for value in values])


def whole_as_integer(value: Any) -> Any:
    """A whole float as an integer, as ids are in pandas where a column ever lacked some."""
    is_float = isinstance(value, float | numpy.floating)
    return int(value) if is_float and float(value).is_integer() and abs(value) <= EXACT else value


def no_label(name: str, array: NDArray[Any]) -> DataFault:
    """The fault of the first NaN, the first value that is not whole, or the first value."""
    marks = (numpy.isnan(array), ~are_whole(array)) if array.dtype.kind == "f" else ()
    place = next((place for place in map(first_of, marks) if place is not None), 0)
    return refused(name, row_of(array, place), f"{quoted(array.reshape(-1)[place])} {NO_LABEL}")


def see_that_labels(name: str, values: Sequence[object], width: int = 1) -> set[type]:
    """The types of labels, `width` in a row. Refuses the first that is none, or of another kind."""
    types = set(map(type, values))
    kinds = set(map(kind_of, types))
    if len(kinds) < 2 and None not in kinds:
        return types
    first = kind_of(type(values[0]))
    others = (place for place, value in enumerate(values) if kind_of(type(value)) != first)
    place = 0 if first is None else next(others)
    text = f"the label {quoted(values[place])} is not one of {first}, as those before it"
    if kind_of(type(values[place])) is None:
        text = f"{quoted(values[place])} {NO_LABEL}"
    raise refused(name, place // width, text)


def objects_like(array: NDArray[Any], values: Iterable[object]) -> LabelArray:
    """An array of objects in the shape of another."""
    return objects_of(list(values)).reshape(array.shape)


def objects_of(values: Sequence[Any]) -> LabelArray:
    """A column of objects from a list, in which tuples stay tuples."""
    return numpy.fromiter(values, object, len(values))


def integers_like(name: str, array: NDArray[Any], values: Iterable[Any]) -> LabelArray:
    """Integers in the shape of an array, int64 if all fit. Those of too many bits are refused."""
    # Converted to Python's integers, because numpy would convert numbers past 2^63 to others.
    values = list(map(int, values))
    with contextlib.suppress(OverflowError):
        return numpy.array(values, numpy.int64).reshape(array.shape)
    large = first_of([value.bit_length() > MOST_BITS for value in values])
    if large is not None:
        text = f"{quoted(values[large])} is no label; one has at most {MOST_BITS:,} bits"
        raise refused(name, row_of(array, large), text)
    return objects_like(array, values)


# Numbers.


def durations_in(name: str, column: Column) -> Any:
    """The milliseconds of a column of durations, `numpy.longdouble`; None for any other."""
    array, durations = array_of(name, column), (datetime.timedelta, numpy.timedelta64)
    is_column = array.dtype == object and array.ndim == 1 and array.size
    if is_column and isinstance(array[0], durations):
        for row, value in enumerate(array.tolist()):
            if not isinstance(value, durations):
                raise refused(name, row, f"{quoted(value)} is no duration, as those before it")
        array = numpy.array([numpy.timedelta64(value) for value in array])
    if array.dtype.kind != "m":
        return None
    see_that_flat(name, array)
    see_that_there(name, numpy.isnat(array), "is missing")
    found, has_unit = array.astype("timedelta64[ns]"), array.dtype != numpy.dtype("timedelta64")
    refuse(name, (found.astype(array.dtype) != array) | (not has_unit), lambda row: (
        f"{array[row]!r} {'is too long' if has_unit else 'has no unit'}"))
    return found.astype(numpy.int64) / numpy.longdouble(1e6)


def numbers_in(name: str, column: Column, with_booleans: bool = False) -> NDArray[Any]:
    """The numbers of a column, perhaps with booleans as 1 and 0: int64 or `numpy.longdouble`."""
    # A `longdouble` mostly holds each whole number of 64 bits, and a float times a thousand.
    array = array_of(name, column)
    see_that_flat(name, array)
    are_booleans = {*map(type, array)} <= {bool, numpy.bool_} if array.dtype == object else False
    if array.size == 0 or with_booleans and (array.dtype == bool or are_booleans):
        return array.astype(numpy.int64)
    if array.dtype.kind == "O":
        return numbers_of_objects(name, array.tolist())
    if array.dtype.kind not in "iuf":
        raise refused(name, 0, f"{quoted(array[0])} is neither an integer nor a float")
    if array.dtype.kind == "f":
        return array.astype(numpy.longdouble)
    if array.dtype.kind == "u":
        refuse(name, array > numpy.uint64(GREATEST), lambda row: f"{array[row]} is too large")
    return array.astype(numpy.int64)


def numbers_of_objects(name: str, values: Sequence[Any]) -> NDArray[Any]:
    """The numbers of a list."""
    kinds = set(map(type, values))
    if not all(map(is_number, kinds)):
        place = next(place for place, value in enumerate(values) if not is_number(type(value)))
        text = f"{quoted(values[place])} is neither an integer nor a float"
        raise refused(name, place, "there is none" if values[place] is None else text)
    if kinds == {float}:
        return numpy.array(values).astype(numpy.longdouble)
    if all(map(is_integer, kinds)):
        with contextlib.suppress(OverflowError):
            return numpy.array([*map(int, values)], numpy.int64)
    is_large = [is_integer(type(each)) and not LEAST <= int(each) <= GREATEST for each in values]
    refuse(name, is_large, lambda row: (
        f"{quoted(values[row])} is {'too large' if values[row] > 0 else 'below 0'}"))
    return numpy.array([*map(numpy.longdouble, values)], numpy.longdouble)


def is_number(kind: type) -> bool:
    return is_integer(kind) or issubclass(kind, float | numpy.floating)


def degrees_in(name: str, column: Column, most: int) -> Floats:
    """The degrees of a column, or of a single number, from -`most` to `most`, float64."""
    values: Any = [column] if numpy.ndim(column) == 0 else column
    degrees = numbers_in(name, values).astype(float)
    refuse(name, ~(abs(degrees) <= most), lambda row: (
        f"{degrees[row]:.12g} is not from -{most} to {most} degrees"))
    return degrees
