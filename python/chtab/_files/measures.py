"""Units of weights: the whole numbers of a graph, or numbers in the unit of a caller.

A weight w of the graph is w / factor in the caller's unit, as a float. A limit of the caller admits
each answer that is at most the limit, when both are compared as these floats.
"""
from __future__ import annotations

import datetime
import decimal
import math
import numbers
from dataclasses import dataclass
from fractions import Fraction
from typing import TYPE_CHECKING, Any

import numpy

from chtab.errors import DataFault

if TYPE_CHECKING:
    import pandas
    from chtab.typing import Integers, Weights

# The largest weight of a graph, and therefore the largest limit; and the number up to which each
# whole number is a float.
MOST, EXACT = 2**60, 2**53
# A limit, as callers give it.
Limit = float | datetime.timedelta | numpy.timedelta64 | None
# How many milliseconds make one of a unit of time, and how many metres one of a unit of length.
TIMES = {"milliseconds": 1, "seconds": 1_000, "minutes": 60_000, "hours": 3_600_000}
LENGTHS = {"metres": 1, "kilometres": 1_000}
# The units that a comment of a graph may name, with the units in which callers may want answers.
TIME, LENGTH = "milliseconds", "metres"
BASES = {TIME: TIMES, LENGTH: LENGTHS}
# How many of a graph's weights make a metre of lengths, which are rounded to millimetres.
FINE = 1_000


@dataclass(frozen=True)
class Asked:
    """What a caller says about the unit of limits and answers; `Network.open` explains each."""

    unit: str | None = None
    scale: float | None = None
    raw: bool = False

    def __post_init__(self) -> None:
        if not isinstance(self.raw, bool | numpy.bool_):
            raise TypeError(f"raw is True or False, not {self.raw!r}")


@dataclass(frozen=True)
class Measure:
    """The unit of answers and limits: `factor` of the graph's weights make one `unit`."""

    unit: str = ""
    factor: float = 1

    @property
    def is_whole(self) -> bool:
        """Whether answers are the graph's own whole numbers."""
        return self.factor == 1

    # Limits.

    def limit(self, name: str, given: Limit) -> int | None:
        """The largest weight of the graph whose answer is within a limit; None for no limit."""
        if given is None or isinstance(given, float | numpy.floating) and given == numpy.inf:
            return None
        if self.is_whole:
            limit = self.number(name, given)
            if not 0 <= limit <= MOST:
                raise ValueError(f"{name} is {limit!r}: a limit is from 0 to 2^60")
            # `math.floor` would make a float of a number of numpy first.
            return int(limit)
        value, most = float(self.number(name, given)), MOST / self.factor
        if not 0 <= value <= most:
            text = f"{name} is {given!r}: a limit is from 0 to {most:g} {self.unit}"
            raise ValueError(text.rstrip())
        weight = math.floor(Fraction(value) * Fraction(self.factor))
        while weight < EXACT and (weight + 1) / self.factor <= value:
            weight += 1
        while 0 < weight <= EXACT and weight / self.factor > value:
            weight -= 1
        return min(weight, MOST)

    def number(self, name: str, given: Any) -> Any:
        """A limit as a number of this unit."""
        if isinstance(given, datetime.timedelta | numpy.timedelta64):
            if self.unit not in TIMES:
                text = f"{name} is a duration, and the network's unit is {self.unit or 'not known'}"
                raise TypeError(f"{text}: {', '.join(TIMES)} are units of time")
            return Fraction(microseconds(given), 1_000 * TIMES[self.unit])
        kinds = numbers.Real, decimal.Decimal, numpy.integer, numpy.floating
        if isinstance(given, bool) or not isinstance(given, kinds):
            raise TypeError(f"{name} is a number, not {given!r}")
        return given

    # Answers.

    def in_unit(self, weights: Integers, missing: float | None = None) -> Weights:
        """The answers of weights, with `missing` in place of -1, by default -1 or NaN."""
        if missing is None and self.is_whole:
            return weights
        is_integer = isinstance(missing, int | numpy.integer) and not isinstance(missing, bool)
        if missing is not None and self.is_whole and is_integer:
            return numpy.where(weights < 0, numpy.int64(missing), weights)
        own = numpy.nan if missing is None else float(missing)
        return numpy.where(weights < 0, own, weights / self.factor)

    def one(self, weight: float | None) -> float | None:
        """The answer of one weight; None for None."""
        return weight if weight is None or self.is_whole else weight / self.factor

    def series(self, weights: Integers) -> pandas.Series:
        """The answers as a column of pandas, `Int64` or float64, with NA where there is no walk."""
        import pandas

        if not self.is_whole:
            return pandas.Series(self.in_unit(weights))
        whole = numpy.array(weights, numpy.int64)
        return pandas.Series(pandas.arrays.IntegerArray(whole, weights < 0))


def listed(limits: Any) -> list[Any]:
    """Limits one by one. As objects numpy would make numbers of its durations in nanoseconds."""
    is_of_durations = isinstance(limits, numpy.ndarray) and limits.dtype.kind == "m"
    given = limits if is_of_durations else numpy.asarray(limits, object)
    if given.ndim > 1:
        raise ValueError("several limits are one list")
    return [*numpy.atleast_1d(given)]


def microseconds(duration: Any) -> Fraction:
    """The microseconds of a duration, as a fraction."""
    if isinstance(duration, numpy.timedelta64):
        if numpy.isnat(duration):
            raise ValueError("a duration is missing")
        return Fraction(int(duration.astype("timedelta64[ns]").astype(numpy.int64)), 1_000)
    nanoseconds = getattr(duration, "value", None)
    if nanoseconds is not None:
        return Fraction(nanoseconds, 1_000)
    return Fraction(duration // datetime.timedelta(microseconds=1))


# Which measure a network has.


def unit_in(unit: Any) -> str | None:
    """The name of a unit, or None."""
    if unit is not None and not (isinstance(unit, str) and unit):
        raise DataFault(f"unit is a name, such as 'minutes', not {unit!r}", "unit")
    return unit


def scale_of(unit: str | None, scale: float | None) -> float | None:
    """The scale given, or that of whole milliseconds or millimetres; None for neither."""
    if scale is not None or unit is None:
        return scale
    return TIMES[unit] if unit in TIMES else FINE * LENGTHS[unit] if unit in LENGTHS else None


def base_of(unit: str | None, scale: float | None) -> str:
    """The unit in `BASES` of weights in a unit times a scale, or empty."""
    bases = (base for base, units in BASES.items() if unit in units and units[unit] == scale)
    return "" if unit is None or scale is None else next(bases, "")


def asked_for(
    unit: str | None, scale: float | None, base: str, own_unit: str | None = None,
    own_scale: float | None = None,
) -> Measure:
    """The measure for a caller's unit, on a graph in `base`, or of weights of its maker's own."""
    unit = unit_in(unit)
    if scale is not None:
        return Measure(own_unit or "" if unit is None else unit, scale)
    if unit is None or unit == own_unit:
        return Measure(base) if own_unit is None else Measure(own_unit, own_scale or 1)
    if unit in BASES.get(base, ()):
        return Measure(unit, BASES[base][unit])
    for units in BASES.values():
        if own_scale is not None and own_unit is not None and {unit, own_unit} <= set(units):
            return Measure(unit, own_scale * units[unit] / units[own_unit])
    if base:
        text = f"the graph's weights are {base}, so that a unit is one of {', '.join(BASES[base])}"
        raise DataFault(f"{text}; {unit!r} needs `scale`", "unit")
    text = f"nothing says how many of the graph's weights make one of {unit!r}: give `scale`, or a"
    comments = f"`c Weights are {TIME}.` or `c Weights are {LENGTH}.`"
    raise DataFault(f"{text} graph with {comments}", "unit")


def unknown(unit: str) -> DataFault:
    """The fault of a unit that is not known and has no scale."""
    text = f"{unit!r} is not one of {', '.join([*TIMES, *LENGTHS])}: any other unit needs `scale`"
    return DataFault(f"{text}, such as scale=1 for whole weights", "unit")
