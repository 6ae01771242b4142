"""Lines as text, by Google's encoded polyline format: each number is a difference, in groups of
five bits, the least significant first."""
from __future__ import annotations

import json
from typing import TYPE_CHECKING

import numpy

from chtab._engine.walks import cuts_of
from chtab_server.osrm.options import Refusal

if TYPE_CHECKING:
    from collections.abc import Sequence
    from chtab.typing import Floats, Integers, Point

# Groups of five bits of one difference: those of 360 degrees in millionths have 30 bits and a sign.
MOST_GROUPS = 7
SHIFTS = 5 * numpy.arange(MOST_GROUPS, dtype=numpy.int32)
# The digits behind the point of each form of lines that is a polyline.
DIGITS = {"polyline": 5, "polyline6": 6}
# The text of a place that is where the one before is.
SAME = "??"


def texts(places: Floats, firsts: Integers, form: str) -> list[str]:
    """Several lines of at least two places each, which follow on each other and begin at `firsts`,
    as texts of JSON in this form."""
    if form in DIGITS:
        # The letters of a polyline are no quotes.
        return [
            '"' + text.replace("\\", "\\\\") + '"'
            for text in encoded_each(places, firsts, DIGITS[form])]
    listed, cuts = places.tolist(), [*numpy.asarray(firsts).tolist(), len(places)]
    return [
        f'{{"type": "LineString", "coordinates": {json.dumps(listed[first:last])}}}'
        for first, last in zip(cuts, cuts[1:])]


def encoded(places: Floats, precision: int) -> str:
    """The text of places (n, 2), longitude and latitude in degrees, rounded to `precision` decimal
    digits."""
    return encoded_each(places, [0], precision)[0] if len(places) else ""


def encoded_each(places: Floats, firsts: Sequence[int] | Integers, precision: int) -> list[str]:
    """The texts of several lines of at least one place each, which stand one after the other and
    begin at `firsts`."""
    numbers = integers(places, precision)
    steps = numbers.copy()
    steps[1:] -= numbers[:-1]
    steps[firsts] = numbers[firsts]
    return letters(steps, numpy.append(firsts, len(places)))


def integers(places: Floats, precision: int) -> Integers:
    """Latitudes and longitudes of places (n, 2) as whole numbers with so many digits behind the
    point: int32 (n, 2)."""
    return numpy.floor(places[:, ::-1] * 10.0**precision + 0.5).astype(numpy.int32)


def letters(steps: Integers, cuts: Integers) -> list[str]:
    """The texts of lines by the differences of their places, int32 (n, 2): line k has those from
    `cuts[k]` to before `cuts[k + 1]`."""
    flat = steps.reshape(-1)
    numbers = (flat << 1) ^ (flat >> 31)
    # A column for each group, of all numbers as many as the largest one has.
    groups = numbers[:, None] >> SHIFTS[:max(1, -(-int(numbers.max(initial=0)).bit_length() // 5))]
    found = ((groups & 31) + numpy.where(groups >= 32, 32 + 63, 63)).astype(numpy.uint8)
    is_there = groups > 0
    is_there[:, 0] = True
    text = found[is_there].tobytes().decode("ascii")
    before = cuts_of(is_there.sum(axis=1))
    ends = before[2 * cuts].tolist()
    return [text[start:end] for start, end in zip(ends, ends[1:])]


def decoded(text: str, precision: int, most: int) -> list[Point]:
    """The places of a text, (longitude, latitude) in degrees. Refuses more than `most` before it
    reads them."""
    numbers: list[int] = []
    value = shift = 0
    for letter in text.encode("ascii"):
        group = letter - 63
        if not 0 <= group < 64 or shift >= 5 * MOST_GROUPS:
            raise Refusal(
                "InvalidQuery", "the polyline has a character that is none of a polyline's")
        value |= (group & 31) << shift
        shift += 5
        if group < 32:
            numbers.append(~(value >> 1) if value & 1 else value >> 1)
            value = shift = 0
            if len(numbers) > 2 * most:
                raise Refusal("TooBig", f"at most {most:,} coordinates")
    if shift or len(numbers) % 2 or not numbers:
        raise Refusal("InvalidQuery", "the polyline ends within a coordinate")
    latitudes, longitudes = (numpy.cumsum(numbers[axis::2]).tolist() for axis in (0, 1))
    return [
        (longitude / 10**precision, latitude / 10**precision)
        for longitude, latitude in zip(longitudes, latitudes)]
