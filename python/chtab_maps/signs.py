"""The streets of ways: for each direction of a road, the tags that travellers read on signs."""
from __future__ import annotations

from collections.abc import Iterable
from typing import TYPE_CHECKING

from chtab.files import Street

if TYPE_CHECKING:
    from chtab_maps.tags import Tags

# The tags of a street. Signs with destinations may differ by direction.
SIGNS = ("destination", "destination:ref")
KEYS = (
    "highway", "junction", "name", "ref",
    *(f"{key}{side}" for key in SIGNS for side in ("", ":forward", ":backward")))
# The words of `junction` for rings, on which all traffic goes round.
# https://wiki.openstreetmap.org/wiki/Key:junction
RINGS = ("roundabout", "circular")


def listed(value: str) -> str:
    """The items of a list in a tag, as a sign shows them."""
    return ", ".join(word for word in map(str.strip, value.split(";")) if word)


def destinations_of(tags: Tags, side: str) -> str:
    """The destinations on the signs of a way in one direction, `REF, REF: PLACE, PLACE`:
    https://wiki.openstreetmap.org/wiki/Key:destination."""
    places, numbers = (listed(tags.get(f"{key}:{side}", tags.get(key, ""))) for key in SIGNS)
    return f"{numbers}: {places}" if numbers and places else numbers or places


def streets_of(tags: Tags) -> tuple[Street, Street]:
    """The streets of both directions of a road: along it, and against it."""
    kind = tags.get("highway", "ferry")
    junction = tags.get("junction", "")
    common = (
        kind, junction if junction in RINGS else "", tags.get("name", "").strip(),
        listed(tags.get("ref", "")))
    return (
        Street(*common, destinations_of(tags, "forward")),
        Street(*common, destinations_of(tags, "backward")))


class Streets:
    """The different streets of a map. Each road has a pair of their numbers, which count from 0,
    for its two directions."""

    def __init__(self) -> None:
        self.numbers: dict[Street, int] = {}

    def add(self, tags: Tags) -> tuple[int, int]:
        """The numbers of the streets along a way and against it."""
        along, against = (
            self.numbers.setdefault(street, len(self.numbers)) for street in streets_of(tags))
        return along, against

    def chosen(self, numbers: Iterable[int | None]) -> tuple[list[Street], list[int]]:
        """The different streets with these numbers, in the order of their first use, and for each
        number the place of its street, from 1 on, or 0 for None."""
        every = list(self.numbers)
        places: dict[int | None, int] = {None: 0}
        found = [places.setdefault(number, len(places)) for number in numbers]
        return [every[number] for number in places if number is not None], found
