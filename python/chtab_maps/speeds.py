"""Reads limits of speed and durations of ferries from tags.

https://wiki.openstreetmap.org/wiki/Key:maxspeed and
https://wiki.openstreetmap.org/wiki/Key:duration
"""
from __future__ import annotations

import re
from typing import TYPE_CHECKING

from chtab_maps import profiles
from chtab_maps.tags import words_of

if TYPE_CHECKING:
    from chtab_maps.tags import Notes, Tags

NUMBER = re.compile(r"(\d+(?:\.\d+)?)\s*([a-z/]*)", re.ASCII)
# A zone whose name is its limit, in a country that counts in kilometres: DE:zone:30, FR:zone30,
# CZ:30.
ZONE = re.compile(r"(?!GB|UK|US)[A-Z]{2}(?:-[A-Z]+)?:(?:zone:?)?(\d+)", re.ASCII)
# Hours and minutes, and optionally seconds; minutes alone; or the form of ISO 8601.
CLOCK = re.compile(r"(?:(\d+):)?(\d+)(?::(\d\d))?", re.ASCII)
ISO = re.compile(r"P(?:(\d+)D)?(?:T(?:(\d+)H)?(?:(\d+)M)?(?:(\d+)S)?)?", re.ASCII)


def one_limit(word: str) -> float | None:
    """The kilometres an hour of one word; 0 if it has no single number, None if it can't be
    read."""
    limits = profiles.limits()
    if word in limits.words:
        return limits.words[word]
    zone, number = ZONE.fullmatch(word), NUMBER.fullmatch(word)
    if zone:
        speed: float = int(zone[1])
    elif number and (not number[2] or number[2] in limits.units):
        speed = float(number[1]) * limits.units.get(number[2], 1)
    else:
        return None
    return speed if 0 < speed <= limits.most else None


def limit_of(tags: Tags, side: str, notes: Notes) -> float | None:
    """The limit of a way in one direction, `forward` or `backward`, in kilometres an hour; None if
    there is no number.

    The least of a list counts. What can't be read is noted and ignored.
    """
    key = f"maxspeed:{side}" if f"maxspeed:{side}" in tags else "maxspeed"
    if key not in tags:
        return None
    found = [one_limit(word) for word in words_of(tags[key])]
    if None in found or not found:
        notes.append(("speeds", f"{key}={tags[key]}"))
    return min((limit for limit in found if limit), default=None)


def speed_of(tags: Tags, side: str, usual: float, limit_use: str, notes: Notes) -> float:
    """The kilometres an hour in one direction of a way whose kind has the usual speed."""
    if limit_use == "says nothing":
        return usual
    limit = limit_of(tags, side, notes)
    if limit is None:
        return usual
    return min(limit, usual) if limit_use == "bounds the speed" else limit


def seconds_of(duration: str) -> int | None:
    """The seconds of a duration; None if it can't be read or is 0."""
    clock = CLOCK.fullmatch(duration.strip())
    if clock:
        hours, minutes, seconds = (int(part or 0) for part in clock.groups())
        return hours * 3600 + minutes * 60 + seconds or None
    iso = ISO.fullmatch(duration.strip())
    if iso:
        days, hours, minutes, seconds = (int(part or 0) for part in iso.groups())
        return days * 86_400 + hours * 3600 + minutes * 60 + seconds or None
    return None
