"""What the tags of a way or a node mean for one way of travelling: whether it is open, and in which
direction.

`notes` is a list for what could not be read, as (kind, text); the kinds are those of `report`.
"""
from __future__ import annotations

from collections.abc import Mapping
from typing import TYPE_CHECKING, TypeAlias

if TYPE_CHECKING:
    from chtab_maps.profiles import Access, Barriers, Oneway
# The meanings of the words of `oneway`: along the way, against it, both, or a direction that
# changes with the time of day. If the direction alternates all the time (`alternating`), both are
# open. https://wiki.openstreetmap.org/wiki/Key:oneway
ALONG, AGAINST, BOTH, BY_TIME = 1, -1, 0, None
DIRECTIONS: dict[str, int | None] = {
    "yes": ALONG, "true": ALONG, "1": ALONG, "-1": AGAINST, "reverse": AGAINST, "no": BOTH,
    "false": BOTH, "0": BOTH, "alternating": BOTH, "reversible": BY_TIME}


# The tags of an object of the map, and the notes about it: kinds and words.
Tags: TypeAlias = Mapping[str, str]
Notes: TypeAlias = list[tuple[str, str]]


def words_of(value: str) -> set[str]:
    """The words of a list in a tag, as a set, because their order has no meaning."""
    return {word.strip() for word in value.split(";")} - {""}


def deciding(tags: Tags, access: Access, notes: Notes) -> tuple[str, bool] | tuple[None, None]:
    """The first of the access tags with a known word, and whether it opens: (tag, True or False),
    or (None, None).

    Of several words one that opens is enough.
    """
    for key in access.tags:
        if key not in tags:
            continue
        words = words_of(tags[key])
        if words & access.open:
            return key, True
        if words & access.closed:
            return key, False
        notes.append(("access", f"{key}={tags[key]}"))
    return None, None


def has_one_of(tags: Tags, table: Mapping[str, frozenset[str]]) -> str | None:
    """The first tag of a table {key: words} with one of its words, as key=value; None if there is
    none."""
    return next(
        (
            f"{key}={tags[key]}" for key, words in table.items()
            if key in tags and words_of(tags[key]) & words), None)


def direction_of(tags: Tags, oneway: Oneway, notes: Notes) -> int | None:
    """ALONG, AGAINST, BOTH or BY_TIME."""
    found: int | None = ALONG if has_one_of(tags, oneway.implied) else BOTH
    for key in oneway.tags:
        if tags.get(key) in DIRECTIONS:
            found = DIRECTIONS[tags[key]]
            break
        if key in tags:
            notes.append(("oneway", f"{key}={tags[key]}"))
    return BOTH if found in (ALONG, AGAINST) and has_one_of(tags, oneway.opened_by) else found


def is_closed_barrier(tags: Tags, barriers: Barriers, notes: Notes) -> bool:
    """Whether a node with these tags, one of which is `barrier`, is closed."""
    key, is_open = deciding(tags, barriers.access, notes)
    if key:
        return not is_open
    kinds = words_of(tags["barrier"])
    if kinds & barriers.closed:
        return True
    if kinds <= barriers.open:
        return False
    notes.append(("barrier kinds", f"barrier={tags['barrier']}"))
    return not barriers.others_open
