"""Reads the tables of `tables/`: a file for each way of travelling, and one for the limits of
speed."""
from __future__ import annotations

import functools
import pathlib
import tomllib
from collections.abc import Iterable, Mapping
from typing import Any, NamedTuple

TABLES = pathlib.Path(__file__).resolve().parent / "tables"
NAMES = ("car", "bicycle", "foot")
# The effects that a limit of speed may have, as in `[maxspeed]`.
LIMITS = ("is the speed", "bounds the speed", "says nothing")


class Access(NamedTuple):
    """The tags of access in the order in which they count, and the words that open and close."""

    tags: tuple[str, ...]
    open: frozenset[str]
    closed: frozenset[str]


class Oneway(NamedTuple):
    """The tags of direction in the order in which they count; the tags that imply a direction, and
    those that open the other one, with their words."""

    tags: tuple[str, ...]
    implied: dict[str, frozenset[str]]
    opened_by: dict[str, frozenset[str]]


class Barriers(NamedTuple):
    """The tags of access at the node, which count first; the kinds that are open and closed, and
    whether all others are open."""

    access: Access
    open: frozenset[str]
    closed: frozenset[str]
    others_open: bool


class Profile(NamedTuple):
    """One way of travelling. Speeds are in kilometres an hour."""

    name: str
    people: str
    speeds: dict[str, float]
    speeds_where_opened: dict[str, float]
    access: Access
    closed_by: dict[str, frozenset[str]]
    oneway: Oneway
    limit: str
    ferry_speed: float
    ferries_for_others: tuple[str, ...]
    barriers: Barriers
    turn_tags: tuple[str, ...]
    turn_exceptions: frozenset[str]

    def keys(self) -> set[str]:
        """The tags of ways that the tables use."""
        of_speed = {"maxspeed", "maxspeed:forward", "maxspeed:backward", "route", "duration"}
        return (
            of_speed
            | {"highway"}.union(
                self.access.tags, self.closed_by, self.oneway.tags, self.oneway.implied,
                self.oneway.opened_by, self.ferries_for_others))


class Limits(NamedTuple):
    """The kilometres an hour of units, words and zones; 0 for a word without a single number.
    `most` is the highest limit that counts."""

    units: dict[str, float]
    words: dict[str, float]
    most: int


def read(name: str) -> dict[str, Any]:
    with open(TABLES / f"{name}.toml", "rb") as file:
        return tomllib.load(file)


def sets(table: Mapping[str, Iterable[str]]) -> dict[str, frozenset[str]]:
    return {key: frozenset(words) for key, words in table.items()}


def access(table: Mapping[str, Any], more: Iterable[str] = ()) -> Access:
    return Access(
        tuple(table["tags"]), frozenset(table["open"]) | frozenset(more),
        frozenset(table["closed"]) - frozenset(more))


@functools.cache
def profile(name: str) -> Profile:
    """The profile with a name of `NAMES`."""
    table = read(name)
    oneway, barriers, turns = table["oneway"], table["barriers"], table["turns"]
    return Profile(
        name=name, people=table["people"], speeds=table["speeds"],
        speeds_where_opened=table["speeds_where_opened"], access=access(table["access"]),
        closed_by=sets(table["closed_by"]),
        oneway=Oneway(tuple(oneway["tags"]), sets(oneway["implied"]), sets(oneway["opened_by"])),
        limit=table["maxspeed"]["limit"], ferry_speed=table["ferries"]["speed"],
        ferries_for_others=tuple(table["ferries"]["for_others"]),
        barriers=Barriers(
            access(table["access"], barriers["open_words"]), frozenset(barriers["open"]),
            frozenset(barriers["closed"]), barriers["others"] == "open"),
        turn_tags=tuple(turns["tags"]), turn_exceptions=frozenset(turns["except"]))


@functools.cache
def limits() -> Limits:
    """The table of limits of speed."""
    table = read("limits")
    return Limits(table["units"], table["words"] | table["zones"], table["most"])
