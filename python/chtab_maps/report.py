"""Reports what a conversion left out, ignored or could not read: counted by kind and words in a
table, and on request in a file with the map's number of each object."""
from __future__ import annotations

import collections
import csv
from collections.abc import Iterable, Mapping
from typing import Any

# The kinds of notes, in the order of the table.
KINDS = {
    "kinds": "ways of other kinds", "closed": "ways closed by their tags",
    "by time": "ways whose direction changes with the time", "ferries": "ferries left out",
    "excluded": "ways of the classes that --exclude names", "deleted": "ways that are deleted",
    "twice": "objects whose number came before", "short": "ways of fewer than two nodes",
    "missing": "nodes of roads that the map doesn't have: dead ends",
    "barriers": "closed barriers: dead ends", "barrier kinds": "barriers of unknown kind",
    "access": "access tags passed over: no known word",
    "oneway": "one-way tags passed over: no known word",
    "speeds": "limits of speed passed over: unreadable or too high",
    "durations": "ferries without a readable duration", "turns": "turn restrictions left out",
    "parts": "nodes of smaller components"}
# How many words of a kind the table has.
MOST_WORDS = 4


class Report:
    """Counts of each kind, each by its words.

    Parameters
    ----------
    is_logged : bool
        Whether the object of each note is kept, for `write_log`.
    """

    def __init__(self, is_logged: bool = False) -> None:
        self.counts: dict[str, collections.Counter[str]] = {
            kind: collections.Counter() for kind in KINDS}
        self.log: list[tuple[Any, ...]] | None = [] if is_logged else None

    def note(
        self, kind: str, words: str, thing: str | None = None, number: int | None = None,
        count: int = 1,
    ) -> None:
        """Counts a note about a `thing` of the map, `way`, `node` or `relation`, by its number."""
        self.counts[kind][words] += count
        if self.log is not None and thing is not None:
            self.log.append((thing, number, kind, words))

    def note_all(self, notes: Iterable[tuple[str, str]], thing: str, number: int) -> None:
        for kind, words in notes:
            self.note(kind, words, thing, number)

    def write_log(self, path: str) -> None:
        """Writes a line of CSV for each noted object: its type, its number in the map, the reason,
        and its words."""
        with open(path, "w", newline="") as file:
            lines = csv.writer(file, lineterminator="\n")
            lines.writerow(["object", "id", "reason", "words"])
            lines.writerows(
                (thing, number, KINDS[kind], words)
                for thing, number, kind, words in self.log or ())

    def total(self, kind: str) -> int:
        return self.counts[kind].total()

    def lines(self, title: str) -> list[str]:
        """The table: a line for each kind that occurred, with its most frequent words."""
        rows = [
            (f"{self.total(kind):,}", what, words_text(self.counts[kind]))
            for kind, what in KINDS.items() if self.total(kind)]
        if not rows:
            return [f"{title}: nothing"]
        widths = [max(len(row[column]) for row in rows) for column in (0, 1)]
        return [
            f"{title}:",
            *(
                f"  {count:>{widths[0]}}  {kind:<{widths[1]}}  {words}".rstrip()
                for count, kind, words in rows)]


def words_text(counts: Mapping[str, int]) -> str:
    """The most frequent words in order, and how many others there are."""
    ordered = sorted(counts.items(), key=lambda item: (-item[1], item[0]))
    found = [f"{count:,} {words}" for words, count in ordered[:MOST_WORDS] if words]
    others = sum(count for _, count in ordered[MOST_WORDS:])
    return ", ".join(found + [f"{others:,} others"] * (others > 0))
