"""Maps of the form .osm.pbf, read as the text that `unpacking` makes of them: a line for each
object.

https://osmcode.org/opl-file-format/
"""
from __future__ import annotations

import math
import re
import subprocess
import sys
from collections.abc import Iterable, Iterator, Mapping
from typing import IO, TYPE_CHECKING, cast

from chtab.errors import FileFault
from chtab_maps import unpacking
from chtab_maps.reading import Relation
from chtab_maps.signs import KEYS
from chtab_maps.ways import LIGHT, NOWHERE, ROAD_KEYS

if TYPE_CHECKING:
    from chtab._engine.progress import Progress
    from chtab_maps.ways import Survey, Verdict
    from chtab.typing import Point

# A member of a relation, and a character that is given by its number.
MEMBER = re.compile(r"([nwr])(-?\d+)@([^,]*)")
CHARACTER = re.compile(r"%([0-9a-f]+)%")
KINDS = {"n": "node", "w": "way", "r": "relation"}
# Marks of the lines that are read. Of nodes: a barrier, a traffic light, or a number below 0, whose
# place pyosmium doesn't look up.
NODE_MARKS = (b"barrier=", f"highway={LIGHT}".encode(), b"\nn-")
OTHER_MARKS = (*(f"{key}=".encode() for key in ROAD_KEYS), b"type=restriction")
# A node of a way that has no place.
NO_PLACE = "xy"
# How many bytes of the text are read at a time.
BLOCK = 1 << 18


def texts_of(file: IO[bytes]) -> Iterator[bytes]:
    """Yields the text of a file in parts of whole lines, each with a line feed before its first
    line too."""
    rest = b"\n"
    while block := file.read(BLOCK):
        end = block.rfind(b"\n") + 1
        if end:
            yield b"".join((rest, memoryview(block)[:end]))
            rest = b"\n"
        rest += block[end:]


def nodes_and_others(text: bytes) -> tuple[bytes, bytes]:
    """The lines of nodes, which come first, and the other lines."""
    if text.startswith(b"n", text.rindex(b"\n", 0, -1) + 1):
        return text, b""
    if not text.startswith(b"\nn"):
        return b"", text
    end = min(at for at in map(text.find, (b"\nw", b"\nr")) if at >= 0)
    return text[:end + 1], text[end:]


def lines_with(text: bytes, marks: Iterable[bytes]) -> Iterator[str]:
    """Yields the lines of a text that have one of these marks, in order. The others are skipped
    without being parsed."""
    starts = set()
    for mark in marks:
        at = text.find(mark)
        while at >= 0:
            starts.add(text.rindex(b"\n", 0, at + 1) + 1)
            at = text.find(mark, text.index(b"\n", at + 1))
    for start in sorted(starts):
        yield text[start:text.index(b"\n", start)].decode("utf-8", "replace")


def fields_of(line: str) -> dict[str, str]:
    """The fields of a line by their letters."""
    return {field[:1]: field[1:] for field in line.split(" ")}


def plain(text: str) -> str:
    return CHARACTER.sub(lambda found: chr(int(found[1], 16)), text) if "%" in text else text


def tags_of(items: Iterable[str]) -> dict[str, str]:
    """The tags of items of the form `key=value`."""
    pairs = (item.partition("=") for item in items if item)
    return {plain(key): plain(value) for key, _, value in pairs}


def nodes_of(text: str) -> tuple[list[int], list[float], list[float]]:
    """The nodes of a way, `n1x9.5y47.1,n2xy,..`: their numbers, longitudes and latitudes, or those
    of `NOWHERE` for a node without a place."""
    if not text:
        return [], [], []
    parts = text[1:].replace("x", "y").replace(",n", "y").split("y")
    if NO_PLACE in text:
        parts = [part or "nan" for part in parts]
    return list(map(int, parts[::3])), list(map(float, parts[1::3])), list(map(float, parts[2::3]))


class Lines:
    """Adds the lines of the text to a survey."""

    def __init__(self, survey: Survey) -> None:
        self.survey = survey
        self.asked = re.compile(f",((?:{'|'.join(map(re.escape, survey.keys))})=[^,]*)")
        self.called = re.compile(f",((?:{'|'.join(map(re.escape, KEYS))})=[^,]*)")
        # The verdicts by the relevant tags, as the text has them, and the places of nodes with
        # numbers below 0.
        self.verdicts: dict[tuple[str, ...], Verdict | None] = {}
        self.places: dict[int, Point] = {}

    def take(self, text: bytes) -> None:
        """Reads a text of `texts_of`."""
        nodes, others = nodes_and_others(text)
        for line in lines_with(nodes, NODE_MARKS):
            self.node(fields_of(line))
        for line in lines_with(others, OTHER_MARKS):
            if line[0] == "w":
                self.way(line)
            else:
                self.relation(fields_of(line))

    def node(self, fields: Mapping[str, str]) -> None:
        """Reads a node with a barrier or a traffic light, or with a number below 0."""
        number, tags = int(fields["n"]), tags_of(fields["T"].split(","))
        if fields["d"] == "D" or not fields["x"]:
            return
        if number < 0:
            self.places[number] = (float(fields["x"]), float(fields["y"]))
            self.survey.lone_nodes.add(number)
        self.survey.add_node(number, tags)

    def verdict_on(self, items: tuple[str, ...]) -> Verdict | None:
        """The verdict on a way with these tags; None if it has none of `ROAD_KEYS`."""
        if items not in self.verdicts:
            tags = tags_of(items)
            self.verdicts[items] = (
                self.survey.verdict_on(tags) if any(key in tags for key in ROAD_KEYS) else None)
        return self.verdicts[items]

    def way(self, line: str) -> None:
        number, _, state, tags, nodes = line.split(" ")
        verdict = self.verdict_on(tuple(self.asked.findall("," + tags[1:])))
        if not verdict:
            return
        if state == "dD":
            self.survey.report.note("deleted", "", "way", int(number[1:]))
            return
        rule = self.survey.rule_by(verdict, int(number[1:]))
        if not rule:
            return
        numbers, longitudes, latitudes = nodes_of(nodes[1:])
        if self.places and NO_PLACE in nodes:
            self.place(numbers, longitudes, latitudes)
        streets = (
            None if self.survey.streets is None
            else self.survey.streets_of(tags_of(self.called.findall("," + tags[1:]))))
        self.survey.add_way(int(number[1:]), rule, numbers, longitudes, latitudes, streets)

    def place(self, numbers: list[int], longitudes: list[float], latitudes: list[float]) -> None:
        """Adds the places of nodes that pyosmium didn't look up."""
        for at, number in enumerate(numbers):
            if math.isnan(longitudes[at]):
                longitudes[at], latitudes[at] = self.places.get(number, NOWHERE)

    def relation(self, fields: Mapping[str, str]) -> None:
        tags = tags_of(fields["T"].split(","))
        if tags.get("type") == "restriction" and fields["d"] != "D":
            members = [
                (KINDS[kind], int(ref), plain(role))
                for kind, ref, role in MEMBER.findall(fields["M"])]
            self.survey.relations.append(Relation(int(fields["r"]), tags, members))


def read(path: str, name: str, survey: Survey, progress: Progress) -> None:
    """Reads a map into a survey, by a child process that unpacks it. `progress` counts its
    objects."""
    lines = Lines(survey)
    command = [sys.executable, unpacking.__file__, path]
    with subprocess.Popen(command, stdout=subprocess.PIPE, stderr=subprocess.PIPE) as child:
        try:
            for part in texts_of(cast(IO[bytes], child.stdout)):
                lines.take(part)
                progress.step(part.count(b"\n") - 1)
            text = cast(IO[bytes], child.stderr).read().decode("utf-8", "replace")
            errors = text.strip().splitlines()
        except BaseException:
            child.kill()
            raise
    if child.returncode == unpacking.NO_OSMIUM:
        raise FileFault(
            f"{name}: the form .pbf needs pyosmium (Debian's package python3-pyosmium); the "
            "forms of XML need nothing")
    if child.returncode:
        raise FileFault(
            f"{name}: cut short or spoilt: "
            f"{errors[-1] if errors else f'reading it ended with status {child.returncode}'}")
