"""Reads maps in XML, plain or compressed by gzip, bzip2 or xz, and in .osm.pbf. The first bytes
tell the format.

XML is read twice: first its ways and relations, then the nodes that roads use. A fault of the file
is one line.
"""
from __future__ import annotations

import bz2
import contextlib
import gzip
import lzma
import os
import shutil
import sys
import tempfile
import xml.parsers.expat
import zlib
from collections.abc import Iterator, Mapping, Sequence
from typing import TYPE_CHECKING, Any, NamedTuple

from chtab._engine.progress import Progress
from chtab.errors import FileFault
from chtab_maps.ways import ROAD_KEYS

if TYPE_CHECKING:
    from chtab_maps.tags import Tags
    from chtab_maps.ways import Survey
    from chtab.typing import Point

PACKED: dict[bytes, Any] = {b"\x1f\x8b": gzip.open, b"BZh": bz2.open, b"\xfd7zXZ\x00": lzma.open}
# The errors of the XML parser for a text that ends within an element.
CUT_SHORT = {
    xml.parsers.expat.errors.codes[text]
    for text in (
        "no element found", "unclosed token", "unclosed CDATA section", "partial character")}
PBF = b"\x0a\x09OSMHeader"
BLOCK = 1 << 20


class Relation(NamedTuple):
    """A relation of the type `restriction`: its number, its tags, and its members as (type, number,
    role)."""

    number: int
    tags: Tags
    members: list[tuple[str, int, str]]


@contextlib.contextmanager
def lasting(path: str) -> Iterator[str]:
    """Lends the path itself, or for `-` the path of a copy of standard input."""
    if path != "-":
        yield path
        return
    with tempfile.TemporaryDirectory(prefix="chtab-map-") as folder:
        copy = os.path.join(folder, "map")
        with open(copy, "wb") as file:
            shutil.copyfileobj(sys.stdin.buffer, file, BLOCK)
        if is_pbf(copy):
            os.rename(copy, copy + ".osm.pbf")
            copy += ".osm.pbf"
        yield copy


def is_pbf(path: str) -> bool:
    with open(path, "rb") as file:
        return file.read(15)[4:] == PBF


def read_map(path: str, survey: Survey, is_shown: bool = False) -> None:
    """Reads a map into a survey; `-` is standard input. `is_shown` reports progress."""
    name = "standard input" if path == "-" else os.path.basename(path)
    with lasting(path) as file:
        if is_pbf(file):
            from chtab_maps import pbf

            with Progress("reading", None, "objects", is_shown=is_shown) as progress:
                pbf.read(file, name, survey, progress)
        else:
            with Progress(
                "reading", 2 * os.path.getsize(file), "bytes", is_shown=is_shown) as progress:
                read_elements(file, name, Ways(survey), progress)
                nodes = Nodes(survey)
                read_elements(file, name, nodes, progress)
            survey.place_roads(nodes.places)


class Ways:
    """Keeps what the first reading of XML finds: roads, and relations that restrict turns."""

    def __init__(self, survey: Survey) -> None:
        self.survey = survey

    def way(self, number: int, tags: Tags, nodes: Sequence[str], is_deleted: bool) -> None:
        if not any(key in tags for key in ROAD_KEYS):
            return
        if is_deleted:
            self.survey.report.note("deleted", "", "way", number)
            return
        rule = self.survey.rule_by(self.survey.verdict_on(tags), number)
        if rule:
            self.survey.add_way(
                number, rule, [int(node) for node in nodes], streets=self.survey.streets_of(tags))

    def relation(
        self, number: int, tags: Tags, members: Sequence[tuple[str, str, str]], is_deleted: bool,
    ) -> None:
        if tags.get("type") == "restriction" and not is_deleted:
            self.survey.relations.append(
                Relation(number, tags, [(kind, int(ref), role) for kind, ref, role in members]))


class Nodes:
    """Keeps what the second reading finds: the places of the roads' nodes, barriers and lights."""

    def __init__(self, survey: Survey) -> None:
        self.survey, self.wanted = survey, set(survey.nodes())
        self.places: dict[int, Point] = {}

    def node(
        self, number: int, tags: Tags, place: tuple[str | None, str | None], is_deleted: bool,
    ) -> None:
        x, y = place
        if number not in self.wanted or is_deleted or x is None or y is None:
            return
        longitude, latitude = float(x), float(y)
        if not (-180 <= longitude <= 180 and -90 <= latitude <= 90):
            raise ValueError(
                f"node {number} at longitude {longitude:g}, latitude {latitude:g} is no place on "
                "the earth")
        if number in self.places:
            self.survey.report.note("twice", "node", "node", number)
        self.places[number] = (longitude, latitude)
        self.survey.add_node(number, tags)


class Elements:
    """Handles the elements of XML, and passes those on that `keeper` has a method for."""

    def __init__(self, keeper: Ways | Nodes) -> None:
        self.calls = {
            name: getattr(keeper, name) for name in ("node", "way", "relation")
            if hasattr(keeper, name)}
        self.depth = 0
        self.head: Mapping[str, str] = {}
        self.tags: dict[str, str] = {}
        self.parts: list[Any] = []

    def start(self, name: str, attributes: Mapping[str, str]) -> None:
        self.depth += 1
        if self.depth == 1 and name != "osm":
            raise ValueError(f"its first element is {name}")
        if self.depth == 2 and name in self.calls:
            self.head, self.tags, self.parts = attributes, {}, []
        elif self.depth != 3:
            return
        elif name == "tag":
            self.tags[attributes["k"]] = attributes["v"]
        elif name == "nd":
            self.parts.append(attributes["ref"])
        elif name == "member":
            self.parts.append((attributes["type"], attributes["ref"], attributes["role"]))

    def end(self, name: str) -> None:
        self.depth -= 1
        if self.depth == 1 and name in self.calls:
            head = self.head
            is_deleted = head.get("action") == "delete" or head.get("visible") == "false"
            parts = (head.get("lon"), head.get("lat")) if name == "node" else self.parts
            self.calls[name](int(head["id"]), self.tags, parts, is_deleted)


def blocks_of(path: str, progress: Progress) -> Iterator[bytes]:
    """Yields the decompressed bytes of a file in blocks. `progress` counts the bytes of the file
    itself."""
    with open(path, "rb") as packed:
        head = packed.read(6)
        packed.seek(0)
        file = next(
            (opener(packed) for magic, opener in PACKED.items() if head.startswith(magic)), packed)
        before = 0
        while block := file.read(BLOCK):
            yield block
            at = packed.tell()
            progress.step(at - before)
            before = at


def read_elements(path: str, name: str, keeper: Ways | Nodes, progress: Progress) -> None:
    """Reads XML once, for the objects that `keeper` wants."""
    elements = Elements(keeper)
    parser = xml.parsers.expat.ParserCreate()
    parser.StartElementHandler, parser.EndElementHandler = elements.start, elements.end
    try:
        for block in blocks_of(path, progress):
            parser.Parse(block, False)
        parser.Parse(b"", True)
    except (EOFError, zlib.error, lzma.LZMAError, gzip.BadGzipFile) as fault:
        raise FileFault(f"{name}: cut short or spoilt: {fault}") from None
    except xml.parsers.expat.ExpatError as fault:
        raise FileFault(
            f"{name}: "
            f"{'cut short' if fault.code in CUT_SHORT else 'not a map in XML'}: {fault}") from None
    except KeyError as fault:
        raise FileFault(
            f"{name}: line {parser.CurrentLineNumber}: an element has no attribute "
            f"{fault.args[0]}") from None
    except (ValueError, OverflowError) as fault:
        raise FileFault(
            f"{name}: line {parser.CurrentLineNumber}: not a map of OpenStreetMap: "
            f"{fault}") from None
