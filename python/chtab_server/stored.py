"""What a service makes for a network, kept in a file beside it (`NAME.mapped`): roads, crossings,
tiles and what roads are called. A service that finds the file maps it into memory, and need not
read the others."""
from __future__ import annotations

import json
from collections.abc import Mapping
from typing import TYPE_CHECKING, Any, NamedTuple, TypeVar

import numpy

from chtab import files
from chtab_server import mapped
from chtab._roads.leaving import BothWays
from chtab._roads.lines import Lines, Pieces, tree_of
from chtab._roads.snapping import Origin, Roads
from chtab_server.osrm.crossings import Crossings
from chtab_server.tiles import Tiles

if TYPE_CHECKING:
    from numpy.typing import NDArray
    from chtab.network import Network
    from chtab.typing import Integers

Thing = TypeVar("Thing")
SUFFIX = ".mapped"


class Made(NamedTuple):
    """What is made for a network: its roads, the places of its nodes, the crossings, the streets of
    its arcs or None, the map's numbers of its nodes or None, and the tiles of its map, None before
    they are asked for."""

    roads: Roads
    coordinates: files.Coordinates
    crossings: Crossings
    streets: files.Streets | None
    numbers: Integers | None
    tiles: Tiles | None = None


def made(network: Network, streets: files.Streets | None, numbers: Integers | None) -> Made:
    """What is made of the files of a network."""
    roads, coordinates = network.roads, network.coordinates
    crossings = Crossings(roads, coordinates.copies(), streets)
    # A column in place of a list of as many objects.
    of_arcs: Any = crossings.street_of_arc
    streets = streets and streets._replace(of_arcs=of_arcs)
    return Made(roads, coordinates, crossings, streets, numbers)


def columns_of(name: str, thing: Any) -> dict[str, NDArray[Any]]:
    """The columns that an object has, by their names behind that of the object."""
    kept = vars(thing).items()
    return {f"{name}.{key}": column for key, column in kept if isinstance(column, numpy.ndarray)}


def with_columns(kind: type[Thing], name: str, columns: Mapping[str, NDArray[Any]]) -> Thing:
    """An object of a class with its columns, and nothing else."""
    found, before = object.__new__(kind), f"{name}."
    own = (key for key in columns if key.startswith(before))
    vars(found).update({key.removeprefix(before): columns[key] for key in own})
    return found


def write(path: str, sums: Mapping[str, str], kept: Made) -> None:
    """Writes the file of a network whose other files have these sums.

    Raises
    ------
    OSError
        The file can't be written.
    """
    roads, streets = kept.roads, kept.streets
    texts = {
        "comments": kept.coordinates.comments, "origin": [part.hex() for part in roads.origin[:2]],
        "outs": roads.ways.outs, "reach": roads.lines.index.reach,
        "side": None if streets is None else streets.side}
    # The lengths of arcs are made when they are first asked for.
    columns: dict[str, NDArray[Any]] = {"roads.lengths": roads.nanometres}
    things = roads, roads.lines, roads.lines.index, kept.crossings, kept.tiles
    for name, thing in zip(("roads", "lines", "pieces", "crossings", "tiles"), things):
        columns |= columns_of(name, thing)
    for name, column in zip(("longitudes", "latitudes"), kept.coordinates):
        columns[name] = numpy.asarray(column, numpy.float64)
    for name in "nodes", "weights", "is_last":
        columns[f"ways.{name}"] = getattr(roads.ways, name)
    if streets is not None:
        text = json.dumps([list(street) for street in streets.streets])
        columns["streets"] = numpy.frombuffer(text.encode(), numpy.uint8)
    if kept.numbers is not None:
        columns["numbers"] = kept.numbers
    mapped.write(path, sums, texts, columns)


def read(path: str, sums: Mapping[str, str]) -> Made:
    """What the file of a network has whose other files have these sums.

    Raises
    ------
    FileFault
        The file has something else.
    OSError
        The file can't be read.
    """
    found: Any = mapped.read(path, sums)
    texts, columns = found
    coordinates = files.Coordinates(columns["longitudes"], columns["latitudes"], texts["comments"])
    streets = None
    if "streets" in columns:
        listed = list(map(files.Street._make, json.loads(columns["streets"].tobytes())))
        streets = files.Streets(listed, columns["crossings.street_of_arc"], texts["side"])
    roads = roads_in(texts, columns, coordinates)
    crossings = with_columns(Crossings, "crossings", columns)
    crossings.roads, crossings.side = roads, texts["side"]
    crossings.streets = [files.Street(), *(streets.streets if streets else ())]
    tiles = with_columns(Tiles, "tiles", columns)
    tiles.lines = roads.lines
    return Made(roads, coordinates, crossings, streets, columns.get("numbers"), tiles)


def roads_in(
    texts: Mapping[str, Any], columns: Mapping[str, NDArray[Any]], coordinates: files.Coordinates,
) -> Roads:
    """The roads of a file."""
    roads, lines = with_columns(Roads, "roads", columns), with_columns(Lines, "lines", columns)
    pieces = lines.pieces = with_columns(Pieces, "pieces", columns)
    pieces.reach, pieces.tree = texts["reach"], tree_of(pieces.middles)
    roads.lines, roads.ends = lines, coordinates.ends()
    digest, of_nodes = map(bytes.fromhex, texts["origin"])
    roads.origin = Origin(digest, of_nodes)
    nodes, weights, is_last = (columns[f"ways.{name}"] for name in ("nodes", "weights", "is_last"))
    roads.ways, roads.is_last = BothWays(nodes, weights, texts["outs"], is_last), is_last.tolist()
    return roads
