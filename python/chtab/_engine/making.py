"""Builds the hierarchy of a network that is made of arcs, and writes its files."""
from __future__ import annotations

import contextlib
import hashlib
import io
import os
import pathlib
import secrets
from collections.abc import Iterator, Mapping, Sequence
from typing import IO, TYPE_CHECKING, Any

import numpy

from chtab import files
from chtab._engine import folders, library, running as running_of
from chtab._engine.interruptible import LONG, interruptible
from chtab.errors import FileFault
from chtab._files.node_labels import Labels, fixed

if TYPE_CHECKING:
    import ctypes
    from chtab._engine.library import Handle
    from chtab._engine.opening import Running
    from chtab._files.arc_columns import Arcs
    from chtab.typing import Integers, Path, Point

# The files of a network in its folder.
GRAPH, SAVED, COORDINATES, BENDS, LABELS = (
    "network.gr", "network.ch", "network.co", "network.bends", "network.json")
NAMES, STREETS, WAYS = "network.nodes", "network.names", "network.ways"
# The file of the order in which weights are customized, where `customizable` was called.
ORDER = "network.order"
# The text of a hierarchy mostly has fewer bytes than this for each node and arc.
BYTES = 64


@contextlib.contextmanager
def begun(folder: Path) -> Iterator[str]:
    """Lends a folder that gets the wanted name if all was written, and is removed otherwise."""
    folder = os.path.realpath(folder)
    see_that_free(folder)
    os.makedirs(os.path.dirname(folder), exist_ok=True)
    part = f"{folder}.part-{secrets.token_hex(8)}"
    try:
        kept = folders.Folder(part)
    except OSError as fault:
        # The caller knows only this name of the folder.
        raise type(fault)(fault.errno, fault.strerror, folder) from None
    try:
        yield part
        see_that_free(folder)
        os.rename(part, folder)
    finally:
        kept.remove()


def see_that_free(folder: str) -> None:
    if os.path.lexists(folder) and not (os.path.isdir(folder) and not os.listdir(folder)):
        raise FileExistsError(
            f"{folder} is there and is not empty; Network.open opens the network of a folder")


def write(arcs: Arcs, bends: Sequence[Integers] | None, folder: str) -> None:
    """Writes the files of arcs and of their bends in columns, without their hierarchy."""
    graph, coordinates, of_bends, labels = (
        os.path.join(folder, name) for name in (GRAPH, COORDINATES, BENDS, LABELS))
    with naming(graph), open(graph, "w") as file:
        write_graph(arcs, file)
    with naming(coordinates):
        if arcs.places is not None:
            columns = [numpy.rint(part * 1e6).astype(numpy.int64) for part in arcs.places]
            numbers = numpy.arange(1, arcs.labels.count + 1)
            files.write_point_columns(coordinates, "co", [numbers, *columns], arcs.turns)
        if arcs.beside is not None:
            arcs.beside.write(folder)
    with naming(of_bends):
        if bends is not None:
            files.write_point_columns(of_bends, "bends", bends)
    with naming(labels):
        files.write_labels(labels, labelling_of(arcs, digest_of(graph)))


def write_graph(arcs: Arcs, target: IO[str]) -> None:
    """Writes the graph of arcs."""
    comments = [f"Weights are {arcs.base}."] * bool(arcs.base)
    comments += [] if arcs.scale is None else [files.scale_comment(arcs.scale)]
    columns = arcs.tails, arcs.heads, arcs.weights
    files.write_graph_columns(target, arcs.labels.count, columns, comments)


def bend_columns(bends: Mapping[int, Sequence[Point]]) -> list[Integers]:
    """The points of arcs in columns, as their file has them: arcs from 1 on, and millionths."""
    points = [(arc + 1, x, y) for arc in sorted(bends) for x, y in bends[arc]]
    arcs, *places = numpy.array(points, float).reshape(-1, 3).T
    return [arcs.astype(numpy.int64), *(numpy.rint(x * 1e6).astype(numpy.int64) for x in places)]


@contextlib.contextmanager
def naming(path: str) -> Iterator[None]:
    """Names the file in faults of the system while it is written, such as on a full disk."""
    try:
        yield
    except OSError as fault:
        if fault.filename is None:
            raise type(fault)(fault.errno, fault.strerror, path) from None
        raise


def labelling_of(arcs: Arcs, digest: str | None = None) -> files.Labelling:
    """What is known of arcs beside their labels, in arrays; or the content of the file of labels,
    in lists, where the SHA-256 of the graph is given."""
    columns: Any = None, arcs.arcs, arcs.index
    if digest is not None:
        own = arcs.labels.values if isinstance(arcs.labels, Labels) else None
        columns = (each if each is None else each.tolist() for each in (own, *columns[1:]))
    labels, rows, index = columns
    return files.Labelling(
        labels, arcs.scale, arcs.rounding, digest or "", arcs.unit, arcs.rows, rows, arcs.keys,
        arcs.ways, index)


class Beside:
    """Of a scenario the contents of the files that it takes over: of places, with comments that say
    where trips end, and of names of nodes; and its own streets and ways."""

    def __init__(self, layers: Any, streets: files.Streets | None, ways: Integers | None) -> None:
        self.contents, self.streets, self.ways = layers.contents, streets, ways

    def write(self, folder: str) -> None:
        """Writes the files."""
        for name, content in zip((COORDINATES, NAMES), self.contents):
            if content is not None:
                pathlib.Path(folder, name).write_bytes(content)
        if self.streets is not None:
            files.write_streets(os.path.join(folder, STREETS), self.streets)
        if self.ways is not None:
            files.write_ways(os.path.join(folder, WAYS), self.ways.tolist())


def digest_of(path: str) -> str:
    """The SHA-256 of a file, which shows whether labels belong to a graph."""
    with open(path, "rb") as file:
        return hashlib.file_digest(file, "sha256").hexdigest()


def is_by_program(running: Running) -> bool:
    """Whether the program builds a network: in the order of another it needs that one's file."""
    like, is_alone = running.like, not running.progress and running.workers == 1
    is_here = is_alone or running.customizing is not None
    return not is_here and (like is None or os.path.exists(like._opened.setting.saved or ""))


def build(program: str, folder: str, running: Running) -> None:
    """Builds and saves the hierarchy of the graph in a folder by the program."""
    graph, saved = (os.path.join(folder, name) for name in (GRAPH, SAVED))
    like, words = running.like, ["--quick", "--workers", str(running.workers)]
    if like is not None:
        words[:1] = ["--like", like._opened.setting.saved, "--fresh", str(running.fresh)]
    running_of.save(program, graph, saved, words, running.progress)


def built(arcs: Arcs, calls: ctypes.CDLL, running: Running) -> Handle:
    """Builds the hierarchy of arcs in this process: a handle in their network."""
    if running.customizing is not None:
        return running.customizing.handle(arcs.weights)
    if running.like is not None:
        text = io.BytesIO()
        with io.TextIOWrapper(text, "ascii", write_through=True) as file:
            write_graph(arcs, file)
            return running.like._engine.opened_like(text.getvalue(), running.fresh)
    handle, nodes = library.Handle(calls), arcs.labels.count
    columns = library.columns_of(nodes, arcs.tails, arcs.heads, arcs.weights)
    interruptible(LONG, handle.open_arrays, nodes, *columns)
    return handle


def known_of(arcs: Arcs) -> dict[str, Any]:
    """The layers of a network that are known from its arcs, without its files."""
    unit = arcs.base if arcs.base in files.UNITS else ""
    tails, heads, weights = (fixed(column) for column in (arcs.tails, arcs.heads, arcs.weights))
    known: dict[str, Any] = {
        "graph": files.Graph(arcs.labels.count, tails, heads, weights, unit),
        "labels": arcs.labels, "labelling": labelling_of(arcs)}
    if arcs.places is not None:
        x, y = (fixed(numpy.rint(part * 1e6) / 1e6) for part in arcs.places)
        known["coordinates"] = files.Coordinates(x, y, [*arcs.turns])
    others = arcs.beside
    known |= {"streets": others and others.streets, "ways": others and others.ways}
    return known


def read_labelling(path: str, graph: str) -> files.Labelling:
    """Reads the labels of a network, and refuses those of another graph."""
    found = files.read_labels(path)
    count = files.counts_in(graph)[0]
    if len(found.labels or range(count)) != count or found.graph != digest_of(graph):
        raise FileFault(f"{path}: not the labels of {graph}")
    return found
