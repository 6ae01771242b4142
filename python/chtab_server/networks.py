"""The networks of a service, and their files.

Files are opened when the service starts, and stay open. Whatever is read later, by a restarted
process or by a run of the program, is therefore the original file, even if another file has its
name by then.
"""
from __future__ import annotations

import logging
import os
from collections.abc import Iterator, Sequence
from typing import IO, TYPE_CHECKING, Any, NamedTuple, Self

from chtab import files
from chtab._engine import forks
from chtab._engine.in_process import InProcess
from chtab.errors import ChtabError
from chtab.network import Network
from chtab_server.mapped import digest_of
from chtab_server import stored
from chtab_server.osrm.answering import numbers_in
from chtab_server.tiles import Tiles

if TYPE_CHECKING:
    from chtab._engine.in_process import InProcess
    from chtab._engine.library import Handle

LOG = logging.getLogger("chtab-page")
# The files that each network has, and what they are for.
NEEDED = {
    "gr": "the graph, as osm_to_gr.py writes it",
    "co": "the coordinates of the graph's nodes, to take places to roads"}
# The optional files of a network, besides its graph and its coordinates.
OPTIONAL = "bends", "names", "nodes"


class Named(NamedTuple):
    """A network of the command line: its name for clients, empty if they may use any name, with the
    classes of ways that it lacks behind a slash; the start of the names of its files, and its saved
    hierarchy or None."""

    name: str
    out: str
    saved: str | None


class Kept:
    """Open files, each with a path that leads to the opened file, in this process and in others."""

    def __init__(self) -> None:
        self.paths: dict[str, str] = {}
        self.open: list[IO[bytes]] = []

    def path(self, name: str) -> str:
        """Opens a file, and returns a path that leads to it."""
        file = open(name, "rb")
        self.open.append(file)
        path = f"/proc/{os.getpid()}/fd/{file.fileno()}"
        self.paths[path] = name
        return path

    def translated(self, text: str) -> str:
        """A text with the original names of files."""
        # The longest first, because one path may be the start of another.
        for path in sorted(self.paths, key=len, reverse=True):
            text = text.replace(path, self.paths[path])
        return text

    def close(self) -> None:
        for file in self.open:
            file.close()


class Served:
    """A network with the streets of its arcs, `files.Streets` or None, and the map's numbers of its
    nodes, or None."""

    def __init__(self, named: Named, kept: Kept, **running: Any) -> None:
        for suffix, what in NEEDED.items():
            if not os.path.exists(f"{named.out}.{suffix}"):
                raise ChtabError(f"{named.out}.{suffix} is missing: a service needs {what}")
        paths = {suffix: kept.path(f"{named.out}.{suffix}") for suffix in NEEDED}
        paths |= {
            suffix: kept.path(f"{named.out}.{suffix}") for suffix in OPTIONAL
            if os.path.exists(f"{named.out}.{suffix}")}
        saved = None if named.saved is None else kept.path(named.saved)
        self.name, self.out, self.paths = named.name, named.out, paths
        self.title = named.out.rpartition("/")[2]
        self.network = Network.open(
            paths["gr"], saved, coordinates=paths["co"], bends=paths.get("bends"), **running)
        made = self.found(kept)
        if made is None:
            network, arcs = self.network, len(self.network.roads.tails)
            streets = files.read_streets(paths["names"], arcs) if "names" in paths else None
            numbers = numbers_in(paths["nodes"], network.nodes) if "nodes" in paths else None
            made = stored.made(network, streets, numbers)
        self.network._layers.kept |= {"roads": made.roads, "coordinates": made.coordinates}
        # Roads have the bends in their lines.
        self.network._layers.kept.pop("bends", None)
        self.made, self.crossings, self.streets, self.numbers = (
            made, made.crossings, made.streets, made.numbers)
        # The handle of the library that the first process opens, and the forked ones take.
        self.opened: Handle | None = None

    def found(self, kept: Kept) -> stored.Made | None:
        """What was made for the network before, where its file is there and right."""
        name = self.out + stored.SUFFIX
        if not os.path.exists(name):
            return None
        try:
            return stored.read(kept.path(name), self.sums())
        except files.FileFault as fault:
            LOG.warning("%s; what it has is made anew", kept.translated(str(fault)))
            return None

    def sums(self) -> dict[str, str]:
        """The sums of the files of the network."""
        return {suffix: digest_of(path) for suffix, path in self.paths.items()}

    def prepare(self) -> str:
        """Keeps what is made for the network in a file beside it, from which further services
        begin; its name."""
        name = self.out + stored.SUFFIX
        stored.write(name, self.sums(), self.made._replace(tiles=self.tiles))
        return name

    @forks.computed_once
    def tiles(self) -> Tiles:
        """The tiles of the network's map, which the page shows."""
        network = self.network
        return self.made.tiles or Tiles(network.roads, network.unit == "milliseconds")

    @property
    def engine(self) -> InProcess:
        return self.network._engine

    @property
    def profiles(self) -> tuple[str, ...]:
        """The names that clients may call the network, without the classes of ways that it lacks;
        none if any name will do."""
        return (self.name.partition("/")[0],) if self.name else ()

    def open_once(self) -> None:
        """Opens the network before processes are forked: they then have it in memory together."""
        self.opened = self.opened_handle()

    def load(self) -> None:
        """Starts the engine if it is not there. A forked process takes what the first one has
        opened."""
        engine = self.engine
        if self.opened is not None and engine.first is None:
            engine.begin_with(self.opened)
        else:
            self.opened_handle()

    def opened_handle(self) -> Handle:
        """The first handle of the engine, which keeps the lengths of arcs for tables of distances,
        and so do the others, which share its network."""
        handle = self.engine.first_handle()
        handle.keep_values(self.network.roads.nanometres)
        return handle


class Networks:
    """The networks of a service, opened with the same options of `Network.open`. The page and
    requests in JSON use the first one."""

    def __init__(self, named: Sequence[Named], **running: Any) -> None:
        self.kept = Kept()
        self.served: list[Served] = []
        try:
            for each in named:
                self.served.append(Served(each, self.kept, **running))
        except ChtabError as fault:
            self.close()
            raise ChtabError(self.translated(str(fault))) from None
        except BaseException:
            self.close()
            raise

    def __iter__(self) -> Iterator[Served]:
        return iter(self.served)

    @property
    def first(self) -> Served:
        return self.served[0]

    def translated(self, text: str) -> str:
        """A text with the names of files from the command line."""
        return self.kept.translated(text)

    def load(self) -> None:
        """Starts the engines that are not there."""
        for each in self.served:
            each.load()

    def open_once(self) -> None:
        """Opens networks before processes are forked, as far as these can share them."""
        for each in self.served:
            each.open_once()

    def are_ready(self) -> bool:
        """Whether each network has a living engine."""
        return all(each.engine.first is not None for each in self.served)

    def close(self) -> None:
        for each in self.served:
            each.network.close()
        self.kept.close()

    def __enter__(self) -> Self:
        return self

    def __exit__(self, *_: object) -> None:
        self.close()
