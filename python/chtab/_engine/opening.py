"""What it takes to open a network: its files, and how they are answered from. Another process can
open it anew by the same."""
from __future__ import annotations

import numbers
import os
import warnings
from dataclasses import dataclass
from typing import TYPE_CHECKING, Any

from chtab._engine import library, making
from chtab._engine.program import program_of
from chtab._engine.progress import Asked as Progress
from chtab._engine.running import see_to
from chtab._engine.stamps import Stamp, stamp_of
from chtab.errors import ChtabError
from chtab._files import measures

if TYPE_CHECKING:
    from chtab._engine.customizing import Customizing
    from chtab.typing import Path

# The most workers of the program.
MOST_WORKERS = 64


@dataclass(frozen=True)
class Setting:
    """What an engine answers from, by paths; the graph's is empty if no file has it yet."""

    program: str
    library: str
    graph: str
    saved: str | None = None
    # The threads that build a hierarchy or answer a large question, and the seconds of a call.
    workers: int = 1
    timeout: float | None = None

    def files(self) -> list[str]:
        """The files that the library opens: the graph, and the saved hierarchy if there is one."""
        return [path for path in (self.graph, self.saved) if path]


@dataclass(frozen=True)
class Running:
    """How a network is built and answered from; `Network.open` and `from_arrays` explain each."""

    program: Path | None = None
    workers: int = 1
    timeout: float | None = None
    load: bool = True
    library: Path | bool | None = None
    asked: measures.Asked = measures.Asked()
    # Where the building of a network of arcs reports its progress, as `progress_of` takes it.
    progress: Progress = None
    # The network with the same nodes in whose order one of arcs is built, and how many per cent of
    # the nodes are ordered afresh.
    like: Any = None
    fresh: int = 5
    # The topology of the arcs, with which their weights are customized in place of building.
    customizing: Customizing | None = None

    def __post_init__(self) -> None:
        see_that_count("fresh", self.fresh, 0, 100)
        see_that_count("workers", self.workers, 1, MOST_WORKERS)
        if self.like is not None and not hasattr(self.like, "_engine"):
            raise TypeError(f"like is a Network, not {self.like!r}")
        if self.like is not None:
            self.like._engine.see_that_open()
        if self.timeout is None:
            return
        if isinstance(self.timeout, bool) or not isinstance(self.timeout, numbers.Real):
            raise TypeError(f"timeout is a number of seconds, not {self.timeout!r}")
        if not self.timeout >= 0:
            raise ValueError(f"timeout is {self.timeout!r}: it is a number of seconds from 0 on")

    def setting(self, graph: str, saved: str | None) -> Setting:
        """The setting of an engine for these files."""
        program = program_of(self.program)
        path = library_of(program, self.library)
        return Setting(program, path, graph, saved, self.workers, self.timeout)


def see_that_count(name: str, value: Any, least: int, most: int) -> None:
    """Refuses what is no whole number in a range."""
    if isinstance(value, bool) or not isinstance(value, numbers.Integral):
        raise TypeError(f"{name} is a whole number, not {value!r}")
    if not least <= int(value) <= most:
        raise ValueError(f"{name} is {value!r}: it is a whole number from {least} to {most}")


def library_of(program: str, choice: Path | bool | None) -> str:
    """The path of the library: the caller's, or that beside the program, made first if it can."""
    if choice is False:
        text = "library=False has no effect: runs of the program no longer answer"
        warnings.warn(text, FutureWarning, stacklevel=6)
    # Any other value is a path, even 0 and 1, which are equal to False and True.
    if not (choice is None or isinstance(choice, bool) or choice == "auto"):
        return os.path.abspath(choice)
    found = library.beside(program)
    if found is None:
        see_to(program)
        found = library.beside(program)
    if found is None:
        text = f"there is no {library.NAME} beside the program {program}, or it is older than the"
        raise ChtabError(f"{text} sources; in a checkout `packaging/library` makes it, by gcc")
    return found


@dataclass(frozen=True)
class Opening:
    """The files of a network, and how they are answered from."""

    setting: Setting
    coordinates: str | None = None
    bends: str | None = None
    labelling: str | None = None
    # The stamp of the graph: with another graph at this path, it is another network.
    stamp: Stamp | None = None
    # What the caller says about units; `Network.open` explains it.
    asked: measures.Asked = measures.Asked()
    # The file of the order in which its weights are customized.
    order: str | None = None


def opening_of(
    graph: Path, saved: Path | None, coordinates: Path | None, bends: Path | None, running: Running,
) -> Opening:
    """The opening of files, after a check that each can be read, or of a folder."""
    if os.path.isdir(graph):
        return of_folder(os.path.abspath(graph), running, saved, coordinates, bends)
    graph, (saved, coordinates, bends) = os.path.abspath(graph), paths_of(saved, coordinates, bends)
    see_that_readable(graph, saved, coordinates, bends)
    setting = running.setting(graph, saved)
    return Opening(setting, coordinates, bends, stamp=stamp_of(graph), asked=running.asked)


def of_folder(
    folder: str, running: Running, saved: Path | None = None, coordinates: Path | None = None,
    bends: Path | None = None,
) -> Opening:
    """The opening of a network in a folder, whose files given ones replace."""
    names = making.GRAPH, making.SAVED, making.LABELS
    graph, own, labelling = (os.path.join(folder, name) for name in names)
    saved, coordinates, bends = paths_of(saved or own, coordinates, bends)
    see_that_readable(graph, saved, labelling, coordinates, bends)
    setting, order = running.setting(graph, saved), os.path.join(folder, making.ORDER)
    return Opening(
        setting, coordinates, bends, labelling, stamp_of(graph), running.asked,
        order if os.path.exists(order) else None)


def paths_of(*paths: Path | None) -> list[str | None]:
    """The absolute paths of files; None for None."""
    return [None if path is None else os.path.abspath(path) for path in paths]


def see_that_readable(*paths: str | None) -> None:
    """Opens each file once, so that a file that can't be opened is an error now."""
    for path in filter(None, paths):
        open(path, "rb").close()
