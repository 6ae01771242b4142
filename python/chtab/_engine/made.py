"""Networks of arcs, which are in memory. Their files are written when something needs them."""
from __future__ import annotations

import contextlib
import dataclasses
import os
import pathlib
import weakref
from collections.abc import Callable, Iterator
from typing import TYPE_CHECKING, cast

from chtab._engine import deadlines, folders, forks, library, making
from chtab._engine.opening import Opening, Running, Setting, library_of
from chtab._engine.program import program_of
from chtab._engine.running import see_to
from chtab._engine.stamps import Stamps, stamp_of
from chtab.errors import ChtabError

if TYPE_CHECKING:
    from chtab._engine.customizing import Customizing
    from chtab._engine.in_process import InProcess
    from chtab._engine.library import Handle
    from chtab._files.arc_columns import Arcs
    from chtab.typing import Path


class Made:
    """A network of arcs, and its files. Unless the caller names a folder they are written into a
    temporary one, once: for pickle, or for a run of the program."""

    # They are written while no process is forked, so that each process finds all of them or none.
    def __init__(self, arcs: Arcs, running: Running, setting: Setting) -> None:
        # Columns take less memory than lists of points.
        self.bends = making.bend_columns(arcs.bends) if arcs.bends else None
        self.arcs = dataclasses.replace(arcs, bends={})
        self.setting, self.asked, self.customizing = setting, running.asked, running.customizing
        self.opened: Opening | None = None
        self.folder: folders.Folder | None = None
        self.stamps = Stamps()
        # What answers, and has the hierarchy. It may be gone before its layers are.
        self.engine: Callable[[], InProcess | None] = lambda: None

    def opening(self) -> Opening:
        """The opening of the files, which are written now if they are not there."""
        with forks.STEADY, deadlines.uncounted():
            self.see_to_folder()
            if self.opened is None:
                engine = self.engine()
                if engine is None:
                    raise ChtabError(library.GONE)
                handle = engine.first_handle()
                with self.temporary() as folder:
                    making.write(self.arcs, self.bends, folder)
                    self.save(handle, folder)
                    engine.see_that_open()
                self.go_with(engine)
            return cast(Opening, self.opened)

    def see_to_folder(self) -> None:
        """Forgets a temporary folder of the parent of this process, once it is removed."""
        if self.folder is not None and not os.path.exists(self.folder.path):
            self.opened = self.folder = None

    def go_with(self, engine: InProcess) -> None:
        """Has the temporary folder removed with what answers, at the latest."""
        self.engine = weakref.ref(engine)
        if self.folder is not None:
            weakref.finalize(engine, self.folder.remove)

    @contextlib.contextmanager
    def temporary(self) -> Iterator[str]:
        """Lends a temporary folder for the files, which is removed unless all are written."""
        folder = folders.Folder()
        try:
            yield folder.path
        except BaseException:
            folder.remove()
            raise
        # The handler of a signal may have needed them meanwhile.
        if self.opened is None:
            self.folder = folder
            self.keep(folder.path)

    def save(self, handle: Handle, folder: str) -> None:
        """Writes the hierarchy, and the order in which weights are customized."""
        saved, arcs = pathlib.Path(folder, making.SAVED), self.arcs
        room = making.BYTES * (arcs.labels.count + len(arcs.tails))
        with making.naming(str(saved)):
            saved.write_bytes(handle.save(room))
        if self.customizing is not None:
            self.customizing.keep(folder)

    def keep(self, folder: str) -> None:
        """Takes the files of a folder that has all of them."""
        graph, saved, labelling, order = (
            os.path.join(folder, name)
            for name in (making.GRAPH, making.SAVED, making.LABELS, making.ORDER))
        # The order may change, but no other file.
        self.stamps = Stamps(*(each.path for each in os.scandir(folder) if each.path != order))
        self.setting = dataclasses.replace(self.setting, graph=graph, saved=saved)
        self.opened = Opening(
            self.setting, labelling=labelling, stamp=stamp_of(graph), asked=self.asked,
            order=order if os.path.exists(order) else None)

    def customize(self, customizing: Customizing) -> None:
        """Keeps an order for weights in the folder, or for the time when there is one."""
        with forks.STEADY:
            self.see_to_folder()
            if self.opened is not None:
                path = customizing.keep(os.path.dirname(self.setting.graph))
                self.opened = dataclasses.replace(self.opened, order=path)
            self.customizing = customizing

    def close(self) -> None:
        """Removes the temporary folder, if there is one, once no file is being written."""
        with forks.STEADY:
            if self.folder is not None:
                self.folder.remove()


def made(arcs: Arcs, folder: Path | None, running: Running) -> tuple[Made, Handle | None]:
    """A network of arcs, and a handle in it, unless a run of the program has built it."""
    program = program_of(running.program)
    see_to(program)
    # Said before a hierarchy is built.
    path = library_of(program, running.library)
    calls, is_by_program = library.loaded(path), making.is_by_program(running)
    found = Made(arcs, running, Setting(program, path, "", None, running.workers, running.timeout))
    if folder is None and not is_by_program:
        return found, making.built(arcs, calls, running)
    handle = None
    with found.temporary() if folder is None else making.begun(folder) as part:
        making.write(found.arcs, found.bends, part)
        if is_by_program:
            making.build(program, part, running)
        else:
            handle = making.built(arcs, calls, running)
            found.save(handle, part)
    if folder is not None:
        found.keep(os.path.realpath(folder))
    return found, handle
