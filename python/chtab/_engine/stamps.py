"""Stamps of the files of a network, which must not change while it is open: in another graph at
this path, nodes would have other numbers."""
from __future__ import annotations

import os
from typing import TypeAlias

from chtab.errors import ProgramFault

# Device, number, size and time in nanoseconds of a file.
Stamp: TypeAlias = tuple[int, int, int, int]


class Stamps:
    """The stamps of some files, which show later whether one of them was replaced."""

    def __init__(self, *paths: str | None) -> None:
        self.by_path = {path: stamp_of(path) for path in paths if path is not None}

    def see_that_same(self, is_elsewhere: bool = False) -> None:
        """Refuses files that were written anew; on another machine size and time alone count."""
        for path, stamp in self.by_path.items():
            now = stamp_of(path)
            if now[2:] != stamp[2:] or now != stamp and not is_elsewhere:
                raise ProgramFault(f"{path} has changed since it was opened", 1)


def stamp_of(path: str) -> Stamp:
    """The device, number, size, and time of the last change in nanoseconds of a file."""
    found = os.stat(path)
    return found.st_dev, found.st_ino, found.st_size, found.st_mtime_ns
