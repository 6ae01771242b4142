"""Finds the program chtab."""
from __future__ import annotations

import os
import pathlib
import shutil
import sys
from collections.abc import Iterator
from typing import TYPE_CHECKING

from chtab.errors import ChtabError

if TYPE_CHECKING:
    from chtab.typing import Path

# The package, and the folder that it is in: `python` of a checkout or of an installation by
# `install`, or a folder of Python's packages.
PACKAGE = pathlib.Path(__file__).parent.parent
ABOVE = PACKAGE.resolve().parent
LACKING = (
    "the program chtab is neither beside this package nor beside the script that runs nor on the "
    "path; name it: `--program FILE` for a command, `program=` from Python")


def program_of(path: Path | None = None) -> str:
    """The path of the program: the caller's, or one of `candidates`, or `chtab` on the path."""
    if path is not None:
        return os.path.abspath(path)
    for found in candidates():
        if found.is_file() and os.access(found, os.X_OK):
            return str(found)
    on_path = shutil.which("chtab")
    if on_path is None:
        raise ChtabError(LACKING)
    return os.path.abspath(on_path)


def candidates() -> Iterator[pathlib.Path]:
    """The files that may be the program, in the order in which they are taken."""
    root = ABOVE.parent
    if (root / "crates.txt").exists() or (root / "program").exists():
        yield root / "chtab"
    yield PACKAGE / "bin" / "chtab"
    yield root.parent / "chtab" / "chtab"
    if os.path.isfile(sys.argv[0]):
        script = pathlib.Path(os.path.abspath(sys.argv[0]))
        for folder in script.parent, script.resolve().parent:
            yield folder / "chtab"
            yield folder.parent / "lib" / "chtab" / "chtab"
