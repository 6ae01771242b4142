"""Exact distances, routes, tables and reach on road networks, by the program chtab.

    import chtab

    with chtab.Network.open("roads.gr", saved="roads.ch") as network:
        weights = network.distances([(1, 3), (3, 1)])

`Network` answers questions, and needs numpy. Its calls return `Routes`, `Near` and `Spots` among
others, and all errors are `ChtabError`s. `chtab.files` reads and writes each kind of file; it and
most commands of `tools/` need no other package. `chtab.typing` has the types of arguments and
results. All other modules are internal.
"""
from __future__ import annotations

import importlib
import typing

from chtab.errors import ChtabError, DataFault, FileFault, ProgramFault, TimedOut, TooFar

if typing.TYPE_CHECKING:
    from chtab._near.found import Near
    from chtab.network import Network
    from chtab._roads.routes import Routes
    from chtab._roads.snapping import Spots

__version__ = "1.3"
__all__ = [
    "ChtabError", "DataFault", "FileFault", "Near", "Network", "ProgramFault", "Routes", "Spots",
    "TimedOut", "TooFar", "__version__"]

# Imported when they are first used, because code that only reads files doesn't need numpy.
LATER = {
    "Near": "chtab._near.found", "Network": "chtab.network", "Routes": "chtab._roads.routes",
    "Spots": "chtab._roads.snapping"}


# Hidden from type checkers, so that they find misspelt names.
if not typing.TYPE_CHECKING:
    def __getattr__(name):
        """A class of `LATER`, or one of the public modules."""
        if name in LATER:
            return getattr(importlib.import_module(LATER[name]), name)
        if name in ("files", "typing"):
            return importlib.import_module(f"chtab.{name}")
        raise AttributeError(f"module {__name__!r} has no attribute {name!r}")


def __dir__() -> list[str]:
    return sorted(__all__)
