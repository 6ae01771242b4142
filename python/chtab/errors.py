"""The errors of this package. Each is a `ChtabError`, and its message is one line for a user.
Errors can be pickled."""
from __future__ import annotations

from collections.abc import Iterable, Mapping

class ChtabError(Exception):
    """An error of this package."""


class FileFault(ChtabError, ValueError):
    """A file or text is not of the expected kind; the message names it."""


class DataFault(ChtabError, ValueError):
    """A value of a column is refused, or a label is no node of the network; the message names the
    column and the row.

    Attributes
    ----------
    column : str
        The name of the argument, or of the column of a frame.
    row : int or None
        The place of the value in the column, from 0 on; None if the column is refused as a whole.
    """

    def __init__(self, text: str, column: str = "", row: int | None = None) -> None:
        super().__init__(text)
        self.column, self.row = column, row


class TooFar(ChtabError, ValueError):
    """A place is farther from each road or node than allowed.

    Attributes
    ----------
    places : dict of int to float
        The metres from the nearest road or node, by the index of each such place.
    """

    def __init__(
        self, text: str, places: Mapping[int, float] | Iterable[tuple[int, float]] = ()
    ) -> None:
        super().__init__(text)
        self.places = dict(places)


class ProgramFault(ChtabError, RuntimeError):
    """The program or the library refuses a file, has no memory, or failed. The message is the
    program's own line, if it wrote one.

    Attributes
    ----------
    status : int
        The exit status of the program; below 0, the signal that ended it; 0 if an answer doesn't
        fit its question. For the library it is the status that the program would have.
    line, place : int
        The line of the file, from 1 on, and the edge, arc or node of the hierarchy, from 0 on, that
        the library refuses; 0 if there is none.
    kind : str
        The fault there, in the program's words; empty if the library refuses no file.
    """

    # The defaults are for pickle, which makes the error from its message and sets the attributes
    # afterwards.
    def __init__(
        self, text: str, status: int = 0, line: int = 0, kind: str = "", place: int = 0
    ) -> None:
        super().__init__(text)
        self.status, self.line, self.kind, self.place = status, line, kind, place


class TimedOut(ChtabError, TimeoutError):
    """A call took longer than `timeout` allows."""


def mismatch() -> ProgramFault:
    """The fault of an answer that doesn't fit its question."""
    return ProgramFault("chtab's library answered what it was not asked for", 0)
