"""The deadlines of answers. The `timeout` of a network covers a whole call, however many questions
of the library it asks, and is checked between them."""
from __future__ import annotations

import contextlib
import math
import threading
import time
from collections.abc import Iterator

from chtab.errors import TimedOut


class Deadline:
    """The latest time of an answer, so many seconds from now; None for no limit."""

    def __init__(self, seconds: float | None) -> None:
        self.seconds = math.inf if seconds is None else seconds
        self.until, self.is_open = time.monotonic() + self.seconds, math.isinf(self.seconds)

    def check(self) -> None:
        """Raises `TimedOut` if the time is over."""
        if time.monotonic() >= self.until:
            raise TimedOut(f"the answer took longer than {self.seconds:g} seconds")


class OfThread(threading.local):
    """The deadline of the call that a thread is making, None between calls."""

    deadline: Deadline | None = None


CALL = OfThread()


def current(seconds: float | None) -> Deadline:
    """The deadline of the call that this thread is making; outside of one, a new one from now."""
    return CALL.deadline or Deadline(seconds)


def of_call(seconds: float | None) -> contextlib.AbstractContextManager[Deadline]:
    """Gives a call of so many seconds its deadline, unless it is a part of another call."""
    return taken(current(seconds))


@contextlib.contextmanager
def taken(deadline: Deadline) -> Iterator[Deadline]:
    """Gives this thread the deadline of another thread's call, for which it works."""
    before, CALL.deadline = CALL.deadline, deadline
    try:
        yield deadline
    finally:
        CALL.deadline = before


@contextlib.contextmanager
def uncounted() -> Iterator[None]:
    """Stops the clock of the deadline for what is done within, such as loading a network."""
    begun, deadline = time.monotonic(), CALL.deadline
    try:
        yield
    finally:
        if deadline is not None:
            deadline.until += time.monotonic() - begun
