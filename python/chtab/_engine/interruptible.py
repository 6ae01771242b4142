"""Long calls of the library for C, which Ctrl-C can interrupt.

Python handles a signal between two of its own instructions, and a call of C is a single one. The
main thread, which gets the signals, therefore lets another thread make a long call, and waits for
it.
"""
from __future__ import annotations

import _thread
import threading
import weakref
from collections.abc import Callable
from typing import Any, TypeVar

# From this many searches on, a call gets a thread. On a country they take under half a second.
LONG = 1 << 8
# Seconds between two checks that the thread is there: it may lack memory to start or to report.
PATIENCE = 1.0

Value = TypeVar("Value")


class Course:
    """A call under way: its result, and a lock until it ends, made while there is memory."""

    def __init__(self) -> None:
        self.value: Any = None
        self.fault: BaseException | None = None
        self.is_made = False
        self.ended = _thread.allocate_lock()
        self.ended.acquire()

    def make(self, call: Callable[..., Any], words: tuple[Any, ...], alive: Alive) -> None:
        """Makes the call. `alive` exists as long as the thread does."""
        try:
            self.value = call(*words)
            self.is_made = True
        except BaseException as fault:
            self.fault = fault
        finally:
            del call, words, alive
            self.ended.release()


class Alive:
    """An object that a thread keeps until it ends."""


def interruptible(searches: int, call: Callable[..., Value], *words: Any) -> Value:
    """The value of a call of so many searches; if a signal breaks off the wait, it is dropped."""
    # `threading.Thread` isn't used, because its `start` waits for ever if there is no memory.
    if searches < LONG or threading.current_thread() is not threading.main_thread():
        return call(*words)
    course, alive = Course(), Alive()
    seen = weakref.ref(alive)
    try:
        _thread.start_new_thread(course.make, (call, words, alive))
    except RuntimeError:
        # No thread can be started, or the interpreter is ending.
        return call(*words)
    del alive
    while not course.ended.acquire(timeout=PATIENCE) and seen() is not None:
        pass
    if course.is_made:
        return course.value
    if course.fault is None:
        # The thread had no memory for its first step.
        return call(*words)
    try:
        raise course.fault
    finally:
        # The traceback of the fault would keep it.
        del course
