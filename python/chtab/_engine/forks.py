"""Forked processes: what a process has to give up after it was forked.

A forked process has copies of all that its parent holds. Among these are the pipes of the parent's
runs, and locks that are held by threads of the parent, which don't exist in the forked process and
would never release them. An object that keeps such things is one of `FOLLOWED`, and its
`leave_parent` is called in each forked process. Those of `PREPARED` have their `before_fork` called
before, and `after_fork` in the parent.
"""
from __future__ import annotations

import os
import threading
import weakref
from collections.abc import Callable
from typing import Any, Generic, TypeVar

Value = TypeVar("Value")


# Held while a run is started, because a process that is forked meanwhile would inherit pipes that
# nothing in it knows of; and while files are written that it may need. Whoever holds the lock of an
# object does not wait for this one.
STEADY = threading.RLock()
FOLLOWED: weakref.WeakSet[Any] = weakref.WeakSet()
PREPARED: weakref.WeakSet[Any] = weakref.WeakSet()


def prepare() -> None:
    STEADY.acquire()
    for thing in list(PREPARED):
        thing.before_fork()


def go_on() -> None:
    for thing in list(PREPARED):
        thing.after_fork()
    STEADY.release()


def leave_parents() -> None:
    STEADY.release()
    for thing in list(FOLLOWED):
        thing.leave_parent()


class computed_once(Generic[Value]):
    """A property that is computed when it is first asked for, without a lock, and then kept."""

    # Before Python 3.12 `functools.cached_property` holds one lock for all objects of a class while
    # it computes, for which a process that is forked meanwhile would wait for ever. Without one,
    # two threads that ask first at once both compute, and get the same object.
    def __init__(self, compute: Callable[[Any], Value]) -> None:
        self.compute, self.__doc__ = compute, compute.__doc__

    def __set_name__(self, owner: type, name: str) -> None:
        self.name = name

    def __get__(self, thing: Any, owner: type) -> Value:
        if thing is None:
            return self  # type: ignore[return-value]
        # The value takes the place of the property, because this class has no `__set__`.
        kept: Value = thing.__dict__.setdefault(self.name, self.compute(thing))
        return kept


os.register_at_fork(before=prepare, after_in_parent=go_on, after_in_child=leave_parents)
