"""Progress of long calls on standard error: a bar of tqdm if that is a terminal and tqdm is
installed, and otherwise a line now and then."""
from __future__ import annotations

import sys
import time
from collections.abc import Callable, Iterable, Iterator
from typing import Any, TypeAlias, TypeVar

# What callers give as `progress`.
Asked: TypeAlias = bool | Callable[[int, int], Any] | None
# Seconds from one line to the next, by default and where a caller asks for them.
SECONDS, ASKED_SECONDS = 10.0, 1.0
# Of more things than so many the bar counts thousands and millions.
MANY = 100_000
Item = TypeVar("Item")


def progress_of(
    asked: Asked, name: str, total: int | None, things: str, is_shown: bool = True,
) -> Progress:
    """The progress of a call by its argument `progress`: None means `is_shown`."""
    if callable(asked):
        return Progress(name, total, things, is_shown=False, call=asked)
    if asked is not None and not isinstance(asked, bool):
        raise TypeError(f"progress is True, False or a call, not {asked!r}")
    return Progress(
        name, total, things, ASKED_SECONDS if asked else None, is_shown if asked is None else asked)


class Progress:
    """Counts what is done of `total` things, or of an unknown number, and reports it."""

    def __init__(
        self, name: str, total: int | None, things: str, seconds: float | None = None,
        is_shown: bool = True, call: Callable[[int, int], Any] | None = None,
    ) -> None:
        self.name, self.total, self.things = name, total, things
        self.is_shown, self.call = is_shown, call
        self.seconds = SECONDS if seconds is None else seconds
        self.done, self.begun = 0, time.monotonic()
        self.reported = self.begun
        self.bar = self.bar_of_tqdm() if is_shown and sys.stderr.isatty() else None

    def bar_of_tqdm(self) -> Any:
        try:
            import tqdm
        except ImportError:
            return None
        is_scaled = self.total is None or self.total > MANY
        return tqdm.tqdm(
            desc=self.name, total=self.total, unit=f" {self.things}", unit_scale=is_scaled, delay=1,
            leave=False)

    def step(self, count: int = 1) -> None:
        """Counts that many more as done."""
        self.done += count
        if self.call is not None:
            self.call(self.done, self.total or 0)
        elif self.bar is not None:
            self.bar.update(count)
        elif self.is_shown and time.monotonic() - self.reported >= self.seconds:
            self.reported = time.monotonic()
            print(self.line(), file=sys.stderr, flush=True)

    def each(self, items: Iterable[Item]) -> Iterator[Item]:
        """Yields the items, and counts each one when the next one is asked for."""
        for item in items:
            yield item
            self.step()

    def line(self) -> str:
        spent = time.monotonic() - self.begun
        if not self.total:
            return f"{self.name}: {self.done:,} {self.things} after {spent:.0f} s"
        left = spent * (self.total - self.done) / max(self.done, 1)
        done = f"{self.name}: {self.done:,} of {self.total:,} {self.things} after {spent:.0f} s"
        return f"{done}, some {left:.0f} s left"

    def __enter__(self) -> Progress:
        return self

    def __exit__(self, *_: object) -> None:
        if self.bar is not None:
            self.bar.close()
