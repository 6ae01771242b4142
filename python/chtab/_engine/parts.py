"""Long questions in parts: by one thread or several, within a time limit, and with progress."""
from __future__ import annotations

import concurrent.futures
import threading
import time
from collections.abc import Callable, Iterator
from typing import TYPE_CHECKING

from chtab._engine import deadlines
from chtab._engine.progress import progress_of

if TYPE_CHECKING:
    from chtab._engine.progress import Asked, Progress

# With a time limit a part takes about so many seconds; the first one has so many items, and the
# next one has at most so many times as many.
SECONDS, FIRST, GROWTH = 0.02, 64, 4


class Parts:
    """Slices of at most `most` of `count` items, which threads take until a deadline."""

    def __init__(
        self, count: int, most: int, deadline: deadlines.Deadline, progress: Progress
    ) -> None:
        self.count, self.most, self.deadline, self.progress = count, most, deadline, progress
        self.begun, self.is_stopped, self.lock = 0, False, threading.Lock()
        self.size = most if deadline.is_open else min(most, FIRST)

    def __iter__(self) -> Iterator[slice]:
        """Yields the next parts, and counts each once the next one is asked for."""
        while (part := self.next_part()) is not None:
            begun = time.monotonic()
            yield part
            self.end(part.stop - part.start, time.monotonic() - begun)

    def next_part(self) -> slice | None:
        """The next part; None if there is none."""
        with self.lock:
            if self.begun >= self.count or self.is_stopped:
                return None
            self.deadline.check()
            first = self.begun
            self.begun = min(self.count, first + self.size)
            return slice(first, self.begun)

    def end(self, done: int, seconds: float) -> None:
        """Counts a part, and fits the size of the next ones to the time that it took."""
        with self.lock:
            self.progress.step(done)
            if not self.deadline.is_open:
                share = min(GROWTH, SECONDS / max(seconds, 1e-6))
                self.size = max(1, min(self.most, int(done * share)))


def make(
    count: int, most: int, workers: int, work: Callable[[Iterator[slice]], None],
    name: str, things: str, progress: Asked, seconds: float | None,
) -> None:
    """Makes all parts by `work`, in up to `workers` threads; a fault of one ends the others."""
    deadline = deadlines.current(seconds)
    with progress_of(progress, name, count, things, False) as counted:
        parts = Parts(count, most, deadline, counted)
        threads = min(workers, -(-count // most))
        if threads <= 1:
            work(iter(parts))
        else:
            with concurrent.futures.ThreadPoolExecutor(threads) as pool:
                made = [pool.submit(work, iter(parts)) for _ in range(threads)]
                try:
                    for each in concurrent.futures.as_completed(made):
                        each.result()
                finally:
                    # The threads end after the parts that they make.
                    parts.is_stopped = True
    deadline.check()
