"""Near rows of any number of sources and targets, in blocks: by threads of the library, or by the
workers of a cluster of Dask."""
from __future__ import annotations

import concurrent.futures
import contextlib
import operator
from collections.abc import Callable, Generator, Iterable, Iterator, Sequence
from dataclasses import dataclass, replace
from typing import TYPE_CHECKING, Any, TypeAlias

import numpy

from chtab._engine import cluster, deadlines
from chtab._engine.progress import progress_of
from chtab._near import rows as near_rows
from chtab._near.question import FEW, SHARE, SWEPT, NearQuestion, NearRows, Question, SpotQuestion

if TYPE_CHECKING:
    from numpy.typing import NDArray
    from chtab._engine.in_process import InProcess
    from chtab.typing import Floats, Integers

# The most targets that a handle keeps, and the most pairs of a block: about 1 GB of arrays.
LENGTH, PAIRS = 2**16, 2**26
# How many blocks are under way for each thread of a cluster.
AHEAD = 2
# What makes the value of a block from its portions of rows; completed blocks with their values.
Make: TypeAlias = "Callable[[Block, Iterable[tuple[int, near_rows.Rows]]], Any]"
Made: TypeAlias = "Generator[tuple[Block, Any], None, None]"


@dataclass(frozen=True)
class Block:
    """The rows of some sources among some targets, the places where both start, their question."""

    row: int
    column: int
    question: Question


def cut(question: Question, nodes: int, workers: int = 1) -> Iterator[Block]:
    """Cuts a question with lists of any length into blocks, for so many nodes and workers."""
    width = len(question.targets)
    most = min(width, LENGTH, width if question.count is None else question.count)
    for row, sources in parts_of(question.sources, nodes, most, workers):
        for column in range(0, width, LENGTH):
            targets = question.targets[column:column + LENGTH]
            yield Block(row, column, replace(question, sources=sources, targets=targets))


def parts_of(
    sources: Integers | None, nodes: int, most: int, workers: int,
) -> Sequence[tuple[int, Integers | None]]:
    """The sources in parts with their first places; all nodes in one if they have few pairs."""
    if sources is None and workers == 1 and nodes * most <= PAIRS:
        return [(0, None)] if nodes else []
    sources = numpy.arange(1, nodes + 1) if sources is None else sources
    side = max(1, min(PAIRS // max(most, 1), -(-len(sources) // workers)))
    return [(row, sources[row:row + side]) for row in range(0, len(sources), side)]


# Makes blocks: a call that yields each block with its value, as it is completed.


def rows_by(engine: InProcess, question: Question) -> Iterator[tuple[int, near_rows.Rows]]:
    """Yields the rows of a question in portions, each with the place of its first row."""
    if isinstance(question, SpotQuestion):
        yield from question.portions()
        return
    deadline = deadlines.current(engine.setting.timeout)
    with engine.lent_handle() as handle:
        for portion in NearRows(handle, question, engine.nodes, deadline).portions():
            engine.see_that_open()
            yield portion


def sums(
    engine: InProcess, question: NearQuestion, values: NDArray[numpy.uint64], limits: Sequence[int],
) -> Floats:
    """Sums over the rows of a question, as `NearRows.sums` makes them."""
    deadline = deadlines.current(engine.setting.timeout)
    with engine.lent_handle() as handle:
        return NearRows(handle, question, engine.nodes, deadline).sums(values, limits)


def side_by_side(engine: InProcess, found: Iterable[Block], make: Make, workers: int) -> Made:
    """Makes blocks by several threads at a time."""
    deadline, is_over = deadlines.current(engine.setting.timeout), False

    def made(block: Block) -> Any:
        def portions() -> Iterator[tuple[int, near_rows.Rows]]:
            for portion in rows_by(engine, block.question):
                # What breaks this off is not waited for by the other threads.
                if is_over:
                    return
                yield portion

        with deadlines.taken(deadline):
            return make(block, portions())

    with concurrent.futures.ThreadPoolExecutor(workers) as threads:
        begun = {threads.submit(made, block): block for block in found}
        try:
            for future in concurrent.futures.as_completed(list(begun)):
                yield begun.pop(future), future.result()
        finally:
            is_over = True
            for future in begun:
                future.cancel()


def on_cluster(engine: InProcess, found: Iterable[Block], make: Make, client: Any) -> Made:
    """Makes blocks by the workers of a cluster, which send rows; values are made here."""
    setting = engine.setting if engine.made is None else engine.made.opening().setting
    deadline, left = deadlines.current(setting.timeout), iter(found)
    with cluster.Tasks(client) as tasks:
        def begin() -> None:
            for block in left:
                tasks.begin(block, rows_on_worker, setting, block.question)
                return

        for _ in range(AHEAD * cluster.threads_of(client)):
            begin()
        for block, rows in tasks:
            deadline.check()
            begin()
            yield block, make(block, [(0, rows)])


def rows_on_worker(engine: InProcess, question: NearQuestion) -> near_rows.Rows:
    """All rows of a question, on a worker of Dask."""
    return near_rows.below([rows for _, rows in rows_by(engine, question)])


def values(
    engine: InProcess, question: Question, make: Make, workers: Any = 1, progress: Any = None,
) -> Iterator[tuple[Block, Any]]:
    """Yields each block with its value, made by threads, or by the workers of a client of Dask."""
    engine.see_that_open()
    if isinstance(question, SpotQuestion):
        block = Block(0, 0, question)
        yield block, make(block, question.portions())
        return
    is_client = hasattr(workers, "submit")
    count = cluster.threads_of(workers) if is_client else count_in("workers", workers)
    if not is_client and are_swept(question, engine.nodes):
        count = 1
    found = list(cut(question, engine.nodes, count))
    if is_client:
        made = on_cluster(engine, found, make, workers)
    elif min(count, len(found)) > 1:
        made = side_by_side(engine, found, make, min(count, len(found)))
    else:
        made = ((block, make(block, rows_by(engine, block.question))) for block in found)
    reported = progress_of(progress, "near", len(found), "blocks", len(found) > 1)
    with contextlib.closing(made), reported as counted:
        yield from counted.each(made)


def are_swept(question: Question, nodes: int) -> bool:
    """Whether one thread makes the rows of all nodes at once, in less time than several search."""
    is_wide = question.values is None and question.height(nodes) >= SHARE * nodes
    return is_wide and nodes * question.most() <= max(SWEPT, FEW * nodes)


def count_in(name: str, value: Any) -> int:
    """A whole number from 1 on."""
    if not hasattr(value, "__index__"):
        raise TypeError(f"{name} is a whole number from 1 on, not {value!r}")
    if isinstance(value, bool) or operator.index(value) < 1:
        raise ValueError(f"{name} is a whole number from 1 on, not {value!r}")
    return operator.index(value)


def rows(
    engine: InProcess, question: Question, workers: Any = 1, progress: Any = None,
) -> near_rows.Rows:
    """All rows of a question with lists of any length."""
    def make(_: Block, portions: Iterable[tuple[int, near_rows.Rows]]) -> near_rows.Rows:
        return near_rows.below([rows for _, rows in portions])

    parts: dict[int, list[tuple[int, near_rows.Rows]]] = {}
    for block, found in values(engine, question, make, workers, progress):
        parts.setdefault(block.row, []).append((block.column, found))
    if not parts:
        return near_rows.empty(question.height(engine.nodes), question.values is not None)
    of_rows = (parts.pop(row) for row in sorted(parts))
    return near_rows.below([near_rows.beside(own, question.count) for own in of_rows])
