"""Tables in files, in blocks: by threads of the library on this machine, or on a cluster of
Dask."""
from __future__ import annotations

import concurrent.futures
import contextlib
import os
import pathlib
import tempfile
from collections.abc import Iterator, Sequence
from dataclasses import dataclass
from typing import TYPE_CHECKING, Any

import numpy

from chtab import files
from chtab._engine import cluster, library
from chtab._engine.in_process import SIDE, InProcess
from chtab._engine.progress import Progress
from chtab.errors import ChtabError, ProgramFault

if TYPE_CHECKING:
    from numpy.typing import NDArray
    from chtab._engine.opening import Setting
    from chtab.typing import Integers, Path

# Seconds to wait for a scheduler, and for its first worker.
PATIENCE = 10


class Failed(ChtabError):
    """A table that was not made."""


@dataclass(frozen=True)
class Choices:
    """How a table is made: the limit of its cells or None, the side of its blocks or None, how many
    are made at a time, and the address of a scheduler of Dask or None."""

    within: int | None = None
    side: int | None = None
    threads: int = 1
    scheduler: str | None = None


@dataclass(frozen=True)
class Block:
    """A block of a table: its first row and column, and the nodes of its rows and columns."""

    row: int
    column: int
    sources: Integers
    targets: Integers

    def name(self) -> str:
        """What a fault calls the block."""
        row, column = self.row, self.column
        rows = f"sources {row + 1} to {row + len(self.sources)}"
        return f"{rows}, targets {column + 1} to {column + len(self.targets)}"


def cut(sources: Any, targets: Any, side: int) -> Iterator[Block]:
    """Yields the blocks of a table, one column of blocks after the other."""
    for column in range(0, len(targets), side):
        for row in range(0, len(sources), side):
            yield Block(row, column, sources[row:row + side], targets[column:column + side])


def cells_of(engine: InProcess, block: Block, within: int | None) -> Integers:
    """The cells of a block. This may be called in any process, on any machine."""
    limit = library.NO_LIMIT if within is None else within
    try:
        rows = library.nodes_of(block.sources, engine.nodes)
        columns = library.nodes_of(block.targets, engine.nodes)
        # The handle of a thread keeps the targets for its next block of the same column.
        return engine.handle().rows_to(rows, columns, limit)
    except (ProgramFault, ValueError) as fault:
        raise RuntimeError(f"block of {block.name()}: {fault}") from None


def on_threads(
    setting: Setting, blocks: Sequence[Block], choices: Choices,
) -> Iterator[tuple[Block, Integers]]:
    """Yields each block with its cells, which threads of this process make."""
    with InProcess(setting) as engine:
        engine.load()
        with concurrent.futures.ThreadPoolExecutor(choices.threads) as threads:
            begun = {
                threads.submit(cells_of, engine, each, choices.within): each for each in blocks}
            try:
                for future in concurrent.futures.as_completed(list(begun)):
                    yield begun.pop(future), future.result()
            finally:
                for future in begun:
                    future.cancel()


def client_of(address: str) -> Any:
    """A client of a scheduler that has a worker."""
    try:
        import distributed
    except ImportError:
        raise Failed("--scheduler needs Dask (Debian's package python3-distributed)") from None
    try:
        client = distributed.Client(address, timeout=PATIENCE)
    except (OSError, ValueError) as fault:
        raise Failed(f"no Dask scheduler at {address}: {fault}") from None
    try:
        client.wait_for_workers(1, timeout=PATIENCE)
    except TimeoutError:
        client.close()
        text = f"the Dask scheduler at {address} has no worker, after {PATIENCE} seconds"
        raise Failed(text) from None
    return client


def on_cluster(
    setting: Setting, blocks: Sequence[Block], choices: Choices,
) -> Iterator[tuple[Block, Integers]]:
    """Yields each block with its cells, which the workers of a cluster make."""
    with client_of(choices.scheduler or "") as client:
        try:
            with cluster.Tasks(client) as tasks:
                for block in blocks:
                    tasks.begin(block, cells_of, setting, block, choices.within)
                yield from tasks
        finally:
            client.run(close_on_worker, on_error="ignore")


def close_on_worker(dask_worker: Any) -> None:
    """Closes the networks that a worker keeps."""
    for engine in dask_worker.__dict__.pop(cluster.KEPT, {}).values():
        engine.close()


def make(setting: Setting, sources: Any, targets: Any, out: Path, choices: Choices) -> int:
    """Writes the table of these nodes to OUT (.csv or .npy); the number of its blocks."""
    out = pathlib.Path(out)
    if out.suffix not in (".csv", ".npy"):
        raise Failed("OUT has to end in .csv or .npy")
    sources, targets = (numpy.array(nodes, numpy.int64) for nodes in (sources, targets))
    blocks = list(cut(sources, targets, choices.side or SIDE))
    with tempfile.TemporaryDirectory(prefix=f".{out.name}.", dir=out.parent) as folder:
        path, shape = os.path.join(folder, "table.npy"), (len(sources), len(targets))
        made: Any = numpy.zeros(shape, numpy.int64)
        if blocks:
            # On the disk, because a table may be larger than memory.
            made = numpy.lib.format.open_memmap(path, "w+", numpy.int64, shape)
            fill(made, on_cluster if choices.scheduler else on_threads, setting, blocks, choices)
            made.flush()
        else:
            numpy.save(path, made)
        if out.suffix == ".csv":
            path = os.path.join(folder, "table.csv")
            rows = zip(sources.tolist(), (masked(row) for row in made))
            files.write_csv(path, targets.tolist(), rows)
        os.replace(path, out)
    return len(blocks)


def fill(
    made: NDArray[numpy.int64], call: Any, setting: Setting, blocks: Sequence[Block],
    choices: Choices,
) -> None:
    """Puts the cells of all blocks into a table."""
    found = call(setting, blocks, choices)
    with contextlib.closing(found), Progress("blocks", len(blocks), "blocks") as progress:
        try:
            for block, cells in progress.each(found):
                height, width = cells.shape
                made[block.row:block.row + height, block.column:block.column + width] = cells
        except RuntimeError as fault:
            raise fault if isinstance(fault, ChtabError) else Failed(str(fault)) from fault


def masked(row: Integers) -> list[int | None]:
    """The cells of a row, with None where there is no path."""
    return [None if cell < 0 else cell for cell in row.tolist()]
