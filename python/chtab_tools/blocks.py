"""Makes a table in blocks, so that it may be larger than one run of chtab allows.

  blocks.py [OPTIONS] GRAPH SOURCES.ss TARGETS.ss OUT

GRAPH, SOURCES.ss and TARGETS.ss are as for `chtab table`, but the lists may have any length. The
library for C makes one block of the table after the other, and the file OUT appears only when it is
whole:
  OUT.csv   a row for each source, and a column for each target. A cell is empty if there is no
            path, or none within the limit
  OUT.npy   a matrix of 64-bit numbers for numpy, with -1 for such a cell. Rows and columns are in
            the order of the lists

The network is in memory once, for all blocks. With --scheduler the blocks go to a Dask scheduler
(Debian's package python3-distributed) and its workers, on any number of machines. All of them need
GRAPH, the saved hierarchy, the program and the library at the same path. If a worker is lost, Dask
makes its block again. If a block fails, the fault names it, no more blocks are started, and the
status is 1.

Example:  tools/blocks.py --processes 2 roads.gr from.ss to.ss table.csv
"""
from __future__ import annotations

import argparse
import logging
import os
from collections.abc import Sequence

import chtab_tools as cli
from chtab import files


def words_of(arguments: Sequence[str]) -> argparse.Namespace:
    """Reads the arguments. Invalid ones end the process with status 2."""
    parser = cli.parser_of("blocks", __doc__)
    parser.add_argument(
        "--side", type=int, metavar="K", help="make blocks of K by K cells, 1 to 4,096 (4,096)")
    parser.add_argument(
        "--processes", type=int, default=os.cpu_count(), metavar="P",
        help="how many blocks are made at a time (the number of processors)")
    parser.add_argument(
        "--scheduler", metavar="ADDRESS",
        help="the address of a Dask scheduler, whose workers make the blocks")
    parser.add_argument(
        "--within", type=int, metavar="R", help="leave out distances above R, from 0 to 2^60")
    cli.add_runs(parser)
    for name, shown, text in (
        ("graph", "GRAPH", "the graph"), ("sources", "SOURCES.ss", "the sources"),
        ("targets", "TARGETS.ss", "the targets"), ("out", "OUT", "OUT.csv or OUT.npy")):
        parser.add_argument(name, metavar=shown, help=text)
    words = parser.parse_args(arguments)
    if not (1 <= (words.side or 1) <= 4_096 and words.processes >= 1):
        parser.error("a side is from 1 to 4,096, and there is at least one process")
    return words


def main(arguments: Sequence[str]) -> None:
    """Makes the table that the arguments ask for, and prints its size."""
    words = words_of(arguments)
    from chtab_tools import tables
    from chtab._engine.opening import Running

    if words.scheduler:
        # A closed client of Dask may leave a future behind, about which asyncio would write a
        # message.
        logging.getLogger("asyncio").setLevel(logging.CRITICAL)
    sources, targets = files.read_list(words.sources), files.read_list(words.targets)
    saved = os.path.abspath(words.saved) if words.saved else None
    setting = Running(words.program, words.workers).setting(os.path.abspath(words.graph), saved)
    choices = tables.Choices(words.within, words.side, words.processes, words.scheduler)
    count = tables.make(setting, sources, targets, words.out, choices)
    cells = f"{len(sources):,} by {len(targets):,} cells"
    print(f"{cells} in {words.out}, from {count:,} blocks")


def command() -> None:
    """Runs this command on the arguments of the process."""
    cli.run("blocks", main, needs=("numpy",))
