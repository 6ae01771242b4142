"""Draws a road network and chtab's answers as one SVG, written to standard output.

  picture.py [OPTIONS] network OUT
  picture.py [OPTIONS] routes OUT [TEXT]
  picture.py [OPTIONS] reach OUT TARGETS.ss [TEXT]
  picture.py [OPTIONS] near OUT [TEXT]

OUT stands for OUT.gr and OUT.co. TEXT is what chtab wrote (standard input if you leave it out).
Arguments may come in any order.
  network  the roads alone
  routes   the text of `chtab dist --routes`. Each route has a colour, a ring where it starts and a
           dot where it ends. Where routes share a road, the later ones are drawn thin over the wide
           ones
  reach    the text of `chtab table` with one source. Roads are coloured by the weights of their
           nodes, in bands from 0 to the limit. TARGETS.ss has to be a list of all nodes, as
           `nearest.py --all` writes it. If that is more than a run of chtab takes, let `blocks.py`
           write the row as OUT.csv, and give that file for TEXT
  near     the text of `chtab near --all`. Roads are coloured by the weight to the nearest target,
           in bands from 0 to the limit. Targets are rings. If the text was made with `--from`, give
           that option here too

The picture has minutes or kilometres if a comment of OUT.gr says that weights are milliseconds or
metres.

Example:  ./chtab table roads.gr from.ss all.ss | tools/picture.py reach roads all.ss > reach.svg
"""
from __future__ import annotations

import argparse
import sys
from collections.abc import Sequence

import chtab_tools as cli
from chtab import files
from chtab_tools import svg

# The files of each kind after OUT, the last of which is optional.
FILES = {"network": (), "routes": ("TEXT",), "reach": ("TARGETS.ss", "TEXT"), "near": ("TEXT",)}


def words_of(arguments: Sequence[str]) -> argparse.Namespace:
    """Reads the arguments. Invalid ones end the process with status 2."""
    parser = cli.parser_of("picture", __doc__)
    parser.add_argument(
        "--size", type=int, default=800, metavar="P",
        help="pixels of the longer side of the map (800)")
    parser.add_argument("--title", default="", metavar="T", help="the title of the picture")
    parser.add_argument(
        "--names", metavar="FILE",
        help="name nodes in the legend by a list or queries that nearest.py wrote, or by OUT.nodes")
    parser.add_argument(
        "--limit", type=int, metavar="R",
        help="how far the bands go, in the graph's unit (as far as the farthest target)")
    parser.add_argument(
        "--bands", type=int, default=5, metavar="B", help="how many bands there are (5)")
    parser.add_argument(
        "--from", action="store_true", dest="is_from",
        help="the weights of near are those from the targets")
    parser.add_argument("kind", choices=FILES, help="what is drawn")
    parser.add_argument("out", metavar="OUT", help="the network")
    parser.add_argument(
        "files", metavar="FILE", nargs="*", help="what the kind of picture needs, as above")
    words = parser.parse_intermixed_args(arguments)
    takes = FILES[words.kind]
    if not max(0, len(takes) - 1) <= len(words.files) <= len(takes):
        parser.error(f"after OUT, {words.kind} takes {' '.join(takes) or 'no file'}")
    if words.size < 1 or words.bands < 1 or (words.limit or 0) < 0:
        parser.error("a size and a number of bands are at least 1, a limit at least 0")
    words.text = (
        words.files[len(takes) - 1] if takes and len(words.files) == len(takes) else sys.stdin)
    return words


def reach_of(words: argparse.Namespace) -> tuple[int, dict[int, int]]:
    """The source of a row of a table, and the weight to each node that is reached."""
    targets = files.read_list(words.files[0])
    rows = list(files.read_rows(words.text, len(targets)))
    if len(rows) != 1:
        raise files.FileFault(
            f"not a text of `chtab table` with one source and {len(targets)} targets")
    [(source, cells)] = rows
    return source, {node: cell for node, cell in zip(targets, cells) if cell is not None}


def main(arguments: Sequence[str]) -> None:
    """Writes the picture that the arguments ask for to standard output."""
    words = words_of(arguments)
    network = svg.Network(
        files.read_graph(words.out + ".gr"), files.read_coordinates(words.out + ".co"), words.size)
    names = files.read_names(words.names) if words.names else {}
    legend: svg.Legend = []
    if words.kind == "network":
        shapes = svg.roads(network)
    elif words.kind == "routes":
        shapes, legend = svg.draw_routes(network, list(files.read_routes(words.text)), names)
    elif words.kind == "near":
        nearest = {source: row[0] for source, row in files.read_near(words.text) if row}
        shapes, legend = svg.draw_near(
            network, nearest, words.limit, words.bands, words.is_from)
    else:
        shapes, legend = svg.draw_reach(
            network, *reach_of(words), words.limit, words.bands, names)
    svg.write(network, words.title, shapes, legend, sys.stdout)


def command() -> None:
    """Runs this command on the arguments of the process."""
    cli.run("picture", main)
