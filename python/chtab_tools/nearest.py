"""Finds the nodes nearest to places, and writes them as a query file or a list for chtab.

  nearest.py [OPTIONS] OUT.co [PLACES]

Each line of PLACES is a place: longitude, latitude and, if you like, a name. Without --queries a
list is written, with a line `s NODE` for each place. The comment before each line has the place's
name and its distance to the node in metres. If a place is refused, nothing is written.

If OUT.co was made with turns (tools/osm_to_gr.py --turns), trips start and end at different nodes
of a crossing. With --queries the second place of each query becomes the node where trips end.
--targets makes a list of such nodes.

OUT.co is the coordinate file that tools/osm_to_gr.py writes, or one of the DIMACS challenge, in
millionths of a degree. If several nodes lie at one point, the one with the least number is taken.
From Python, `chtab.Network` also takes places to roads between nodes.

Example:  echo "9.5209 47.1410 Vaduz" | tools/nearest.py roads.co
"""
from __future__ import annotations

import argparse
import sys
from collections.abc import Sequence

import chtab_tools as cli
from chtab import files
from chtab._engine.progress import Progress
from chtab.errors import TooFar
from chtab._roads import nearest

# How many places are looked for between two reports of progress.
MANY = 1_000


def words_of(arguments: Sequence[str]) -> argparse.Namespace:
    """Reads the arguments. Invalid ones end the process with status 2."""
    parser = cli.parser_of("nearest", __doc__)
    kinds = parser.add_mutually_exclusive_group()
    kinds.add_argument(
        "--queries", action="store_true",
        help="write queries: the first and second place make one, the third and fourth, and so on")
    kinds.add_argument(
        "--targets", action="store_true", help="write a list of targets: the nodes where trips end")
    parser.add_argument(
        "--all", action="store_true", help="write a list of all nodes in order, without PLACES")
    parser.add_argument(
        "--plain", action="store_true",
        help="search by a grid, as without scipy (Debian's package python3-scipy)")
    cli.add_max_metres(parser, "node")
    parser.add_argument("coordinates", metavar="OUT.co", help="the coordinates of the nodes")
    parser.add_argument(
        "places", metavar="PLACES", nargs="?", help="the file of places (standard input)")
    return parser.parse_intermixed_args(arguments)


def found_at(
    places: Sequence[files.Place], coordinates: files.Coordinates, words: argparse.Namespace,
) -> tuple[list[int], list[str]]:
    """The node of each place and the comment about it. Targets of queries, and of --targets, are
    the nodes where trips end."""
    index = nearest.index_of(coordinates, words.plain)
    nodes: list[int] = []
    notes, ends = [], coordinates.ends() if words.queries or words.targets else {}
    with Progress("nearest", len(places), "places") as progress:
        for start in range(0, len(places), MANY):
            part = places[start:start + MANY]
            for place, node, metres in zip(
                part,
                *index.nearest(
                    [each.longitude for each in part], [each.latitude for each in part])):
                if not metres <= words.max_metres:
                    raise TooFar(
                        f"{place.told()} is {metres:,.0f} m from the nearest node, more than "
                        f"--max-metres {words.max_metres:,.0f}; "
                        "a line is longitude, then latitude")
                is_target = words.targets or len(nodes) % 2
                nodes.append(ends.get(int(node), int(node)) if is_target else int(node))
                notes.append(f"{place.told()}: node {nodes[-1]}, {metres:.0f} m away")
            progress.step(len(part))
    return nodes, notes


def main(arguments: Sequence[str]) -> None:
    """Writes the list or the queries that the arguments ask for to standard output."""
    words = words_of(arguments)
    coordinates = files.read_coordinates(words.coordinates)
    if words.all:
        return files.write_list(sys.stdout, coordinates.known())
    places = list(files.read_places(words.places or sys.stdin))
    if words.queries and len(places) % 2:
        raise files.FileFault("a query needs two places, and the last line has no second")
    nodes, notes = found_at(places, coordinates, words)
    if words.queries:
        files.write_queries(
            sys.stdout, list(zip(nodes[::2], nodes[1::2])), list(zip(notes[::2], notes[1::2])))
    else:
        files.write_list(sys.stdout, nodes, notes)


def command() -> None:
    """Runs this command on the arguments of the process."""
    cli.run("nearest", main)
