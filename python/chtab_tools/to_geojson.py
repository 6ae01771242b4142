"""Turns chtab's answers into files that maps and spreadsheets read.

  to_geojson.py [OPTIONS] routes OUT.co [TEXT]
  to_geojson.py [OPTIONS] table TARGETS.ss [TEXT]

TEXT is what chtab wrote (standard input if you leave it out). The result goes to standard output.
  routes  turns the text of `chtab dist --routes` into GeoJSON (RFC 7946), with a line for each
          route. Its properties are from, to, weight and arcs, and with names from_name and to_name.
          A query without a path has no line. A text without routes is refused
  table   turns the text of `chtab table` into CSV, with a row for each source, and a column for
          each target in the order of TARGETS.ss. A cell is empty if there is no path. Nodes have
          their names, if they have any, or else their numbers

Example:  ./chtab dist --routes roads.gr a.p2p | tools/to_geojson.py routes roads.co > a.geojson
"""
from __future__ import annotations

import argparse
import json
import sys
from collections.abc import Mapping, Sequence
from typing import IO, TYPE_CHECKING, Any

import chtab_tools as cli
from chtab import files
from chtab._files import geojson

if TYPE_CHECKING:
    from chtab.typing import Geojson, Path, Point, Source


def words_of(arguments: Sequence[str]) -> argparse.Namespace:
    """Reads the arguments. Invalid ones end the process with status 2."""
    parser = cli.parser_of("to_geojson", __doc__)
    parser.add_argument(
        "--names", metavar="FILE",
        help="name nodes by a list or queries that nearest.py wrote, or by a file whose line k "
             "names node k, such as OUT.nodes")
    parser.add_argument("kind", choices=("routes", "table"), help="what TEXT holds")
    parser.add_argument("file", metavar="FILE", help="OUT.co of routes, TARGETS.ss of a table")
    parser.add_argument("text", metavar="TEXT", nargs="?", help="the text (standard input)")
    return parser.parse_intermixed_args(arguments)


def write_table(path: Path, names: Mapping[int, str], text: Source, out: IO[str]) -> None:
    """Writes a table as CSV. `path` names the list of its targets, `names` has the names of
    nodes."""
    def called(node: int) -> str | int:
        return names.get(node, node)

    targets = files.read_list(path)
    rows = ((called(source), cells) for source, cells in files.read_rows(text, len(targets)))
    files.write_csv(out, map(called, targets), rows)


def route_feature(answer: files.Answer, line: Sequence[Point], names: Mapping[Any, str]) -> Geojson:
    """A route of `files.read_routes` along a line of places, with names of its ends."""
    ends, arcs = {"from": answer.source, "to": answer.target}, len(answer.nodes or ()) - 1
    properties = {**ends, "weight": answer.weight, "arcs": arcs}
    return geojson.feature(line, geojson.named(properties, answer, names))


def write_routes(
    source: Source, coordinates: files.Coordinates, names: Mapping[int, str], out: IO[str],
) -> None:
    """Writes the routes of a text, one feature in each line, one after the other."""
    between = '{"type": "FeatureCollection", "features": [\n'
    for answer in files.read_routes(source):
        line = [coordinates.of(node) for node in answer.nodes or ()]
        out.write(between + json.dumps(route_feature(answer, line, names), ensure_ascii=False))
        between = ",\n"
    out.write("\n]}\n" if between == ",\n" else between + "\n]}\n")


def main(arguments: Sequence[str]) -> None:
    """Writes the text that the words name to standard output, as GeoJSON or CSV."""
    words = words_of(arguments)
    names = files.read_names(words.names) if words.names else {}
    text = words.text or sys.stdin
    if words.kind == "routes":
        write_routes(text, files.read_coordinates(words.file), names, sys.stdout)
    else:
        write_table(words.file, names, text, sys.stdout)


def command() -> None:
    """Runs this command on the arguments of the process."""
    cli.run("to_geojson", main)
