"""Makes a graph for chtab from an OpenStreetMap file: roads for cars, bicycles or people on foot.

  osm_to_gr.py [OPTIONS] MAP OUT

It writes
  OUT.gr     the graph: arcs in the order of the map's ways, weights rounded to the nearest whole
             number
  OUT.co     the coordinates, in the form of the DIMACS challenge: `v NODE X Y`, longitude and
             latitude times 1,000,000
  OUT.nodes  line k has the number on OpenStreetMap's map of node k. Nodes are in the order of these
             numbers
  OUT.ways   for each arc, in the order of OUT.gr, a line `w NUMBER` with the number of its way on
             the map; 0 if it is part of none
  OUT.bends  with --bends: the points of each arc between its ends, `b ARC X Y`. If no arc has any,
             an older file is removed
  OUT.names  with --names: what each arc is called, as signs have it. Without --names an older file
             is removed

Standard error has a table of what was left out. Before that, it says how far a long conversion is.

docs/MAPS.md says what becomes a road, for whom and how fast. Lengths are those of great circles on
a sphere with a radius of 6,371,008.8 m.

Example:  tools/osm_to_gr.py liechtenstein.osm.bz2 roads
"""
from __future__ import annotations

import argparse
import sys
from collections.abc import Sequence

import chtab_tools as cli
from chtab import files
from chtab_maps import converting, profiles
from chtab_maps.ways import CLASSES

UNITS = {"time": "milliseconds", "metres": "metres"}


def part_of(word: str) -> str | int:
    """`all`, `large`, `largest` or a rank."""
    if word in ("all", "large", "largest"):
        return word
    if not word.isdecimal() or not int(word):
        raise argparse.ArgumentTypeError(
            f"{word!r} is none of all, large, largest, and no number from 1 on")
    return int(word)


def classes_of(word: str) -> tuple[str, ...]:
    """Some classes of ways, in their order."""
    found = word.split(",")
    if not set(found) <= set(CLASSES):
        raise argparse.ArgumentTypeError(
            f"{word!r} is none of {', '.join(CLASSES)}, nor some of them with commas between them")
    return tuple(name for name in CLASSES if name in found)


def words_of(arguments: Sequence[str]) -> argparse.Namespace:
    """Reads the arguments. Invalid ones end the process with status 2."""
    parser = cli.parser_of("osm_to_gr", __doc__)
    parser.add_argument(
        "--profile", choices=profiles.NAMES, default="car",
        help="who travels, which decides on ways, access, barriers and speeds (car)")
    parser.add_argument(
        "--metric", choices=UNITS, default="time",
        help="weights are milliseconds of travel, or metres (time)")
    parser.add_argument(
        "--turns", action="store_true",
        help="no turn is taken that the map forbids: a crossing with such turns becomes several "
        "nodes")
    parser.add_argument(
        "--turn-costs", action="store_true",
        help="the same, and turns cost time by their angle, as do traffic lights and turning back: "
        "each arc of a road has nodes of its own")
    parser.add_argument(
        "--turning-back", choices=("crossings", "dead-ends"), default="crossings",
        help="with --turns or --turn-costs: one turns back at dead ends and crossings, or at dead "
        "ends alone, for which --turns takes four times as many nodes (crossings)")
    parser.add_argument(
        "--nodes", choices=("crossings", "all"), default="crossings",
        help="crossings: nodes are where ways meet or end, and an arc is a stretch of way between "
        "two of them; all: each bend is a node too (crossings)")
    parser.add_argument(
        "--part", type=part_of, default="largest", metavar="{largest,large,all,N}",
        help="keep the largest strongly connected component; or each large one, so that an island "
        "is one; or all of them; or the N-th by size (largest)")
    parser.add_argument(
        "--exclude", type=classes_of, default=(), metavar="CLASSES",
        help="leave out the ways of some classes, for requests that exclude them: toll, motorway "
        "and ferry, with commas between them")
    parser.add_argument(
        "--no-ferries", action="store_false", dest="ferries", help="leave ferries out")
    parser.add_argument(
        "--bends", action="store_true", help="write OUT.bends, to draw roads with their bends")
    parser.add_argument(
        "--names", action="store_true",
        help="write OUT.names, to call roads by their names and to tell turns")
    parser.add_argument(
        "--driving-side", choices=files.SIDES, default="right",
        help="the side of the road that is driven on, for OUT.names and --turn-costs (right)")
    parser.add_argument(
        "--log", metavar="FILE",
        help="write a line of CSV for each object that was left out or ignored: its number, and "
        "why")
    parser.add_argument("--quiet", action="store_true", help="write nothing on standard error")
    parser.add_argument(
        "map", metavar="MAP",
        help="OpenStreetMap's XML, plain or packed (.gz, .bz2, .xz), or .osm.pbf (by Debian's "
        "package python3-pyosmium); - is standard input")
    parser.add_argument(
        "out", metavar="OUT", help="the files that are written, without their suffix")
    found = parser.parse_args(arguments)
    if found.turning_back != "crossings" and not (found.turns or found.turn_costs):
        parser.error("--turning-back is about turns: give --turns or --turn-costs too")
    if found.turn_costs and (found.profile, found.metric) != ("car", "time"):
        parser.error("--turn-costs are milliseconds of cars: leave --profile and --metric out")
    return found


def main(arguments: Sequence[str]) -> None:
    """Makes the graph that the arguments ask for, and reports what was left out of the map."""
    words = words_of(arguments)
    choices = converting.Choices(
        **{name: getattr(words, name) for name in converting.Choices._fields})
    made, report = converting.convert(words.map, choices, not words.quiet, words.log is not None)
    names = converting.write(
        words.out, made, converting.comments_of(words.map, choices), UNITS[words.metric])
    if words.log is not None:
        report.write_log(words.log)
    if not words.quiet:
        title = (
            f"left out of {converting.name_of(words.map)}, for "
            f"{profiles.profile(words.profile).people}")
        print(*report.lines(title), sep="\n", file=sys.stderr)
    print(
        f"{len(made.names):,} nodes and {len(made.arcs):,} arcs in {', '.join(names[:-1])} and "
        f"{names[-1]}")


def command() -> None:
    """Runs this command on the arguments of the process."""
    cli.run("osm_to_gr", main)
