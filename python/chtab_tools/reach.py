"""Finds what can be reached from a place within limits, and writes polygons of it as GeoJSON.

  reach.py --limits R[,R..] [OPTIONS] OUT [PLACE]

The first line of PLACE has a longitude, a latitude and, if you like, a name. The place is taken to
the nearest point of the nearest road. The network may have any number of nodes.

Standard output has a MultiPolygon for each limit, the largest first, with the properties `limit`
and `from`. A polygon ends 90 metres from the roads that are reached. It is made of squares, each a
320th as wide as all that is reached, and it ends one square from the roads if that is more. If the
graph was made with turns (tools/osm_to_gr.py --turns), no forbidden turn is taken.

It needs Debian's packages python3-numpy, python3-scipy and python3-shapely. From Python,
`chtab.Network` does the same.

Example:  echo "9.5209 47.1410 Vaduz" | tools/reach.py --limits 300000,600000 roads > reach.geojson
"""
from __future__ import annotations

import argparse
import itertools
import json
import sys
from collections.abc import Sequence

import chtab_tools as cli
from chtab import files


def limits_of(word: str) -> list[int]:
    """Whole numbers above 0 with commas between them."""
    parts = word.split(",")
    if not all(part.isdecimal() and 0 < int(part) <= 2**60 for part in parts):
        raise argparse.ArgumentTypeError(
            f"{word!r} is no list of whole numbers from 1 to 2^60 with commas between them")
    return [int(part) for part in parts]


def words_of(arguments: Sequence[str]) -> argparse.Namespace:
    """Reads the arguments. Invalid ones end the process with status 2."""
    parser = cli.parser_of("reach", __doc__)
    parser.add_argument(
        "--limits", type=limits_of, required=True, metavar="R,R..",
        help="limits in the graph's unit, from 1 to 2^60")
    cli.add_network(parser)
    parser.add_argument(
        "place", metavar="PLACE", nargs="?", help="the file with the place (standard input)")
    return parser.parse_intermixed_args(arguments)


def main(arguments: Sequence[str]) -> None:
    """Writes the polygons that the words ask for to standard output."""
    words = words_of(arguments)
    places = list(itertools.islice(files.read_places(words.place or sys.stdin), 1))
    if not places:
        raise files.FileFault("there is no place to start at")
    with cli.open_network(words) as network:
        spot = network.snap(places[0].longitude, places[0].latitude, words.max_metres)
        found = network.isochrones(spot, words.limits)
    for feature in found["features"]:
        feature["properties"]["from"] = places[0].told()
    json.dump(found, sys.stdout, ensure_ascii=False)
    sys.stdout.write("\n")


def command() -> None:
    """Runs this command on the arguments of the process."""
    cli.run("reach", main, needs=("numpy", "scipy", "shapely"))
