"""Computes trips between places that lie beside roads: their weights, their lengths and their
lines.

  trips.py [OPTIONS] OUT [PLACES]

Each line of PLACES is a place: longitude, latitude and, if you like, a name. It is taken to the
nearest point of the nearest road. A trip is the best over the ends of both roads, with the parts of
these added. If a place is refused, nothing is written.

Without an option the result is CSV with a line for each trip: the first and second place make a
trip, the third and fourth, and so on. The columns are both names, the weight in the graph's unit
(empty if there is no path), and how many metres each place lies from its road. If the graph was
made with turns (tools/osm_to_gr.py --turns), no forbidden turn is taken.

Example:  tools/trips.py roads places.txt

It needs Debian's packages python3-numpy and python3-scipy. From Python, `chtab.Network` does the
same.
"""
from __future__ import annotations

import argparse
import csv
import json
import sys
from collections.abc import Sequence
from typing import IO, TYPE_CHECKING

import chtab_tools as cli
from chtab import files
from chtab._files import geojson

if TYPE_CHECKING:
    from chtab._roads.routes import Trip
    from chtab._roads.snapping import Spots
    from chtab.typing import Integers


def words_of(arguments: Sequence[str]) -> argparse.Namespace:
    """Reads the arguments. Invalid ones end the process with status 2."""
    parser = cli.parser_of("trips", __doc__)
    kinds = parser.add_mutually_exclusive_group()
    kinds.add_argument(
        "--table", action="store_true", help="write CSV with a row and a column for each place")
    kinds.add_argument(
        "--geojson", action="store_true",
        help="write a line for each trip that has a way, with both names, its weight and its "
             "metres")
    cli.add_network(parser)
    parser.add_argument("places", metavar="PLACES", nargs="?", help="the places (standard input)")
    return parser.parse_intermixed_args(arguments)


def write_trips(
    places: Sequence[files.Place], spots: Spots, weights: Integers, out: IO[str],
) -> None:
    """A line for each trip, from place 2 k to place 2 k + 1."""
    lines = csv.writer(out, lineterminator="\n")
    lines.writerow(["from", "to", "weight", "from_metres", "to_metres"])
    metres = [f"{each:.0f}" for each in spots.metres]
    for trip, weight in enumerate(weights.tolist()):
        start, end = 2 * trip, 2 * trip + 1
        lines.writerow(
            [
                places[start].told(), places[end].told(), "" if weight < 0 else weight,
                metres[start], metres[end]])


def write_table(names: Sequence[str], table: Integers, out: IO[str]) -> None:
    """Writes a table of all places as CSV, by their names, with an empty cell where there is no
    way."""
    rows = (
        (name, [None if weight < 0 else weight for weight in row])
        for name, row in zip(names, table.tolist()))
    files.write_csv(out, names, rows)


def write_lines(places: Sequence[files.Place], trips: Sequence[Trip], out: IO[str]) -> None:
    """A feature for each trip that has a way."""
    ends = zip(places[::2], places[1::2])
    features = [
        trip.to_geojson({"from": start.told(), "to": end.told()})
        for (start, end), trip in zip(ends, trips) if trip.line]
    json.dump(geojson.collection(features), out, ensure_ascii=False)
    out.write("\n")


def main(arguments: Sequence[str]) -> None:
    """Writes the trips that the words ask for to standard output."""
    words = words_of(arguments)
    places = list(files.read_places(words.places or sys.stdin))
    if len(places) % 2 and not words.table:
        raise files.FileFault("a trip needs two places, and the last line has no second")
    with cli.open_network(words) as network:
        spots = network.snap(
            [each.longitude for each in places], [each.latitude for each in places],
            words.max_metres)
        if words.table:
            write_table(
                [place.told() for place in places], network.trip_table(spots, spots), sys.stdout)
        elif words.geojson:
            write_lines(places, network.trip_routes(spots[::2], spots[1::2]), sys.stdout)
        else:
            write_trips(places, spots, network.trips(spots[::2], spots[1::2]), sys.stdout)


def command() -> None:
    """Runs this command on the arguments of the process."""
    cli.run("trips", main, needs=("numpy", "scipy"))
