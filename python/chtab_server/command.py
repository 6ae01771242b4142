"""Serves networks as a page, and OSRM's interface and JSON for programs (docs/SERVICE.md).

  page.py [OPTIONS] OUT
  page.py [OPTIONS] --network NAME=OUT..

First the networks are read, and their hierarchies are built or, where they are saved, checked. Then
standard output has the address. Everybody who reaches that address may ask. Roads are drawn from
the graph, and no other service is needed. Ctrl-C ends it.

It needs Debian's packages python3-aiohttp, python3-numpy, python3-scipy, python3-shapely and
libjs-leaflet.

Example:  tools/page.py --places places.txt roads
"""
from __future__ import annotations

import argparse
import logging
import os
import sys
from collections.abc import Callable, Sequence
from typing import TYPE_CHECKING, Any

import chtab_tools as cli
from chtab import files
from chtab.errors import ChtabError

if TYPE_CHECKING:
    from chtab_server.networks import Named, Networks
    from chtab_server.osrm import answering
    from chtab_server.ports import Port
    from chtab_server.service import Choices, Service

# The seconds after which a worker thread lets another one go on.
TURN = 0.0005
# The most of a size that may be asked for.
MOST = 100_000
# The classes of ways that clients may exclude.
CLASSES = "toll", "motorway", "ferry"
# The forms of lines of the log.
LOG_FORMS = "plain", "combined", "json"
# What the sizes of requests bound that have osrm-routed's names, as the arguments have them.
SIZES = {
    "max_viaroute_size": "route", "max_table_size": "table", "max_trip_size": "trip",
    "max_matching_size": "match", "max_nearest_size": "nearest"}


def number_of(low: int, high: int, what: str) -> Callable[[str], int]:
    """A kind of argument: a whole number of this range."""
    def number(word: str) -> int:
        if not (word.isascii() and word.isdecimal()) or not low <= int(word) <= high:
            raise argparse.ArgumentTypeError(f"{word!r} is no {what} from {low} to {high}")
        return int(word)

    return number


def network_in(word: str) -> tuple[str, str]:
    """A network and what clients call it: (name, the start of the names of its files). Behind a
    slash the name has the classes of ways that the network is without, in one order."""
    name, mark, out = word.partition("=")
    profile, slash, excluded = name.partition("/")
    if not (
        mark and out and profile.isascii() and profile.replace("-", "").replace("_", "").isalnum()
    ):
        raise argparse.ArgumentTypeError(f"{word!r} is no NAME=OUT, as car=roads")
    classes = excluded.split(",") if slash else []
    if not set(classes) <= set(CLASSES):
        raise argparse.ArgumentTypeError(
            f"{word!r} is no NAME/CLASSES=OUT, as car/toll=roads-without-toll; the classes are "
            f"{', '.join(CLASSES)}")
    return (
        "/".join([
            profile,
            *([",".join(known for known in CLASSES if known in classes)] if classes else [])]), out)


def parser_of() -> cli.Parser:
    """The parser of this command."""
    parser = cli.parser_of("page", __doc__)
    parser.add_argument(
        "--places", metavar="FILE",
        help="places with names, for labels: a longitude, a latitude and a name a line")
    parser.add_argument("--title", metavar="T", help="the title of the page (the name of OUT)")
    parser.add_argument(
        "--tiles", metavar="URL",
        help="a layer of map tiles under the roads, as 'https://tile.example.org/{z}/{x}/{y}.png'; "
        "the browser fetches them")
    parser.add_argument(
        "--cors", action="append", default=[], metavar="ORIGIN",
        help="let pages of this site ask too, as 'https://example.org', or of any site: '*'; it "
        "may be given several times")
    parser.add_argument(
        "--profile", action="append", default=[], metavar="NAME",
        help="the name that clients of OSRM's interface give the network, such as driving; it may "
        "be given several times (any name)")
    parser.add_argument(
        "--network", action="append", default=[], type=network_in, metavar="NAME=OUT",
        help="serve the network OUT to clients of OSRM's interface that ask for the profile NAME; "
        "it may be given several times. OUT.ch is its saved hierarchy, if it exists. The first one "
        "is that of the page. NAME/CLASSES, as car/toll, is the network for those that exclude "
        "these classes")
    parser.add_argument(
        "--prepare", action="store_true",
        help="serve nothing: write OUT.mapped, with which a service of the same files starts "
        "sooner")
    add_listening(parser)
    add_engines(parser)
    add_limits(parser)
    cli.add_runs(parser)
    parser.add_argument(
        "out", nargs="?", metavar="OUT",
        help="the network: OUT.gr, OUT.co and, where they exist, OUT.bends, OUT.names and "
        "OUT.nodes")
    return parser


def add_listening(parser: argparse.ArgumentParser) -> None:
    """The options of what the service listens on, and of what it writes about it."""
    parser.add_argument(
        "--host", default="127.0.0.1", metavar="H",
        help="the address of this machine that is listened on (127.0.0.1)")
    parser.add_argument(
        "--port", type=number_of(0, 65_535, "port"), default=8080, metavar="P",
        help="the port (8080); 0: any that is free")
    parser.add_argument(
        "--takeover", action="store_true",
        help="take the port over from the service that listens there, which goes on until it is "
        "ended: then no request is lost")
    parser.add_argument(
        "--processes", type=number_of(1, 64, "number of processes"), default=1, metavar="N",
        help="how many processes answer, 1 to 64 (1); they have the network in memory together if "
        "the library answers, and each has a run of its own otherwise")
    parser.add_argument(
        "--log", metavar="FILE",
        help="write a line for each request to the end of FILE; '-' is standard output")
    parser.add_argument(
        "--log-form", choices=LOG_FORMS, default="plain",
        help="the lines of the log: plain, with the reason of each refusal; combined, as Apache "
        "and nginx write them; or json, an object a line (plain)")
    parser.add_argument(
        "--proxy", metavar="ADDRESS",
        help="the address of your proxy, such as 127.0.0.1; its header X-Forwarded-For names the "
        "client that asks")


def add_engines(parser: argparse.ArgumentParser) -> None:
    """The options of what answers."""
    parser.add_argument(
        "--library", nargs="?", const="", metavar="FILE",
        help="the library for C that answers in each process (libchtab.so.1 beside the program)")
    parser.add_argument(
        "--segment-speed-file", metavar="FILE",
        help="speeds of pieces of road, in OSRM's form: lines from_osm_id,to_osm_id,speed in "
        "kilometres an hour. They are put in place of those of the map, and again on SIGHUP or "
        "once the file is replaced, while the service answers. OUT.nodes is needed")
    # Runs of the program answered in version 1.1, if this was given.
    parser.add_argument("--pipe", action="store_true", help=argparse.SUPPRESS)


def add_limits(parser: argparse.ArgumentParser) -> None:
    """The limits of requests and of connections."""
    size: dict[str, Any] = {"type": number_of(1, MOST, "number"), "metavar": "N"}
    parser.add_argument("--max-viaroute-size", **size, help="the most coordinates of route (500)")
    parser.add_argument(
        "--max-table-size", **size,
        help="the most coordinates of table (1,000); if you give N, each table of that size is "
        "answered, with distances too")
    parser.add_argument("--max-trip-size", **size, help="the most coordinates of trip (100)")
    parser.add_argument("--max-matching-size", **size, help="the most coordinates of match (500)")
    parser.add_argument(
        "--max-nearest-size", **size, help="the most roads that nearest may be asked for (100)")
    parser.add_argument(
        "--waiting", **size, default=200,
        help="how many requests may wait (200); the service answers further ones that it is busy")
    parser.add_argument(
        "--max-connections", **size, default=1_000,
        help="how many connections one process takes (1,000)")
    parser.add_argument(
        "--max-connections-of-address", **size, default=250,
        help="how many of these from one address that is not the proxy's (250)")
    for name, seconds in (
        ("--timeout", 60), ("--sending", 30), ("--idle", 60), ("--ending", 30), ("--grace", 5)
    ):
        parser.add_argument(name, type=float, default=seconds, help=argparse.SUPPRESS)


def words_of(words: Sequence[str]) -> argparse.Namespace:
    """Reads the arguments. Invalid ones end the process with status 2."""
    parser = parser_of()
    found = parser.parse_args(words)
    names = [name for name, _ in found.network]
    if bool(found.out) == bool(names):
        parser.error(
            "one network OUT is served, or those of --network" if names
            else "a network is needed: OUT, or --network NAME=OUT")
    if len(set(names)) < len(names):
        parser.error("each --network has a name of its own")
    if names and (found.profile or found.saved):
        parser.error(
            "with --network a network has the name and the hierarchy that stand there: leave "
            "--profile and --saved out")
    return found


def named(words: argparse.Namespace) -> list[Named]:
    """The networks of the command line."""
    from chtab_server.networks import Named

    if words.out:
        return [Named("", words.out, words.saved)]
    return [
        Named(name, out, f"{out}.ch" if os.path.exists(f"{out}.ch") else None)
        for name, out in words.network]


def sizes_of(words: argparse.Namespace) -> answering.Limits:
    """The limits of OSRM's interface. Where the size of tables is chosen, each table of that size
    may be asked for, with distances too."""
    from chtab_server.osrm import answering

    found = {
        name: getattr(words, option) for option, name in SIZES.items()
        if getattr(words, option) is not None}
    if "table" in found:
        found |= dict.fromkeys(("cells", "cells_with_distances"), found["table"] ** 2)
    return answering.Limits(**found)


def choices_of(words: argparse.Namespace) -> Choices:
    """The choices that the options of the command line make for the service."""
    from chtab_server.connections import caps_of
    from chtab_server.requests import Limits
    from chtab_server.service import Choices

    return Choices(
        title=words.title or "",
        places=tuple(files.read_places(words.places)) if words.places else (), tiles=words.tiles,
        limits=Limits(
            waiting=words.waiting, sending=words.sending, idle=words.idle, ending=words.ending,
            grace=words.grace), osrm=sizes_of(words),
        caps=caps_of(words.max_connections, words.max_connections_of_address),
        allowed=tuple(words.cors), profiles=tuple(words.profile), proxy=words.proxy,
        log_form=words.log_form)


def main(words: Sequence[str]) -> None:
    """Serves what the arguments ask for, until a signal ends it."""
    # Help needs none of the modules below.
    found = words_of(words)
    from chtab_server import web_policy
    from chtab_server.networks import Networks
    from chtab_server.ports import port_at
    from chtab_server.recording import log_to
    from chtab_server.service import LEAFLET

    logging.basicConfig(format="chtab-page: %(message)s")
    if not LEAFLET.is_dir():
        raise ChtabError("the page needs Debian's package libjs-leaflet")
    if found.log:
        log_to(found.log)
    choices = choices_of(found)
    web_policy.tile_sources(choices.tiles)
    sys.setswitchinterval(TURN)
    networks = named(found)
    is_loaded = found.processes == 1 and not found.segment_speed_file
    more = {
        "program": found.program, "workers": found.workers, "timeout": found.timeout,
        "load": is_loaded}
    if found.prepare:
        with Networks(networks, library=found.library or None, **more | {"load": False}) as served:
            print(*(each.prepare() for each in served), sep="\n")
        return
    # A port that is taken is reported before the time that reading takes.
    port = port_at(found.host, found.port, found.takeover)
    with Networks(networks, library=found.library or None, **more) as served:
        status = serve_all(found, served, choices, port)
    if status:
        sys.exit(status)


def serve_all(words: argparse.Namespace, networks: Networks, choices: Choices, port: Port) -> int:
    """Serves networks by one process or several, until a signal ends it; the status of the
    process."""
    import asyncio
    import gc

    from chtab_server.metrics import Metrics
    from chtab_server.ports import notify
    from chtab_server.service import Material, Service
    from chtab_server.serving import Family, serve
    from chtab_server.speeds import Traffic

    traffic = Traffic(words.segment_speed_file, networks) if words.segment_speed_file else None
    if traffic is not None:
        traffic.put(*traffic.networks())
    metrics, material = Metrics(words.processes), Material(networks, choices)

    def service(row: int) -> Service:
        networks.load()
        return Service(networks, choices, metrics, row, material, traffic)

    def tell() -> None:
        print(port.address, flush=True)
        notify("READY=1")

    # What stays is not looked at by the collector of garbage. What is made before processes are
    # forked is in memory once, as long as nobody writes there.
    if words.processes > 1:
        networks.open_once()
    gc.collect()
    gc.freeze()
    if words.processes == 1:
        return asyncio.run(serve(service(0), port, tell))
    return Family(
        words.processes, service, metrics, port, networks.translated, traffic is not None).run(tell)


def command() -> None:
    """Runs this command on the arguments of the process."""
    cli.run("chtab-page", main, needs=("aiohttp", "numpy", "scipy", "shapely"))
