"""Networks and handles of the library for C, over the first example and over the country."""
import pathlib

from helpers import ways
from helpers.in_process import make
from helpers.maps import COUNTRY
from helpers.running import PROGRAM, ROOT
import chtab

FIRST, FIRST_SAVED = ROOT / "examples" / "first.gr", ROOT / "examples" / "first.ch"
GRAPH = f"{COUNTRY}.gr"


def of_country(**more):
    """The network of the country by the library."""
    return chtab.Network.open(GRAPH, saved=ways.saved_for(GRAPH), program=PROGRAM, library=make(), **more)


def of_first(**more):
    return chtab.Network.open(FIRST, saved=FIRST_SAVED, program=PROGRAM, library=make(), **more)


def handle_of(graph=FIRST, saved=FIRST_SAVED):
    """An open handle."""
    from chtab._engine import library

    handle = library.Handle(library.loaded(make()))
    handle.open(pathlib.Path(graph).read_bytes(), pathlib.Path(saved).read_bytes())
    return handle


def route(handle, source, target):
    """The weight of a route between two nodes, from 0 on, and its nodes; -1 and none where there is no walk."""
    import numpy

    ends = (numpy.array([node], numpy.uint32) for node in (source, target))
    weights, _, nodes, _ = handle.routes_with_lines(*ends, handle.nodes())
    return int(weights[0]), nodes
