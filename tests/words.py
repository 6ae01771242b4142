#!/usr/bin/python3
"""Gives the built program words, and compares what it takes them for.

- Options and files in any order, numbers in each form and at their limits: the text shows what was read.
- Words that are refused, each with part of what is told; numbers outside their ranges, at each tool that reads them.
- Help: what the table of options says of each option of a tool, and the rest. The version.
- Where help can't be written, or refused words can't be told.

The last line is 'N passed, N failed'.
"""
import sys
import tempfile
from itertools import permutations, product
from pathlib import Path

sys.path.insert(0, str(Path(__file__).resolve().parent.parent / "packaging"))

import options
from helpers.running import PROGRAM, ROOT, Answer, Count, agrees, build, run

# A line of three nodes; four nodes with two shortest paths from 2 to 4, of which the orders by difference and by depth take one each; and
# four nodes with two shortest paths from 4 to 1, of which only the order that `--quick` finds takes the one over 2. Four nodes with two shortest
# paths from 1 to 3: where 2 is the lowest node, customization joins 1 and 3 over it, and contraction finds the other path. All of 18 nodes are
# joined, so that each order has more than 40 triangles a node.
LINE = "p sp 3 2\na 1 2 4\na 2 3 5\n"
TIES = "p sp 4 6\na 1 4 1\na 2 1 1\na 2 3 1\na 3 2 1\na 3 4 1\na 4 3 1\n"
QUICK = "p sp 4 5\na 1 4 1\na 2 1 1\na 3 1 1\na 4 2 1\na 4 3 1\n"
ROUND = "p sp 4 4\na 1 2 1\na 2 3 1\na 1 4 1\na 4 3 1\n"
CLIQUE = "p sp 18 306\n" + "".join(f"a {start} {end} 1\n" for start, end in permutations(range(1, 19), 2))


def hub(arcs):
    """Node 1 with so many arcs: one to each other node, and one back from each or from all but the last."""
    leaves = (arcs + 1) // 2
    lines = [f"a 1 {leaf + 1} 1\n" for leaf in range(1, leaves + 1)] + [f"a {leaf + 1} 1 1\n" for leaf in range(1, arcs - leaves + 1)]
    return f"p sp {leaves + 1} {arcs}\n" + "".join(lines)


def numbers(nodes):
    """The order of numbers."""
    return f"p ch {nodes} 0\n" + "".join(f"o {node}\n" for node in range(1, nodes + 1))


FILES = {
    "line.gr": LINE,
    "--plain": LINE,
    "line.p2p": "p aux sp p2p 2\nq 1 3\nq 3 1\n",
    "from.ss": "p aux sp ss 2\ns 1\ns 3\n",
    "to.ss": "p aux sp ss 2\ns 3\ns 2\n",
    "ties.gr": TIES,
    "ties.p2p": "p aux sp p2p 1\nq 2 4\n",
    "requests.txt": "q 1 3\nt 1 2\ns 2\ns 3\ns 1\n",
    "ties.txt": "q 2 4\n",
    "quick.gr": QUICK,
    "quick.p2p": "p aux sp p2p 1\nq 4 1\n",
    "quick.txt": "r 4 1\n",
    "round.gr": ROUND,
    "round.ch": "p ch 4 0\no 2\no 4\no 1\no 3\n",
    "round.p2p": "p aux sp p2p 1\nq 1 3\n",
    "round.txt": "q 1 3\n",
    "clique.gr": CLIQUE,
    "clique.p2p": "p aux sp p2p 1\nq 3 18\n",
    "that.ch": "p ch 4 0\no 3\no 2\no 1\no 4\n",
    "order.ch": "p ch 3 0\no 1\no 3\no 2\n",
    "twice.ch": "p ch 3 0\no 1\no 3\no 1\n",
    "busy.gr": hub(128),
    "busy.ch": numbers(65),
    "crowded.gr": hub(129),
    "crowded.ch": numbers(66),
    "hub.p2p": "p aux sp p2p 1\nq 1 2\n",
}
DISTANCES = "d 1 3 9\nd 3 1 -\n"
ROUTES = "d 1 3 9\nr 2\na 1 2 4\na 2 3 5\nd 3 1 -\n"
TABLE = "t 1 9 4\nt 3 0 -\n"
WITHIN_4 = "t 1 - 4\nt 3 0 -\n"
WITHIN_0 = "t 1 - -\nt 3 0 -\n"
NEAR = "n 1 2 2 4 3 9\nn 3 1 3 0\n"
NEAREST = "n 1 1 2 4\nn 3 1 3 0\n"
NEAR_WITHIN_0 = "n 1 0\nn 3 1 3 0\n"
NEAR_FROM = "n 1 0\nn 3 2 3 0 2 5\n"
NEAR_ALL = "n 1 2 2 4 3 9\nn 2 2 2 0 3 5\nn 3 1 3 0\n"
BY_DIFFERENCE = "d 2 4 2\nr 2\na 2 1 1\na 1 4 1\n"
BY_DEPTH = "d 2 4 2\nr 2\na 2 3 1\na 3 4 1\n"
SAVED = "p ch 3 2\no 1\no 2\no 3\nl 1 2 4 1 0\nl 2 3 5 1 0\n"
SAVED_BY_DEPTH = "p ch 3 2\no 1\no 3\no 2\nl 1 2 4 1 0\nl 2 3 5 1 0\n"
ONE_BY_ONE = "d 4 1 2\nr 2\na 4 3 1\na 3 1 1\n"
BY_QUICK = "d 4 1 2\nr 2\na 4 2 1\na 2 1 1\n"
SAVED_QUICKLY = "p ch 4 6\no 2\no 3\no 1\no 4\nl 2 1 1 1 0\nl 4 2 1 1 0\nl 3 1 1 1 0\nl 4 3 1 1 0\nl 1 4 1 1 0\nl 4 1 2 2 2\n"
SAVED_IN_THAT_ORDER = "p ch 4 6\no 3\no 2\no 1\no 4\nl 3 1 1 1 0\nl 4 3 1 1 0\nl 2 1 1 1 0\nl 4 2 1 1 0\nl 1 4 1 1 0\nl 4 1 2 2 3\n"
SAVED_CUSTOMIZED = "p ch 4 5\no 2\no 4\no 1\no 3\nl 2 3 1 1 0\nl 1 2 1 1 0\nl 4 3 1 1 0\nl 1 4 1 1 0\nl 1 3 2 2 2\n"
OVER_2 = "d 1 3 2\nr 2\na 1 2 1\na 2 3 1\n"
OVER_4 = "d 1 3 2\nr 2\na 1 4 1\na 4 3 1\n"
ASKED = "d 1 3 9\nt 2 5 -\n"
ASKED_FOR_ROUTES = "d 1 3 9\nr 2\na 1 2 4\na 2 3 5\nt 2 5 -\n"

# Words, and the text that shows how they were read. `ask` has the file that stands behind `<` for its requests.
READ = [
    ("dist line.gr line.p2p", DISTANCES),
    ("dist --plain line.gr line.p2p", DISTANCES),
    ("dist line.gr --routes line.p2p", ROUTES),
    ("dist line.gr line.p2p --routes --plain", DISTANCES),
    ("dist -- --plain line.p2p", DISTANCES),
    ("dist --routes -- --plain line.p2p", ROUTES),
    ("dist --routes ties.gr ties.p2p", BY_DIFFERENCE),
    ("dist ties.gr --deep ties.p2p --routes", BY_DEPTH),
    ("dist --routes --saved ties.ch ties.gr ties.p2p", BY_DEPTH),
    ("dist ties.gr ties.p2p --saved=ties.ch --routes", BY_DEPTH),
    ("dist --routes --deep --saved line.ch --workers 64 --piece 1 --hops 16 line.gr line.p2p", ROUTES),
    ("dist --plain --saved none.ch line.gr line.p2p", DISTANCES),
    ("dist --routes quick.gr quick.p2p", ONE_BY_ONE),
    ("dist --routes --deep quick.gr quick.p2p", ONE_BY_ONE),
    ("dist --saved quick.ch quick.gr --routes quick.p2p", BY_QUICK),
    ("dist quick.gr quick.p2p", "d 4 1 2\n"),
    ("dist --saved deep.ch quick.gr --routes quick.p2p", ONE_BY_ONE),
    ("dist --like order.ch line.gr line.p2p", DISTANCES),
    ("dist --like crowded.ch crowded.gr hub.p2p", "d 1 2 1\n"),
    ("dist --routes --like busy.ch busy.gr hub.p2p", "d 1 2 1\nr 1\na 1 2 1\n"),
    ("dist --routes --like crowded.ch --fresh 100 crowded.gr hub.p2p", "d 1 2 1\nr 1\na 1 2 1\n"),
    ("dist --routes --like first.ch ties.gr ties.p2p", BY_DIFFERENCE),
    ("dist ties.gr --fresh 24 ties.p2p --like=first.ch --routes", BY_DIFFERENCE),
    ("dist --routes --fresh=+100 --like first.ch ties.gr ties.p2p", BY_DEPTH),
    ("dist --routes --like ties.ch --workers 64 --piece 1 --hops 16 ties.gr ties.p2p", BY_DEPTH),
    ("dist --plain --like none.ch --fresh 7 line.gr line.p2p", DISTANCES),
    ("dist --customizable line.gr line.p2p", DISTANCES),
    ("dist line.gr line.p2p --routes --workers 3 --piece 1 --customizable", ROUTES),
    ("dist --plain --customizable --like none.ch line.gr line.p2p", DISTANCES),
    ("dist --routes --customizable --like round.ch round.gr round.p2p", OVER_2),
    ("dist --routes --like round.ch --fresh 0 round.gr round.p2p", OVER_4),
    ("dist --customizable --hops 1 clique.gr clique.p2p", "d 3 18 1\n"),
    ("table line.gr from.ss to.ss", TABLE),
    ("table line.gr to.ss from.ss", "t 3 - 0\nt 2 - 5\n"),
    ("table --workers 2 line.gr --hops 1 from.ss to.ss --piece 1048576", TABLE),
    ("table --piece=3 --workers=+4 line.gr from.ss to.ss", TABLE),
    ("table --within 8 line.gr from.ss to.ss", WITHIN_4),
    ("table line.gr from.ss to.ss --within=0", WITHIN_0),
    ("table --within 1152921504606846976 line.gr from.ss to.ss", TABLE),
    ("table line.gr --within +004 from.ss to.ss", WITHIN_4),
    ("table line.gr --saved line.ch from.ss --within 0 to.ss", WITHIN_0),
    ("table --like line.ch --within 8 line.gr from.ss to.ss", WITHIN_4),
    ("table line.gr --fresh 0 from.ss to.ss --like line.ch", TABLE),
    ("table --customizable line.gr from.ss to.ss", TABLE),
    ("near line.gr from.ss to.ss", NEAR),
    ("near line.gr to.ss from.ss", "n 3 1 3 0\nn 2 1 3 5\n"),
    ("near line.gr from.ss --from to.ss", NEAR_FROM),
    ("near --count 1 line.gr from.ss to.ss", NEAREST),
    ("near line.gr from.ss to.ss --count=+065536", NEAR),
    ("near --within 8 line.gr from.ss to.ss", NEAREST),
    ("near line.gr from.ss to.ss --within=0", NEAR_WITHIN_0),
    ("near line.gr --from --within 4 --count 2 from.ss to.ss", "n 1 0\nn 3 1 3 0\n"),
    ("near --saved line.ch --workers 2 line.gr --hops 1 from.ss --piece 1 to.ss", NEAR),
    ("near --all line.gr to.ss", NEAR_ALL),
    ("near line.gr to.ss --all --count 1", "n 1 1 2 4\nn 2 1 2 0\nn 3 1 3 0\n"),
    ("near line.gr --all --saved=line.ch to.ss", NEAR_ALL),
    ("near --from --all line.gr to.ss", "n 1 0\nn 2 1 2 0\nn 3 2 3 0 2 5\n"),
    ("near --all line.gr -- from.ss", "n 1 2 1 0 3 9\nn 2 1 3 5\nn 3 1 3 0\n"),
    ("near --like order.ch line.gr from.ss to.ss --from", NEAR_FROM),
    ("near --all --like=line.ch line.gr to.ss --fresh 34", NEAR_ALL),
    ("near --all line.gr --customizable --like=order.ch to.ss", NEAR_ALL),
    ("save line.gr", SAVED),
    ("save line.gr --deep", SAVED_BY_DEPTH),
    ("save --workers 64 line.gr --piece 1 --hops 16", SAVED),
    ("save --quick line.gr", SAVED_BY_DEPTH),
    ("save quick.gr --quick", SAVED_QUICKLY),
    ("save --workers 64 quick.gr --quick --piece 1 --hops 16", SAVED_QUICKLY),
    ("save --like line.ch line.gr", SAVED),
    ("save line.gr --like order.ch", SAVED_BY_DEPTH),
    ("save --like line.ch --fresh 33 line.gr", SAVED),
    ("save --fresh 100 line.gr --like line.ch", SAVED_BY_DEPTH),
    ("save --like that.ch --fresh 0 --hops 1 --workers 2 quick.gr", SAVED_IN_THAT_ORDER),
    ("save --like line.ch --customizable line.gr", SAVED),
    ("save line.gr --customizable --like order.ch", SAVED_BY_DEPTH),
    ("save --customizable quick.gr --like that.ch --workers 2", SAVED_IN_THAT_ORDER),
    ("save --customizable --like round.ch round.gr", SAVED_CUSTOMIZED),
    ("ask --customizable line.gr < requests.txt", ASKED),
    ("ask --routes --like round.ch round.gr --customizable < round.txt", OVER_2),
    ("ask --like order.ch line.gr < requests.txt", ASKED),
    ("ask --routes ties.gr --like first.ch < ties.txt", BY_DIFFERENCE),
    ("ask --routes ties.gr --fresh 100 --like first.ch < ties.txt", BY_DEPTH),
    ("ask line.gr < requests.txt", ASKED),
    ("ask --saved line.ch line.gr --workers 2 --piece 3 < requests.txt", ASKED),
    ("ask --routes --within 5 --hops 1 line.gr < requests.txt", ASKED_FOR_ROUTES),
    ("ask line.gr --within 4 < requests.txt", "d 1 3 9\nt 2 - -\n"),
    ("ask --routes ties.gr < ties.txt", BY_DIFFERENCE),
    ("ask --deep ties.gr --routes < ties.txt", BY_DEPTH),
    ("ask ties.gr --routes --saved ties.ch < ties.txt", BY_DEPTH),
    ("ask quick.gr < quick.txt", ONE_BY_ONE),
    ("ask --routes quick.gr < quick.txt", ONE_BY_ONE),
    ("ask quick.gr --saved quick.ch --routes --workers 2 < quick.txt", BY_QUICK),
    ("ask --saved=deep.ch quick.gr < quick.txt", ONE_BY_ONE),
]

# Words that name another file than is meant, and the fault.
ELSEWHERE = [
    ("dist line.p2p line.gr", 1, "chtab: graph line 1: bad problem line\n"),
    ("dist line.gr line.gr", 1, "chtab: queries line 1: bad problem line\n"),
    ("dist line.gr line.p2p --saved=line.gr", 1, "chtab: saved line 1: bad problem line\n"),
    ("dist --saved none.ch line.gr line.p2p", 3, "chtab: cannot read saved\n"),
    ("table --saved= line.gr from.ss to.ss", 3, "chtab: cannot read saved\n"),
    ("near line.gr to.ss line.p2p", 1, "chtab: targets line 1: bad problem line\n"),
    ("near line.gr line.p2p to.ss", 1, "chtab: sources line 1: bad problem line\n"),
    ("near --all line.gr line.p2p", 1, "chtab: targets line 1: bad problem line\n"),
    ("near --all --saved none.ch line.gr to.ss", 3, "chtab: cannot read saved\n"),
    ("near --all line.p2p none.ss", 3, "chtab: cannot read targets\n"),
    ("dist line.gr line.p2p --like line.gr", 1, "chtab: order line 1: bad problem line\n"),
    ("dist --like none.ch line.gr line.p2p", 3, "chtab: cannot read order\n"),
    ("table --like twice.ch line.gr from.ss to.ss", 1, "chtab: order refused: a node occurs twice\n"),
    ("near --all --like ties.ch line.gr to.ss", 1, "chtab: order line 1: size too large\n"),
    ("save --like= line.gr", 3, "chtab: cannot read order\n"),
    ("save --like order.ch line.p2p", 1, "chtab: graph line 1: bad problem line\n"),
    ("ask --like twice.ch line.gr", 1, "chtab: order refused: a node occurs twice\n"),
    ("save --like crowded.ch --fresh 0 crowded.gr", 1, "chtab: order refused: too many edges at node 1\n"),
    ("dist --routes --like crowded.ch crowded.gr hub.p2p", 1, "chtab: order refused: too many edges at node 1\n"),
    ("ask --routes --like crowded.ch crowded.gr", 1, "chtab: order refused: too many edges at node 1\n"),
    ("dist --like twice.ch line.gr line.gr", 1, "chtab: order refused: a node occurs twice\n"),
    ("dist --customizable --like line.gr line.gr line.p2p", 1, "chtab: order line 1: bad problem line\n"),
    ("save --customizable --like twice.ch line.gr", 1, "chtab: order refused: a node occurs twice\n"),
    ("ask --customizable --like none.ch line.gr", 3, "chtab: cannot read order\n"),
    ("near --all --customizable --like order.ch line.p2p to.ss", 1, "chtab: graph line 1: bad problem line\n"),
    ("dist --customizable line.gr line.gr", 1, "chtab: queries line 1: bad problem line\n"),
    ("dist line.p2p none.p2p", 3, "chtab: cannot read queries\n"),
    ("table line.p2p from.ss none.ss", 3, "chtab: cannot read targets\n"),
]

# Texts that are no numbers within the ranges of an option, and the message for each. Numbers just outside of its range come from the table.
NUMBERS = [
    ("--hops", "x", "invalid value 'x'"),
    ("--workers", "1.5", "invalid value '1.5'"),
    ("--fresh", "x", "invalid value 'x'"),
]
LIMITS = [
    ("--within=18446744073709551616", "number too large"),
    ("--within=-1", "invalid value '-1'"),
    ("--within=x", "invalid value 'x'"),
    ("--within=", "for '--within <R>'"),
]
COUNTS = [
    ("--count=-1", "invalid value '-1'"),
    ("--count=x", "invalid value 'x'"),
    ("--count=", "for '--count <K>'"),
]

# What is told where `near` has other lists than it reads.
OTHER_LISTS = "SOURCES and TARGETS are needed, or with --all TARGETS alone"

# What is told where an order is mixed with other options.
WITH_SAVED = "error: the argument '--like' cannot be used with '--saved'\n"
WITH_DEEP = "error: the argument '--like' cannot be used with '--deep'\n"
WITH_QUICK = "error: the argument '--like' cannot be used with '--quick'\n"
NOT_SAVED = "error: the argument '--customizable' cannot be used with '--saved'\n"
NOT_FRESH = "error: the argument '--customizable' cannot be used with '--fresh'\n"
NOT_DEEP = "error: the argument '--customizable' cannot be used with '--deep'\n"
NOT_QUICK = "error: the argument '--customizable' cannot be used with '--quick'\n"
FRESH_ALONE = "error: the argument '--fresh' cannot be used without '--like'\n"

# What is told where both orders are given, the first of them first.
DEEP_FIRST = "error: the argument '--deep' cannot be used with '--quick'\n"
QUICK_FIRST = "error: the argument '--quick' cannot be used with '--deep'\n"

# Other words that are refused, and part of what is told of them.
REFUSED = [
    ("", "requires a subcommand"),
    ("help", "unrecognized subcommand 'help'"),
    ("tables g s t", "unrecognized subcommand"),
    ("--plain dist g q", "unexpected argument"),
    ("dist", "required arguments were not provided"),
    ("dist g", "required arguments were not provided"),
    ("dist g q r", "unexpected argument 'r'"),
    ("dist --fast g q", "unexpected argument '--fast'"),
    ("dist --version g q", "unexpected argument"),
    ("dist g q --hops", "a value is required"),
    ("dist --hops 2 --hops 2 g q", "cannot be used multiple times"),
    ("dist --plain --plain g q", "cannot be used multiple times"),
    ("dist --within 8 g q", "unexpected argument '--within'"),
    ("dist g q --saved", "a value is required"),
    ("dist --saved h --saved h g q", "cannot be used multiple times"),
    ("dist --saved g q", "required arguments were not provided"),
    ("table g s", "required arguments were not provided"),
    ("table g s t u", "unexpected argument 'u'"),
    ("table --plain g s t", "unexpected argument '--plain'"),
    ("table --routes g s t", "unexpected argument '--routes'"),
    ("table --deep g s t", "unexpected argument '--deep'"),
    ("table --quick g s t", "unexpected argument '--quick'"),
    ("table --within -1 g s t", "unexpected argument '-1'"),
    ("table g s t --within", "a value is required"),
    ("table --within 1 --within 1 g s t", "cannot be used multiple times"),
    ("table --count 1 g s t", "unexpected argument '--count'"),
    ("table --from g s t", "unexpected argument '--from'"),
    ("table --all g t", "unexpected argument '--all'"),
    ("near", "required arguments were not provided"),
    ("near g", "required arguments were not provided"),
    ("near --all g", "required arguments were not provided"),
    ("near g t", OTHER_LISTS),
    ("near --all g s t", OTHER_LISTS),
    ("near g s t --all", OTHER_LISTS),
    ("near g s --from t u", OTHER_LISTS),
    ("near g t", "Usage: chtab near [OPTIONS] <GRAPH> <SOURCES> <TARGETS>"),
    ("near g t", "chtab near [OPTIONS] --all <GRAPH> <TARGETS>"),
    ("near g s t u", "unexpected value 'u'"),
    ("near --all --all g t", "cannot be used multiple times"),
    ("near --count 1 --count 1 g s t", "cannot be used multiple times"),
    ("near g s t --count", "a value is required"),
    ("near --plain g s t", "unexpected argument '--plain'"),
    ("near --routes g s t", "unexpected argument '--routes'"),
    ("near --deep g s t", "unexpected argument '--deep'"),
    ("near g s t --quick", "unexpected argument '--quick'"),
    ("save", "required arguments were not provided"),
    ("save g h", "unexpected argument 'h'"),
    ("save --saved h g", "unexpected argument '--saved'"),
    ("save --plain g", "unexpected argument '--plain'"),
    ("ask", "required arguments were not provided"),
    ("ask g q", "unexpected argument 'q'"),
    ("ask --plain g", "unexpected argument '--plain'"),
    ("save --deep --quick g", DEEP_FIRST),
    ("save --quick g --deep", QUICK_FIRST),
    ("save g --quick --deep", "\n\nUsage: chtab save [OPTIONS] <GRAPH>\n"),
    ("save --quick --deep g h", "unexpected argument 'h'"),
    ("save --quick --quick g", "cannot be used multiple times"),
    ("save --rounds g", "unexpected argument '--rounds'"),
    ("dist --routes --quick g q", "unexpected argument '--quick'"),
    ("ask --quick g", "unexpected argument '--quick'"),
    ("dist --like o --saved h g q", WITH_SAVED),
    ("dist --saved h g q --like o --plain", WITH_SAVED),
    ("dist --deep --like o g q", WITH_DEEP),
    ("dist --fresh 5 g q", FRESH_ALONE),
    ("dist --fresh 5 --saved h g q", FRESH_ALONE),
    ("dist --fresh 5 --saved h g q", "\n\nUsage: chtab dist [OPTIONS] <GRAPH> <QUERIES>\n"),
    ("dist --like o --like o g q", "cannot be used multiple times"),
    ("dist g q --like", "a value is required"),
    ("table g --saved h --like o s t", WITH_SAVED),
    ("table g s t --fresh 0", FRESH_ALONE),
    ("table g s t --fresh 0", "\n\nUsage: chtab table [OPTIONS] <GRAPH> <SOURCES> <TARGETS>\n"),
    ("near g --saved h --like o s t", WITH_SAVED),
    ("near --all g --fresh 100 t", FRESH_ALONE),
    ("near --all g --fresh 100 t", "Usage: chtab near [OPTIONS] <GRAPH> <SOURCES> <TARGETS>"),
    ("save --like o --deep g", WITH_DEEP),
    ("save --quick --like o g", WITH_QUICK),
    ("save g --fresh 1", FRESH_ALONE),
    ("ask --like o --saved h g", WITH_SAVED),
    ("ask --like o --deep g", WITH_DEEP),
    ("dist --customizable --saved h g q", NOT_SAVED),
    ("dist --saved h g q --plain --customizable", NOT_SAVED),
    ("dist --like o --saved h --customizable g q", WITH_SAVED),
    ("dist --customizable --deep g q", NOT_DEEP),
    ("dist --customizable --customizable g q", "cannot be used multiple times"),
    ("dist --customizable=1 g q", "unexpected value '1'"),
    ("table --customizable --fresh 5 g s t", FRESH_ALONE),
    ("table --customizable --like o --fresh 5 g s t", NOT_FRESH),
    ("near --all g t --saved h --customizable", NOT_SAVED),
    ("save --deep --customizable g", NOT_DEEP),
    ("save --quick g --customizable", NOT_QUICK),
    ("save --quick g --customizable", "\n\nUsage: chtab save [OPTIONS] <GRAPH>\n"),
    ("save --customizable --quick --deep g", QUICK_FIRST),
    ("ask g --customizable --fresh 1 --like o", NOT_FRESH),
]

# Words that ask for help, and parts of what it says beside its options, which come from the table.
HELPS = {
    "--help": [
        "Usage: chtab <COMMAND>", "  dist   Write the distance of each query", "  table  Write the distances from each source", "  near   Write the nearest targets",
        "  save   Write the hierarchy", "  ask    Answer requests", "-V, --version", "chtab dist --routes roads.gr pairs.p2p",
        "chtab table roads.gr depots.ss shops.ss", "chtab near --count 3 roads.gr homes.ss doctors.ss", "chtab save --deep roads.gr >roads.ch",
        "chtab ask --saved roads.ch roads.gr <requests.txt",
    ],
    "dist --help": ["Usage: chtab dist [OPTIONS] <GRAPH> <QUERIES>", "`d S T X`", "p aux sp p2p K", "Example: chtab dist --routes roads.gr pairs.p2p"],
    "table --help": [
        "Usage: chtab table [OPTIONS] <GRAPH> <SOURCES> <TARGETS>", "`t S X ..`", "p aux sp ss K", "chtab table roads.gr depots.ss shops.ss",
        "chtab table --within 900000 roads.gr homes.ss doctors.ss",
    ],
    "near --help": [
        "Usage: chtab near [OPTIONS] <GRAPH> <SOURCES> <TARGETS>\n       chtab near [OPTIONS] --all <GRAPH> <TARGETS>\n", "`n S K T X ..`",
        "SOURCES and TARGETS, or with --all TARGETS alone", "p aux sp ss K", "chtab near --count 3 roads.gr homes.ss doctors.ss",
        "chtab near --all --within 900000 roads.gr doctors.ss",
    ],
    "save --help": [
        "Usage: chtab save [OPTIONS] <GRAPH>", "chtab save --deep roads.gr >roads.ch", "chtab save --quick --workers 4 roads.gr >roads.ch",
        "chtab save --like roads.ch roads-at-noon.gr >roads-at-noon.ch",
    ],
    "ask --help": [
        "Usage: chtab ask [OPTIONS] <GRAPH>", "  q S T      the distance", "  r S T ", "  t K L [R]  ", "  p L K ", "  n S [R] ",
        "Example: chtab ask --saved roads.ch roads.gr <requests.txt",
    ],
}
# The tools, each with words for its files.
TOOLS = {"dist": "g q", "table": "g s t", "near": "g s t", "ask": "g", "save": "g"}
VERSION = (ROOT / "VERSION").read_bytes()
MOST_COLUMNS = 100


def asked(folder, line):
    """The answer of the program on the words of a line, which may name a file of requests behind `<`."""
    words, _, requests = line.partition(" < ")
    return run(words.split(" ") if words else [], folder, requests=(folder / requests).read_bytes() if requests else None)


def check_read(tally, folder):
    """The text of each line of words, and the fault of each that names another file than is meant."""
    for line, text in READ:
        answer = asked(folder, line)
        tally.expect(answer == Answer(0, text.encode(), b""), f"{line}: {answer}")
    for line, status, told in ELSEWHERE:
        answer = asked(folder, line)
        tally.expect(answer == Answer(status, b"", told.encode()), f"{line}: {answer}")


def expect_refused(tally, folder, line, part):
    """The words are refused, and this stands in what is told."""
    answer = asked(folder, line)
    is_refused = agrees(answer, Answer(2, b"", None)) and part.encode() in answer.err
    tally.expect(is_refused, f"{line}: {answer}, and not: {part}")


def outside(option):
    """The numbers from 0 on that are next to the range of an option."""
    least, most = option.limits or (0, None)
    return [*([least - 1] if least else []), *([most + 1] if most is not None else [])]


def check_refused(tally, folder):
    """Each word that no tool reads."""
    for option in options.merged(options.options()):
        for number, tool in product(outside(option), option.tools or TOOLS):
            part = "{} is not in {}..={}".format(number, *option.limits)
            expect_refused(tally, folder, f"{tool} --{option.name}={number} {TOOLS[tool]}", part)
    for option, number, part in NUMBERS:
        for line in (f"dist {option} {number} --routes g q", f"table {option} {number} g s t", f"near {option} {number} --all g t",
                     f"save g {option} {number}", f"ask {option} {number} g"):
            expect_refused(tally, folder, line, part)
    for limit, part in LIMITS:
        for line in f"table {limit} g s t", f"near g s t {limit}", f"ask g {limit}":
            expect_refused(tally, folder, line, part)
    for count, part in COUNTS:
        expect_refused(tally, folder, f"near {count} g s t", part)
    for line, part in REFUSED:
        expect_refused(tally, folder, line, part)


def check_help(tally, folder):
    """What help says of each word."""
    for line, parts in HELPS.items():
        answer = asked(folder, line)
        tally.expect(agrees(answer, Answer(0, None, b"")), f"{line}: {answer}")
        for part in parts:
            tally.expect(part.encode() in answer.out, f"help by {line} does not say: {part}")
        tally.expect(b"[default: off]" not in answer.out, f"help by {line} gives flags a default")
    for option in options.options():
        name = f"--{option.name} <{option.letter}> " if option.letter else f"--{option.name} "
        for tool in option.tools or TOOLS:
            out = asked(folder, f"{tool} --help").out.decode()
            found = [line.split(name)[1].strip() for line in out.splitlines() if line.strip().startswith(name)]
            tally.expect(found in ([option.help], [f"{option.help} [default: {option.default}]"]), f"help of {tool} has of {name}: {found}")
    for line in asked(folder, "--help").out.splitlines():
        tally.expect(len(line) <= MOST_COLUMNS, f"help has a line of {len(line)} columns: {line}")


def check_version(tally, folder):
    """The program's version and the kit's line, and words with them that no tool reads."""
    for line in "--version", "-V":
        answer = asked(folder, line)
        tally.expect(answer == Answer(0, VERSION, b""), f"{line}: {answer}")
    for line, part in ("dist --version g q", "--version"), ("--versions", "--versions"), ("version", "version"):
        expect_refused(tally, folder, line, part)


# The program on the words behind it, where its output or its errors are a full device.
FULL_OUTPUT = ["/bin/sh", "-c", '"$0" "$@" >/dev/full', PROGRAM]
FULL_ERRORS = ["/bin/sh", "-c", '"$0" "$@" 2>/dev/full', PROGRAM]
FULL_BOTH = ["/bin/sh", "-c", '"$0" "$@" >/dev/full 2>/dev/full', PROGRAM]


def check_full(tally, folder):
    """Help that can't be written is a fault, which is told where it can be; refused words have their status even so."""
    told = b"chtab: cannot write after 0 bytes\n"
    for words in ["--help"], ["ask", "--help"], ["--version"]:
        for command, wanted in (FULL_OUTPUT, Answer(3, b"", told)), (FULL_BOTH, Answer(3, b"", b"")):
            answer = run(words, folder, command=command)
            tally.expect(answer == wanted, f"{words} on a full device: {answer}")
    for words, status in (["dist"], 2), (["dist", "none.gr", "line.p2p"], 3), (["dist", "line.p2p", "line.p2p"], 1), (["--help"], 0):
        answer = run(words, folder, command=FULL_ERRORS)
        tally.expect(answer.status == status and answer.err == b"", f"{words} with full errors: {answer}")


def main():
    build()
    tally = Count()
    with tempfile.TemporaryDirectory() as place:
        folder = Path(place)
        for name, text in FILES.items():
            (folder / name).write_text(text)
        for name, text in ("line.ch", SAVED), ("quick.ch", SAVED_QUICKLY):
            (folder / name).write_text(text)
        (folder / "first.ch").write_bytes(run(["save", "ties.gr"], folder).out)
        for name, graph in ("ties.ch", "ties.gr"), ("deep.ch", "quick.gr"):
            (folder / name).write_bytes(run(["save", "--deep", graph], folder).out)
        for check in check_read, check_refused, check_help, check_version, check_full:
            check(tally, folder)
    tally.finish()


if __name__ == "__main__":
    main()
