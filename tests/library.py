#!/usr/bin/python3
"""Tests the library for C: its header, its names, its links, an example in C, what it refuses, and hostile calls.

  library.py [--calls CALLS]

Makes the library by `packaging/library`. The header and tests/library/example.c are compiled as C and as C++ with all warnings. The example is
linked to the shared object and to the archive, by pkg-config where that is there, and runs under valgrind where that is there. Each request for
memory is refused in turn (tests/library/refusals.c). Faults, and what is too large, are told as the header says. CALLS hostile calls (5,000) are
made by tests/library/fuzz.py. Its answers are tested by library_answers.py. The last line is 'N passed, N failed'.
"""
import argparse
import ctypes
import mmap
import re
import shutil
import subprocess
import sys
import tempfile
from pathlib import Path

from helpers.in_process import HEADER, MADE, NO_DISTANCE, SHARED, Handle, Library, Topology, declared, statuses
from helpers.running import ROOT, Count, build, run

WARNINGS = "-Wall", "-Wextra", "-Wconversion", "-pedantic", "-Werror"
STANDARDS = ("gcc", "c89", "c"), ("gcc", "c99", "c"), ("gcc", "c17", "c"), ("g++", "c++98", "c++"), ("g++", "c++20", "c++")
EXAMPLE = ROOT / "tests/library/example.c"
REFUSALS = ROOT / "tests/library/refusals.c"
SOURCES = ROOT / "crates/ch_c/src"
GRAPHS = ROOT / "examples/first.gr", ROOT / "examples/liechtenstein.gr"
STATUS = statuses()
# What valgrind says of memory that is left. Other programs are found by their exit status.
VALGRIND = "valgrind", "--quiet", "--leak-check=full", "--errors-for-leak-kinds=all", "--error-exitcode=9"
# Faulty files: the graph, the hierarchy, and the status with line, place and kind.
LINE, OF_LINE = b"p sp 3 2\na 1 2 4\na 2 3 5\n", b"p ch 3 2\no 1\no 2\no 3\nl 1 2 4 1 0\nl 2 3 5 1 0\n"


def done(*words, folder=None):
    return subprocess.run(list(map(str, words)), cwd=folder, capture_output=True, text=True)


def make(tally):
    """Makes the library, or ends this script. What is no folder is refused, with the usage."""
    for words in ["--help"], ["one", "two"], [""]:
        refused = done(ROOT / "packaging/library", *words)
        tally.expect((refused.returncode, refused.stdout) == (2, "") and refused.stderr.startswith("packaging/library [FOLDER]"), f"packaging/library {words}: {refused}")
    made = done(ROOT / "packaging/library")
    tally.expect(made.returncode == 0, made.stderr)
    if made.returncode:
        tally.finish()


def compile_header(tally, folder):
    """The header alone, and the example, by each standard."""
    (folder / "alone.c").write_text("#include <chtab.h>\n")
    for compiler, standard, language in STANDARDS:
        for source in folder / "alone.c", EXAMPLE:
            told = done(compiler, f"-std={standard}", "-x", language, *WARNINGS, f"-I{HEADER.parent}", "-c", source, "-o", folder / "object.o")
            tally.expect(told.returncode == 0 and not told.stderr, f"{compiler} -std={standard} {source.name}: {told.stderr}")


def constants(path):
    """The public numbers of a source file."""
    return {name: int(number.replace("_", "")) for name, number in re.findall(r"const (\w+): u32 = ([\d_]+);", path.read_text())}


def kinds_of_faults():
    """The numbers of kinds that the sources answer, in order."""
    text = (SOURCES / "faults.rt").read_text()
    return [int(number) for number in re.findall(r"=> (\d+),$", text, re.MULTILINE) + re.findall(r"=> at\((\d+), 0,", text) if number != "0"]


def compare_names(tally):
    """The header's functions and numbers are those of the library, which needs the C library alone."""
    lines = [line.split() for line in done("nm", "-D", "--defined-only", SHARED).stdout.splitlines()]
    tally.expect({line[-1] for line in lines} == declared(), f"the header declares {sorted(declared())}, the library has {lines}")
    tally.expect(constants(SOURCES / "status.rt") == STATUS, f"the header's statuses are not those of status.rt: {STATUS}")
    kinds = [int(number) for number in re.findall(r"CHTAB_FAULT_\w+ = (\d+)", HEADER.read_text())]
    tally.expect(kinds == [0, *kinds_of_faults()] == list(range(18)), f"the kinds of faults: {kinds} {kinds_of_faults()}")
    major, minor = map(int, re.match(r"chtab (\d+)\.(\d+)", (ROOT / "VERSION").read_text()).groups())
    number = int(re.search(r"define CHTAB_VERSION (\d+)", HEADER.read_text()).group(1))
    tally.expect(number == major * 1_000_000 + minor * 1_000 == Library().calls.chtab_version(), "the version")
    needed = re.findall(r"NEEDED\s+(\S+)", done("objdump", "-p", SHARED).stdout)
    tally.expect(set(needed) <= {"libc.so.6"}, f"the library needs {needed}")
    tally.expect(ctypes.sizeof(Handle) == ctypes.sizeof(Topology) == 16, "a handle has 16 bytes")


# The header's types for those of the library, and its names of parameters that have another one there.
NAMES = {"second": "handle"}
TYPES = {"u8": "uint8_t", "u32": "uint32_t", "u64": "uint64_t", "Handle": "chtab", "TopologyHandle": "chtab_topology", "Fault": "chtab_fault"}


def in_header(name, kind):
    """A parameter of the library as the header declares it: a slice is a pointer and a length, and the allocator is no parameter of C."""
    if kind == "Global":
        return []
    is_lent, is_changed, is_slice, item = re.fullmatch(r"(&?)(mut )?(\[?)(\w+)\]?", kind).groups()
    name, declared_type = NAMES.get(name, name), TYPES[item]
    if not is_lent:
        return [f"{declared_type} {name}"]
    pointer = f"{'' if is_changed else 'const '}{declared_type} *{name}"
    return [pointer, f"size_t {name}_len"] if is_slice else [pointer]


def exports():
    """The parameters of each call of the library, in order, as the header declares them."""
    text = "".join(path.read_text() for path in sorted(SOURCES.glob("*.rt")))
    found = re.findall(r'pub extern "C" fn (\w+)\((.*?)\) -> u32', text, re.DOTALL)
    return {name: [part for each in re.findall(r"(\w+): ([^,\n]+)", listed) for part in in_header(*each)] for name, listed in found}


def fields(path, name):
    """The members of a type of the library that C sees, in order, as the header declares them."""
    body = re.search(rf"^#\[repr\(C\)\]\n(?:#.*\n)*pub struct {name} \{{\n(.*?)^\}}", path.read_text(), re.MULTILINE | re.DOTALL)[1]
    return [f"{TYPES[kind]} {member}" for member, kind in re.findall(r"^    pub (\w+): (\w+),$", body, re.MULTILINE)]


def compare_types(tally):
    """Each function of the header has the parameters of the library's call, by order, name and type. A fault has the same members."""
    text = re.sub(r"/\*.*?\*/", "", HEADER.read_text(), flags=re.DOTALL)
    declarations = {name: [] if listed == "void" else [" ".join(part.split()) for part in listed.split(",")]
                    for name, listed in re.findall(r"^uint32_t (chtab_\w+)\((.*?)\);", text, re.MULTILINE | re.DOTALL)}
    tally.expect(declarations.keys() == exports().keys() == declared(), f"the header has {sorted(declarations)}, the library {sorted(exports())}")
    for name, parameters in exports().items():
        tally.expect(declarations.get(name) == parameters, f"{name}: the header has {declarations.get(name)}, the library {parameters}")
    listed, owed = re.search(r"typedef struct chtab_fault {(.*?)}", text, re.DOTALL)[1], fields(SOURCES / "faults.rt", "Fault")
    members = [" ".join(part.split()) for part in listed.split(";") if part.strip()]
    tally.expect(members == owed, f"chtab_fault: the header has {members}, the library {owed}")


def flags():
    """How the example is compiled and linked, by pkg-config where it is there."""
    if shutil.which("pkg-config"):
        given = subprocess.run(["pkg-config", "--cflags", "--libs", "chtab"], capture_output=True, text=True, env={"PKG_CONFIG_PATH": f"{MADE}/lib/pkgconfig", "PATH": "/usr/bin:/bin"})
        return given.stdout.split()
    print("left out: pkg-config is not there")
    return [f"-I{MADE}/include", f"-L{MADE}/lib", "-lchtab"]


def run_example(tally, folder, saved):
    """The example by the shared object and by the archive: one text, status 0, and no memory left."""
    shared = done("gcc", "-std=c89", *WARNINGS, EXAMPLE, *flags(), f"-Wl,-rpath,{MADE}/lib", "-o", folder / "shared")
    archive = done("gcc", "-std=c89", *WARNINGS, EXAMPLE, f"-I{MADE}/include", MADE / "lib/libchtab.a", "-o", folder / "archive")
    for name, built in ("shared", shared), ("archive", archive):
        tally.expect(built.returncode == 0 and not built.stderr, f"the example by the {name} library: {built.stderr}")
    watched = VALGRIND if shutil.which("valgrind") else ()
    if not watched:
        print("left out: valgrind is not there")
    texts = set()
    for graph, hierarchy in saved.items():
        for name in "shared", "archive":
            answer = done(*watched, folder / name, graph, hierarchy)
            texts.add((graph, answer.stdout))
            tally.expect(answer.returncode == 0 and not answer.stderr, f"the example by the {name} library: {answer.returncode} {answer.stdout}{answer.stderr}")
    tally.expect(len(texts) == len(saved), "the example answers the same by both libraries")


def refuse_memory(tally, folder, saved):
    """Each request for memory of each call is refused in turn, and no memory is left. So is each one of an opening that builds."""
    built = done("gcc", "-std=c89", *WARNINGS, REFUSALS, f"-I{MADE}/include", MADE / "lib/libchtab.a", "-Wl,--wrap=malloc,--wrap=realloc", "-o", folder / "refusals")
    tally.expect(built.returncode == 0 and not built.stderr, f"{REFUSALS.name}: {built.stderr}")
    for graph, *hierarchy in *saved.items(), (GRAPHS[0],):
        answer = done(*(VALGRIND if shutil.which("valgrind") and graph is GRAPHS[0] else ()), folder / "refusals", graph, *hierarchy)
        refused = re.fullmatch(r"(\d+) requests refused\n", answer.stdout)
        tally.expect(answer.returncode == 0 and not answer.stderr and refused, f"{REFUSALS.name} on {graph.name}: {answer.stdout}{answer.stderr}")
        tally.passed += int(refused[1]) if refused else 0


def run_page(tally, folder):
    """The program of docs/CALLING.md, compiled and run by the lines below it: 9 from the first node of the example to the last."""
    page = (ROOT / "docs/CALLING.md").read_text()
    code, behind = re.search(r"^```c\n(.*?)^```(.*)", page, re.MULTILINE | re.DOTALL).groups()
    lines = re.findall(r"^    (.*)$", behind.split("\n## ")[0], re.MULTILINE)
    if not shutil.which("pkg-config"):
        print("left out: the program of CALLING.md needs pkg-config")
        return
    (folder / "app.c").write_text(code)
    for name in "packaging", "examples":
        (folder / name).symlink_to(ROOT / name)
    answer = subprocess.run(["bash", "-ec", "\n".join(lines).replace("cc app.c", "cc -std=c99 -Wall -Wextra -pedantic -Werror app.c")], cwd=folder, capture_output=True, text=True)
    tally.expect((answer.returncode, answer.stdout) == (0, "9\n"), f"the program of CALLING.md: {answer.stdout}{answer.stderr}")
    shown = re.search(r"^```c\n(.*?)^```", (ROOT / "README.md").read_text(), re.MULTILINE | re.DOTALL)
    tally.expect(shown and shown[1] in code, "README.md shows other lines of C than CALLING.md")


FAULTY = (
    (b"", OF_LINE, "BAD_GRAPH", (1, 0, 4)),
    (b"", b"", "BAD_GRAPH", (1, 0, 4)),
    (LINE, b"\n", "BAD_SAVED", (2, 0, 4)),
    (LINE + b"a 1 2 3\n", OF_LINE, "BAD_GRAPH", (4, 0, 9)),
    (LINE.replace(b"a 2 3", b"a 2 4"), OF_LINE, "BAD_GRAPH", (3, 0, 6)),
    (LINE, OF_LINE.replace(b"p ch 3", b"p ch 4"), "BAD_SAVED", (1, 0, 8)),
    (LINE, OF_LINE.replace(b"l 2", b"x 2"), "BAD_SAVED", (6, 0, 1)),
    (LINE, OF_LINE.replace(b"o 2", b"o 1"), "WRONG_SAVED", (0, 0, 11)),
    (LINE, OF_LINE.replace(b"l 2 3 5", b"l 2 3 6"), "WRONG_SAVED", (0, 1, 14)),
    (LINE, OF_LINE.replace(b"p ch 3 2", b"p ch 3 1").replace(b"l 2 3 5 1 0\n", b""), "WRONG_SAVED", (0, 1, 16)),
)


def tell_faults(tally, library):
    """Each fault with its line, or its place, and its kind; the handle stays closed."""
    for graph, saved, name, told in FAULTY:
        status, handle, fault = library.open(graph, saved)
        tally.expect((status, fault.told(), handle.is_open) == (STATUS[name], told, 0), f"{graph} {saved}: {status} {fault.told()}, not {name} {told}")


# Arrays of a graph that are refused: the number of nodes, tails, heads, weights and the hierarchy, and the status with line, place and kind. Lengths
# come before sizes, sizes before arcs, the ends of an arc before its weight, and all of these before the hierarchy.
FAULTY_ARRAYS = (
    (9, [0], [1, 2], [4, 5], b"", "LENGTHS", (0, 0, 0)),
    (9, [0, 1], [1], [4, 5], b"", "LENGTHS", (0, 0, 0)),
    (2**32 - 1, [0, 9], [1, 9], [4], b"x", "LENGTHS", (0, 0, 0)),
    (9, [], [], [4], b"", "LENGTHS", (0, 0, 0)),
    (2**25 + 1, [], [], [], b"", "BAD_GRAPH", (0, 0, 8)),
    (2**32 - 1, [2**32 - 1], [0], [2**64 - 1], b"x", "BAD_GRAPH", (0, 0, 8)),
    (0, [0], [0], [0], b"", "BAD_GRAPH", (0, 0, 6)),
    (3, [0, 3], [1, 2], [4, 5], b"", "BAD_GRAPH", (0, 1, 6)),
    (3, [0, 1], [1, 2**32 - 1], [4, 5], b"x", "BAD_GRAPH", (0, 1, 6)),
    (3, [0, 1], [3, 3], [2**64 - 1, 0], b"", "BAD_GRAPH", (0, 0, 6)),
    (3, [0, 1], [1, 3], [2**64 - 1, 0], b"", "BAD_GRAPH", (0, 0, 7)),
    (2, [0, 1, 0], [1, 0, 0], [2**59, 2**59, 2**59 + 1], b"", "BAD_GRAPH", (0, 2, 7)),
    (3, [0, 1], [1, 2], [4, 5], b"\n", "BAD_SAVED", (2, 0, 4)),
    (3, [0, 1], [1, 2], [4, 5], OF_LINE.replace(b"p ch 3", b"p ch 4"), "BAD_SAVED", (1, 0, 8)),
    (3, [0, 1], [1, 2], [4, 6], OF_LINE, "WRONG_SAVED", (0, 1, 14)),
    (3, [1, 0], [2, 1], [5, 4], OF_LINE.replace(b"p ch 3 2", b"p ch 3 1").replace(b"l 2 3 5 1 0\n", b""), "WRONG_SAVED", (0, 0, 16)),
)


def open_arrays(tally, library):
    """A graph of arrays answers as its file does, by a saved hierarchy and by one that is built. What is refused leaves the handle closed."""
    for saved in b"", OF_LINE:
        status, handle, fault = library.open_arrays(3, [0, 1], [1, 2], [4, 5], saved)
        tally.expect((status, fault.told()) == (0, (0, 0, 0)) and library.nodes(handle) == (0, 3), f"arrays with {saved}: {status} {fault.told()}")
        tally.expect(library.distances(handle, [0, 2, 1], [2, 0, 1]) == (0, [9, NO_DISTANCE, 0]), "distances of arrays")
        told = library.routes(handle, [0], [2], 3, lines_room=3)
        tally.expect(told == (0, 1, [9], [3], [0, 1, 2], [2**32 - 1, 0, 1]), f"the lines of arrays: {told}")
        tally.expect(library.open_arrays(0, [0], [], [], b"x", handle)[0] == STATUS["IS_OPEN"], "an open handle that is to be opened by arrays")
        tally.expect(library.distances(handle, [0], [2]) == (0, [9]), "an open handle stays")
        tally.expect(library.close(handle) == 0, "a handle of arrays closes")
    for nodes in 0, 2:
        status, handle, _ = library.open_arrays(nodes, [], [], [])
        tally.expect(status == 0 and library.nodes(handle) == (0, nodes), f"{nodes} nodes without arcs")
        tally.expect(library.distances(handle, [0], [1]) == ((0, [NO_DISTANCE]) if nodes else (STATUS["NODE_RANGE"], [7])), "no arcs")
        library.close(handle)
    status, handle, _ = library.open_arrays(2, [0, 0], [1, 1], [2**59, 2**59])
    tally.expect(status == 0 and library.distances(handle, [0], [1]) == (0, [2**59]), "weights at the limit")
    library.close(handle)
    for *given, name, told in FAULTY_ARRAYS:
        status, handle, fault = library.open_arrays(*given)
        tally.expect((status, fault.told(), handle.is_open) == (STATUS[name], told, 0), f"arrays {given}: {status} {fault.told()}, not {name} {told}")
    # Memory that nobody writes to takes none: the library refuses so many arcs before it reads one.
    many = 2**27 + 1
    ends, weights = mmap.mmap(-1, 4 * many), mmap.mmap(-1, 8 * many)
    arrays = [(ctypes.c_uint32 * many).from_buffer(ends)] * 2 + [(ctypes.c_uint64 * many).from_buffer(weights)]
    status, handle, fault = library.open_arrays(1, *arrays)
    tally.expect((status, fault.told(), handle.is_open) == (STATUS["BAD_GRAPH"], (0, 0, 8), 0), f"too many arcs: {status} {fault.told()}")


def ask_too_much(tally, library):
    """A table of more sources, or of more targets, than a list may have, with room for it; and more near places."""
    status, handle, _ = library.open(LINE, OF_LINE)
    most = [0] * 65_536
    tally.expect(status == 0 and library.table(handle, most, [1]) == (0, [4] * len(most)), "a table of as many sources as may be")
    for sources, targets in ([*most, 0], [1]), ([1], [*most, 0]):
        tally.expect(library.table(handle, sources, targets) == (STATUS["TOO_LARGE"], [7] * (len(most) + 1)), "a table that is too large")
    tally.expect(library.near_places(handle, [*most, 0]) == STATUS["TOO_LARGE"], "too many places")
    tally.expect(library.near_places(handle, most, count=2) == 0 and library.near_rows(handle, [0], 2) == (0, 1, [2], [0, 0], [0, 1]), "as many places as may be")
    library.close(handle)


def refuse_large_sums(tally, library):
    """A sum of 2^64 or more ends the call before its source. One less is given."""
    status, handle, _ = library.open(LINE, OF_LINE)
    tally.expect(library.near_places(handle, [1, 2]) == 0, "places of large sums")
    half, limits = 2**63, [9, 0]
    tally.expect(library.near_sums(handle, [2, 0, 1], [half, half - 1], limits) == (0, 3, [half - 1, half - 1, 2**64 - 1, 0, 2**64 - 1, half]), "the greatest sums")
    told = library.near_sums(handle, [2, 1, 0], [half, half], limits)
    tally.expect(told == (STATUS["SUM_TOO_LARGE"], 1, [half, half, 7, 7, 7, 7]), f"a sum that is too large: {told}")
    library.close(handle)


def refuse_cells(tally, library):
    """Cells of kept places: places of which a row may leave some out, lengths that do not fit, and nodes are refused in this order."""
    status, handle, _ = library.open(LINE, OF_LINE)
    for places, count, sources, room, name in (
        (None, 0, [0], 0, "NO_PLACES"), ([2, 0], 1, [9], 1, "NO_PLACES"), ([2, 0], 2, [9], 1, "LENGTHS"), ([2, 0], 2, [3], 2, "NODE_RANGE"),
        ([2, 0], 2, [], 1, "LENGTHS"), ([2, 0], 2, [], 0, "OK"), ([], 0, [0, 1], 0, "OK"), ([], 0, [0], 1, "LENGTHS"),
    ):
        if places is not None:
            tally.expect(library.near_places(handle, places, count=count) == 0, "places of cells")
        told, rows = library.near_table(handle, sources, room), 7 if STATUS[name] else len(sources)
        tally.expect(told == (STATUS[name], rows, [7] * room), f"cells {places} {count} {sources} {room}: {told}")
    for is_from, limit, owed in (0, NO_DISTANCE, [9, 0, 9]), (0, 8, [NO_DISTANCE, 0, NO_DISTANCE]), (1, 9, [NO_DISTANCE, 0, NO_DISTANCE]):
        tally.expect(library.near_places(handle, [2, 0, 2], limit, 3, is_from) == 0, "places that repeat")
        tally.expect(library.near_table(handle, [0], 3) == (0, 1, owed), f"cells within {limit}")
    tally.expect(library.near_table(Handle(), [0], 1) == (STATUS["CLOSED"], 7, [7]), "cells of a closed handle")
    library.close(handle)


def refuse_large_route_sums(tally, library):
    """A sum of 2^64 or more along a route ends the call before its pair. One less is given. Lengths come before nodes."""
    status, handle, _ = library.open(LINE, OF_LINE)
    half = 2**63
    told = library.route_sums(handle, [0, 2, 1], [2, 0, 2], [half, half - 1])
    tally.expect(told == (0, 3, [9, NO_DISTANCE, 5], [2**64 - 1, 0, half - 1]), f"the greatest sums along routes: {told}")
    told = library.route_sums(handle, [0, 0, 1], [1, 2, 2], [half, half])
    tally.expect(told == (STATUS["SUM_TOO_LARGE"], 1, [4, 7, 7], [half, 7, 7]), f"a sum along a route that is too large: {told}")
    told = library.route_sums(handle, [0], [1], [2**64 - 1, 2**64 - 1])
    tally.expect(told == (0, 1, [4], [2**64 - 1]), f"a sum of one value: {told}")
    for sources, targets, values, rooms, name in (
        ([9], [0, 0], [1, 1], (1, 1), "LENGTHS"), ([9], [0], [1, 1], (2, 1), "LENGTHS"), ([9], [0], [1, 1], (1, 0), "LENGTHS"),
        ([9], [0], [1], (1, 1), "LENGTHS"), ([9], [0], [1, 1, 1], (1, 1), "LENGTHS"), ([3], [0], [1, 1], (1, 1), "NODE_RANGE"),
        ([0], [3], [1, 1], (1, 1), "NODE_RANGE"), ([], [], [1, 1], (0, 0), "OK"),
    ):
        told = library.route_sums(handle, sources, targets, values, *rooms)
        tally.expect(told == (STATUS[name], 7 if STATUS[name] else 0, [7] * rooms[0], [7] * rooms[1]), f"sums along routes {sources} {targets} {values}: {told}")
    tally.expect(library.route_sums(Handle(), [0], [1], [1, 1])[0] == STATUS["CLOSED"], "sums by a closed handle")
    library.close(handle)


def refuse_kept_sums(tally, library):
    """Values stay until others are kept, whatever is refused, and whatever other handles keep. Kept values come before lengths, and lengths before nodes. A
    sum of 2^64 or more ends the call before its cell, and one less is given."""
    status, handle, _ = library.open(LINE, OF_LINE)
    asked, half, other = ([0, 2], [1, 2]), 2**63, Handle()
    owed = 0, 4, [4, 9, NO_DISTANCE, 0], [half, 2**64 - 1, 0, 0]
    tally.expect(library.kept_table_sums(handle, [9], [0], 2, 1) == (STATUS["NO_VALUES"], 7, [7, 7], [7]), "no values are kept")
    for values, name in ([half, half - 1], "OK"), ([1], "LENGTHS"), ([1, 1, 1], "LENGTHS"), ([], "LENGTHS"), ([half, half - 1], "OK"):
        tally.expect(library.keep_values(handle, values) == STATUS[name], f"values {values} that are to be kept")
        told = library.kept_table_sums(handle, *asked)
        tally.expect(told == owed, f"the sums of kept values, after {values}: {told}")
        told = library.route_sums(handle, [0, 0, 2, 2] * 3, [1, 2, 1, 2] * 3, [1, 2])
        tally.expect(told == (0, 12, owed[2] * 3, [1, 3, 0, 0] * 3), f"the sums of other values: {told}")
    for sources, targets, rooms, name in (
        ([9], [0], (1, 2), "LENGTHS"), ([9], [0], (2, 1), "LENGTHS"), ([9], [0, 0], (1, 2), "LENGTHS"), ([3], [0], (1, 1), "NODE_RANGE"),
        ([0], [3], (1, 1), "NODE_RANGE"), ([], [0], (0, 0), "OK"), ([0], [], (0, 0), "OK"),
    ):
        told = library.kept_table_sums(handle, sources, targets, *rooms)
        tally.expect(told == (STATUS[name], 7 if STATUS[name] else 0, [7] * rooms[0], [7] * rooms[1]), f"sums of kept values {sources} {targets}: {told}")
    tally.expect(library.share(handle, other) == 0 and library.kept_table_sums(other, *asked) == owed, "a second handle has the values of the first")
    tally.expect(library.keep_values(handle, [half, half]) == 0, "values in place of others")
    told = library.kept_table_sums(handle, [1, 0], [1, 2])
    tally.expect(told == (STATUS["SUM_TOO_LARGE"], 3, [0, 5, 4, 7], [0, half, half, 7]), f"a sum of kept values that is too large: {told}")
    tally.expect(library.close(handle) == 0 and library.kept_table_sums(other, *asked) == owed, "the second handle keeps them when the first closes")
    tally.expect(library.open(LINE, OF_LINE, handle)[0] == 0 and library.kept_table_sums(handle, [0], [1])[0] == STATUS["NO_VALUES"], "an opened handle keeps no values")
    tally.expect(library.keep_values(Handle(), [1, 1]) == STATUS["CLOSED"], "values for a closed handle")
    tally.expect(library.kept_table_sums(Handle(), [9], [1], 2) == (STATUS["CLOSED"], 7, [7, 7], [7]), "sums of kept values by a closed handle")
    status, topology, _ = library.topology_open(LINE)
    new = library.customized(topology, [7, 1])[1]
    tally.expect(library.kept_table_sums(new, [0], [1])[0] == STATUS["NO_VALUES"], "a customized network keeps no values")
    told = library.keep_values(new, [3, 4]), library.kept_table_sums(new, [0], [2]), library.kept_table_sums(other, *asked)
    tally.expect(told == (0, (0, 1, [8], [7]), owed), f"values of two networks: {told}")
    tally.expect([library.close(each) for each in (handle, other, new)] == [0] * 3 and library.topology_close(topology) == 0, "handles with values close")


def refuse_summed_rows(tally, library):
    """Near rows with sums: kept values come before lengths, these before places, and these before nodes. A row that has no room or too large a sum is left
    out, and so are those behind it. Other values and other places count at once."""
    status, handle, _ = library.open(LINE, OF_LINE)
    half = 2**63
    tally.expect(library.kept_near_sums(handle, [9], 2, 1) == (STATUS["NO_VALUES"], 7, [7], [7, 7], [7], [7, 7]), "no values are kept for near rows")
    tally.expect(library.keep_values(handle, [half, half - 1]) == 0, "values for near rows")
    tally.expect(library.kept_near_sums(handle, [9], 2, 1)[0] == STATUS["LENGTHS"], "lengths come before places")
    tally.expect(library.kept_near_sums(handle, [9], 1) == (STATUS["NO_PLACES"], 7, [7], [7], [7], [7]), "no places are kept")
    tally.expect(library.near_places(handle, [2, 1]) == 0, "places for sums")
    for sources, rooms, name in ([0], (2, 1, 1, 2), "LENGTHS"), ([0], (2, 2, 0, 2), "LENGTHS"), ([0], (2, 2, 1, 1), "LENGTHS"), ([3], (2, 2, 1, 2), "NODE_RANGE"):
        told = library.kept_near_sums(handle, sources, *rooms)
        tally.expect(told == (STATUS[name], 7, *([7] * length for length in (rooms[2], rooms[0], rooms[1], rooms[3]))), f"near rows with sums {sources} {rooms}: {told}")
    owed = (0, 2, [2, 4], [4, 9, 0, 5], [1, 0, 1, 0], [half, 2**64 - 1, 0, half - 1])
    tally.expect(library.kept_near_sums(handle, [0, 1], 4) == owed, "near rows with sums")
    tally.expect(library.kept_near_sums(handle, [0, 1], 3) == (STATUS["TOO_SHORT"], 1, [2, 7], [4, 9, 7], [1, 0, 7], [half, 2**64 - 1, 7]), "room for one row")
    tally.expect(library.keep_values(handle, [half, half]) == 0, "values in place of others")
    told = library.kept_near_sums(handle, [1, 0], 4)
    tally.expect(told == (STATUS["SUM_TOO_LARGE"], 1, [2, 7], [0, 5, 7, 7], [1, 0, 7, 7], [0, half, 7, 7]), f"a row with a sum that is too large: {told}")
    tally.expect(library.near_places(handle, [1, 0], is_from=1) == 0 and library.near_sweep(handle) == 0, "other places")
    told = library.kept_near_sums(handle, [2, 0], 3)
    tally.expect(told[0] == STATUS["SUM_TOO_LARGE"] and library.kept_near_sums(handle, [1, 0], 3) == (0, 2, [2, 3], [0, 4, 0], [0, 1, 1], [0, half, 0]), f"from places: {told}")
    tally.expect(library.kept_near_sums(Handle(), [9], 2, 1)[0] == STATUS["CLOSED"], "near rows with sums by a closed handle")
    library.close(handle)


def refuse_large_flows(tally, library):
    """A flow of more than 2^63 refuses all flows, also after others were given, and 2^63 is given. Lengths come before nodes."""
    status, handle, _ = library.open(LINE, OF_LINE)
    half = 2**63
    for demands, owed in (
        ([half, 0, 5], (0, 1, [half, half])), ([half - 1, 1, 0], (0, 1, [half - 1, half])), ([half, 1, 0], (STATUS["SUM_TOO_LARGE"], 7, [7, 7])),
        ([half - 1, 2, 0], (STATUS["SUM_TOO_LARGE"], 7, [7, 7])), ([2**64 - 1, 0, 0], (STATUS["SUM_TOO_LARGE"], 7, [7, 7])),
        ([1, 2, 2**64 - 1], (0, 1, [1, 3])), ([0, 0, 0], (0, 1, [0, 0])),
    ):
        told = library.flows(handle, [0, 1, 2], [2, 2, 0], demands, 2)
        tally.expect(told == owed, f"flows of {demands}: {told}, not {owed}")
    told = library.flows(handle, [1] * 4, [2, 1, 2, 2], [half // 2, 2**64 - 1, half // 2 - 1, 2], 2)
    tally.expect(told == (STATUS["SUM_TOO_LARGE"], 7, [7, 7]), f"a flow of several pairs that is too large: {told}")
    for sources, targets, demands, room, name in (
        ([9], [0, 0], [1], 2, "LENGTHS"), ([9], [0], [1, 1], 2, "LENGTHS"), ([9], [0], [], 2, "LENGTHS"), ([9], [0], [1], 1, "LENGTHS"),
        ([9], [0], [1], 3, "LENGTHS"), ([3], [0], [1], 2, "NODE_RANGE"), ([0], [3], [1], 2, "NODE_RANGE"), ([0, 2**32 - 1], [1, 1], [1, 0], 2, "NODE_RANGE"),
    ):
        told = library.flows(handle, sources, targets, demands, room)
        tally.expect(told == (STATUS[name], 7, [7] * room), f"flows {sources} {targets} {demands}: {told}")
    tally.expect(library.flows(handle, [], [], [], 2) == (0, 0, [0, 0]), "flows of no pairs")
    tally.expect(library.flows(Handle(), [0], [1], [1], 2) == (STATUS["CLOSED"], 7, [7, 7]), "flows by a closed handle")
    library.close(handle)


def refuse_quickly(tally, library):
    """What is wrong with a graph that is opened alone is reported, and the handle stays."""
    for graph, told in (b"", (1, 0, 4)), (LINE + b"a 1 2 3\n", (4, 0, 9)), (LINE.replace(b"p sp 3", b"p sp 2"), (3, 0, 6)):
        status, handle, fault = library.open_quick(graph)
        tally.expect((status, fault.told(), handle.is_open) == (STATUS["BAD_GRAPH"], told, 0), f"{graph} alone: {status} {fault.told()}, not {told}")
    status, handle, fault = library.open_quick(LINE)
    tally.expect((status, fault.told()) == (0, (0, 0, 0)) and library.distances(handle, [0], [2]) == (0, [9]), f"a graph alone: {status} {fault.told()}")
    tally.expect(library.open_quick(b"", handle)[0] == STATUS["IS_OPEN"], "an open handle that is to be opened with a graph alone")
    tally.expect(library.distances(handle, [0], [2]) == (0, [9]), "the handle that was open")
    library.close(handle)


def refuse_likes(tally, library):
    """Faults are reported in the order of the header, and both handles stay."""
    status, handle, _ = library.open(LINE, OF_LINE)
    wide = LINE.replace(b"p sp 3", b"p sp 4")
    for graph, fresh, name, told in (
        (b"", 101, "BAD_GRAPH", (1, 0, 4)), (LINE + b"a 1 2 3\n", 5, "BAD_GRAPH", (4, 0, 9)), (wide, 101, "OTHER_NODES", (0, 0, 0)),
        (wide, 5, "OTHER_NODES", (0, 0, 0)), (LINE, 101, "FRESH_RANGE", (0, 0, 0)), (LINE, 2**32 - 1, "FRESH_RANGE", (0, 0, 0)),
    ):
        status, other, fault = library.open_like(graph, handle, fresh)
        tally.expect((status, fault.told(), other.is_open) == (STATUS[name], told, 0), f"{graph} {fresh}: {status} {fault.told()}, not {name} {told}")
    tally.expect(library.open_like(b"", Handle(), 101)[0] == STATUS["CLOSED"], "the order of a closed handle")
    tally.expect(library.open_like(b"", Handle(), 101, handle)[0] == STATUS["IS_OPEN"], "an open handle that is to be opened")
    tally.expect(library.distances(handle, [0], [2]) == (0, [9]), "the handle whose order was asked for")
    library.close(handle)


# Topologies that are refused: the graph, the bytes of the order, and the status with line, place and kind.
ORDER = b"p ch 3 0\no 3\no 1\no 2\n"
FAULTY_TOPOLOGIES = (
    (b"", b"", "BAD_GRAPH", (1, 0, 4)),
    (b"", b"x", "BAD_GRAPH", (1, 0, 4)),
    (LINE.replace(b"a 2 3", b"a 2 4"), ORDER, "BAD_GRAPH", (3, 0, 6)),
    (LINE, b"\n", "BAD_SAVED", (2, 0, 4)),
    (LINE, ORDER.replace(b"p ch 3", b"p ch 4"), "BAD_SAVED", (1, 0, 8)),
    (LINE, ORDER.replace(b"o 2\n", b""), "BAD_SAVED", (4, 0, 10)),
    (LINE, ORDER.replace(b"o 2", b"o 4"), "BAD_SAVED", (4, 0, 6)),
    (LINE, ORDER.replace(b"o 2", b"o 1"), "WRONG_SAVED", (0, 0, 11)),
)
# The same of arrays: the number of nodes, tails, heads and the order.
FAULTY_ENDS = (
    (9, [0], [1, 2], b"x", "LENGTHS", (0, 0, 0)),
    (2**32 - 1, [0, 9], [1], b"", "LENGTHS", (0, 0, 0)),
    (2**25 + 1, [], [], b"", "BAD_GRAPH", (0, 0, 8)),
    (2**32 - 1, [2**32 - 1], [0], b"x", "BAD_GRAPH", (0, 0, 8)),
    (3, [0, 3], [1, 2], b"", "BAD_GRAPH", (0, 1, 6)),
    (3, [0, 1], [3, 3], b"x", "BAD_GRAPH", (0, 0, 6)),
    (3, [0, 1], [1, 2], b"\n", "BAD_SAVED", (2, 0, 4)),
    (3, [0, 1], [1, 2], ORDER.replace(b"o 2", b"o 1"), "WRONG_SAVED", (0, 0, 11)),
)


def complete(nodes):
    """The ends of the arcs between all nodes, in one direction."""
    ends = [(one, other) for other in range(nodes) for one in range(other)]
    return [one for one, _ in ends], [other for _, other in ends]


def refuse_topologies(tally, library):
    """Faults of a graph or an order are reported, and the topology stays closed. Of n nodes that are all joined there are
    n (n - 1) (n - 2) / 6 triangles: 16 nodes have 560, and 17 have 680, which are just 40 a node; 18 have more."""
    for *given, name, told in FAULTY_TOPOLOGIES:
        status, topology, fault = library.topology_open(*given)
        tally.expect((status, fault.told(), topology.is_open) == (STATUS[name], told, 0), f"a topology of {given}: {status} {fault.told()}, not {name} {told}")
    for *given, name, told in FAULTY_ENDS:
        status, topology, fault = library.topology_open_arrays(*given)
        tally.expect((status, fault.told(), topology.is_open) == (STATUS[name], told, 0), f"a topology of {given}: {status} {fault.told()}, not {name} {told}")
    for nodes, name in (16, "OK"), (17, "OK"), (18, "TRIANGLES"):
        tails, heads = complete(nodes)
        for order in b"", f"p ch {nodes} 0\n".encode() + b"".join(f"o {node + 1}\n".encode() for node in range(nodes)):
            status, topology, fault = library.topology_open_arrays(nodes, tails, heads, order)
            tally.expect((status, fault.told(), topology.is_open) == (STATUS[name], (0, 0, 0), name == "OK"), f"{nodes} nodes that are all joined: {status}")
            library.topology_close(topology)
    status, topology, _ = library.topology_open_arrays(0, [], [])
    status, handle, _ = library.customized(topology, [])
    tally.expect(status == 0 and library.nodes(handle) == (0, 0) and library.close(handle) == 0 and library.topology_close(topology) == 0, "no nodes")


def refuse_weights(tally, library):
    """Faults of weights are reported in the order of the header. The handle stays closed, the topology stays as it is, and each network that
    was opened before answers on. A topology of another graph takes as many weights as that graph has arcs."""
    status, topology, _ = library.topology_open(LINE, ORDER)
    _, first, _ = library.customized(topology, [4, 5])
    tally.expect(library.distances(first, [0, 2], [2, 0]) == (0, [9, NO_DISTANCE]), "the weights of a graph")
    most = 2**60 // 3
    for weights, name, told in (
        ([], "LENGTHS", (0, 0, 0)), ([4], "LENGTHS", (0, 0, 0)), ([4, 5, 6], "LENGTHS", (0, 0, 0)), ([2**64 - 1] * 3, "LENGTHS", (0, 0, 0)),
        ([4, most + 1], "BAD_GRAPH", (0, 1, 7)), ([most + 1, 4], "BAD_GRAPH", (0, 0, 7)), ([2**64 - 1, 2**64 - 1], "BAD_GRAPH", (0, 0, 7)),
        ([4, 2**64 - 1], "BAD_GRAPH", (0, 1, 7)),
    ):
        status, handle, fault = library.customized(topology, weights)
        tally.expect((status, fault.told(), handle.is_open) == (STATUS[name], told, 0), f"weights {weights}: {status} {fault.told()}, not {name} {told}")
        tally.expect(library.topology_order(topology, 3) == (0, [2, 0, 1]), "a topology stays")
        tally.expect(library.distances(first, [0], [2]) == (0, [9]), "the network that was opened before")
    status, second, _ = library.customized(topology, [most, 1])
    tally.expect(status == 0 and library.distances(second, [0, 0, 1], [1, 2, 2]) == (0, [most, most + 1, 1]), "the greatest weight")
    tally.expect(library.customized(topology, [7], second)[0] == STATUS["IS_OPEN"], "an open handle that is to be opened")
    tally.expect(library.customized(Topology(), [7])[0] == STATUS["CLOSED"], "weights on a closed topology")
    tally.expect(library.customized(Topology(), [7], second)[0] == STATUS["IS_OPEN"], "an open handle, and a closed topology")
    tally.expect(library.topology_open(b"", b"", topology)[0] == STATUS["IS_OPEN"], "an open topology that is to be opened")
    tally.expect(library.topology_open_arrays(9, [0], [], b"", topology)[0] == STATUS["IS_OPEN"], "an open topology that is to be opened by arrays")
    for room, name in (0, "LENGTHS"), (2, "LENGTHS"), (4, "LENGTHS"):
        tally.expect(library.topology_order(topology, room) == (STATUS[name], [7] * room), f"an order into a room of {room}")
    other = Topology()
    tally.expect(library.topology_order(other, 3) == (STATUS["CLOSED"], [7] * 3), "the order of a closed topology")
    tally.expect(library.topology_share(other, Topology()) == STATUS["CLOSED"], "a closed topology that is to be shared")
    tally.expect(library.topology_share(topology, other) == 0 and library.topology_share(topology, other) == STATUS["IS_OPEN"], "a shared topology")
    tally.expect(library.topology_close(topology) == 0 and library.topology_close(topology) == STATUS["CLOSED"], "a topology closes once")
    status, third, _ = library.customized(other, [1, 2])
    tally.expect(status == 0 and library.distances(third, [0], [2]) == (0, [3]), "the shared topology outlives the first")
    tally.expect(library.topology_close(other) == 0, "the shared topology closes")
    tally.expect([library.distances(handle, [0], [2])[1] for handle in (first, second, third)] == [[9], [most + 1], [3]], "three networks of one topology")
    tally.expect([library.close(handle) for handle in (first, second, third)] == [0] * 3, "all close")


def main():
    given = argparse.ArgumentParser(usage="library.py [--calls CALLS]", description=__doc__, formatter_class=argparse.RawDescriptionHelpFormatter)
    given.add_argument("--calls", default=5_000, type=int)
    calls = given.parse_args().calls
    build()
    tally = Count()
    make(tally)
    library = Library()
    with tempfile.TemporaryDirectory() as kept:
        folder = Path(kept)
        saved = {}
        for graph in GRAPHS:
            saved[graph] = folder / f"{graph.stem}.ch"
            saved[graph].write_bytes(run(["save", graph], folder).out)
        compile_header(tally, folder)
        compare_names(tally)
        compare_types(tally)
        run_example(tally, folder, saved)
        refuse_memory(tally, folder, saved)
        run_page(tally, folder)
    open_arrays(tally, library)
    ask_too_much(tally, library)
    tell_faults(tally, library)
    refuse_large_sums(tally, library)
    refuse_cells(tally, library)
    refuse_large_route_sums(tally, library)
    refuse_kept_sums(tally, library)
    refuse_summed_rows(tally, library)
    refuse_large_flows(tally, library)
    refuse_quickly(tally, library)
    refuse_likes(tally, library)
    refuse_topologies(tally, library)
    refuse_weights(tally, library)
    fuzzed = done(sys.executable, ROOT / "tests/library/fuzz.py", calls, 1)
    passed, failed = map(int, (re.search(r"(\d+) passed, (\d+) failed$", fuzzed.stdout.strip()) or re.match("(0) (1)", "0 1")).groups())
    print(fuzzed.stdout + fuzzed.stderr, end="")
    tally.passed += passed
    tally.failed += failed
    tally.finish()


if __name__ == "__main__":
    main()
