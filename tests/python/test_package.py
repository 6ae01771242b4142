"""Tests the Python package: files, what it says of its calls, networks over the built program, frames, and installing."""
import pydoc
import pty
import inspect
import os
import pathlib
import re
import signal
import subprocess
import tomllib

from helpers.commands import needs, raises
from helpers.maps import COUNTRY
from helpers.packages import PYTHON
from helpers.running import PROGRAM, ROOT
import chtab
from chtab._roads.reach import Isochrones
from chtab import files
from chtab._engine.progress import Progress
from chtab._near.found import Near, Nearest
from chtab._roads.routes import Routes, TripRoutes

FIRST = ROOT / "examples" / "first.gr"


def test_files_are_read_as_written():
    files.write_graph("a.gr", 3, [(1, 2, 5), (2, 3, 0)], ["Weights are metres."])
    graph = files.read_graph("a.gr")
    assert (graph.nodes, [*zip(*graph[1:4])], graph.unit) == (3, [(1, 2, 5), (2, 3, 0)], "metres")
    files.write_coordinates("a.co", [(9.5, 47.0), (-0.000001, -90.0)], ["a note"])
    places = files.read_coordinates("a.co")
    assert (places.of(1), places.of(2), places.comments, places.known()) == ((9.5, 47.0), (-1e-06, -90.0), ["a note"], [1, 2])
    files.write_bends("a.bends", {1: [(9.5, 47.5), (9.6, 47.5)]})
    assert files.read_bends("a.bends") == {1: [(9.5, 47.5), (9.6, 47.5)]}
    files.write_queries("a.p2p", [(1, 2), (3, 3)], [["an inn: node 1, 2 m away", "x: node 2, 3 m away"], []])
    assert [*zip(*files.read_queries("a.p2p"))] == [(1, 2), (3, 3)] and files.read_names("a.p2p") == {1: "an inn", 2: "x"}
    files.write_list("a.ss", [5, 5], ["an inn: node 5, 2 m away", "a farm: node 5, 1,002 m away"])
    assert files.read_list("a.ss").tolist() == [5, 5] and files.read_names("a.ss") == {5: "an inn / a farm"}
    files.write_names("a.nodes", ["north", "south"])
    assert files.read_names("a.nodes") == {1: "north", 2: "south"}
    for text, told in ("a 1 2\n", "line 1: not `a` and 3 numbers"), ("a 1 2 x\n", "invalid literal"), ("a 1 2 3\n", "not a graph"):
        pathlib.Path("bad.gr").write_text(text)
        raises(chtab.FileFault, files.read_graph, "bad.gr", told=told)
    pathlib.Path("bad.gr").write_bytes(b"\xff\xfe\n")
    raises(chtab.FileFault, lambda: list(files.read_rows("bad.gr", 1)), told="not a text")


def test_weights_are_whole():
    """A weight that isn't whole is refused with its arc, and no file is begun; a scale rounds it, and the file says so."""
    for arcs, told in (
        ([(1, 2, 3), (1, 2, 1.5)], "arcs[1]: 1.5 is not a whole number"), ([(1, 2, float("nan"))], "arcs[0]: nan"), ([(1.25, 2, 3)], "1.25"),
        ([(1, 2, float("inf"))], "inf"), ([(1, 2, "3")], "arcs[0]: 3"), ([(1, 2, None)], "None"),
        ([(1, 2, 3)] * 2_500 + [(1, 2, 0.999999)], "arcs[2500]"),
    ):
        raises(chtab.FileFault, files.write_graph, "half.gr", 2, arcs, told=told)
        assert not os.path.exists("half.gr")
    files.write_graph("whole.gr", 2, [(1, 2, 3.0), (2, 1, True)])
    assert files.read_graph("whole.gr").weights.tolist() == [3, 1]
    files.write_graph("scaled.gr", 2, [(1, 2, 1.5), (2, 1, 0.0004), (1, 1, 2)], ["Weights are milliseconds."], scale=1000)
    graph = files.read_graph("scaled.gr")
    assert (graph.weights.tolist(), graph.unit) == ([1500, 0, 2000], "milliseconds")
    assert "c Weights were multiplied by 1000 and rounded to whole numbers.\n" in pathlib.Path("scaled.gr").read_text()
    raises(chtab.FileFault, files.write_graph, "half.gr", 2, [(1, 2, float("nan"))], (), 1000, told="arcs[0]: nan is no weight")


def test_what_is_told_of_the_package():
    """`dir` has the network, `help` nothing that is no caller's, and a network says what it is, and what it lacks."""
    assert dir(chtab) == sorted(chtab.__all__) and all(hasattr(chtab, name) for name in chtab.__all__)
    assert {*chtab.__all__} == {*"Network Routes Near Spots ChtabError DataFault FileFault ProgramFault TimedOut TooFar __version__".split()}
    wanted = "accessibility along answers_by assign changed close components coordinates crossings customizable distances flows flows_table frame from_arrays from_frame from_geodataframe "
    wanted += "from_networkx from_sparse graph isochrones labels near nearest_nodes nearest_targets nodes nodes_to_geodataframe open plot "
    wanted += "reach roads rounding routes scale snap table to_geodataframe trip_routes trip_table trips unit"
    assert [name for name in dir(chtab.Network) if not name.startswith("_")] == wanted.split()
    text = pydoc.render_doc(chtab.Network)
    assert "Parameters" in text and "Raises" in text and "leave_parent" not in text, text
    with chtab.Network.open(FIRST, program=PROGRAM) as network:
        assert repr(network) == f"<chtab.Network {FIRST}: 3 nodes>" and repr(network.routes([(1, 3)])) == f"<1 routes on {FIRST}>"
        raises(chtab.ChtabError, lambda: network.coordinates, told="no file of coordinates")
    assert repr(network).endswith("3 nodes, closed>")
    raises(FileNotFoundError, lambda: chtab.Network.open("none.gr", program=PROGRAM), told="none.gr")
    raises(AttributeError, lambda: chtab.nothing, told="module 'chtab' has no attribute 'nothing'")
    raises(ImportError, lambda: __import__("chtab.nothing"))


@needs("python3-packaging")
def test_versions_of_aiohttp_with_known_faults_are_refused():
    """The package wants Debian's version, whose faults are mended, or one since 3.9.2."""
    from packaging.requirements import Requirement

    extras = tomllib.loads((ROOT / "python" / "pyproject.toml").read_text())["project"]["optional-dependencies"]
    [wanted] = [each.specifier for each in map(Requirement, extras["page"]) if each.name == "aiohttp"]
    assert [version for version in ("3.8.3", "3.8.4", "3.8.5", "3.8.6", "3.9.0", "3.9.1", "3.9.2", "3.10.0") if version in wanted] == ["3.8.4", "3.9.2", "3.10.0"]


# Calls that can't fail, because what they give is there.
NEVER_FAIL = "Network.close", "Routes.rows", "Routes.edges", "Near.owners", "Nearest.labels", "TripRoutes.to_geojson", "Isochrones.to_geojson"


def test_each_call_tells_what_it_takes_and_gives():
    """The text of each call that users see has its parameters by name, the shapes of arrays, what it gives, what goes wrong, and the unit of numbers."""
    calls = {f"files.{name}": getattr(files, name) for name in files.__all__ if inspect.isfunction(getattr(files, name))}
    for kind in chtab.Network, Routes, Near, Nearest, TripRoutes, Isochrones:
        own = {name: getattr(kind, name) for name in dir(kind) if name[0] != "_"}
        calls |= {f"{kind.__name__}.{name}": own[name] for name in own if kind is chtab.Network or "Returns" in (inspect.getdoc(own[name]) or "")}
    assert len(calls) > 60
    for name, call in calls.items():
        if isinstance(call, property):
            assert call.fget.__doc__, name
            continue
        words, text = [word for word in inspect.signature(call).parameters if word not in ("self", "running", "more", "style")], inspect.getdoc(call)
        parts = dict(re.findall(r"^(Parameters|Returns|Yields|Raises)\n-+\n(.*?)(?=\n\n\w|\Z)", text, re.MULTILINE | re.DOTALL))
        told = [word for line in re.findall(r"^(\w.*?) :", parts.get("Parameters", ""), re.MULTILINE) for word in line.split(", ")]
        assert told == words, (name, told, words)
        assert name in NEVER_FAIL or "Raises" in parts, name
        assert name == "Network.close" or {"Returns", "Yields", "Raises"} & {*parts}, name
        arrays = re.findall(r"^\S.*\barray of (?!bool).*", parts.get("Parameters", "") + "\n" + parts.get("Returns", ""), re.MULTILINE)
        assert all("shape" in line or "list of" in line for line in arrays) or name.startswith("files."), (name, arrays)
        assert not name.startswith("Network.") or name == "Network.close" or re.search(r"\b(unit|metres|degrees)\b", text), name
        assert len(text.splitlines()) <= 72, name


def test_a_closed_pipe_is_silent():
    child = subprocess.Popen([PYTHON, ROOT / "tools" / "nearest.py", "--all", f"{COUNTRY}.co"], stdout=subprocess.PIPE, stderr=subprocess.PIPE)
    child.stdout.readline()
    child.stdout.close()
    assert child.stderr.read() == b"" and child.wait() in (0, -signal.SIGPIPE)


@needs("python3-tqdm")
def test_signs_of_life():
    """A line now and then where standard error is no terminal, by a clock that the test sets, and a bar where it is one."""
    head = "import sys, time; sys.path.insert(0, sys.argv[1]); from chtab._engine import progress\n"
    clock = "class time:\n now = 0\n monotonic = classmethod(lambda own: own.now)\nprogress.time = time\n"
    steps = "with progress.Progress('blocks', 4, 'blocks', seconds=0.15) as p:\n for _ in range(4): {}; p.step()\n"
    text = head + clock + steps.format("time.now += 0.1")
    done = subprocess.run([PYTHON, "-c", text, ROOT / "python"], capture_output=True, text=True)
    assert done.stdout == "" and [line[:25] for line in done.stderr.splitlines()] == ["blocks: 2 of 4 blocks after"[:25], "blocks: 4 of 4 blocks after"[:25]], done
    assert Progress("x", 10, "things").line().startswith("x: 0 of 10 things")
    master, slave = pty.openpty()
    subprocess.run([PYTHON, "-c", head + steps.format("time.sleep(0.5)"), ROOT / "python"], stderr=slave)
    os.close(slave)
    assert b"blocks: " in os.read(master, 10_000)
    os.close(master)


@needs("python3-pip", "python3-setuptools", "python3-wheel", "python3-venv")
def test_it_installs_without_a_network():
    """By pip, here without the program: it tells both ways to name one, and takes the one beside it. tests/install.py has a wheel with one."""
    elsewhere = {"cwd": "/", "env": {"PATH": "/usr/bin:/bin"}, "capture_output": True, "text": True}
    os.mkdir("checkout")
    subprocess.run(["cp", "-r", ROOT / "python", ROOT / "packaging", ROOT / "VERSION", "checkout"], check=True)
    subprocess.run([PYTHON, "-m", "venv", "--system-site-packages", "own"], check=True)
    words = "--no-input", "--no-index", "--quiet", "--disable-pip-version-check", "--config-settings=--without-library=yes"
    subprocess.run(["own/bin/pip", "install", *words, "./checkout/python"], check=True)
    bin = pathlib.Path("own/bin").absolute()
    for tool in sorted((ROOT / "tools").glob("*.py")):
        done = subprocess.run([bin / f"chtab-{tool.stem.replace('_', '-')}", "--help"], **elsewhere)
        assert done.returncode == 0 and "usage:" in done.stdout.lower() and "Example:" in done.stdout, done
    done = subprocess.run([bin / "python", "-c", f"import chtab; chtab.Network.open('{FIRST}')"], **elsewhere)
    assert done.returncode and "`--program FILE`" in done.stderr and "`program=`" in done.stderr, done
    os.symlink(PROGRAM, bin / "chtab")
    files.write_list("one.ss", [1])
    done = subprocess.run([bin / "chtab-blocks", FIRST, *map(os.path.abspath, ("one.ss", "one.ss", "one.csv"))], **elsewhere)
    assert done.stdout.startswith("1 by 1 cells"), done
