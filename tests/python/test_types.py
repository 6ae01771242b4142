"""Tests the types that the Python package tells (`py.typed`): mypy finds no fault in the package, and finds those of its callers."""
import re
import subprocess
from pathlib import Path

import pytest

from helpers.commands import needs
from helpers.packages import PYTHON
from helpers.running import ROOT

# aiohttp has types of its own, which the service is judged by.
pytestmark = needs("python3-mypy", "python3-numpy", "python3-aiohttp")
SETTINGS = ROOT / "python" / "pyproject.toml"
# A caller of the package: calls that are right, and calls that are wrong, each with a part of the line in which mypy says so.
RIGHT = """
from pathlib import Path

import chtab
import numpy
from chtab.typing import Integers

with chtab.Network.open(Path("roads.gr"), saved="roads.ch", timeout=5.0) as network:
    weights: Integers = network.distances([(1, 3), (3, 1)])
    weights = network.table(["a", "b"], numpy.array([1, 2]), within=7.5)
    nodes, metres = network.nearest_nodes([9.5], (47.1,))
    places: Integers = network.nearest_targets(None, nodes, count=2, direction="from").places
    sums = network.accessibility({1: 2.5}, [600_000, 900_000], decay=lambda weights: numpy.exp(-weights / 3)).sum()
    spots: chtab.Spots = network.snap(9.5, 47.1)
    polygons = network.isochrones(spots[0], [300_000])["features"]
    with network.changed({"way/5": 3}, closed=spots, added=[(1, 2, 3)]) as other, other.changed(closed=[0, (1, 2), *spots]) as again:
        weights = again.distances([(1, 3)])
    near: chtab.Near = network.near([1], [2], workers=2)
    routes: chtab.Routes = network.routes([(1, 3)])
    print(len(routes), near.offsets.sum(), routes.to_geojson()["features"], network.trip_routes(spots, spots)[0].metres)
"""
WRONG = (
    ("chtab.Netwrok", 'has no attribute "Netwrok"'), ("network.distanses([(1, 3)])", 'has no attribute "distanses"'),
    ("network.table([1], [2], within='3')", 'Argument "within" to "table"'), ("network.table([1])", 'Missing positional argument "targets"'),
    ("network.table([1], [2], whithin=3)", 'Unexpected keyword argument "whithin"'), ("network.near(None, [1], direction='back')", 'Argument "direction" to "near"'),
    ("network.reach(5)", 'Argument 1 to "reach"'), ("network.snap(9.5, None)", 'Argument 2 to "snap"'), ("network.isochrones(5, [300])", 'Argument 1 to "isochrones"'),
    ("network.nearest_nodes([9.5], [47.1])[2]", "Tuple index out of range"), ("network.routes([(1, 3)]).to_geojsn()", 'has no attribute "to_geojsn"'),
    ("chtab.Network.open('a', progam='b')", 'Unexpected keyword argument "progam"'), ("chtab.Network.open('a', workers='2')", 'Argument "workers" to "open"'),
    ("chtab.Network.open(3)", 'Argument 1 to "open"'), ("chtab.Network.from_arrays([1], [2], [3], both_ways=True).nodes.upper()", '"int" has no attribute "upper"'),
    ("chtab.files.read_graph('a.gr').weigths", 'has no attribute "weigths"'), ("chtab.DataFault('a', row='b')", 'Argument "row" to "DataFault"'),
)


@pytest.fixture(scope="module")
def mypy(tmp_path_factory):
    """A call of mypy with these words: its status, and the lines in which it names a fault. What it learns of numpy is kept from call to call."""
    kept = tmp_path_factory.mktemp("mypy")
    words = [PYTHON, "-m", "mypy", "--no-error-summary", "--config-file", SETTINGS, "--cache-dir", kept]

    def faults_of(*more):
        done = subprocess.run([*words, *more], env={"MYPYPATH": str(ROOT / "python")}, cwd=kept, capture_output=True, text=True)
        assert not done.stderr, done.stderr
        return done.returncode, done.stdout.splitlines()

    return faults_of


def test_the_package_is_typed(mypy):
    """Each function of each module, those of the service too, tells the types of what it takes and gives, and mypy finds no fault in any."""
    settings = SETTINGS.read_text()
    assert (ROOT / "python" / "chtab" / "py.typed").exists() and "disallow_untyped_defs = true" in settings
    assert "ignore_errors" not in settings and "disallow_untyped_defs = false" not in settings
    status, lines = mypy()
    assert (status, lines) == (0, []), "\n".join(lines)


def test_faults_of_callers_are_found(mypy, folder):
    """Of a caller's lines those that are right have no fault; each that is wrong has the one that it is there for."""
    wrong = "".join(f"{line}\n" for line, _ in WRONG)
    first = RIGHT.count("\n") + 2
    Path("caller.py").write_text(f"{RIGHT}import chtab.files\n{wrong}")
    status, lines = mypy(f"{folder}/caller.py")
    found = re.findall(r"^\S*caller\.py:(\d+): error: (.*)$", "\n".join(lines), re.MULTILINE)
    assert status == 1 and {int(number) for number, _ in found} == set(range(first, first + len(WRONG))), lines
    for number, (line, told) in enumerate(WRONG, first):
        assert told in next(text for at, text in found if int(at) == number), (line, found)
