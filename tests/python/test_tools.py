"""Tests the tools of tools/ on small files, with no package installed; where pyosmium, scipy or Dask is there, with it too."""
import json
import math
import os
import pathlib
import random
import subprocess
import xml.etree.ElementTree

import pytest

from helpers.commands import command as tool
from helpers.commands import needs, run
from helpers.maps import COUNTRY
from helpers.moods import STANDIN, mood
from helpers.packages import PYTHON
from helpers.running import PROGRAM, ROOT
from helpers.waiting import until
from helpers.writing import write_list


def village():
    """Files of the village: roads.gr, roads.co, roads.nodes."""
    tool("osm_to_gr", "--quiet", ROOT / "tests" / "data" / "village.osm", "roads")


def test_nearest_nodes():
    """The nearest node of each place, with numpy and without it, by a search over all nodes; lists, queries, and what is no place."""
    nodes = [tuple(map(int, line.split()[1:])) for line in open(f"{COUNTRY}.co") if line.startswith("v")]
    draw = random.Random("two hundred places")
    places = [(draw.uniform(9.4, 9.7), draw.uniform(47.0, 47.3)) for _ in range(200)]
    places += [(-170.0, -80.0), (9.5, -90.0), (9.52, 47.14), *((x / 1e6, y / 1e6) for _, x, y in nodes[:20])]

    def near(place):
        (x, y), narrow = place, math.cos(math.radians(place[1]))

        def square(node):
            (_, u, v), half = node, math.radians(0.5)
            up, across = math.sin((v / 1e6 - y) * half) ** 2, math.sin((u / 1e6 - x) * half) ** 2
            return up + narrow * math.cos(math.radians(v / 1e6)) * across

        return min(nodes, key=square)[0]

    text, wanted = "".join(f"{x} {y} a place\n" for x, y in places), [near(place) for place in places]
    for words in ([], ["--plain"]):
        found = tool("nearest", *words, "--max-metres", "inf", f"{COUNTRY}.co", text=text).splitlines()
        assert found[0] == f"p aux sp ss {len(places)}"
        assert [int(line.split()[1]) for line in found[1:] if line.startswith("s")] == wanted, words
        fault = tool("nearest", *words, f"{COUNTRY}.co", text="47.1410 9.5209 Vaduz\n", status=1)
        assert fault.startswith("nearest: Vaduz is 5,467,4") and fault.count("\n") == 1, fault
    found = tool("nearest", f"{COUNTRY}.co", "--queries", text="# none\n9.5209 47.1410 Vaduz\n\n9.6079 47.1020\n").splitlines()
    assert found[0] == "p aux sp p2p 1" and found[1].startswith("c Vaduz: node ") and found[1].endswith(" m away")
    for words, given, told in (
        (["--queries", f"{COUNTRY}.co"], text.split("\n")[0], "no second"), ([f"{COUNTRY}.co"], "9 47\n47.1 199\n", "line 2"),
        ([f"{COUNTRY}.co"], "Vaduz\n", "line 1"), (["--all", f"{COUNTRY}.gr"], "", "no line `v"),
    ):
        assert told in tool("nearest", *words, text=given, status=1)


def test_answers_to_geojson_and_csv():
    village()
    pathlib.Path("trips.p2p").write_text("p aux sp p2p 3\nq 1 5\nq 5 1\nq 2 2\n")
    text = run(PROGRAM, "dist", "--routes", "roads.gr", "trips.p2p")
    found = json.loads(tool("to_geojson", "routes", "roads.co", text=text))
    assert found["type"] == "FeatureCollection"
    lines = [(each["properties"], each["geometry"]["coordinates"]) for each in found["features"]]
    assert lines[0] == (
        {"from": 1, "to": 5, "weight": 42255, "arcs": 3}, [[0, 0], [0.002, 0], [0.002, 0.001], [0.002, 0.002]]
    )
    assert lines[2] == ({"from": 2, "to": 2, "weight": 0, "arcs": 0}, [[0.002, 0], [0.002, 0]])
    assert json.loads(tool("to_geojson", "routes", "roads.co", text="d 1 3 -\n"))["features"] == []
    pathlib.Path("names.p2p").write_text("p aux sp p2p 1\nc the inn: node 1, 2 m away\nc a farm: node 5, 7 m away\nq 1 5\n")
    named = json.loads(tool("to_geojson", "routes", "roads.co", "--names", "names.p2p", text=text))["features"]
    assert [named[0]["properties"][key] for key in ("from_name", "to_name")] == ["the inn", "a farm"], named
    assert "from_name" not in named[2]["properties"]
    for empty in run(PROGRAM, "dist", "roads.gr", "trips.p2p"), "":
        assert "routes" in tool("to_geojson", "routes", "roads.co", text=empty, status=1)
    assert "cut short" in tool("to_geojson", "routes", "roads.co", text=text[:text.index("a 2")], status=1)
    graph = ROOT / "examples" / "first.gr"
    write_list("all.ss", [3, 1])
    pathlib.Path("names").write_text("north\nmiddle, or so\nsouth\n")
    rows = run(PROGRAM, "table", graph, "all.ss", "all.ss")
    assert tool("to_geojson", "table", "all.ss", text=rows) == "source,3,1\n3,0,\n1,9,0\n"
    assert tool("to_geojson", "table", "--names", "names", "all.ss", text=rows) == "source,south,north\nsouth,0,\nnorth,9,0\n"
    write_list("two.ss", [2])
    assert "not a row" in tool("to_geojson", "table", "two.ss", text=rows, status=1)


def paths_of(svg):
    """Colour and text of each path of a picture, which is well-formed."""
    root = xml.etree.ElementTree.fromstring(svg)
    return [(path.get("stroke"), path.get("d")) for path in root.iter("{http://www.w3.org/2000/svg}path")]


def test_pictures():
    village()
    network = paths_of(tool("picture", "network", "roads"))
    assert len(network) == 2
    # The village is 800 pixels or 3,200 units wide and 2,133 high, and begins at 64 units: nodes 5 4 2 1 6, and 2 3 4.
    assert network[0][1] == "M2197 64l0 1067 0 1066-2133 0 0-2133M2197 2197l1067 0-1067-1066", network[0]
    pathlib.Path("trips.p2p").write_text("p aux sp p2p 2\nq 1 5\nq 3 1\n")
    routes = paths_of(tool("picture", "routes", "roads", text=run(PROGRAM, "dist", "--routes", "roads.gr", "trips.p2p")))
    # Both take the roads between nodes 1, 2 and 4: there the first is wide, and the second has no border of its own.
    first = ["#ffffff", "#c51b5b", "#ffffff", "#c51b5b"]
    assert [colour for colour, _ in routes[1:8]] == [*first, "#ffffff", "#1f6fb4", "#222222"], routes
    titles_names_and_shared_roads()
    pathlib.Path("all.ss").write_text(tool("nearest", "--all", "roads.co"))
    assert pathlib.Path("all.ss").read_text() == "p aux sp ss 6\n" + "".join(f"s {node}\n" for node in range(1, 7))
    write_list("one.ss", [6])
    rows = run(PROGRAM, "table", "roads.gr", "one.ss", "all.ss")
    # 12,437 ms are half of the way from node 6 to node 1: one band, and the road's other half is not reached.
    reach = paths_of(tool("picture", "reach", "roads", "--limit", "12437", "--bands", "1", "all.ss", text=rows))
    assert reach[1] == ("#440154", "M64 64l0 1066"), reach[1]
    assert len(paths_of(tool("picture", "reach", "roads", "all.ss", text=rows))) == 7
    near = run(PROGRAM, "table", "--within", "12437", "roads.gr", "one.ss", "all.ss")
    for same in near, tool("to_geojson", "table", "all.ss", text=rows):
        assert paths_of(tool("picture", "reach", "roads", "--limit", "12437", "--bands", "1", "all.ss", text=same)) == reach
    assert "one source" in tool("picture", "reach", "roads", "all.ss", text=rows + rows, status=1)
    nearest_targets(reach)


def nearest_targets(reach):
    """Roads by the weight to the nearest target, and from it: of one target that is drawn as reach, and rings at all."""
    weights = {int(node): cell for node, cell in zip(range(1, 7), run(PROGRAM, "table", "roads.gr", "one.ss", "all.ss").split()[2:])}
    rows = "".join(f"n {node} 1 6 {cell}\n" if cell != "-" else f"n {node} 0\n" for node, cell in weights.items())
    words = "near", "roads", "--limit", "12437", "--bands", "1"
    assert paths_of(tool("picture", *words, "--from", text=rows)) == reach
    to = paths_of(tool("picture", *words, text="n 1 1 6 24874\nn 6 2 6 0 1 24874\nn 5 0\n"))
    assert to[1] == ("#440154", "M64 64l0 1066"), to
    both = tool("picture", "near", "roads", text="n 1 1 1 0\nn 6 1 6 0\nn 2 1 1 9\n")
    assert both.count("<circle") == 2 and "to the nearest place" in both
    for text in "", "t 1 5\n", "n 1 2 6 0\n", "n 1 1 6\n", "n 1 1 6 -\n", "n 1\n":
        assert tool("picture", "near", "roads", text=text, status=1).count("\n") == 1


def titles_names_and_shared_roads():
    """A title of any length is in lines that fit; words come in any order; of routes that share a road each can be seen."""
    pathlib.Path("trips.p2p").write_text("p aux sp p2p 2\nc an inn: node 1, 0 m away\nc a farm: node 5, 0 m away\nq 1 5\nq 2 5\n")
    pathlib.Path("trips.txt").write_text(run(PROGRAM, "dist", "--routes", "roads.gr", "trips.p2p"))
    title = " & ".join(["A title that is longer than the picture is wide"] * 4)
    svg = tool("picture", "routes", "roads", "--title", title, "--names", "trips.p2p", "trips.txt")
    assert svg == tool("picture", "--names", "trips.p2p", "--title", title, "routes", "roads", "trips.txt")
    root = xml.etree.ElementTree.fromstring(svg)
    words = [(each.text, float(each.get("font-size"))) for each in root.iter("{http://www.w3.org/2000/svg}text")]
    lines = [text for text, size in words if size == 68]
    assert len(lines) > 1 and " ".join(lines) == title, lines
    assert all(len(text) * size * 0.6 <= float(root.get("viewBox").split()[2]) for text, size in words), words
    assert "an inn to a farm: 0.7 min" in [text for text, _ in words], words
    widths = {each.get("stroke"): float(each.get("stroke-width")) for each in root.iter("{http://www.w3.org/2000/svg}path")}
    shared = [float(each.get("stroke-width")) for each in root.iter("{http://www.w3.org/2000/svg}path") if each.get("stroke") == "#c51b5b"]
    assert max(shared) > widths["#1f6fb4"] == min(shared), (shared, widths)


@pytest.fixture
def lists():
    """The graph of the country, and lists of 9 sources and 14 targets."""
    draw = random.Random("blocks")
    for name, count in ("from.ss", 9), ("to.ss", 14):
        write_list(name, [draw.randint(1, 3000) for _ in range(count)])
    return f"{COUNTRY}.gr", "from.ss", "to.ss"


def test_tables_in_blocks(lists):
    """As text and as numpy's file: whole tables, and those without the cells above a limit, in blocks of any size, by a hierarchy that is given or
    built. A fault is reported in one line, and leaves no file."""
    graph, whole, words = lists[0], run(PROGRAM, "table", *lists), ["--program", PROGRAM, "--processes", "2"]
    wanted, limit = tool("to_geojson", "table", "to.ss", text=whole), 1_000_000
    assert tool("blocks", *words, "--side", "4", *lists, "table.csv") == "9 by 14 cells in table.csv, from 12 blocks\n"
    assert pathlib.Path("table.csv").read_text() == wanted
    pathlib.Path("own.ch").write_text(run(PROGRAM, "save", graph))
    for more in [], ["--saved", "own.ch"], ["--side", "2"], ["--workers", "2"]:
        tool("blocks", *words, *more, *lists, "again.csv")
        assert pathlib.Path("again.csv").read_text() == wanted, more
    tool("blocks", *words, "--side", "7", "--within", limit, *lists, "again.csv")
    cells = [[cell if int(cell) <= limit else "" for cell in line.split(",")[1:]] for line in wanted.splitlines()[1:]]
    assert [line.split(",")[1:] for line in pathlib.Path("again.csv").read_text().splitlines()[1:]] == cells
    write_list("all.ss", [3, 1, 2])
    tool("blocks", *words, "--side", "2", ROOT / "examples" / "first.gr", "all.ss", "all.ss", "table.npy")
    head, cells = pathlib.Path("table.npy").read_bytes().split(b"\n", 1)
    assert (len(head) + 1) % 64 == 0 and b"'shape': (3, 3)" in head
    assert [int.from_bytes(cells[at:at + 8], "little", signed=True) for at in range(0, 72, 8)] == [0, -1, -1, 9, 0, 4, 5, -1, 0]
    write_list("far.ss", [1, 2, 3, 4, 5, 3155])
    pathlib.Path("bad.ch").write_text("p ch 1 0\no 1\n")
    pathlib.Path("distributed.py").write_text("raise ImportError\n")
    for more, told in (
        (["--side", "4", graph, "from.ss", "far.ss"], "targets 5 to 6: a node is not from 1 to 3,154"),
        (["--saved", "bad.ch", *lists], "saved line 1: size too large"), (["--scheduler", "none", *lists], "python3-distributed"),
        (["--saved", "none.ch", *lists], f"No such file or directory: '{os.getcwd()}/none.ch'"),
        (["none.gr", "from.ss", "to.ss"], f"No such file or directory: '{os.getcwd()}/none.gr'"),
    ):
        fault = tool("blocks", *words, *more, "refused.csv", status=1, env=os.environ | {"PYTHONPATH": "."})
        assert told in fault and fault.count("\n") == 1 and not [name for name in os.listdir() if "refused.csv" in name], fault


@needs("python3-distributed")
def test_a_worker_is_lost(lists):
    """Of three workers of a local cluster one is ended while each makes a block: its block is made again."""
    import distributed

    with mood("slow=1"), distributed.LocalCluster(n_workers=3, threads_per_worker=1, dashboard_address=None) as cluster:
        with distributed.Client(cluster) as client:
            numbers = list(client.run(os.getpid).values())
            words = ["--scheduler", cluster.scheduler_address, "--program", STANDIN, "--side", "4"]
            blocks = [PYTHON, ROOT / "tools" / "blocks.py", *words, *lists, "by-dask.csv"]
            running = subprocess.Popen([str(word) for word in blocks], stdout=subprocess.PIPE, stderr=subprocess.PIPE)
            until(lambda: sum(map(len, client.processing().values())) >= 3 or running.poll() is not None)
            os.kill(numbers[0], 9)
            told = running.communicate(timeout=300)
    assert running.returncode == 0, told
    assert pathlib.Path("by-dask.csv").read_text() == tool("to_geojson", "table", "to.ss", text=run(PROGRAM, "table", *lists))


@needs("python3-distributed")
def test_no_worker_comes(lists):
    """A scheduler without workers is told."""
    import distributed

    with distributed.LocalCluster(n_workers=0, dashboard_address=None) as cluster:
        told = tool("blocks", "--program", PROGRAM, "--scheduler", cluster.scheduler_address, *lists, "o.csv", status=1)
    assert "has no worker, after 10 seconds" in told and told.count("\n") == 1, told
