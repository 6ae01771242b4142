"""Tests the file of what a service makes for a network (`page.py --prepare`): answers are the same
with it and without it, and a file that is spoilt, cut short or of other files is not used.
"""
import logging
import pathlib
import random
import shutil

from helpers.commands import needs
from helpers.maps import COUNTRY, tool, town, town_at_a_cost
from helpers.running import PROGRAM
from chtab.errors import FileFault
from chtab_server.osrm import url


def written(path="columns"):
    """A file with columns of each type, and what it has."""
    import numpy
    from chtab_server import mapped

    columns = {
        "numbers": numpy.arange(1_000), "marks": numpy.arange(7) % 2 == 0, "text": numpy.frombuffer(b"text", numpy.uint8),
        "places": numpy.linspace(0, 1, 30).reshape(-1, 2), "nothing": numpy.zeros((0, 3)),
        "sums": numpy.array([2**64 - 1], numpy.uint64),
    }
    mapped.write(path, {"gr": "a"}, {"comments": ["c"]}, columns)
    return columns


def fault_of(path, sums):
    """The fault of a file of columns, empty if it is read."""
    from chtab_server import mapped

    try:
        mapped.read(path, sums)
    except FileFault as fault:
        return str(fault)
    return ""


@needs("python3-numpy")
def test_columns_are_those_that_were_written():
    from chtab_server import mapped

    columns = written()
    found = mapped.read("columns", {"gr": "a"})
    assert found.texts == {"comments": ["c"]} and found.columns.keys() == columns.keys()
    for name, column in columns.items():
        own = found.columns[name]
        assert own.dtype == column.dtype and own.shape == column.shape and (own == column).all(), name
        assert not own.flags.writeable
    for sums in {}, {"gr": "b"}, {"gr": "a", "co": "a"}:
        assert "other files" in fault_of("columns", sums)


@needs("python3-numpy")
def test_spoilt_files_are_refused():
    """Each byte of the line and of the columns counts, and so does each length."""
    from chtab_server import mapped

    columns = written()
    data, draw = pathlib.Path("columns").read_bytes(), random.Random("spoilt")
    head = data.index(b"\n") + 1
    places, at = list(range(head - 1)), -(-head // mapped.STEP) * mapped.STEP
    for column in columns.values():
        places += range(at, at + column.nbytes)
        at += -(-column.nbytes // mapped.STEP) * mapped.STEP
    for place in draw.sample(places, 600):
        spoilt = bytearray(data)
        spoilt[place] ^= 1 << draw.randrange(8)
        pathlib.Path("spoilt").write_bytes(spoilt)
        assert fault_of("spoilt", {"gr": "a"}), place
    # Words of a column that are exchanged have the same sum as numbers.
    first = next(place for place in range(-(-head // mapped.STEP) * mapped.STEP, len(data) - 16, 8) if data[place:place + 8] != data[place + 8:place + 16])
    turned = data[:first] + data[first + 8:first + 16] + data[first:first + 8] + data[first + 16:]
    pathlib.Path("turned").write_bytes(turned)
    assert fault_of("turned", {"gr": "a"}), first
    for size in [0, 1, head - 1, head, *draw.sample(range(places[-1] + 1), 60)]:
        pathlib.Path("short").write_bytes(data[:size])
        assert fault_of("short", {"gr": "a"}), size


def requests(coordinates, seed):
    """Requests of all kinds near the places of a network."""
    draw, known = random.Random(seed), coordinates.known()

    def place():
        return [part + draw.gauss(0, 0.0004) for part in coordinates.of(draw.choice(known))]

    def target(name, count, query):
        places = [place() for _ in range(count)]
        return f"/{name}/v1/car/{';'.join(f'{x:.6f},{y:.6f}' for x, y in places)}?{query}"

    kinds = (
        ("route", 2, "overview=full&steps=true&annotations=true"), ("route", 3, "geometries=geojson&bearings=90,90;;0,180"),
        ("table", 6, "annotations=duration,distance"), ("nearest", 1, "number=3"), ("trip", 5, "steps=true"),
        ("route", 2, "alternatives=3&approaches=curb;curb"),
    )
    return [target(*draw.choice(kinds)) for _ in range(80)]


def told(out):
    """What a service of a network answers, and a tile of its map; and whether it reads the text of its graph."""
    from chtab_server.networks import Named, Networks
    from chtab_server.service import Choices, Material

    saved = f"{out}.ch" if pathlib.Path(f"{out}.ch").exists() else None
    with Networks([Named("", str(out), saved)], program=PROGRAM, library=None, workers=1, timeout=None, load=False) as networks:
        material, found = Material(networks, Choices()), []
        [answers] = material.osrm
        for each in requests(networks.first.network.coordinates, "requests"):
            question = answers.question(url.words_of(each, 1 << 16))
            call = getattr(answers, {"route": "routes", "table": "tables"}.get(question.service, question.service))
            try:
                text = call([question])[0] if question.service in ("route", "table") else call(question)
                found.append(str(text))
            except Exception as fault:
                found.append(f"{type(fault).__name__}: {fault}")
        x, y = answers.network.coordinates.of(answers.network.coordinates.known()[0])
        found.append(material.tiles.tile(2, int((x / 360 + 0.5) * 4), 1))
        found.append(str(answers.network.isochrones(answers.network.snap([x], [y]), [100_000])))
        return found, "graph" in networks.first.network._layers.kept


def copied(out, name):
    for suffix in "gr", "co", "bends", "names", "nodes":
        if pathlib.Path(f"{out}.{suffix}").exists():
            shutil.copy(f"{out}.{suffix}", f"{name}.{suffix}")
    return name


@needs("python3-scipy", "python3-shapely", "python3-aiohttp", "libjs-leaflet")
def test_answers_are_the_same():
    """On all maps; after another file was written, and after the file was spoilt, by what is made anew."""
    for place, out in enumerate((COUNTRY, town(), town_at_a_cost())):
        name = copied(out, f"roads{place}")
        before, is_read = told(name)
        assert is_read and sum('"Ok"' in each for each in before) > 50
        assert tool("page", "--program", PROGRAM, "--prepare", name)[0] == f"{name}.mapped\n"
        assert told(name) == (before, False), "it has all, and reads no text"
        data = pathlib.Path(f"{name}.mapped").read_bytes()
        pathlib.Path(f"{name}.mapped").write_bytes(data[:-5_000])
        assert told(name) == (before, True)
        pathlib.Path(f"{name}.mapped").write_bytes(data)
        lines = pathlib.Path(f"{name}.gr").read_text().splitlines()
        at = next(place for place, line in enumerate(lines) if line.startswith("a "))
        tail, head, weight = lines[at].split()[1:]
        lines[at] = f"a {tail} {head} {int(weight) + 1}"
        pathlib.Path(f"{name}.gr").write_text("\n".join(lines) + "\n")
        now, is_read = told(name)
        assert is_read
        pathlib.Path(f"{name}.mapped").unlink()
        assert told(name) == (now, True)


@needs("python3-scipy", "python3-shapely", "python3-aiohttp", "libjs-leaflet")
def test_what_is_not_used_is_told(caplog):
    name = copied(COUNTRY, "roads")
    pathlib.Path("roads.mapped").write_text("nothing")
    with caplog.at_level(logging.WARNING):
        told(name)
    assert caplog.messages == ["roads.mapped: not a file of columns; what it has is made anew"]
