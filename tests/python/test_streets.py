"""Tests the names of streets and the numbers of ways that the converter of maps writes, and the files that keep them."""
import os
import pathlib

from helpers.commands import raises
from helpers.maps import ROAD, called, converted, in_line, osm, tool
from chtab import files


def test_streets_have_names():
    """Each tag that a sign shows, for each direction; a street of several arcs stands once, and turns that are split keep theirs."""
    for tags, along, against in [
        ({}, {}, {}), ({"name": " Long Street ", "ref": "16"}, {"name": "Long Street", "ref": "16"}, None), ({"ref": "A13; E43"}, {"ref": "A13, E43"}, None),
        ({"junction": "roundabout"}, {"junction": "roundabout"}, None), ({"junction": "circular", "oneway": "no"}, {"junction": "circular"}, None),
        ({"junction": "filter"}, {}, None), ({"destination": "Chur;Sargans"}, {"destinations": "Chur, Sargans"}, None),
        ({"destination": "Chur", "destination:ref": "A13;E43"}, {"destinations": "A13, E43: Chur"}, None), ({"destination:ref": "A13"}, {"destinations": "A13"}, None),
        ({"destination:forward": "Chur", "destination": "Bern"}, {"destinations": "Chur"}, {"destinations": "Bern"}),
        ({"destination:backward": "Chur"}, {}, {"destinations": "Chur"}), ({"destination": " ; "}, {}, None),
    ]:
        made, _ = converted(in_line(3, ROAD | tags), names=True, nodes="all")
        for arc, told in zip(made.arcs, called(made)):
            wanted = along if against is None or arc[0] < arc[1] else against
            assert told == ROAD | wanted, (tags, arc, told)
    assert called(converted(in_line(2, {"route": "ferry", "name": "Over"}), names=True)[0]) == [{"highway": "ferry", "name": "Over"}] * 2
    assert converted(in_line(2))[0].streets is None
    nodes = {1: (0, 0), 2: (-1, 0), 3: (0, 1), 4: (1, 0)}
    turn = [("way", 1, "from"), ("node", 1, "via"), ("way", 2, "to")], {"type": "restriction", "restriction": "no_left_turn"}
    ways = [([1, 2], ROAD | {"name": "West"}), ([1, 3], ROAD | {"name": "North"}), ([4, 1], ROAD | {"name": "East"})]
    made, _ = converted(osm(nodes, ways, [turn]), names=True, turns=True)
    at = dict(enumerate(made.names, 1))
    for (tail, head, _), told in zip(made.arcs, called(made)):
        assert told == ({} if at[tail] == at[head] else ROAD | {"name": {2: "West", 3: "North", 4: "East"}[max(at[tail], at[head])]}), (tail, head, told)


def test_files_of_streets_and_ways():
    """What is written is read; an older file is removed; those of another graph, or spoilt, are refused, where that is known with the line."""
    names = ["<b>&amp;\"'", "two\nlines\r\u2028", "\U0001d54f", "x" * 10_000]
    text = osm({number: (number, 0) for number in range(1, 6)}, [([place, place + 1], ROAD | {"name": name}) for place, name in enumerate(names, 1)])
    pathlib.Path("names.osm").write_text(text, encoding="utf-8")
    for words, side in (("--driving-side", "left"), "left"), ((), "right"):
        told = tool("osm_to_gr", "--quiet", "--names", *words, "names.osm", "named", env=os.environ | {"LC_ALL": "C"})[0]
        assert told.endswith("named.gr, named.co, named.nodes, named.ways and named.names\n"), told
        found = files.read_streets("named.names", 8)
        assert found.of_arcs == [1, 1, 2, 2, 3, 3, 4, 4] == files.read_ways("named.ways", 8).tolist() and found.side == side
        assert [found.streets[place].name for place in (0, 2, 3)] == [names[place] for place in (0, 2, 3)]
    assert pathlib.Path("named.names").read_bytes().isascii()
    whole, ways = (pathlib.Path(f"named.{kind}").read_text() for kind in ("names", "ways"))
    for read, spoilt, told in (
        (files.read_streets, whole[:-4], "cut short"), (files.read_streets, whole.replace("names 4 8", "names 4 9"), "cut short"),
        (files.read_streets, whole.replace("p aux sp names", "p aux sp bends"), "line 5"),
        (files.read_streets, whole.replace("a 4", "a 5"), "cut short"), (files.read_streets, whole.replace("a 4", "a -1"), "cut short"),
        (files.read_streets, whole.replace("a 4", "a x"), "line"), (files.read_streets, whole.replace('{"highway"', '{"way"', 1), "line 6"),
        (files.read_streets, whole.replace('"residential"', "3", 1), "line 6"), (files.read_streets, "", "cut short"),
        (files.read_streets, whole.replace("s {", "s [{", 1), "line 6"), (files.read_streets, whole.replace("side: right", "side: middle"), "line 4"),
        (files.read_streets, "s " + "[" * 100_000 + "\n", "line 1"), (files.read_ways, ways[:ways.rindex("w")], "cut short"),
        (files.read_ways, ways.replace("sp ways", "sp names"), "not a file of ways"), (files.read_ways, ways.replace("w 3", "w three", 1), "three"),
        (files.read_ways, ways.replace("w 3", "w 3 4", 1), "line"), (files.read_ways, "", "not a file of ways"),
        (files.read_ways, ways.replace("w 3", f"w {2**63}", 1), "too large"),
    ):
        pathlib.Path("spoilt").write_text(spoilt)
        assert str(raises(files.FileFault, read, "spoilt", 8, told=told)).startswith("spoilt")
    for read, name in (files.read_streets, "named.names"), (files.read_ways, "named.ways"):
        raises(files.FileFault, read, name, 9, told="another graph")
    tool("osm_to_gr", "--quiet", "names.osm", "named")
    assert not pathlib.Path("named.names").exists()
