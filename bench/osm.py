#!/usr/bin/python3
"""Writes a synthetic map of OpenStreetMap, the same for the same number of nodes.

  osm.py [--others F] NODES FILE

FILE is .osm, or .osm.pbf by pyosmium. Streets run over three blocks each, with two bends a block, so that a way has ten nodes and a
third of the nodes are crossings; every 16th is a main road. Tags are those of towns: kinds, names, limits of speed, one-way streets,
closed ones, here and there a gate or a bollard, and at every 500th crossing a turn that is forbidden. With --others there are F times
as many nodes of houses beside the NODES nodes of roads, in ways of five.
"""
import argparse
import math
import random
import xml.sax.saxutils

BLOCKS, BENDS = 3, 2
# Nodes for each crossing: itself, and the bends of two blocks.
NODES_OF_A_CROSSING = 1 + 2 * BENDS
KINDS = ("residential",) * 9 + ("service", "service", "track", "unclassified", "unclassified", "footway")
LIMITS = ("30", "50", "50", "30 mph", "DE:urban")
STEP = 0.001
FIRST_HOUSE = 1 << 40


class Town:
    """Crossings on a grid, and streets along its lines. Nodes are numbered by rows: a crossing, then the bends right of it and above."""

    def __init__(self, nodes, others):
        self.draw = random.Random(f"town {nodes}")
        self.side = max(4, round(math.sqrt(nodes / NODES_OF_A_CROSSING)))
        self.others = others
        self.turns = []

    def crossing(self, x, y):
        return (y * self.side + x) * NODES_OF_A_CROSSING + 1

    def nodes(self):
        """(number, longitude, latitude, tags) in order of numbers, those of houses last."""
        for y in range(self.side):
            for x in range(self.side):
                first = self.crossing(x, y)
                for part in range(NODES_OF_A_CROSSING):
                    across, up = (part, 0) if part <= BENDS else (0, part - BENDS)
                    place = [STEP * (at + step / (BENDS + 1)) + self.draw.uniform(-1e-4, 1e-4) for at, step in ((x, across), (y, up))]
                    luck = self.draw.random() if part else 1
                    tags = {"barrier": "gate"} if luck < 0.004 else {"barrier": "bollard"} if luck < 0.006 else {}
                    yield first + part, *place, tags
        for house in range(int(self.others * NODES_OF_A_CROSSING * self.side**2)):
            yield FIRST_HOUSE + house, self.draw.uniform(0, STEP * self.side), self.draw.uniform(0, STEP * self.side), {}

    def ways(self):
        """(number, nodes, tags)."""
        number = 0
        for is_up in (False, True):
            for line in range(self.side):
                for start in range(0, self.side - 1, BLOCKS):
                    number += 1
                    yield number, self.street(line, start, is_up), self.tags_of(line, number)
        for house in range(int(self.others * NODES_OF_A_CROSSING * self.side**2) // 5):
            first = FIRST_HOUSE + 5 * house
            yield number + 1 + house, [*range(first, first + 5), first], {"building": "yes"}

    def street(self, line, start, is_up):
        """The nodes of a street from the crossing `start` of its line over three blocks, or to the end of the line."""
        found = []
        for at in range(start, min(start + BLOCKS, self.side - 1)):
            first = self.crossing(*((line, at) if is_up else (at, line)))
            bends = first + 1 + BENDS * is_up
            found += [first, *range(bends, bends + BENDS)]
        last = min(start + BLOCKS, self.side - 1)
        return [*found, self.crossing(*((line, last) if is_up else (last, line)))]

    def tags_of(self, line, number):
        if line % 16 == 8:
            return {"highway": "primary", "name": f"Main Road {line}", "ref": f"B {line}", "maxspeed": "70", "surface": "asphalt"}
        tags = {"highway": self.draw.choice(KINDS), "name": f"Street {number}", "surface": "asphalt", "maxspeed": self.draw.choice(LIMITS)}
        luck = self.draw.random()
        if luck < 0.05:
            tags["oneway"] = "yes"
        elif luck < 0.08:
            tags["access"] = "private"
        return tags

    def relations(self):
        """(number, members, tags): at every 500th crossing where two streets of a line meet and one of another line begins."""
        half = (self.side + BLOCKS - 2) // BLOCKS
        for place in range(0, (half - 1) ** 2, max(1, 500 // BLOCKS**2)):
            row, column = (part * BLOCKS + BLOCKS for part in divmod(place, half - 1))
            via = self.crossing(column, row)
            into, out = row * half + column // BLOCKS, (self.side + column) * half + row // BLOCKS + 1
            yield place + 1, [("w", into, "from"), ("n", via, "via"), ("w", out, "to")], {"type": "restriction", "restriction": "no_left_turn"}


def write_xml(town, path):
    names = {"n": "node", "w": "way"}
    with open(path, "w") as file:
        def end(kind, tags):
            for key, value in tags.items():
                file.write(f'    <tag k="{key}" v={xml.sax.saxutils.quoteattr(value)}/>\n')
            file.write(f"  </{kind}>\n")

        file.write("<?xml version='1.0' encoding='UTF-8'?>\n<osm version=\"0.6\">\n")
        for number, x, y, tags in town.nodes():
            file.write(f'  <node id="{number}" version="1" lat="{y:.7f}" lon="{x:.7f}">\n')
            end("node", tags)
        for number, nodes, tags in town.ways():
            file.write(f'  <way id="{number}" version="1">\n' + "".join(f'    <nd ref="{node}"/>\n' for node in nodes))
            end("way", tags)
        for number, members, tags in town.relations():
            file.write(f'  <relation id="{number}" version="1">\n')
            file.writelines(f'    <member type="{names[kind]}" ref="{ref}" role="{role}"/>\n' for kind, ref, role in members)
            end("relation", tags)
        file.write("</osm>\n")


def write_pbf(town, path):
    from osmium import SimpleWriter
    from osmium.osm import mutable

    writer = SimpleWriter(path)
    for number, x, y, tags in town.nodes():
        writer.add_node(mutable.Node(id=number, version=1, visible=True, location=(x, y), tags=tags))
    for number, nodes, tags in town.ways():
        writer.add_way(mutable.Way(id=number, version=1, visible=True, nodes=nodes, tags=tags))
    for number, members, tags in town.relations():
        writer.add_relation(mutable.Relation(id=number, version=1, visible=True, members=members, tags=tags))
    writer.close()


def main():
    parser = argparse.ArgumentParser(description=__doc__, formatter_class=argparse.RawDescriptionHelpFormatter)
    parser.add_argument("--others", type=float, default=0.0, metavar="F")
    parser.add_argument("nodes", type=int, metavar="NODES")
    parser.add_argument("file", metavar="FILE")
    words = parser.parse_args()
    (write_pbf if words.file.endswith(".pbf") else write_xml)(Town(words.nodes, words.others), words.file)


if __name__ == "__main__":
    main()
