#!/usr/bin/python3
"""Writes the map of a synthetic town into the folder that it is run in, the same bytes each time.

town.osm   a grid of named streets, many of them one-way, with a forbidden turn at every second crossing, and traffic lights; a ring, a
           motorway with a toll, a ferry, an island without a bridge, a yard behind a gate, dead ends, and a road of half a metre
"""
import math
import random
import sys
from pathlib import Path
from xml.sax.saxutils import quoteattr

# Crossings on a side of the grid, the blocks of a way, the metres of a block, and the south-west corner in degrees.
SIDE, BLOCKS, BLOCK, CORNER = 18, 3, 110.0, (13.26, 53.55)
METRES = 111_195.08
WORDS = ("no_left_turn", "no_right_turn", "no_straight_on", "no_u_turn", "only_straight_on", "only_right_turn", "no_entry", "no_exit")
KINDS = ("residential",) * 6 + ("service", "tertiary", "unclassified", "living_street")


class Town:
    """The nodes, ways and restrictions of the map. `nodes` are places in metres from the corner, and `ways` lists of nodes with tags."""

    def __init__(self):
        self.draw = random.Random("town")
        self.nodes, self.ways, self.turns = [], [], []
        self.grid = {(x, y): self.node(x * BLOCK, y * BLOCK, 12.0) for y in range(SIDE) for x in range(SIDE)}
        self.streets()
        self.ring()
        self.motorway()
        self.beside()
        self.forbid()
        self.light()

    def node(self, x, y, off=0.0):
        """Adds a node, at most `off` metres from a place. Its number."""
        self.nodes.append((x + self.draw.uniform(-off, off), y + self.draw.uniform(-off, off)))
        return len(self.nodes)

    def way(self, nodes, **tags):
        """Adds a way. Its number."""
        self.ways.append((nodes, tags))
        return len(self.ways)

    def streets(self):
        """The streets along the lines of the grid, with a bend in each block."""
        for is_up in (False, True):
            for line in range(SIDE):
                for start in range(0, SIDE - 1, BLOCKS):
                    self.street(line, start, is_up)

    def street(self, line, start, is_up):
        places = [(line, at) if is_up else (at, line) for at in range(start, min(start + BLOCKS, SIDE - 1) + 1)]
        nodes = [self.grid[places[0]]]
        for (x, y), (u, v) in zip(places, places[1:]):
            nodes += [self.node((x + u) / 2 * BLOCK, (y + v) / 2 * BLOCK, 8.0), self.grid[u, v]]
        name = f"{'Avenue' if is_up else 'Street'} {line // 2}"
        if line % 6 == 3:
            self.way(nodes, highway="primary", name=f"Main {name}", ref=f"B {line}", maxspeed="60")
            return
        tags = {"highway": self.draw.choice(KINDS), "name": name, "maxspeed": self.draw.choice(("30", "50", "20 mph"))}
        luck = self.draw.random()
        if luck < 0.2:
            tags["oneway"] = self.draw.choice(("yes", "-1"))
        elif luck < 0.24:
            tags["access"] = "private"
        self.way(nodes, **tags)

    def ring(self):
        """A ring in the middle of a block, with a road to each corner of the block."""
        x, y = (8.5 * BLOCK, 8.5 * BLOCK)
        ring = [self.node(x + 20 * math.cos(part * math.pi / 4), y + 20 * math.sin(part * math.pi / 4)) for part in range(8)]
        self.way([*ring, ring[0]], highway="residential", junction="roundabout", name="The Circle")
        for place, corner in (1, (9, 9)), (3, (8, 9)), (5, (8, 8)), (7, (9, 8)):
            self.way([ring[place], self.grid[corner]], highway="residential", name=f"Ray {place}")

    def motorway(self):
        """A motorway north of the grid, with a lane for each direction, a toll on its eastern half, and ramps at both ends."""
        north = (SIDE + 1) * BLOCK
        east = [self.node(x * BLOCK, north, 3.0) for x in range(0, SIDE, 2)]
        west = [self.node(x * BLOCK, north + 30, 3.0) for x in range(SIDE - 1, -1, -2)]
        middle = len(east) // 2
        for lane in (east, west):
            halves = (lane[:middle + 1], lane[middle:])
            for half, is_tolled in zip(halves, (False, True) if lane is east else (True, False)):
                self.way(half, highway="motorway", ref="A 20", oneway="yes", maxspeed="130", **({"toll": "yes"} if is_tolled else {}))
        top = SIDE - 1
        for first, last, where in (self.grid[0, top], east[0], "A 20"), (east[-1], self.grid[top, top], ""), (self.grid[top, top], west[0], "A 20"), \
                (west[-1], self.grid[0, top], ""):
            self.way([first, last], highway="motorway_link", oneway="yes", **({"destination": where} if where else {}))

    def beside(self):
        """What lies beside the grid: a ferry, an island, a yard behind a gate, dead ends, and a road of half a metre."""
        ashore, across = self.grid[SIDE - 1, 4], self.node((SIDE + 9) * BLOCK, 4 * BLOCK)
        self.way([ashore, across], route="ferry", duration="00:12", name="Ferry")
        self.blocks("Quay", across, (SIDE + 9, 4), 4)
        self.blocks("Island", self.node((SIDE + 9) * BLOCK, 12 * BLOCK), (SIDE + 9, 12), 6)
        gate = self.node(3.5 * BLOCK, 3.4 * BLOCK)
        yard = [self.node((3.5 + part / 10) * BLOCK, (3.4 + part / 20) * BLOCK) for part in range(1, 3)]
        self.gates = {gate}
        self.way([self.grid[3, 3], gate, *yard], highway="service", service="parking_aisle")
        for at in range(1, SIDE, 4):
            self.way([self.grid[at, 0], self.node(at * BLOCK, -0.7 * BLOCK, 9.0)], highway="residential", name=f"Close {at}")
        x, y = self.nodes[self.grid[5, 0] - 1]
        short = self.node(x + 0.4, y - 0.3)
        self.way([self.grid[5, 0], short, self.node(x + 60, y - 45)], highway="service", name="Short Lane")
        self.way([short, self.node(x - 50, y - 60)], highway="service", name="Other Lane")

    def blocks(self, name, first, corner, side):
        """A small grid of streets by itself, whose south-west corner is a node that is there."""
        x, y = corner
        own = {(u, v): first if (u, v) == (0, 0) else self.node((x + u) * BLOCK, (y + v) * BLOCK, 10.0) for v in range(side) for u in range(side)}
        for line in range(side):
            self.way([own[at, line] for at in range(side)], highway="residential", name=f"{name} Street {line}")
            self.way([own[line, at] for at in range(side)], highway="residential", name=f"{name} Avenue {line}")

    def forbid(self):
        """Forbids a turn at every second crossing of the grid, and two at some, between ways that end there."""
        at_ends = {}
        for number, (nodes, _) in enumerate(self.ways, 1):
            for node in {nodes[0], nodes[-1]}:
                if nodes.count(node) == 1:
                    at_ends.setdefault(node, []).append(number)
        for (x, y), node in self.grid.items():
            ways = at_ends.get(node, [])
            if len(ways) < 2 or self.draw.random() < 0.1:
                continue
            for _ in range(self.draw.choice((1, 1, 2))):
                word, (one, other) = self.draw.choice(WORDS), self.draw.sample(ways, 2)
                self.turns.append((one, node, one if word == "no_u_turn" else other, word))

    def light(self):
        """Traffic lights at some crossings, and in the middle of some blocks of the main streets."""
        signals = {"highway": "traffic_signals"}
        self.lights = {node: signals for (x, y), node in self.grid.items() if x % 4 == 1 and y % 3 == 0}
        main = [nodes for nodes, tags in self.ways if tags.get("highway") == "primary"]
        for place, nodes in enumerate(main):
            side = {"traffic_signals:direction": ("forward", "backward", "both")[place % 3]}
            self.lights[nodes[1]] = signals | side

    def text(self):
        """The map as XML."""
        lines = ['<?xml version="1.0" encoding="UTF-8"?>', '<osm version="0.6">']
        wide = METRES * math.cos(math.radians(CORNER[1]))
        for number, (x, y) in enumerate(self.nodes, 1):
            inside = of_tags({"barrier": "bollard"} if number in self.gates else self.lights.get(number, {}))
            lines.append(f'<node id="{number}" lon="{CORNER[0] + x / wide:.7f}" lat="{CORNER[1] + y / METRES:.7f}">{inside}</node>')
        for number, (nodes, tags) in enumerate(self.ways, 1):
            lines.append(f'<way id="{number}">' + "".join(f'<nd ref="{node}"/>' for node in nodes) + of_tags(tags) + "</way>")
        for number, (one, via, other, word) in enumerate(self.turns, 1):
            members = (("way", one, "from"), ("node", via, "via"), ("way", other, "to"))
            inside = "".join(f'<member type="{kind}" ref="{ref}" role="{role}"/>' for kind, ref, role in members)
            lines.append(f'<relation id="{number}">{inside}' + of_tags({"type": "restriction", "restriction": word}) + "</relation>")
        return "\n".join([*lines, "</osm>", ""])


def of_tags(tags):
    return "".join(f"<tag k={quoteattr(key)} v={quoteattr(value)}/>" for key, value in tags.items())


if __name__ == "__main__":
    if sys.argv[1:]:
        sys.exit(__doc__)
    Path("town.osm").write_text(Town().text())
