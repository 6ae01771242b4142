"""Run as a program: writes a map of the form .osm.pbf to standard output as text, by pyosmium.

The text has a line for each object (https://osmcode.org/opl-file-format/): first nodes, then ways
with the places of their nodes, then relations. All of this happens outside of Python, some ten
times as fast as with one object at a time in Python, and in a process beside the one that reads the
text.
"""
from __future__ import annotations

import sys
from typing import Any

# The exit statuses without pyosmium, and for a fault of the file.
NO_OSMIUM, FAULT = 3, 4
FORM = "osh.opl,locations_on_ways=true,add_metadata=version"
BUFFER = 1 << 20


def main(path: str) -> int:
    try:
        import osmium
    except ImportError:
        return NO_OSMIUM
    # The index of places has a name, because pyosmium 3 doesn't keep it alive by itself.
    index = osmium.index.create_map("flex_mem")
    places = osmium.NodeLocationsForWays(index)
    places.ignore_errors()
    try:
        text = osmium.WriteHandler("-", BUFFER, FORM)
        bits: Any = osmium.osm
        others = bits.osm_entity_bits(int(bits.WAY) | int(bits.RELATION))
        for kinds in osmium.osm.NODE, others:
            osmium.apply(osmium.io.Reader(path, kinds), places, text)
        text.close()
    except osmium.InvalidLocationError as fault:
        numbers = nodes_that_lie_nowhere(osmium, path)
        print(
            f"node {numbers[0]} is at no place on the earth" if numbers else fault, file=sys.stderr)
        return FAULT
    except RuntimeError as fault:
        print(fault, file=sys.stderr)
        return FAULT
    return 0


def nodes_that_lie_nowhere(osmium: Any, path: str) -> list[int]:
    """The numbers of the nodes without a valid longitude and latitude."""
    found = []

    class Finder(osmium.SimpleHandler):
        def node(self, node: Any) -> None:
            if node.visible and not node.location.valid():
                found.append(node.id)

    Finder().apply_file(path)
    return found


if __name__ == "__main__":
    sys.exit(main(sys.argv[1]))
