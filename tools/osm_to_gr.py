#!/usr/bin/python3
"""The command osm_to_gr, which stands in python/chtab_maps/command.py; --help tells of it."""
import pathlib
import sys

sys.path.insert(0, str(pathlib.Path(__file__).resolve().parent.parent / "python"))

from chtab_maps.command import command

command()
