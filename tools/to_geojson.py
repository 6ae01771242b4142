#!/usr/bin/python3
"""The command to_geojson, which stands in python/chtab_tools/to_geojson.py; --help tells of it."""
import pathlib
import sys

sys.path.insert(0, str(pathlib.Path(__file__).resolve().parent.parent / "python"))

from chtab_tools.to_geojson import command

command()
