#!/usr/bin/python3
"""The command trips, which stands in python/chtab_tools/trips.py; --help tells of it."""
import pathlib
import sys

sys.path.insert(0, str(pathlib.Path(__file__).resolve().parent.parent / "python"))

from chtab_tools.trips import command

command()
