#!/usr/bin/python3
"""The command nearest, which stands in python/chtab_tools/nearest.py; --help tells of it."""
import pathlib
import sys

sys.path.insert(0, str(pathlib.Path(__file__).resolve().parent.parent / "python"))

from chtab_tools.nearest import command

command()
