#!/usr/bin/python3
"""The command blocks, which stands in python/chtab_tools/blocks.py; --help tells of it."""
import pathlib
import sys

sys.path.insert(0, str(pathlib.Path(__file__).resolve().parent.parent / "python"))

from chtab_tools.blocks import command

command()
