#!/usr/bin/python3
"""The command page, which stands in python/chtab_server/command.py; --help tells of it."""
import pathlib
import sys

sys.path.insert(0, str(pathlib.Path(__file__).resolve().parent.parent / "python"))

from chtab_server.command import command

command()
