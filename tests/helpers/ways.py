"""Hierarchies that are saved for the graphs of tests."""
import subprocess
import tempfile
from pathlib import Path

from helpers.running import PROGRAM

# The hierarchies that were saved, in a folder that is there as long as this process.
FOLDER = tempfile.TemporaryDirectory()
SAVED = {}


def saved_for(graph):
    """The file of the hierarchy of a graph, made once for each state of the graph."""
    path = Path(graph).resolve()
    key = path, path.stat().st_mtime_ns, path.stat().st_size
    if key not in SAVED:
        done = subprocess.run([PROGRAM, "save", path], capture_output=True)
        if done.returncode:
            return None
        SAVED[key] = Path(FOLDER.name) / f"{len(SAVED)}.ch"
        SAVED[key].write_bytes(done.stdout)
    return SAVED[key]
