"""The library for C with a fault (`standin.c`), beside a program: what goes wrong with the questions to it."""
import contextlib
import os
import subprocess
import tempfile
from pathlib import Path

from helpers.in_process import declared, make
from helpers.running import PROGRAM

# The stand-in, in a folder that is there as long as this process.
FOLDER = tempfile.TemporaryDirectory()
STANDIN = Path(FOLDER.name) / "chtab"
HELD = Path("held")
# The calls that ask something, of which `standin.c` counts each.
QUESTIONS = {"chtab_distances", "chtab_table", "chtab_kept_table_sums", "chtab_routes", "chtab_route_sums", "chtab_near_places"}


def build():
    """Makes the stand-in: a program that is the built one, and the library beside it."""
    if STANDIN.exists():
        return
    calls = "\n".join(f"{'ASK' if name in QUESTIONS else 'PASS'}({name})" for name in sorted(declared()))
    source = Path(__file__).with_name("standin.c").read_text().replace("\nCALLS\n", f"\n{calls}\n")
    (STANDIN.parent / "standin.c").write_text(source)
    words = ["gcc", "-shared", "-fPIC", "-O1", f'-DREAL="{make()}"', "-o", STANDIN.parent / "libchtab.so.1", STANDIN.parent / "standin.c", "-ldl"]
    subprocess.run(words, check=True)
    STANDIN.write_text(f'#!/bin/sh\nexec {PROGRAM} "$@"\n')
    STANDIN.chmod(0o755)


@contextlib.contextmanager
def mood(words=""):
    """Questions to the stand-in within go so wrong."""
    build()
    os.environ["STANDIN"] = f"{words} held={HELD.absolute()}"
    try:
        yield
    finally:
        del os.environ["STANDIN"]


@contextlib.contextmanager
def holding():
    """Questions to the stand-in wait within, in the folder where their mood began."""
    HELD.touch()
    try:
        yield
    finally:
        HELD.unlink()
