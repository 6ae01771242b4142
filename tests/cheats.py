#!/usr/bin/python3
"""Tries the cheats of docs/BELIEVE.md by hand: each wrong body on a copy of the repository, with the command that the page gives.

  cheats.py [NAME..]   those of the planted bugs that are named, such as `dash_for_every_pair`; without a name all

Each line that the page quotes has to be among those that the command prints, where `..` stands for any text. The first check of a crate also
proves the crates below it, unless `rt` has kept them on this machine. Run it after a change of these crates or of the page.
The last line is 'N passed, N failed'.
"""
import re
import shutil
import subprocess
import sys
import tempfile
import time
from pathlib import Path

from helpers.running import ROOT, Count

PAGE = ROOT / "docs" / "BELIEVE.md"
LEFT_OUT = shutil.ignore_patterns(".git", "out", "__pycache__")


def cheats():
    """The cheats of the page: the edit, the folder and the command that tries it, and the lines that the command is said to print."""
    for section in re.split(r"^### ", PAGE.read_text(), flags=re.MULTILINE)[1:]:
        edit = re.search(r"\]\(\.\./(crates/[^)]+\.edit)\)", section)
        tried = re.search(r"In\s+`(crates/\w+)`\s+run\s+`(rt [^`]+)`(.*)", section, re.DOTALL)
        if edit and tried:
            yield ROOT / edit[1], tried[1], tried[2].split(), re.findall(r"^    (.*)$", tried[3], re.MULTILINE)


def apply(edit, crate):
    """Makes the change of an edit in a copy of its crate."""
    path = old = None
    for line in edit.read_text().splitlines():
        key, _, value = line.partition(": ")
        if key == "file":
            path = crate / value
        elif key == "old":
            old = value
        elif key == "new":
            path.write_text(path.read_text().replace(old, value))


def is_printed(quoted, text):
    """Whether a line that is quoted is among the lines of a text."""
    pattern = ".*".join(map(re.escape, quoted.split("..")))
    return re.search(f"^{pattern}$", text, re.MULTILINE) is not None


def check_cheat(tally, edit, folder, command, lines):
    with tempfile.TemporaryDirectory(prefix="chtab-cheat-") as kept:
        copy = Path(kept) / "chtab"
        shutil.copytree(ROOT, copy, symlinks=True, ignore=LEFT_OUT)
        apply(edit, copy / "crates" / edit.parent.parent.name)
        started = time.monotonic()
        done = subprocess.run(command, cwd=copy / folder, stdout=subprocess.PIPE, stderr=subprocess.STDOUT, text=True)
        print(f"{edit.stem}: {time.monotonic() - started:.0f} s", flush=True)
        tally.expect(done.returncode, f"{edit.stem}: {' '.join(command)} proves the wrong body")
        for line in lines:
            tally.expect(is_printed(line, done.stdout), f"{edit.stem}: nothing like this is printed: {line}\n{done.stdout[-3000:]}")


def main():
    tally, names = Count(), set(sys.argv[1:])
    for edit, *more in cheats():
        if not names or edit.stem in names:
            check_cheat(tally, edit, *more)
    tally.finish()


if __name__ == "__main__":
    main()
