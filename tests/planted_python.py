#!/usr/bin/python3
"""Tries the planted bugs of the Python package and its service, those of `python/planted`: a test finds each of them.

  planted_python.py [NAME..]

NAME is a bug, without `.edit`; without a name each bug is tried. An edit names the check that finds it: `found by: tests/SCRIPT CHECK`, where SCRIPT may
be a file of tests/python, whose tests pytest runs. In a copy of the repository the check passes without the bug, and fails with it because of what it compares, or because nothing answers it: a name that is gone, or
text that is no Python, is no such finding.
The last line is 'N passed, N failed'.
"""
import os
import re
import shutil
import subprocess
import sys
import tempfile
from pathlib import Path

from helpers import in_process, running
from helpers.packages import PYTHON
from helpers.planting import pairs_of
from helpers.running import PROGRAM, ROOT, Count

# What a check needs of the repository, beside the program and the library for C.
NEEDED = "python", "tests", "tools", "examples", "packaging", "include", "chtab", "VERSION", "crates.txt", "pytest.ini"
# What a check raises that compares, or whose service doesn't answer; what Python raises for code that is none; and the status of a check that did not hold.
FOUND = re.compile(r"^(?:AssertionError|TimeoutError|ConnectionResetError|http\.client\.RemoteDisconnected)", re.MULTILINE)
BROKEN, FAILED = re.compile(r"\b(?:Attribute|Import|Name|Syntax|UnboundLocal)Error\b"), 1
# The most seconds that a check may take, and those that it waits for a state where a bug was planted.
MOST, PATIENCE = 1_200, 20
# Runs one check of a script, as the script itself does.
RUN = """
import importlib, sys
sys.path.insert(0, "tests")
from helpers.packages import holds, missing
script = importlib.import_module(sys.argv[1])
[(needed, check)] = [(needed, check) for needed, checks in script.GROUPS for check in checks if check.__name__ == sys.argv[2]]
lacking = missing(*needed)
if lacking:
    sys.exit(f"it needs {', '.join(lacking)}")
sys.exit(0 if holds(check) else 1)
"""


def found_by(edit):
    """The script and the check that find a bug."""
    return re.search(r"^found by: tests/((?:python/)?\w+)\.py (\w+)$", edit.read_text(), re.MULTILINE).groups()


def copied(folder):
    """A copy of what checks need."""
    for name in NEEDED:
        source = ROOT / name
        if source.is_dir():
            shutil.copytree(source, folder / name, symlinks=True, ignore=shutil.ignore_patterns("__pycache__"))
        else:
            shutil.copy2(source, folder / name)
    program = folder / PROGRAM.relative_to(ROOT)
    program.parent.mkdir(parents=True)
    shutil.copy2(PROGRAM, program)
    shutil.copytree(in_process.MADE, folder / in_process.MADE.relative_to(ROOT))


def outcome(folder, script, check, **environment):
    """The status of a check in the copy, and what it printed."""
    by_pytest = "-m", "pytest", "--quiet", "--tb=native", "-rs", f"tests/{script}.py::{check}"
    command = [PYTHON, *(by_pytest if script.startswith("python/") else ("-c", RUN, script, check))]
    try:
        done = subprocess.run(command, cwd=folder, stdout=subprocess.PIPE, stderr=subprocess.STDOUT, text=True, timeout=MOST, env=os.environ | environment)
        return done.returncode, done.stdout
    except subprocess.TimeoutExpired as fault:
        return None, str(fault)


def planted(folder, edit):
    """Plants a bug in the copy; the texts of its files before."""
    before = {}
    for file, old, new in pairs_of(edit):
        path = folder / "python" / file
        text = path.read_text()
        before.setdefault(path, text)
        assert text.count(old) == 1, f"{edit.name}: this stands {text.count(old)} times in {file}: {old}"
        path.write_text(text.replace(old, new))
    return before


def main():
    running.build()
    in_process.make()
    edits = sorted((ROOT / "python" / "planted").glob("*.edit"))
    chosen = [edit for edit in edits if not sys.argv[1:] or edit.stem in sys.argv[1:]]
    tally = Count()
    with tempfile.TemporaryDirectory(prefix="chtab-planted-") as kept:
        folder = Path(kept)
        copied(folder)
        for script, check in sorted(set(map(found_by, chosen))):
            status, told = outcome(folder, script, check)
            tally.expect(status == 0, f"without a bug tests/{script}.py {check} has failed: {told}")
        for edit in chosen:
            before = planted(folder, edit)
            status, told = outcome(folder, *found_by(edit), PATIENCE=str(PATIENCE))
            tally.expect(status == FAILED and FOUND.search(told) and not BROKEN.search(told), f"{edit.stem} was not found by tests/{'.py '.join(found_by(edit))}: {told}")
            for path, text in before.items():
                path.write_text(text)
    tally.finish()


if __name__ == "__main__":
    main()
