#!/usr/bin/python3
"""Tries the planted bugs that the gate leaves out: those of `crates/NAME/planted`.

  planted.py [--all] [NAME..]

- NAME: a crate; without a name, every crate.
- --all: also the bugs of `must-fail/`, which the gate tries.

The repository is copied to a temporary folder, where the bugs stand in `must-fail/`, and `rt must-fail NAME` tries them there: several crates
side by side, as many as processors and memory allow. Each bug must be refused, and neither for a name nor by a limit alone. The outcomes say which
bugs are refused at a goal, and where only a proof by hand no longer fits. A bug of the gate must be refused at a goal, as `edits.py` has it.
Run it before a release, and for each crate whose contracts changed. A bug takes 10 to 60 seconds, and each crate one more proof.
The last line is 'N passed, N failed'.
"""
import argparse
import os
import re
import shutil
import subprocess
import sys
import tempfile
from concurrent.futures import ThreadPoolExecutor
from pathlib import Path

from helpers.planting import judge
from helpers.running import ROOT, Count

# The memory that one check takes at most, in bytes.
CHECK = 4_500_000_000
# What `rt` keeps of checks is large, and a copy of it is no use.
LEFT_OUT = shutil.ignore_patterns(".git", "incremental", "__pycache__")


def at_once():
    """How many checks run side by side: one a processor, as far as the free memory goes."""
    lines = Path("/proc/meminfo").read_text().splitlines()
    free = next(int(line.split()[1]) * 1024 for line in lines if line.startswith("MemAvailable:"))
    return max(1, min(len(os.sched_getaffinity(0)), free // CHECK))


def prove_libraries(copy):
    """Proves the libraries that crates stand on, where that is not done yet: checks side by side would all begin with it."""
    stands_on = dict(re.findall(r"^(\w+).*?:(.*)$", (copy / "crates.txt").read_text(), re.MULTILINE))
    below = set(" ".join(stands_on.values()).split()) & set(stands_on)
    for name in sorted(below, key=lambda name: len(stands_on[name])):
        done = subprocess.run(["rt", "lib"], cwd=copy / "crates" / name, stdout=subprocess.PIPE, stderr=subprocess.STDOUT, text=True)
        if done.returncode:
            sys.exit(f"planted.py: {name} is not proved\n{done.stdout[-2000:]}")


def plant(crate, takes_all):
    """Puts the planted bugs of a crate where `rt` tries them."""
    gate, planted = crate / "must-fail", crate / "planted"
    if not takes_all:
        shutil.rmtree(gate, ignore_errors=True)
    gate.mkdir(exist_ok=True)
    for edit in planted.glob("*.edit"):
        shutil.move(edit, gate / edit.name)


def tried(copy, name):
    """What `rt must-fail` prints for a crate of the copy."""
    done = subprocess.run(["rt", "must-fail", name], cwd=copy, stdout=subprocess.PIPE, stderr=subprocess.STDOUT, text=True)
    print(f"{name}: tried", file=sys.stderr)
    return done.stdout


def largest_first(copy, names):
    """The crates in the order in which they are begun: what takes longest first."""
    return sorted(names, key=lambda name: -sum(path.stat().st_size for path in (copy / "crates" / name / "proofs").glob("**/*.antt")))


def main():
    given = argparse.ArgumentParser(usage="%(prog)s [--all] [NAME..]")
    given.add_argument("--all", action="store_true", dest="takes_all")
    given.add_argument("names", nargs="*")
    given = given.parse_args()
    known = {path.parent.name for kind in ("planted", "must-fail") for path in ROOT.glob(f"crates/*/{kind}")}
    if unknown := set(given.names) - known:
        sys.exit(f"planted.py: no planted bugs of {', '.join(sorted(unknown))}")
    tally = Count()
    with tempfile.TemporaryDirectory(prefix="chtab-planted-") as folder:
        copy = Path(folder) / "chtab"
        shutil.copytree(ROOT, copy, symlinks=True, ignore=LEFT_OUT)
        prove_libraries(copy)
        names = given.names or sorted(known)
        for name in names:
            plant(copy / "crates" / name, given.takes_all)
        with ThreadPoolExecutor(at_once()) as pool:
            log = "".join(pool.map(lambda name: tried(copy, name), largest_first(copy, names)))
        judge(tally, [edit for name in names for edit in sorted((copy / "crates" / name / "must-fail").glob("*.edit"))], log)
    tally.finish()


if __name__ == "__main__":
    main()
