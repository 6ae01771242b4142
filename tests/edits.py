#!/usr/bin/python3
"""Prints the goal or the error with which the proofs refuse each planted bug of the gate. It fails if a bug is not refused at a goal.

  edits.py [LOG]

LOG is what `rt ci` or `rt must-fail` printed. Without it, `rt must-fail` is run. Other kinds of refusal show little of a contract: for a name that a
proof uses, by a limit of the prover, and where a proof by hand no longer fits, since the goal may still hold. The bugs below `planted/` are tried by
`planted.py`.
The last line is 'N passed, N failed'.
"""
import subprocess
import sys
from pathlib import Path

from helpers.planting import judge
from helpers.running import ROOT, Count


def printed(words):
    """What the log holds, or what the edits print when they are tried."""
    if words:
        return Path(words[0]).read_text()
    return subprocess.run(["rt", "must-fail"], cwd=ROOT, capture_output=True, text=True).stdout


def main():
    tally = Count()
    judge(tally, sorted(ROOT.glob("crates/*/must-fail/*.edit")), printed(sys.argv[1:]))
    tally.finish()


if __name__ == "__main__":
    main()
