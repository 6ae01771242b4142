"""Planted bugs: what their edits change, and what `rt` says of those of crates: whether the proofs refuse each of them, and how."""
import re
from collections import Counter
from enum import Enum

from helpers.running import ROOT

EDIT = re.compile(r"rt: must-fail (\S+)\.edit: (.*)")
REFUSED = "refused, as it must be"
# In brackets `rt` says that a bug is refused for a name alone, or by a limit of the prover.
LITTLE = f"{REFUSED} ("
# The first message that `rt` gives: a goal of the code that the prover found no proof of.
GOAL = re.compile(rf"{REFUSED}: (?:note: )?src/\S+: (?:it is not proved that |`search` found no proof )")
# It is another one if a file of proofs/ no longer fits what the prover makes of the code. The goal may still hold then.
HAND = re.compile(rf"{REFUSED}: (?:note: )?(?:\./)?proofs/")


class Outcome(Enum):
    """What became of a planted bug."""

    GOAL = "refused at a goal"
    HAND = "the hand proof no longer fits"
    LITTLE = "refused for a name or by a limit alone"
    OTHER = "refused without a goal"
    MISSED = "not refused"


# Where a proof by hand no longer fits, or the code is refused without a goal, the contract may still let the bug through. A bug of the gate has to
# show that it does not.
WANTED_OF_THE_GATE = {Outcome.GOAL}
WANTED = {Outcome.GOAL, Outcome.HAND, Outcome.OTHER}


def pairs_of(edit):
    """The pairs of an edit: file, text to be replaced, and its replacement."""
    file = old = None
    for line in edit.read_text().splitlines():
        key, _, value = line.partition(": ") if ": " in line else (line.rstrip(":"), "", "")
        if key == "file":
            file = value.strip()
        elif key == "old":
            old = value
        elif key == "new":
            yield file, old, value


def outcome_of(answer):
    """What `rt` says of a bug, as an outcome."""
    if not answer.startswith(REFUSED):
        return Outcome.MISSED
    if answer.startswith(LITTLE):
        return Outcome.LITTLE
    if GOAL.match(answer):
        return Outcome.GOAL
    return Outcome.HAND if HAND.match(answer) else Outcome.OTHER


def name_of(edit):
    """The name of a planted bug, as `rt` says it: CRATE/WHAT_IS_WRONG."""
    return f"{edit.parent.parent.name}/{edit.stem}"


def is_tried_by_the_gate(edit):
    """Whether a planted bug is one of `must-fail/` in the repository itself. In a copy of it, all bugs may be there."""
    return (ROOT / "crates" / edit.parent.parent.name / "must-fail" / edit.name).is_file()


def judge(tally, edits, log):
    """Reads what `rt` printed, and prints the outcome of each edit with the goal or the error. An edit counts as failed if it is not refused, or
    for a name or by a limit alone. One that the gate tries counts as failed, too, if it is not refused at a goal."""
    said, outcomes = dict(EDIT.findall(log)), Counter()
    for edit in edits:
        name = name_of(edit)
        answer = said.get(name, "was not tried")
        outcome = outcome_of(answer)
        outcomes[outcome] += 1
        print(f"{name}: {outcome.value}: {answer.removeprefix(REFUSED).removeprefix(': ') or 'no goal is named'}")
        wanted = WANTED_OF_THE_GATE if is_tried_by_the_gate(edit) else WANTED
        tally.expect(outcome in wanted, f"{name}: {outcome.value}: {answer}")
    print(", ".join(f"{count} {outcome.value}" for outcome, count in outcomes.most_common()))
