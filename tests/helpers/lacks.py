"""The places where code says that there is no memory, and not because a call below said so."""
import re

from helpers.running import ROOT

# How many such places each file has. Contracts allow a lack of memory everywhere, so these places are read by eye. Each answers a refusal that has
# no word of its own, a count or a size out of reach, or what clap has ruled out before.
PLACES = {
    "ch_c/src/answers.rt": 5, "ch_c/src/opening.rt": 1, "ch_c/src/topology.rt": 4,
    "ch_engine/src/engine.rt": 1, "ch_engine/src/flows.rt": 2, "ch_engine/src/near.rt": 2, "ch_engine/src/near_sums.rt": 11,
    "ch_engine/src/route_sums.rt": 1, "ch_engine/src/routes.rt": 1, "ch_engine/src/sums.rt": 2, "ch_engine/src/table_sums.rt": 5,
    "ch_engine/src/topology.rt": 1,
    "ch_flows/src/pairs.rt": 2, "ch_flows/src/table.rt": 7, "ch_lists/src/lists.rt": 1,
    "ch_lists/src/place.rt": 1, "ch_query/src/weights/search.rt": 1,
    "ch_run/src/building.rt": 1, "ch_run/src/run/batch.rt": 1, "ch_run/src/run/inputs.rt": 1, "ch_run/src/run/output.rt": 3, "ch_run/src/run/serving.rt": 4,
    "ch_run/src/run/lines.rt": 1, "ch_words/src/fault.rt": 2, "ch_words/src/given.rt": 8, "ch_words/src/words.rt": 1,
}
# What stands for a lack of memory as a value, and at the left of an arrow.
VALUE, KNOWN = re.compile(r"\b(?:Err|ok_or)\(AllocError\)|\w+::(?:NoMemory|Memory)\b|\bNO_MEMORY\b"), re.compile(r"Memory|AllocError")
# Lines that make no answer: what a conversion of an `AllocError` gives, comments, imports, also on several lines, clauses and constants.
OTHER = re.compile(r"\s*(?:\w+::\w+|\w+(?:, \w+)+,|//.*|use .*|ghost .*|.*\b(?:const|ensures|requires) .*)")


def makes(line):
    """Whether a line of code gives a lack of memory for something else."""
    before, _, after = line.rpartition("=>")
    return bool(VALUE.search(after)) and not KNOWN.search(before) and not OTHER.fullmatch(line)


def places():
    """How many such lines each file has."""
    counts = {}
    for path in sorted(ROOT.glob("crates/*/src/**/*.rt")):
        count = sum(map(makes, path.read_text().splitlines()))
        if count and not path.relative_to(ROOT / "crates").parts[0].endswith("_checks"):
            counts[str(path.relative_to(ROOT / "crates"))] = count
    return counts


def check_lacks(tally):
    """Each file has as many such places as the table says. Where docs/PROVED.md counts them, it counts all."""
    found, told = places(), re.findall(r"(\d+) places of the code", (ROOT / "docs" / "PROVED.md").read_text())
    for name in sorted(found.keys() | PLACES.keys()):
        tally.expect(found.get(name) == PLACES.get(name), f"{name} says at {found.get(name, 0)} places that there is no memory, not at {PLACES.get(name, 0)}")
    tally.expect({*map(int, told)} <= {sum(PLACES.values())}, f"PROVED.md counts {told} places, not {sum(PLACES.values())}")
