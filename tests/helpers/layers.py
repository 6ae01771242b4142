"""Tests that what is said of the crates' layers is what crates.txt says."""
import re

from helpers.running import ROOT


def below():
    """The libraries on which each crate stands, by crates.txt."""
    lines = re.findall(r"^(\w+)[^:\n]*:(.*)$", (ROOT / "crates.txt").read_text(), re.MULTILINE)
    return {name: set(libraries.split()) for name, libraries in lines}


def check_layers(tally):
    """The head of each crate names the crates that it stands on, as crates.txt does."""
    for name, libraries in below().items():
        roots = [path for path in (ROOT / "crates" / name / "src" / root for root in ("lib.rt", "main.rt")) if path.is_file()]
        head = " ".join(re.findall(r"^//! ?(.*)$", roots[0].read_text(), re.MULTILINE))
        told = re.search(r"\bstands on ([^.]*)\.", head)
        found = set(re.findall(r"\w+", told[1])) - {"and", "std", "alone"} if told else None
        tally.expect(found == libraries, f"{name}: its head says that it stands on {told and told[1]}, crates.txt says {libraries or 'std'}")


def check_times(tally):
    """Where the order of the first proofs is chosen, the time of each crate of the program and of the library for C is named, and of no other."""
    libraries, wanted = below(), set()
    waiting = ["chtab", "ch_c"]
    while waiting:
        name = waiting.pop()
        wanted.add(name)
        waiting += [each for each in libraries[name] - wanted if each in libraries]
    named = re.search(r"^SECONDS = \{(.*?)^\}", (ROOT / "packaging" / "prove").read_text(), re.DOTALL | re.MULTILINE)
    found = set(re.findall(r'"(\w+)":', named[1])) if named else set()
    tally.expect(found == wanted, f"the times of proofs: {sorted(found ^ wanted)} are missing, or are named for nothing")
