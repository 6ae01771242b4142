"""A small network whose weights are minutes."""
from helpers.running import PROGRAM
import chtab

# Roads between an inn, a mill, a school and a farm, in minutes, and a house that no road leads to.
SOURCES, TARGETS, MINUTES = ["inn", "mill", "inn", "school", "house"], ["mill", "school", "farm", "farm", "house"], [2.5, 4, 1.25, 7, 0]


def of_minutes(**more):
    return chtab.Network.from_arrays(SOURCES, TARGETS, MINUTES, **{"unit": "minutes", "both_ways": True, "program": PROGRAM, **more})
