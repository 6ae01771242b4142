"""Maneuvers: what a driver does at the crossings of routes, by the rules of docs/SERVICE.md, for
many passages at once in flat arrays."""
from __future__ import annotations

from typing import TYPE_CHECKING

import numpy

from chtab_server.osrm.crossings import turned

if TYPE_CHECKING:
    from chtab_server.osrm.crossings import Crossings
    from chtab.typing import Integers, Marks

# The degrees up to which a way is straight, a slight turn, and a turn; beyond them the turn is
# sharp.
STRAIGHT, SLIGHT, SQUARE = 20, 40, 120
(
    SILENT, CONTINUE, TURN, NEW_NAME, END_OF_ROAD, FORK, MERGE, ON_RAMP, OFF_RAMP, NOTIFICATION,
    ENTER, EXIT,
) = range(12)
TYPES = (
    "", "continue", "turn", "new name", "end of road", "fork", "merge", "on ramp", "off ramp",
    "notification", "roundabout", "exit roundabout")
LEFT, RIGHT = "left", "right"


class Judge:
    """Finds the maneuvers at passages of crossings, as far as they don't depend on what was passed
    before. Passage k leads over the node `nodes[k]`, from the end of a road `ins[k]`, where the
    driver arrives, to the end `outs[k]`, and from the street `old[k]` to `new[k]`."""

    def __init__(
        self, crossings: Crossings, nodes: Integers, ins: Integers, outs: Integers, old: Integers,
        new: Integers,
    ) -> None:
        self.crossings, self.nodes, self.ins, self.outs, self.old, self.new = (
            crossings, nodes, ins, outs, old, new)
        self.came, self.goes = (crossings.leads[self.ins] + 180) % 360, crossings.leads[self.outs]
        self.angles = turned(self.came, self.goes)
        self.is_back = self.ins == self.outs
        self.look_around()

    def __len__(self) -> int:
        return len(self.nodes)

    def any_of(self, owners: Integers) -> Marks:
        return numpy.bincount(owners, minlength=len(self)) > 0

    def look_around(self) -> None:
        """Finds what there is besides the way that is taken: how many roads meet, and the other
        ends, which may be open or not."""
        owners, ends = self.crossings.meeting(self.nodes)
        angles = turned(self.came[owners], self.crossings.leads[ends])
        is_other = (ends != self.ins[owners]) & (ends != self.outs[owners])
        may = is_other & self.crossings.is_open(self.nodes[owners], ends)
        self.meet = numpy.bincount(owners, minlength=len(self))
        self.all_others = owners[is_other], ends[is_other], angles[is_other]
        self.others = owners[may], ends[may], angles[may]

    def is_straighter(self) -> Marks:
        """Whether another open way is straighter than the one that is taken."""
        owners, _, angles = self.others
        return self.any_of(owners[abs(angles) < abs(self.angles[owners])])

    def forks(self) -> tuple[Marks, Marks]:
        """Whether the road forks into two ways of the same kind, neither of which is a turn or
        alone continues the street; and whether the route takes the left one."""
        owners, ends, angles = self.others
        is_one = numpy.bincount(owners, minlength=len(self)) == 1
        owner, end, angle = (column[is_one[owners]] for column in (owners, ends, angles))
        street, own, old = self.crossings.street_of[end], self.new[owner], self.old[owner]
        is_alike = self.crossings.kind[street] == self.crossings.kind[own]
        fits = is_alike & (abs(angle) <= SLIGHT) & (abs(self.angles[owner]) <= SLIGHT)
        fits &= ~self.is_back[owner]
        fits &= self.are_same(old, street) == self.are_same(old, own)
        found, is_left = numpy.zeros((2, len(self)), bool)
        found[owner], is_left[owner] = fits, self.angles[owner] < angle
        return found, is_left

    def are_same(self, streets: Integers, others: Integers) -> Marks:
        """Whether streets have the same name, and have one."""
        known = self.crossings
        return (known.called[streets] == known.called[others]) & known.is_called[streets]

    def ends_of_roads(self) -> Marks:
        """Whether the road ends at another one: three ends meet, and one of the others is to the
        left and one to the right."""
        owners, _, angles = self.all_others
        is_three = (self.meet == 3) & ~self.is_back
        owner, angle = owners[is_three[owners]], angles[is_three[owners]]
        found = numpy.zeros(len(self), bool)
        ours = self.angles[owner]
        found[owner] = (abs(angle) > SLIGHT) & (abs(ours) > SLIGHT) & ((angle > 0) != (ours > 0))
        return found

    def is_merged_to_the_left(self) -> Marks:
        """Whether the fast road that the route joins comes from the left. If its direction doesn't
        show this, the driving side decides."""
        owners, ends, _ = self.all_others
        is_fast = self.crossings.is_fast[self.crossings.street_of[ends]]
        owner, end = owners[is_fast], ends[is_fast]
        off = turned((self.crossings.leads[end] + 180) % 360, self.came[owner])
        is_left, is_right = (
            self.any_of(owner[(abs(off) < 90) & side]) for side in (off < 0, off > 0))
        return is_left | ~is_right & (self.crossings.side != LEFT)

    def kinds(self) -> tuple[Integers, Marks]:
        """The maneuver at each passage, except for new names, and whether a fork or a merge leads
        to the left."""
        known = self.crossings
        is_crossing = self.meet > 2
        size, is_same = abs(self.angles), self.are_same(self.old, self.new)
        is_turned = is_crossing & (
            (size > SLIGHT) | (self.is_straighter() & ((size > STRAIGHT) | ~is_same)))
        was_ring, is_ring = known.is_ring[self.old], known.is_ring[self.new]
        is_fork, is_left = self.forks()
        merges = is_crossing & known.is_ramp[self.old] & known.is_fast[self.new]
        from_road = ~known.is_link[self.old] & ~known.is_fast[self.old]
        rules = (
            (self.is_back, CONTINUE), (was_ring & is_ring, SILENT), (is_ring, ENTER),
            (was_ring, EXIT), (known.is_ferry[self.old] != known.is_ferry[self.new], NOTIFICATION),
            (merges, MERGE),
            (is_crossing & known.is_fast[self.old] & known.is_link[self.new], OFF_RAMP),
            (is_crossing & from_road & known.is_ramp[self.new], ON_RAMP),
            (is_fork, FORK), (is_turned & is_same, CONTINUE), (self.ends_of_roads(), END_OF_ROAD),
            (is_turned, TURN))
        found = numpy.select([holds for holds, _ in rules], [kind for _, kind in rules], SILENT)
        return found, numpy.where(merges, self.is_merged_to_the_left(), is_left)

    def kinds_and_modifiers(self) -> tuple[Integers, Marks, list[str]]:
        """The maneuver at each passage, except for new names; whether it passes an exit of a ring,
        or takes one; and the modifiers."""
        kinds, is_left = self.kinds()
        owners, ends, _ = self.others
        is_off = ~self.crossings.is_ring[self.crossings.street_of[ends]]
        leads_off = self.any_of(owners[is_off]) | (kinds == EXIT)
        modifiers = [MODIFIERS[angle + 180] for angle in self.angles.tolist()]
        for place in numpy.flatnonzero((kinds == FORK) | (kinds == MERGE)).tolist():
            modifiers[place] = f"slight {LEFT if is_left[place] else RIGHT}"
        for place in numpy.flatnonzero(self.is_back).tolist():
            modifiers[place] = "uturn"
        return kinds, leads_off & self.crossings.is_ring[self.old] & ~self.is_back, modifiers


def modifier_of(angle: int) -> str:
    """The modifier for a turn by this angle, in degrees to the right."""
    size, side = abs(angle), RIGHT if angle > 0 else LEFT
    if size <= STRAIGHT:
        return "straight"
    return f"slight {side}" if size <= SLIGHT else side if size <= SQUARE else f"sharp {side}"


MODIFIERS = [modifier_of(angle) for angle in range(-180, 180)]
