//! Routes.
use crate::hierarchy::{Hierarchy, Leg, LOW, LOW_BITS, NO_MIDDLE, UNREACHED};
use crate::search::Search;
use crate::slices::at;

/// An arc, with the numbers of files less one.
pub struct Arc {
    pub from: u32,
    pub to: u32,
    pub weight: u64,
}

/// A walk of least weight, and of these of the fewest arcs.
pub struct Route {
    pub weight: u64,
    pub arcs: Vec<Arc>,
}

/// A leg that is to be unpacked: its place and its nodes, in the direction of the walk.
pub struct Pending {
    pub place: u32,
    pub from: u32,
    pub to: u32,
}

impl Search<'_, u128> {
    /// The route, where there is a walk. Of equal ones it takes the least numbered meet, and from there back the least numbered nodes.
    pub fn route(&mut self, [start, end]: [u32; 2], pending: &mut Vec<Pending>) -> Option<Route> {
        self.reach(2 * start, 0, start);
        self.reach(2 * end + 1, 0, end);
        let (mut best, mut meet) = (UNREACHED, start);
        while let Some((key, state)) = self.pop_below(best + 1) {
            let sum = key + at(&self.labels, state ^ 1).key;
            if sum < best || sum == best && self.hierarchy.is_before(state / 2, meet) {
                (best, meet) = (sum, state / 2);
            }
            self.settle(state, key);
        }
        let route = (best < UNREACHED).then(|| {
            self.descend(1, meet, pending);
            pending.reverse();
            self.descend(0, meet, pending);
            Route { weight: best >> LOW_BITS, arcs: self.unpack(pending, (best & LOW) as usize) }
        });
        self.clear();
        route
    }

    /// Appends the legs from the meet back to the source of one side.
    pub fn descend(&self, side: u32, meet: u32, pending: &mut Vec<Pending>) {
        let (mut node, mut parent) = (meet, at(&self.labels, 2 * meet + side).parent);
        while node != parent {
            let place = self.hierarchy.find(2 * parent + side, node);
            let (from, to) = if side == 0 { (parent, node) } else { (node, parent) };
            pending.push(Pending { place, from, to });
            (node, parent) = (parent, at(&self.labels, 2 * parent + side).parent);
        }
    }

    /// The arcs for which the legs stand, from the last leg on. No leg is left.
    pub fn unpack(&self, pending: &mut Vec<Pending>, count: usize) -> Vec<Arc> {
        let Hierarchy { outer, legs, .. } = self.hierarchy;
        let mut arcs = Vec::with_capacity(count);
        while let Some(Pending { place, from, to }) = pending.pop() {
            let Leg { middle, cost, .. } = at(legs, place);
            if middle == NO_MIDDLE {
                arcs.push(Arc { from: at(outer, from), to: at(outer, to), weight: cost >> LOW_BITS });
            } else {
                pending.push(Pending { place: self.hierarchy.find(2 * middle, to), from: middle, to });
                pending.push(Pending { place: self.hierarchy.find(2 * middle + 1, from), from, to: middle });
            }
        }
        arcs
    }
}
