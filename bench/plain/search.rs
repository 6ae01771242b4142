//! One search for both directions, and distances by it.
use crate::hierarchy::{Entry, Hierarchy, Leg, UNREACHED};
use crate::slices::{at, at_mut};

/// What is known of a state.
#[derive(Clone, Copy)]
pub struct Label {
    pub key: u64,
    /// Where it stands in the queue, until it is settled.
    pub place: u32,
    /// The node before, and of a source itself.
    pub parent: u32,
}

pub const AT_REST: Label = Label { key: UNREACHED, place: 0, parent: 0 };

/// One search for both directions. Before and after each call all labels are at rest.
pub struct Search<'a, E> {
    pub hierarchy: &'a Hierarchy,
    pub labels: Vec<Label>,
    /// The states that are reached.
    pub touched: Vec<u32>,
    /// A binary heap of those that are not settled.
    pub queue: Vec<E>,
}

impl<'a, E: Entry> Search<'a, E> {
    pub fn new(hierarchy: &'a Hierarchy) -> Self {
        let states = 2 * hierarchy.outer.len();
        Search { hierarchy, labels: vec![AT_REST; states], touched: Vec::with_capacity(states), queue: Vec::with_capacity(states) }
    }

    /// Gives a state a key that is less than its own.
    #[inline(always)]
    pub fn reach(&mut self, state: u32, key: u64, parent: u32) {
        let (known, entry) = (at(&self.labels, state), E::new(key, state));
        let mut place = known.place;
        if known.key == UNREACHED {
            place = self.queue.len() as u32;
            self.queue.push(entry);
            self.touched.push(state);
        }
        let label = at_mut(&mut self.labels, state);
        (label.key, label.parent) = (key, parent);
        self.sift_up(entry, place);
    }

    #[inline(always)]
    pub fn put(&mut self, entry: E, place: u32) {
        *at_mut(&mut self.queue, place) = entry;
        at_mut(&mut self.labels, entry.split().1).place = place;
    }

    /// Puts an entry at a place of the queue that is free, or above.
    pub fn sift_up(&mut self, entry: E, mut place: u32) {
        while place > 0 {
            let above = at(&self.queue, (place - 1) / 2);
            if above <= entry {
                break;
            }
            self.put(above, place);
            place = (place - 1) / 2;
        }
        self.put(entry, place);
    }

    /// Puts an entry at the top of the queue, which is free, or below.
    pub fn sift_down(&mut self, entry: E) {
        let (mut place, len) = (0, self.queue.len() as u32);
        while 2 * place + 1 < len {
            let mut child = 2 * place + 1;
            let mut below = at(&self.queue, child);
            if child + 1 < len && at(&self.queue, child + 1) < below {
                child += 1;
                below = at(&self.queue, child);
            }
            if entry <= below {
                break;
            }
            self.put(below, place);
            place = child;
        }
        self.put(entry, place);
    }

    /// Takes the least key and its state out of the queue, if the key is below a limit.
    #[inline(always)]
    pub fn pop_below(&mut self, limit: u64) -> Option<(u64, u32)> {
        let least = self.queue.first()?.split();
        if least.0 >= limit {
            return None;
        }
        let last = self.queue.pop()?;
        if !self.queue.is_empty() {
            self.sift_down(last);
        }
        Some(least)
    }

    /// Whether a higher node shows a lesser key.
    #[inline(always)]
    pub fn is_stalled(&self, state: u32, key: u64) -> bool {
        let shown = |leg: &Leg| at(&self.labels, 2 * leg.higher + state % 2).key + leg.cost;
        self.hierarchy.row(state ^ 1).iter().any(|leg| shown(leg) < key)
    }

    /// Takes the legs of a state that left the queue with this key, unless it is stalled, and says whether it did.
    #[inline(always)]
    pub fn settle(&mut self, state: u32, key: u64) -> bool {
        if self.is_stalled(state, key) {
            return false;
        }
        let (hierarchy, node) = (self.hierarchy, state / 2);
        for leg in hierarchy.row(state) {
            let (next, sum) = (2 * leg.higher + state % 2, key + leg.cost);
            let known = at(&self.labels, next);
            if sum < known.key {
                self.reach(next, sum, node);
            } else if E::HAS_ARCS && sum == known.key && hierarchy.is_before(node, known.parent) {
                at_mut(&mut self.labels, next).parent = node;
            }
        }
        true
    }

    pub fn clear(&mut self) {
        for state in self.touched.drain(..) {
            *at_mut(&mut self.labels, state) = AT_REST;
        }
        self.queue.clear();
    }
}

impl Search<'_, u64> {
    /// The least weight of a walk, where there is one.
    pub fn distance(&mut self, [start, end]: [u32; 2]) -> Option<u64> {
        self.reach(2 * start, 0, start);
        self.reach(2 * end + 1, 0, end);
        let mut best = UNREACHED;
        while let Some((key, state)) = self.pop_below(best) {
            best = best.min(key + at(&self.labels, state ^ 1).key);
            self.settle(state, key);
        }
        self.clear();
        (best < UNREACHED).then_some(best)
    }
}
