//! Which messages came: of each origin the number up to which all came, and the numbers past a gap.

use crate::names::{FastMap, Id, Origin};
use std::collections::BTreeSet;

/// The numbers of one origin.
#[derive(Default)]
struct Span {
    unbroken: u64,
    past: BTreeSet<u64>,
}

impl Span {
    fn contains(&self, seq: u64) -> bool {
        seq <= self.unbroken || self.past.contains(&seq)
    }

    fn insert(&mut self, seq: u64) {
        if seq != self.unbroken + 1 {
            self.past.insert(seq);
            return;
        }
        self.unbroken = seq;
        while self.past.remove(&(self.unbroken + 1)) {
            self.unbroken += 1;
        }
    }
}

/// The ids that came.
#[derive(Default)]
pub struct Known(FastMap<Origin, Span>);

impl Known {
    /// Whether the message came.
    pub fn contains(&self, id: &Id) -> bool {
        self.0
            .get(&id.origin)
            .is_some_and(|span| span.contains(id.seq))
    }

    /// Notes that it came.
    pub fn insert(&mut self, id: &Id) {
        self.0.entry(id.origin).or_default().insert(id.seq);
    }
}
