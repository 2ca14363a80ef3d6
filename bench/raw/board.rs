//! How far a run is, which all threads see.

use crate::plan::Plan;
use crate::process::Usage;
use std::sync::atomic::{AtomicBool, AtomicUsize, Ordering};
use std::sync::OnceLock;
use std::time::{Duration, Instant};

/// How long nothing may be delivered before the run is given up.
const PATIENCE: Duration = Duration::from_secs(10);

/// How far a run is.
pub struct Board {
    nodes: usize,
    wanted: usize,
    deliveries: AtomicUsize,
    is_over: AtomicBool,
    /// What the process had used before the second broadcast.
    begin: OnceLock<Usage>,
    /// What it had used after the last delivery.
    end: OnceLock<Usage>,
}

impl Board {
    pub fn new(plan: &Plan) -> Board {
        Board {
            nodes: plan.nodes,
            wanted: plan.wanted(),
            deliveries: AtomicUsize::new(0),
            is_over: AtomicBool::new(false),
            begin: OnceLock::new(),
            end: OnceLock::new(),
        }
    }

    /// Counts a delivery. After the last one the run is over.
    pub fn deliver(&self) {
        if self.deliveries.fetch_add(1, Ordering::SeqCst) + 1 == self.wanted {
            let _ = self.end.set(Usage::now());
            self.is_over.store(true, Ordering::SeqCst);
        }
    }

    /// How many deliveries there were.
    pub fn count(&self) -> usize {
        self.deliveries.load(Ordering::SeqCst)
    }

    /// Whether all nodes have delivered the message that makes the tree.
    pub fn is_warm(&self) -> bool {
        self.count() >= self.nodes
    }

    /// Notes that what is measured begins.
    pub fn begin(&self) {
        let _ = self.begin.set(Usage::now());
    }

    /// Whether all is delivered.
    pub fn is_over(&self) -> bool {
        self.is_over.load(Ordering::SeqCst)
    }

    /// What the process used for what is measured, and what memory it had then. Without an end it is that until now.
    pub fn used(&self) -> Usage {
        let end = self.end.get().copied().unwrap_or_else(Usage::now);
        let begin = self.begin.get().copied().unwrap_or(end);
        Usage {
            processor: end.processor.saturating_sub(begin.processor),
            ..end
        }
    }
}

/// Whoever waits until a run is over, and loses patience where nothing is delivered any more.
pub struct Waiting {
    count: usize,
    since: Instant,
}

impl Waiting {
    pub fn new() -> Waiting {
        Waiting {
            count: 0,
            since: Instant::now(),
        }
    }

    /// Whether to go on waiting.
    pub fn goes_on(&mut self, board: &Board, now: Instant) -> bool {
        let count = board.count();
        if count != self.count {
            self.count = count;
            self.since = now;
        }
        !board.is_over() && now.duration_since(self.since) < PATIENCE
    }
}
