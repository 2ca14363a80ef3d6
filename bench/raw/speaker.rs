//! Who broadcasts, and when.

use crate::board::Board;
use crate::frames::Payload;
use crate::gossip::Node;
use crate::plan::{Plan, TURN};
use std::sync::Arc;
use std::time::{Duration, Instant};

/// How often it is looked whether the message that makes the tree is everywhere.
const LOOK: Duration = Duration::from_millis(1);

/// What a node is to broadcast: the message 0, which makes the tree, and once it is delivered everywhere the others.
pub struct Speaker {
    payload: Payload,
    messages: usize,
    in_turn: usize,
    board: Arc<Board>,
    is_warming: bool,
    /// When it goes on, as long as anything is left.
    next: Option<Instant>,
    /// When each message was broadcast, from message 1 on.
    pub starts: Vec<Instant>,
}

impl Speaker {
    pub fn new(plan: &Plan, board: &Arc<Board>) -> Speaker {
        Speaker {
            payload: Payload::from(vec![b'x'; plan.bytes]),
            messages: plan.messages,
            in_turn: plan.in_turn(),
            board: Arc::clone(board),
            is_warming: false,
            next: Some(Instant::now()),
            starts: Vec::with_capacity(plan.messages),
        }
    }

    /// When it goes on, if it does.
    pub fn due(&self) -> Option<Instant> {
        self.next
    }

    /// Broadcasts what is due.
    pub fn wake(&mut self, node: &mut Node, now: Instant) {
        if self.next.is_none_or(|at| at > now) {
            return;
        }
        if !self.is_warming {
            self.is_warming = true;
            node.broadcast(0, self.payload.clone(), now);
        } else if !self.starts.is_empty() || self.is_begun() {
            self.speak(node);
            self.next = (self.starts.len() < self.messages).then(|| Instant::now() + TURN);
            return;
        }
        self.next = Some(now + LOOK);
    }

    /// Whether it may begin. It notes so.
    fn is_begun(&self) -> bool {
        let is_warm = self.board.is_warm();
        if is_warm {
            self.board.begin();
        }
        is_warm
    }

    /// Broadcasts the messages of one turn.
    fn speak(&mut self, node: &mut Node) {
        let left = self.messages - self.starts.len();
        for _ in 0..self.in_turn.min(left) {
            let now = Instant::now();
            self.starts.push(now);
            node.broadcast(self.starts.len() as u32, self.payload.clone(), now);
        }
    }
}
