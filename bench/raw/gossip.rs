//! A node of Plumtree, without connections.
//!
//! It sends each new message at once to its eager peers, and announces it to the others within 20 milliseconds. A peer from which a
//! message comes again is told so and is eager no more, and so is the node at that peer. A message that is announced and does not
//! come is asked for after a while, of one after the other who announced it, and who is asked becomes eager, at both ends. It holds
//! the payloads of all messages.

use crate::board::Board;
use crate::figures::Delivered;
use crate::frames::{Frame, Heard, Id, Payload};
use crate::plan::Plan;
use std::collections::{HashMap, VecDeque};
use std::sync::Arc;
use std::time::{Duration, Instant};

/// How long announcements are gathered.
const GATHERING: Duration = Duration::from_millis(20);

/// How many messages are announced in one frame at most.
const ANNOUNCED: usize = 64;

/// A neighbour.
#[derive(Default)]
struct Peer {
    is_eager: bool,
    /// What is to be announced to it.
    queue: Vec<Heard>,
}

/// How many frames of each kind a node sent.
#[derive(Clone, Copy, Debug, Default)]
pub struct Sent {
    pub messages: usize,
    pub announcements: usize,
    pub grafts: usize,
    pub prunes: usize,
}

/// A node. What it sends it puts into a list, each frame with the place of the peer that it is for.
pub struct Node {
    me: u32,
    board: Arc<Board>,
    is_flood: bool,
    timer: Duration,
    peers: Vec<Peer>,
    held: HashMap<Id, Payload>,
    /// When the announcements that wait are sent.
    gathered: Option<Instant>,
    /// Who announced which message that did not come.
    missing: HashMap<Id, VecDeque<(usize, Heard)>>,
    /// When missing messages are asked for, the first first.
    timers: VecDeque<(Instant, Id)>,
    out: Vec<(usize, Frame)>,
    pub got: Vec<Delivered>,
    pub sent: Sent,
}

impl Node {
    /// A node with so many peers, all of which are eager.
    pub fn new(me: usize, peers: usize, plan: &Plan, board: &Arc<Board>) -> Node {
        let eager = |_| Peer {
            is_eager: true,
            queue: Vec::new(),
        };
        Node {
            me: me as u32,
            board: Arc::clone(board),
            is_flood: plan.is_flood,
            timer: plan.timer,
            peers: (0..peers).map(eager).collect(),
            held: HashMap::new(),
            gathered: None,
            missing: HashMap::new(),
            timers: VecDeque::new(),
            out: Vec::new(),
            got: Vec::with_capacity(plan.messages + 1),
            sent: Sent::default(),
        }
    }

    /// How many peers it has.
    pub fn peers(&self) -> usize {
        self.peers.len()
    }

    /// Hands out what it sent.
    pub fn take_out(&mut self, frames: &mut Vec<(usize, Frame)>) {
        frames.append(&mut self.out);
    }

    /// Sends a frame.
    fn send(&mut self, peer: usize, frame: Frame) {
        match frame {
            Frame::Gossip(..) => self.sent.messages += 1,
            Frame::Ihave(_) => self.sent.announcements += 1,
            Frame::Graft(_) => self.sent.grafts += 1,
            Frame::Prune => self.sent.prunes += 1,
        }
        self.out.push((peer, frame));
    }

    /// Delivers a message, and passes it on to all but this peer.
    fn spread(&mut self, heard: Heard, payload: Payload, from: Option<usize>, now: Instant) {
        self.got.push((heard.id.number, now));
        self.board.deliver();
        for place in (0..self.peers.len()).filter(|place| Some(*place) != from) {
            if self.peers[place].is_eager {
                self.send(place, Frame::Gossip(heard, payload.clone()));
            } else {
                self.peers[place].queue.push(heard);
                self.gathered.get_or_insert(now + GATHERING);
            }
        }
        self.held.insert(heard.id, payload);
    }

    /// Broadcasts the message of this number.
    pub fn broadcast(&mut self, number: u32, payload: Payload, now: Instant) {
        let id = Id {
            origin: self.me,
            number,
        };
        self.spread(Heard { id, round: 0 }, payload, None, now);
    }

    /// Takes a frame that this peer sent.
    pub fn take(&mut self, from: usize, frame: Frame, now: Instant) {
        match frame {
            Frame::Gossip(heard, payload) => self.take_message(from, heard, payload, now),
            Frame::Ihave(list) => {
                for heard in list.iter() {
                    self.take_announcement(from, *heard, now);
                }
            }
            Frame::Graft(heard) => {
                self.peers[from].is_eager = true;
                if let Some(payload) = self.held.get(&heard.id).cloned() {
                    self.send(from, Frame::Gossip(heard, payload));
                }
            }
            Frame::Prune => self.peers[from].is_eager = false,
        }
    }

    /// Takes a message. One that came before is refused.
    fn take_message(&mut self, from: usize, heard: Heard, payload: Payload, now: Instant) {
        if !self.held.contains_key(&heard.id) {
            self.missing.remove(&heard.id);
            self.peers[from].is_eager = true;
            let round = heard.round.saturating_add(1);
            self.spread(Heard { round, ..heard }, payload, Some(from), now);
        } else if !self.is_flood {
            self.peers[from].is_eager = false;
            self.send(from, Frame::Prune);
        }
    }

    /// Notes who has a message that did not come.
    fn take_announcement(&mut self, from: usize, heard: Heard, now: Instant) {
        if self.held.contains_key(&heard.id) {
            return;
        }
        let announcers = self.missing.entry(heard.id).or_default();
        if announcers.is_empty() {
            self.timers.push_back((now + self.timer, heard.id));
        }
        announcers.push_back((from, heard));
    }

    /// When it has something to do by itself, if at all.
    pub fn due(&self) -> Option<Instant> {
        let timer = self.timers.front().map(|(at, _)| *at);
        match (self.gathered, timer) {
            (Some(gathered), Some(timer)) => Some(gathered.min(timer)),
            (gathered, timer) => gathered.or(timer),
        }
    }

    /// Does what is due.
    pub fn wake(&mut self, now: Instant) {
        if self.gathered.is_some_and(|at| at <= now) {
            self.gathered = None;
            self.announce();
        }
        while self.timers.front().is_some_and(|(at, _)| *at <= now) {
            if let Some((_, id)) = self.timers.pop_front() {
                self.ask(id, now);
            }
        }
    }

    /// Announces what waits.
    fn announce(&mut self) {
        for place in 0..self.peers.len() {
            let queue = std::mem::take(&mut self.peers[place].queue);
            for list in queue.chunks(ANNOUNCED) {
                self.send(place, Frame::Ihave(Arc::new(list.to_vec())));
            }
        }
    }

    /// Asks for a message if it is still missing: the first who announced it. It is asked for again after as long, if anybody is
    /// left who announced it.
    fn ask(&mut self, id: Id, now: Instant) {
        let Some(announcers) = self.missing.get_mut(&id) else {
            return;
        };
        let first = announcers.pop_front();
        if announcers.is_empty() {
            self.missing.remove(&id);
        } else {
            self.timers.push_back((now + self.timer, id));
        }
        if let Some((peer, heard)) = first {
            self.peers[peer].is_eager = true;
            self.send(peer, Frame::Graft(heard));
        }
    }
}
