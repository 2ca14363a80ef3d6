//! A node of Plumtree as a state machine.

use crate::frames::{Body, Delivery, Frame, Out, Payload, Stimulus};
use crate::known::Known;
use crate::names::{FastMap, FastSet, Id, Name, Origin};
use crate::peers::Peers;
use std::collections::VecDeque;

/// How many messages are announced in one frame at most.
const ANNOUNCED: usize = 64;

/// A node.
pub struct Node {
    me: Origin,
    spent: u64,
    framed: u64,
    peers: Peers,
    known: Known,
    held: FastMap<Id, Payload>,
    /// The ids of what is held, in order of delivery.
    order: Vec<Id>,
    /// Who announced which message that did not come, and at which round.
    missing: FastMap<Id, VecDeque<(Name, u32)>>,
    timers: FastSet<Id>,
}

impl Node {
    /// A node without peers.
    pub fn new(me: Origin) -> Node {
        Node {
            me,
            spent: 0,
            framed: 0,
            peers: Peers::default(),
            known: Known::default(),
            held: FastMap::default(),
            order: Vec::new(),
            missing: FastMap::default(),
            timers: FastSet::default(),
        }
    }

    /// Takes a stimulus, and appends what it sends and delivers.
    pub fn step(&mut self, stimulus: &Stimulus, out: &mut Out) {
        match stimulus {
            Stimulus::Arrive(frame) => self.take(&frame.sender.name, &frame.body, out),
            Stimulus::Broadcast(payload) => self.broadcast(payload, out),
            Stimulus::Fire(id) => self.fire(id, out),
            Stimulus::Flush => self.flush(out),
        }
    }

    /// Takes what a peer says.
    fn take(&mut self, from: &Name, body: &Body, out: &mut Out) {
        match body {
            Body::Neighbor => self.link(from, out),
            Body::Accepted => self.peers.add(from),
            Body::Gossip { id, round, payload } => {
                self.take_message(from, id, *round, payload, out)
            }
            Body::Ihave(entries) => self.take_announcements(from, entries),
            Body::Graft { id, round } => self.take_graft(from, id, *round, out),
            Body::Prune => self.peers.set_eager(from, false),
        }
    }

    /// Sends a frame.
    fn send(&mut self, to: Name, body: Body, out: &mut Out) {
        self.framed += 1;
        let frame = Frame {
            sender: self.me,
            number: self.framed,
            body,
        };
        out.sends.push((to, frame));
    }

    /// Links a peer that asks for it.
    fn link(&mut self, name: &Name, out: &mut Out) {
        self.peers.add(name);
        self.send(*name, Body::Accepted, out);
    }

    /// Delivers a message, and passes it on to all peers but this one.
    fn spread(
        &mut self,
        from: Option<&Name>,
        id: Id,
        round: u32,
        payload: &Payload,
        out: &mut Out,
    ) {
        for place in 0..self.peers.0.len() {
            let peer = &mut self.peers.0[place];
            if Some(&peer.name) == from {
                continue;
            }
            if !peer.is_eager {
                peer.queue.push((id, round));
                continue;
            }
            let (to, payload) = (peer.name, payload.clone());
            self.send(to, Body::Gossip { id, round, payload }, out);
        }
        self.known.insert(&id);
        self.held.insert(id, payload.clone());
        self.order.push(id);
        out.deliveries.push(Delivery {
            node: self.me,
            id,
            payload: payload.clone(),
        });
    }

    /// Broadcasts a message.
    fn broadcast(&mut self, payload: &Payload, out: &mut Out) {
        self.spent += 1;
        let id = Id {
            origin: self.me,
            seq: self.spent,
        };
        self.spread(None, id, 0, payload, out);
    }

    /// Takes a message. One that came before is refused.
    fn take_message(&mut self, from: &Name, id: &Id, round: u32, payload: &Payload, out: &mut Out) {
        if self.known.contains(id) {
            if self.peers.has(from) {
                self.peers.set_eager(from, false);
                self.send(*from, Body::Prune, out);
            }
        } else if id.origin != self.me {
            self.spread(Some(from), *id, round.saturating_add(1), payload, out);
            self.missing.remove(id);
            self.timers.remove(id);
            self.peers.set_eager(from, true);
        }
    }

    /// Notes who has messages that did not come.
    fn take_announcements(&mut self, from: &Name, entries: &[(Id, u32)]) {
        if !self.peers.has(from) {
            return;
        }
        for (id, round) in entries {
            if self.known.contains(id) || id.origin == self.me {
                continue;
            }
            let announcers = self.missing.entry(*id).or_default();
            if announcers.iter().all(|(name, _)| name != from) {
                announcers.push_back((*from, *round));
            }
            self.timers.insert(*id);
        }
    }

    /// Sends a message that is asked for.
    fn take_graft(&mut self, from: &Name, id: &Id, round: u32, out: &mut Out) {
        self.peers.set_eager(from, true);
        if let Some(payload) = self.held.get(id).cloned() {
            let id = *id;
            self.send(*from, Body::Gossip { id, round, payload }, out);
        }
    }

    /// Asks for a missing message: the first who announced it.
    fn fire(&mut self, id: &Id, out: &mut Out) {
        let announcers = self.missing.get_mut(id);
        match announcers.and_then(VecDeque::pop_front) {
            Some((peer, round)) => {
                self.peers.set_eager(&peer, true);
                self.send(peer, Body::Graft { id: *id, round }, out);
            }
            None => {
                self.missing.remove(id);
                self.timers.remove(id);
            }
        }
    }

    /// Announces what waits.
    fn flush(&mut self, out: &mut Out) {
        for place in 0..self.peers.0.len() {
            let to = self.peers.0[place].name;
            let queue = std::mem::take(&mut self.peers.0[place].queue);
            for entries in queue.chunks(ANNOUNCED) {
                self.send(to, Body::Ihave(entries.to_vec()), out);
            }
        }
    }
}
