//! The peers of a node.

use crate::names::{Id, Name};

/// A peer.
pub struct Peer {
    pub name: Name,
    pub is_eager: bool,
    /// What is to be announced to it.
    pub queue: Vec<(Id, u32)>,
}

/// The peers, in the order in which they came up.
#[derive(Default)]
pub struct Peers(pub Vec<Peer>);

impl Peers {
    /// Whether it is a peer.
    pub fn has(&self, name: &Name) -> bool {
        self.0.iter().any(|peer| peer.name == *name)
    }

    /// Adds an eager peer.
    pub fn add(&mut self, name: &Name) {
        if !self.has(name) {
            self.0.push(Peer {
                name: *name,
                is_eager: true,
                queue: Vec::new(),
            });
        }
    }

    /// Says whether a peer gets messages at once.
    pub fn set_eager(&mut self, name: &Name, is_eager: bool) {
        if let Some(peer) = self.0.iter_mut().find(|peer| peer.name == *name) {
            peer.is_eager = is_eager;
        }
    }
}
