//! What comes to a node, and what goes out.

use crate::names::{Id, Name, Origin};
use std::sync::Arc;

/// The bytes of a message, which all its copies share.
pub type Payload = Arc<[u8]>;

/// What a frame says.
pub enum Body {
    /// A request to be linked.
    Neighbor,
    Accepted,
    Gossip {
        id: Id,
        round: u32,
        payload: Payload,
    },
    Ihave(Vec<(Id, u32)>),
    Graft {
        id: Id,
        round: u32,
    },
    Prune,
}

/// A frame, with the number that its sender gave it.
pub struct Frame {
    pub sender: Origin,
    pub number: u64,
    pub body: Body,
}

/// What a node takes.
pub enum Stimulus {
    Arrive(Frame),
    Broadcast(Payload),
    /// The timer of a missing message.
    Fire(Id),
    /// The end of the time in which announcements are gathered.
    Flush,
}

/// A message for the application.
pub struct Delivery {
    pub node: Origin,
    pub id: Id,
    pub payload: Payload,
}

/// What a step sends, each frame with the name that it is for, and what it delivers.
#[derive(Default)]
pub struct Out {
    pub sends: Vec<(Name, Frame)>,
    pub deliveries: Vec<Delivery>,
}
