//! What nodes write to each other.

use std::sync::Arc;

/// A payload, which all who hold and write it share.
pub type Payload = Arc<[u8]>;

/// The name of a message: who broadcast it, and as which one.
#[derive(Clone, Copy, Debug, PartialEq, Eq, Hash)]
pub struct Id {
    pub origin: u32,
    pub number: u32,
}

/// A message and how many links it has crossed.
#[derive(Clone, Copy, Debug)]
pub struct Heard {
    pub id: Id,
    pub round: u32,
}

/// What a node writes to another.
#[derive(Clone, Debug)]
pub enum Frame {
    /// A message.
    Gossip(Heard, Payload),
    /// Messages that the node has.
    Ihave(Arc<Vec<Heard>>),
    /// Asks for a message.
    Graft(Heard),
    /// Asks for announcements in place of messages.
    Prune,
}

/// The bytes before a frame: how many follow.
const LENGTH: usize = 4;

/// The bytes of a message's name and round.
const HEARD: usize = 12;

/// The first byte of each kind of frame.
const GOSSIP: u8 = 1;
const IHAVE: u8 = 2;
const GRAFT: u8 = 3;
const PRUNE: u8 = 4;

/// Puts a name and a round last.
fn put_heard(text: &mut Vec<u8>, heard: &Heard) {
    for number in [heard.id.origin, heard.id.number, heard.round] {
        text.extend_from_slice(&number.to_be_bytes());
    }
}

/// Puts the length of what follows the kind, and the kind.
fn put_head(text: &mut Vec<u8>, kind: u8, rest: usize) {
    text.extend_from_slice(&(rest as u32 + 1).to_be_bytes());
    text.push(kind);
}

/// Puts a frame last, but for the payload of a message, which is to follow it.
pub fn put(text: &mut Vec<u8>, frame: &Frame) {
    match frame {
        Frame::Gossip(heard, payload) => {
            put_head(text, GOSSIP, HEARD + payload.len());
            put_heard(text, heard);
        }
        Frame::Ihave(list) => {
            put_head(text, IHAVE, HEARD * list.len());
            for heard in list.iter() {
                put_heard(text, heard);
            }
        }
        Frame::Graft(heard) => {
            put_head(text, GRAFT, HEARD);
            put_heard(text, heard);
        }
        Frame::Prune => put_head(text, PRUNE, 0),
    }
}

/// The number in front of these bytes.
fn number(bytes: &[u8]) -> Option<u32> {
    Some(u32::from_be_bytes(bytes.get(..4)?.try_into().ok()?))
}

/// The name and the round in front of these bytes.
fn heard(bytes: &[u8]) -> Option<Heard> {
    Some(Heard {
        id: Id {
            origin: number(bytes)?,
            number: number(bytes.get(4..)?)?,
        },
        round: number(bytes.get(8..)?)?,
    })
}

/// The frame of this kind that these bytes are.
fn parse(kind: u8, rest: &[u8]) -> Option<Frame> {
    match kind {
        GOSSIP => Some(Frame::Gossip(heard(rest)?, Arc::from(rest.get(HEARD..)?))),
        IHAVE => {
            let list: Option<Vec<Heard>> = rest.chunks(HEARD).map(heard).collect();
            Some(Frame::Ihave(Arc::new(list?)))
        }
        GRAFT => Some(Frame::Graft(heard(rest)?)),
        PRUNE => Some(Frame::Prune),
        _ => None,
    }
}

/// What stands in front of bytes that were read.
pub enum Cut {
    /// A frame, and how many bytes it takes.
    Whole(Frame, usize),
    /// Less than a frame.
    Part,
    /// What is no frame.
    Broken,
}

/// Cuts the frame in front of bytes that were read.
pub fn cut(bytes: &[u8]) -> Cut {
    let Some(length) = number(bytes) else {
        return Cut::Part;
    };
    let end = LENGTH + length as usize;
    match bytes.get(LENGTH..end) {
        None => Cut::Part,
        Some([kind, rest @ ..]) => match parse(*kind, rest) {
            Some(frame) => Cut::Whole(frame, end),
            None => Cut::Broken,
        },
        Some([]) => Cut::Broken,
    }
}
