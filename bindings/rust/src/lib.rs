//! Plumtree broadcast over HyParView membership: what connections bring goes in, and what is to be sent and what is
//! delivered comes out. The library that does the work is proved; this crate makes it safe to call.
//!
//! A [`WireNode`] is a node of bytes: it takes what each connection brings, however that is cut, and keeps what is to go
//! out by the name that it goes to. A [`Node`] is a state machine, which leaves both to its caller.
//!
//! A [`Node`] reads no clock and opens no socket. Its caller
//!
//! - hands over what each connection brings ([`Node::receive`]), and writes what comes out ([`Node::poll`]) whole and in
//!   order to the connection to its receiver;
//! - calls [`Node::tick`] some ten times a second, [`Node::link_down`] when a connection fails or cannot be made, and
//!   [`Node::join`] where all did.
//!
//! ```
//! use plumtree::{Config, Dice, Node, Output};
//!
//! let mut a = Node::start(&Config::new("a")?.peer("b")?)?;
//! let mut b = Node::start(&Config::new("b")?.peer("a")?)?;
//! a.broadcast(b"hello")?;
//! while let Some(output) = a.poll()? {
//!     if let Output::Send { to, frame } = output {
//!         assert_eq!(to.as_str(), "b");
//!         b.receive(&frame, &Dice::default())?;
//!     }
//! }
//! while let Some(output) = b.poll()? {
//!     if let Output::Deliver { id, payload } = output {
//!         assert_eq!((id.to_string().as_str(), payload.as_slice()), ("a/1/1", &b"hello"[..]));
//!     }
//! }
//! # Ok::<(), plumtree::Error>(())
//! ```
mod config;
mod error;
mod handle;
mod name;
mod news;
mod node;
mod sys;
mod wire;

pub use config::{Config, Limits};
pub use error::Error;
pub use name::{MsgId, Name};
pub use news::{News, Parting};
pub use node::{Counts, Dice, Input, Node, Output};
pub use wire::{Connection, Delivery, WireCounts, WireNode, WAITING};

/// The longest payload of a message, in bytes.
pub const PAYLOAD_MAX: usize = 32_768;

/// The longest frame, in bytes: a buffer of this size that is full has a whole frame.
pub const FRAME_MAX: usize = 32_880;

/// Returns the version of the linked library's interface, which is 2 for this crate.
pub fn interface_version() -> u32 {
    // SAFETY: the call takes nothing.
    unsafe { sys::plumtree_version() }
}
