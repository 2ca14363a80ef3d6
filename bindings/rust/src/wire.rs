//! A node of bytes.
use crate::config::Config;
use crate::error::Error;
use crate::handle::{is_done, readers, Handle, ROOM_TOO_SMALL};
use crate::name::{MsgId, Name};
use crate::news::News;
use crate::node::Dice;
use crate::sys;
use std::io::{IoSlice, Write};

/// How many bytes may wait for a name, unless there is a reason for another limit: 8 MiB.
pub const WAITING: usize = 8_388_608;

/// A connection that a node accepted. No other of the node ever is the same.
#[derive(Clone, Copy, Debug, PartialEq, Eq, Hash, PartialOrd, Ord)]
pub struct Connection(u64);

/// A message of the group, each once in a run of the node.
#[derive(Clone, Debug, PartialEq, Eq)]
pub struct Delivery {
    /// The message's id.
    pub id: MsgId,
    /// What was broadcast.
    pub payload: Vec<u8>,
}

/// How much a node of bytes has.
#[derive(Clone, Copy, Debug, PartialEq, Eq)]
pub struct WireCounts {
    /// Messages whose payloads it holds.
    pub held: u64,
    /// Messages that it lacks and may ask for.
    pub missing: u64,
    /// Announcements of these that came.
    pub wants: u64,
    /// Announcements that wait for a tick.
    pub queued: u64,
    /// Ticks that were made.
    pub ticks: u64,
}

/// One node of a group, as a node of bytes: it keeps what is no whole frame yet, and what is to go out, by the name that
/// it goes to.
///
/// Its caller
///
/// - says what the connections bring that it accepted ([`accept`](WireNode::accept), [`receive`](WireNode::receive),
///   [`ended`](WireNode::ended));
/// - connects to each name for which bytes wait ([`receivers`](WireNode::receivers)), and writes them there
///   ([`write_to`](WireNode::write_to)), or says that it cannot be reached ([`unreachable`](WireNode::unreachable));
/// - closes connections to lost names ([`next_lost`](WireNode::next_lost)), takes the messages
///   ([`next_delivery`](WireNode::next_delivery)), calls [`tick`](WireNode::tick) some ten times a second, and
///   [`join`](WireNode::join) where all links failed, of which the node tells ([`tell_news`](WireNode::tell_news),
///   [`next_news`](WireNode::next_news)).
///
/// ```
/// use plumtree::{Config, Dice, WireNode};
///
/// let mut a = WireNode::start(&Config::new("a")?.peer("b")?)?;
/// let mut b = WireNode::start(&Config::new("b")?.peer("a")?)?;
/// a.broadcast(b"hello")?;
/// let connection = b.accept()?;
/// for name in a.receivers()? {
///     let mut bytes = Vec::new();
///     a.write_to(&name, &mut bytes)?;
///     b.receive(connection, &bytes, &Dice::default())?;
/// }
/// let message = b.next_delivery()?.expect("a message");
/// assert_eq!((message.id.to_string().as_str(), message.payload.as_slice()), ("a/1/1", &b"hello"[..]));
/// # Ok::<(), Box<dyn std::error::Error>>(())
/// ```
pub struct WireNode {
    handle: Handle,
}

readers!(WireNode);

impl WireNode {
    /// Starts a node for which at most [`WAITING`] bytes wait for a name. [`Error::BadLimits`], [`Error::BadPeers`],
    /// [`Error::OutOfMemory`].
    pub fn start(config: &Config) -> Result<WireNode, Error> {
        WireNode::start_with(config, WAITING)
    }

    /// Starts a node. A name for which more bytes wait is taken down, and is lost.
    pub fn start_with(config: &Config, waiting: usize) -> Result<WireNode, Error> {
        let (name, limits, peers, contact) = config.parts();
        let mut handle = Handle::empty();
        // SAFETY: the slot is empty, and each pointer has as many items as is said.
        is_done(unsafe {
            sys::plumtree_wire_start(
                &mut handle.slot,
                name.as_ptr(),
                name.len(),
                config.incarnation,
                &limits,
                waiting,
                peers.as_ptr(),
                peers.len(),
                contact.as_ptr(),
                contact.len(),
            )
        })?;
        Ok(WireNode { handle })
    }

    /// Broadcasts a message of at most [`PAYLOAD_MAX`](crate::PAYLOAD_MAX) bytes, and returns its number. The node
    /// delivers it to its own caller too.
    pub fn broadcast(&mut self, payload: &[u8]) -> Result<u64, Error> {
        let (slot, mut number) = (&mut self.handle.slot, 0);
        // SAFETY: the payload has as many bytes as is said.
        is_done(unsafe {
            sys::plumtree_wire_broadcast(slot, payload.as_ptr(), payload.len(), &mut number)
        })?;
        Ok(number)
    }

    /// Makes a tick: sends queued announcements, at every fifth tick asks for what is missing since the fifth before, for
    /// 128 messages at once at most and for others as these come, and at every tenth shuffles.
    pub fn tick(&mut self, dice: &Dice) -> Result<(), Error> {
        // SAFETY: the slot is valid, and there are sixteen words.
        is_done(unsafe { sys::plumtree_wire_tick(&mut self.handle.slot, &dice.0) }).map(drop)
    }

    /// Accepts a connection that another node made.
    pub fn accept(&mut self) -> Result<Connection, Error> {
        let mut number = 0;
        // SAFETY: the slot and the number are valid.
        is_done(unsafe { sys::plumtree_wire_accept(&mut self.handle.slot, &mut number) })?;
        Ok(Connection(number))
    }

    /// Takes all the bytes that came over the connection. An error but [`Error::NoConnection`] ends it: close it.
    pub fn receive(&mut self, from: Connection, bytes: &[u8], dice: &Dice) -> Result<(), Error> {
        let slot = &mut self.handle.slot;
        // SAFETY: there are as many bytes as is said, and sixteen words.
        is_done(unsafe {
            sys::plumtree_wire_receive(slot, from.0, bytes.as_ptr(), bytes.len(), &dice.0)
        })
        .map(drop)
    }

    /// Says that the connection is over. [`Error::NoConnection`]: it has ended before.
    pub fn ended(&mut self, connection: Connection, dice: &Dice) -> Result<(), Error> {
        let slot = &mut self.handle.slot;
        // SAFETY: the slot is valid, and there are sixteen words.
        is_done(unsafe { sys::plumtree_wire_ended(slot, connection.0, &dice.0) }).map(drop)
    }

    /// Says that the name cannot be reached: its peer goes down, and what waits for it is dropped.
    pub fn unreachable(&mut self, name: &Name, dice: &Dice) -> Result<(), Error> {
        let (slot, text) = (&mut self.handle.slot, name.as_bytes());
        // SAFETY: the name has as many bytes as is said, and there are sixteen words.
        is_done(unsafe { sys::plumtree_wire_unreachable(slot, text.as_ptr(), text.len(), &dice.0) })
            .map(drop)
    }

    /// Has the node join by this contact, a node that runs, as at its start. It is for a node without active names, since
    /// all its links failed, and may be called again, with another contact each time. A contact that is the node itself or
    /// an active name changes nothing.
    pub fn join(&mut self, contact: &Name, dice: &Dice) -> Result<(), Error> {
        let (slot, text) = (&mut self.handle.slot, contact.as_bytes());
        // SAFETY: the name has as many bytes as is said, and there are sixteen words.
        is_done(unsafe { sys::plumtree_wire_join(slot, text.as_ptr(), text.len(), &dice.0) })
            .map(drop)
    }

    /// Returns the names for which bytes wait, each once.
    pub fn receivers(&mut self) -> Result<Vec<Name>, Error> {
        let (slot, mut length) = (&mut self.handle.slot, 16);
        loop {
            let mut room = vec![sys::Name::EMPTY; length];
            // SAFETY: the room has as many names as is said.
            let answer = unsafe {
                sys::plumtree_wire_receivers(slot, room.as_mut_ptr(), room.len(), &mut length)
            };
            if answer != ROOM_TOO_SMALL {
                is_done(answer)?;
                return Ok(room.iter().take(length).map(|name| Name(*name)).collect());
            }
        }
    }

    /// Returns how many bytes wait for the name. Who broadcasts only while little waits for the fullest name is held up by
    /// a slow peer, where its link would fail at the limit.
    pub fn waiting(&mut self, name: &Name) -> usize {
        let (text, mut count) = (name.as_bytes(), 0);
        // SAFETY: the name has as many bytes as is said, and `count` is valid.
        let answer = unsafe {
            sys::plumtree_wire_waiting(&mut self.handle.slot, text.as_ptr(), text.len(), &mut count)
        };
        debug_assert_eq!(answer, 1);
        count
    }

    /// Returns the first of the bytes that wait for the name, in slices of which some may be empty. Where any wait, not
    /// all of them are.
    pub fn transmit(&mut self, name: &Name) -> [IoSlice<'_>; 4] {
        let text = name.as_bytes();
        let mut pieces = [sys::Piece {
            at: std::ptr::null(),
            length: 0,
        }; 4];
        // SAFETY: the name has as many bytes as is said.
        unsafe {
            sys::plumtree_wire_transmit(
                &mut self.handle.slot,
                text.as_ptr(),
                text.len(),
                &mut pieces,
            )
        };
        pieces.map(|piece| match piece.length {
            0 => IoSlice::new(&[]),
            // SAFETY: the node lends so many bytes until the next call, and it is borrowed for as long as they are used.
            length => IoSlice::new(unsafe { std::slice::from_raw_parts(piece.at, length) }),
        })
    }

    /// Says that the first `count` of the bytes that wait for the name went out.
    pub fn transmitted(&mut self, name: &Name, count: usize) {
        let text = name.as_bytes();
        // SAFETY: the name has as many bytes as is said.
        let answer = unsafe {
            sys::plumtree_wire_transmitted(&mut self.handle.slot, text.as_ptr(), text.len(), count)
        };
        debug_assert_eq!(answer, 1);
    }

    /// Writes what waits for the name, until nothing does or the writer takes no more; what it took waits no longer. An
    /// error is the writer's: where it is not `WouldBlock`, say that the name is [`unreachable`](WireNode::unreachable).
    pub fn write_to(&mut self, name: &Name, writer: &mut impl Write) -> std::io::Result<()> {
        loop {
            let slices = self.transmit(name);
            if slices.iter().all(|slice| slice.is_empty()) {
                return Ok(());
            }
            match writer.write_vectored(&slices) {
                Ok(0) => return Err(std::io::ErrorKind::WriteZero.into()),
                Ok(count) => self.transmitted(name, count),
                Err(error) if error.kind() == std::io::ErrorKind::Interrupted => {}
                Err(error) => return Err(error),
            }
        }
    }

    /// Takes the next message that the node delivers; `None` if none waits.
    pub fn next_delivery(&mut self) -> Result<Option<Delivery>, Error> {
        let mut id = sys::Id::EMPTY;
        // SAFETY: `in_room` passes a room of as many bytes as it says.
        let payload = self.handle.in_room(|slot, room, size, length| unsafe {
            sys::plumtree_wire_next_delivery(slot, &mut id, room, size, length)
        })?;
        Ok(payload.map(|payload| Delivery {
            id: MsgId::of(&id),
            payload,
        }))
    }

    /// Takes the next name that was lost: bytes for it were dropped, so the connection to it is closed before more is
    /// written there.
    pub fn next_lost(&mut self) -> Option<Name> {
        let mut name = sys::Name::EMPTY;
        // SAFETY: the slot and the name are valid.
        match unsafe { sys::plumtree_wire_next_lost(&mut self.handle.slot, &mut name) } {
            1 => Some(Name(name)),
            _ => None,
        }
    }

    /// Has the node tell news of its next steps, or no more. One that was started tells none: [`active`](WireNode::active)
    /// has its first neighbours. News that were not taken yet stay.
    pub fn tell_news(&mut self, tells: bool) {
        // SAFETY: the slot is valid.
        let answer = unsafe { sys::plumtree_wire_tell_news(&mut self.handle.slot, tells) };
        debug_assert_eq!(answer, 1);
    }

    /// Takes the next news, each change of the active view once and in order; `None` if none wait. They are kept until they
    /// are taken. [`Error::OutOfMemory`]: nothing has changed.
    pub fn next_news(&mut self) -> Result<Option<News>, Error> {
        let mut news = sys::News::EMPTY;
        // SAFETY: the slot and `news` are valid.
        let answer = unsafe { sys::plumtree_wire_next_news(&mut self.handle.slot, &mut news) };
        Ok(is_done(answer)?.then(|| News::of(&news)))
    }

    /// Returns how much the node has.
    pub fn counts(&mut self) -> WireCounts {
        let mut counts = sys::WireCounts::default();
        // SAFETY: the slot and `counts` are valid.
        let answer = unsafe { sys::plumtree_wire_counts_of(&mut self.handle.slot, &mut counts) };
        debug_assert_eq!(answer, 1);
        WireCounts {
            held: counts.held,
            missing: counts.missing,
            wants: counts.wants,
            queued: counts.queued,
            ticks: counts.ticks,
        }
    }
}

impl std::fmt::Debug for WireNode {
    fn fmt(&self, f: &mut std::fmt::Formatter<'_>) -> std::fmt::Result {
        f.debug_struct("WireNode").finish_non_exhaustive()
    }
}
