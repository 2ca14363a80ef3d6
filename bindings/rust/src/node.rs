//! A state machine.
use crate::config::Config;
use crate::error::Error;
use crate::handle::{is_done, readers, Handle};
use crate::name::{MsgId, Name};
use crate::sys;

/// The random words of a step, from any generator. All zeros are dice too, as for a test that is to be the same each
/// time.
#[derive(Clone, Copy, Debug, Default, PartialEq, Eq)]
pub struct Dice(pub [u64; 16]);

/// What a node takes.
#[derive(Clone, Copy, Debug, PartialEq, Eq)]
pub enum Input<'a> {
    /// [`Node::broadcast`].
    Broadcast(&'a [u8]),
    /// [`Node::receive`], of all whole frames at the front of the bytes.
    Bytes(&'a [u8], &'a Dice),
    /// [`Node::flush`].
    Flush,
    /// [`Node::fire`].
    Fire(&'a MsgId),
    /// [`Node::shuffle`].
    Shuffle(&'a Dice),
    /// [`Node::tick`].
    Tick(&'a Dice),
    /// [`Node::link_down`].
    LinkDown(&'a Name, &'a Dice),
    /// [`Node::join`].
    Join(&'a Name),
}

/// What a node gives.
#[derive(Clone, Debug, PartialEq, Eq)]
pub enum Output {
    /// A frame that is to be written, whole and behind those before it, to the connection to `to`.
    Send {
        /// The receiver.
        to: Name,
        /// The frame's bytes.
        frame: Vec<u8>,
    },
    /// A message of the group, each once in a run of the node.
    Deliver {
        /// The message's id.
        id: MsgId,
        /// What was broadcast.
        payload: Vec<u8>,
    },
}

/// How much a node has.
#[derive(Clone, Copy, Debug, PartialEq, Eq)]
pub struct Counts {
    /// Messages that it delivered since its start.
    pub known: u64,
    /// Messages whose payloads it holds.
    pub held: u64,
    /// Messages that it lacks and may ask for.
    pub missing: u64,
    /// Announcements of these that came.
    pub wants: u64,
    /// Announcements that wait for a flush.
    pub queued: u64,
    /// Frames that wait for [`Node::poll`].
    pub sends: u64,
    /// Deliveries that wait for [`Node::poll`].
    pub deliveries: u64,
}

/// One node of a group, as a state machine.
pub struct Node {
    handle: Handle,
}

readers!(Node);

impl Node {
    /// Starts a node. [`Error::BadLimits`], [`Error::BadPeers`], [`Error::OutOfMemory`].
    pub fn start(config: &Config) -> Result<Node, Error> {
        let (name, limits, peers, contact) = config.parts();
        let mut handle = Handle::empty();
        // SAFETY: the slot is empty, and each pointer has as many items as is said.
        is_done(unsafe {
            sys::plumtree_start(
                &mut handle.slot,
                name.as_ptr(),
                name.len(),
                config.incarnation,
                &limits,
                peers.as_ptr(),
                peers.len(),
                contact.as_ptr(),
                contact.len(),
            )
        })?;
        Ok(Node { handle })
    }

    /// Takes an input. What it has to send and to deliver then waits for [`Node::poll`]. Returns how many of the bytes of
    /// [`Input::Bytes`] were taken, and else 0. The caller keeps the others, in front of what comes next.
    pub fn step(&mut self, input: Input<'_>) -> Result<usize, Error> {
        match input {
            Input::Broadcast(payload) => self.broadcast(payload).map(|_| 0),
            Input::Bytes(bytes, dice) => self.receive(bytes, dice),
            Input::Flush => self.flush().map(|()| 0),
            Input::Fire(id) => self.fire(id).map(|_| 0),
            Input::Shuffle(dice) => self.shuffle(dice).map(|()| 0),
            Input::Tick(dice) => self.tick(dice).map(|()| 0),
            Input::LinkDown(peer, dice) => self.link_down(peer, dice).map(|()| 0),
            Input::Join(contact) => self.join(contact).map(|()| 0),
        }
    }

    /// Broadcasts a message of at most [`PAYLOAD_MAX`](crate::PAYLOAD_MAX) bytes, and returns its number. The node
    /// delivers it to its own caller too.
    pub fn broadcast(&mut self, payload: &[u8]) -> Result<u64, Error> {
        let mut number = 0;
        // SAFETY: the payload has as many bytes as is said.
        is_done(unsafe {
            sys::plumtree_broadcast(
                &mut self.handle.slot,
                payload.as_ptr(),
                payload.len(),
                &mut number,
            )
        })?;
        Ok(number)
    }

    /// Takes one frame off the front of the bytes. Returns how many bytes it has, or 0 if it is not whole.
    fn receive_one(&mut self, bytes: &[u8], dice: &Dice) -> Result<usize, Error> {
        let mut taken = 0;
        // SAFETY: there are as many bytes as is said, and sixteen words.
        is_done(unsafe {
            sys::plumtree_receive(
                &mut self.handle.slot,
                bytes.as_ptr(),
                bytes.len(),
                &dice.0,
                &mut taken,
            )
        })?;
        Ok(taken)
    }

    /// Takes all whole frames at the front of the bytes that a connection brought, and returns how many bytes these
    /// have. The caller keeps the others, in front of what comes next. An error is of the first frame; one of a frame
    /// behind it ends the call with what was taken, and the next call says it. After [`Error::BadFrame`] the connection
    /// is of no more use.
    pub fn receive(&mut self, bytes: &[u8], dice: &Dice) -> Result<usize, Error> {
        let mut taken = 0;
        loop {
            match self.receive_one(bytes.get(taken..).unwrap_or(&[]), dice) {
                Ok(0) => return Ok(taken),
                Ok(more) => taken += more,
                Err(error) if taken == 0 => return Err(error),
                Err(_) => return Ok(taken),
            }
        }
    }

    /// Makes a tick: sends queued announcements, lets each armed timer fire, and at every tenth tick shuffles.
    pub fn tick(&mut self, dice: &Dice) -> Result<(), Error> {
        // SAFETY: the slot is valid, and there are sixteen words.
        is_done(unsafe { sys::plumtree_tick(&mut self.handle.slot, &dice.0) }).map(drop)
    }

    /// Sends the announcements that are queued.
    pub fn flush(&mut self) -> Result<(), Error> {
        // SAFETY: the slot is valid.
        is_done(unsafe { sys::plumtree_flush(&mut self.handle.slot) }).map(drop)
    }

    /// Lets the timer of a missing message fire: the node asks the first who announced it. Returns whether it is armed.
    pub fn fire(&mut self, id: &MsgId) -> Result<bool, Error> {
        // SAFETY: the slot and the id are valid.
        is_done(unsafe { sys::plumtree_fire(&mut self.handle.slot, &id.to_sys()) })
    }

    /// Exchanges names of the passive view with some other node.
    pub fn shuffle(&mut self, dice: &Dice) -> Result<(), Error> {
        // SAFETY: the slot is valid, and there are sixteen words.
        is_done(unsafe { sys::plumtree_shuffle(&mut self.handle.slot, &dice.0) }).map(drop)
    }

    /// Tells the node that its connection to this peer failed, or could not be made.
    pub fn link_down(&mut self, peer: &Name, dice: &Dice) -> Result<(), Error> {
        let name = peer.as_bytes();
        // SAFETY: the name has as many bytes as is said, and there are sixteen words.
        is_done(unsafe {
            sys::plumtree_link_down(&mut self.handle.slot, name.as_ptr(), name.len(), &dice.0)
        })
        .map(drop)
    }

    /// Has the node join by this contact, a node that runs, as at its start. It is for a node without active names, since
    /// all its links failed, and may be called again, with another contact each time. A contact that is the node itself or
    /// an active name changes nothing.
    pub fn join(&mut self, contact: &Name) -> Result<(), Error> {
        let name = contact.as_bytes();
        // SAFETY: the name has as many bytes as is said.
        is_done(unsafe { sys::plumtree_join(&mut self.handle.slot, name.as_ptr(), name.len()) })
            .map(drop)
    }

    /// Takes what the node gives next, deliveries first; `None` if nothing waits.
    pub fn poll(&mut self) -> Result<Option<Output>, Error> {
        if let Some(delivery) = self.next_delivery()? {
            return Ok(Some(delivery));
        }
        self.next_send()
    }

    /// Takes the first frame that waits.
    fn next_send(&mut self) -> Result<Option<Output>, Error> {
        let mut to = sys::Name::EMPTY;
        // SAFETY: `in_room` passes a room of as many bytes as it says.
        let frame = self.handle.in_room(|slot, room, size, length| unsafe {
            sys::plumtree_next_send(slot, &mut to, room, size, length)
        })?;
        Ok(frame.map(|frame| Output::Send {
            to: Name(to),
            frame,
        }))
    }

    /// Takes the first delivery that waits.
    fn next_delivery(&mut self) -> Result<Option<Output>, Error> {
        let mut id = sys::Id::EMPTY;
        // SAFETY: `in_room` passes a room of as many bytes as it says.
        let payload = self.handle.in_room(|slot, room, size, length| unsafe {
            sys::plumtree_next_delivery(slot, &mut id, room, size, length)
        })?;
        Ok(payload.map(|payload| Output::Deliver {
            id: MsgId::of(&id),
            payload,
        }))
    }

    /// Returns how much the node has.
    pub fn counts(&mut self) -> Counts {
        let mut counts = sys::Counts::default();
        // SAFETY: the slot and `counts` are valid.
        let answer = unsafe { sys::plumtree_counts_of(&mut self.handle.slot, &mut counts) };
        debug_assert_eq!(answer, 1);
        Counts {
            known: counts.known,
            held: counts.held,
            missing: counts.missing,
            wants: counts.wants,
            queued: counts.queued,
            sends: counts.sends,
            deliveries: counts.deliveries,
        }
    }
}

impl std::fmt::Debug for Node {
    fn fmt(&self, f: &mut std::fmt::Formatter<'_>) -> std::fmt::Result {
        f.debug_struct("Node").finish_non_exhaustive()
    }
}
