//! A node's room, and what nodes of both kinds can be asked.
use crate::error::Error;
use crate::name::Name;
use crate::sys::{self, Slot};

/// A node's room, and room for what comes out of it.
pub(crate) struct Handle {
    pub(crate) slot: Slot,
    room: Vec<u8>,
}

// SAFETY: nothing that a node holds is bound to a thread: the library proves that its handle may be sent to another, and
// a call takes the node by `&mut`, so two never overlap.
unsafe impl Send for Handle {}

/// The answer that asks for a larger room.
pub(crate) const ROOM_TOO_SMALL: i32 = -6;

/// Returns what an answer says: whether the call was done, or why it was refused.
pub(crate) fn is_done(answer: i32) -> Result<bool, Error> {
    match answer {
        0 | 1 => Ok(answer == 1),
        _ => Err(Error::of(answer)),
    }
}

impl Handle {
    /// The room of no node.
    pub(crate) fn empty() -> Handle {
        Handle {
            slot: Slot::EMPTY,
            room: Vec::new(),
        }
    }

    /// Makes a call that writes into the room, once more with the size that it asks for. Returns how many bytes it wrote.
    pub(crate) fn in_room<F>(&mut self, mut call: F) -> Result<Option<Vec<u8>>, Error>
    where
        F: FnMut(*mut Slot, *mut u8, usize, *mut usize) -> i32,
    {
        let mut length = 0;
        let mut answer = call(
            &mut self.slot,
            self.room.as_mut_ptr(),
            self.room.len(),
            &mut length,
        );
        if answer == ROOM_TOO_SMALL {
            self.room.resize(length, 0);
            answer = call(
                &mut self.slot,
                self.room.as_mut_ptr(),
                self.room.len(),
                &mut length,
            );
        }
        Ok(match is_done(answer)? {
            true => Some(self.room.get(..length).unwrap_or(&[]).to_vec()),
            false => None,
        })
    }

    /// Reads names by a call that writes at most 80 of them.
    pub(crate) fn names(&mut self, call: sys::ReadNames) -> Vec<Name> {
        let (mut room, mut length) = ([sys::Name::EMPTY; 80], 0);
        // SAFETY: the slot is valid, and the room has as many names as is said.
        let answer = unsafe { call(&mut self.slot, room.as_mut_ptr(), room.len(), &mut length) };
        debug_assert_eq!(answer, 1);
        room.iter().take(length).map(|name| Name(*name)).collect()
    }
}

impl Drop for Handle {
    fn drop(&mut self) {
        // SAFETY: the slot is valid, and freed once.
        unsafe { sys::plumtree_free(&mut self.slot) };
    }
}

/// Writes what a node of either kind can be asked.
macro_rules! readers {
    ($node:ident) => {
        impl $node {
            /// Returns the names that the node keeps links to.
            pub fn active(&mut self) -> Vec<crate::Name> {
                self.handle.names(crate::sys::plumtree_active)
            }

            /// Returns the names that may take the place of active ones.
            pub fn passive(&mut self) -> Vec<crate::Name> {
                self.handle.names(crate::sys::plumtree_passive)
            }

            /// Returns the peers to which messages go whole.
            pub fn eager(&mut self) -> Vec<crate::Name> {
                self.handle.names(crate::sys::plumtree_eager)
            }

            /// Returns the peers to which messages are announced.
            pub fn lazy(&mut self) -> Vec<crate::Name> {
                self.handle.names(crate::sys::plumtree_lazy)
            }

            /// Returns whether the node has delivered this message.
            pub fn knows(&mut self, id: &crate::MsgId) -> bool {
                // SAFETY: the slot and the id are valid.
                unsafe { crate::sys::plumtree_knows(&mut self.handle.slot, &id.to_sys()) == 1 }
            }

            /// Returns the messages that the node lacks and may ask for, in the order in which it heard of them.
            pub fn missing(&mut self) -> Vec<crate::MsgId> {
                let mut found = Vec::new();
                let mut id = crate::sys::Id::EMPTY;
                // SAFETY: the slot and `id` are valid.
                while unsafe {
                    crate::sys::plumtree_timer(&mut self.handle.slot, found.len(), &mut id)
                } == 1
                {
                    found.push(crate::MsgId::of(&id));
                }
                found
            }
        }
    };
}
pub(crate) use readers;
