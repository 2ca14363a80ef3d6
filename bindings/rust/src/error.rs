//! Why a call was refused.
use crate::sys;
use std::fmt;

/// Why a call was refused. The node is then as it was, but for ticks, which may have made some of their steps, and
/// [`WireNode::receive`](crate::WireNode::receive), which ends the connection.
#[derive(Clone, Copy, Debug, PartialEq, Eq)]
#[non_exhaustive]
pub enum Error {
    /// An allocation was refused. The same call may succeed later.
    OutOfMemory,
    /// A payload has more than [`PAYLOAD_MAX`](crate::PAYLOAD_MAX) bytes.
    PayloadTooLong,
    /// This incarnation has used up its numbers of messages or of frames.
    NumbersSpent,
    /// A name is not 1 to 32 bytes of `a` to `z`, `0` to `9` and `-`.
    BadName,
    /// A limit is out of range, or two do not fit together.
    BadLimits,
    /// There are more peers than the active view has places, one is there twice, or one is the node itself.
    BadPeers,
    /// The bytes are no frame. The connection that brought them is of no more use.
    BadFrame(BadFrame),
    /// The node has no such connection: it has ended before.
    NoConnection,
    /// An answer that this version of the crate does not know.
    Unknown(i32),
}

/// What is wrong with the bytes of a frame.
#[derive(Clone, Copy, Debug, PartialEq, Eq)]
pub struct BadFrame(i32);

/// Returns the library's words for an answer.
fn words(answer: i32) -> String {
    let (mut room, mut length) = ([0u8; 128], 0);
    // SAFETY: the room has as many bytes as is said, and `length` is valid.
    let done = unsafe { sys::plumtree_words(answer, room.as_mut_ptr(), room.len(), &mut length) };
    match room.get(..length) {
        Some(text) if done == 1 => String::from_utf8_lossy(text).into_owned(),
        _ => format!("answer {answer}"),
    }
}

impl Error {
    /// Returns the error that an answer below 0 says.
    pub(crate) fn of(answer: i32) -> Error {
        match answer {
            -5 => Error::OutOfMemory,
            -7 => Error::PayloadTooLong,
            -8 => Error::NumbersSpent,
            -9 => Error::BadName,
            -10 => Error::BadLimits,
            -11 => Error::BadPeers,
            -18..=-12 => Error::BadFrame(BadFrame(answer)),
            -19 => Error::NoConnection,
            other => Error::Unknown(other),
        }
    }

    /// Returns the library's answer for the error.
    fn answer(self) -> i32 {
        match self {
            Error::OutOfMemory => -5,
            Error::PayloadTooLong => -7,
            Error::NumbersSpent => -8,
            Error::BadName => -9,
            Error::BadLimits => -10,
            Error::BadPeers => -11,
            Error::NoConnection => -19,
            Error::BadFrame(BadFrame(answer)) | Error::Unknown(answer) => answer,
        }
    }
}

impl fmt::Display for Error {
    fn fmt(&self, f: &mut fmt::Formatter<'_>) -> fmt::Result {
        f.write_str(&words(self.answer()))
    }
}

impl fmt::Display for BadFrame {
    fn fmt(&self, f: &mut fmt::Formatter<'_>) -> fmt::Result {
        f.write_str(&words(self.0))
    }
}

impl std::error::Error for Error {}
