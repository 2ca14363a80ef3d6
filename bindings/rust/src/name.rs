//! Names of nodes and ids of messages.
use crate::error::Error;
use crate::sys;
use std::fmt;
use std::str::FromStr;

/// The name of a node: 1 to 32 bytes of `a` to `z`, `0` to `9` and `-`.
#[derive(Clone, Copy)]
pub struct Name(pub(crate) sys::Name);

impl Name {
    /// Makes a name of this text. [`Error::BadName`]: it is not one.
    pub fn new(text: &str) -> Result<Name, Error> {
        let mut name = sys::Name::EMPTY;
        // SAFETY: the text has as many bytes as is said, and `name` is valid.
        match unsafe { sys::plumtree_name_of(text.as_ptr(), text.len(), &mut name) } {
            1 => Ok(Name(name)),
            answer => Err(Error::of(answer)),
        }
    }

    /// Returns the name's bytes.
    pub fn as_bytes(&self) -> &[u8] {
        self.0.text.get(..usize::from(self.0.length)).unwrap_or(&[])
    }

    /// Returns the name as text.
    pub fn as_str(&self) -> &str {
        std::str::from_utf8(self.as_bytes()).unwrap_or("")
    }
}

impl FromStr for Name {
    type Err = Error;

    fn from_str(text: &str) -> Result<Name, Error> {
        Name::new(text)
    }
}

impl PartialEq for Name {
    fn eq(&self, other: &Name) -> bool {
        self.as_bytes() == other.as_bytes()
    }
}

impl Eq for Name {}

impl PartialOrd for Name {
    fn partial_cmp(&self, other: &Name) -> Option<std::cmp::Ordering> {
        Some(self.cmp(other))
    }
}

impl Ord for Name {
    fn cmp(&self, other: &Name) -> std::cmp::Ordering {
        self.as_bytes().cmp(other.as_bytes())
    }
}

impl std::hash::Hash for Name {
    fn hash<H: std::hash::Hasher>(&self, state: &mut H) {
        self.as_bytes().hash(state);
    }
}

impl fmt::Debug for Name {
    fn fmt(&self, f: &mut fmt::Formatter<'_>) -> fmt::Result {
        write!(f, "{:?}", self.as_str())
    }
}

impl fmt::Display for Name {
    fn fmt(&self, f: &mut fmt::Formatter<'_>) -> fmt::Result {
        f.write_str(self.as_str())
    }
}

/// The id of a message: the run of a node that broadcast it, and its number among the messages of that run.
#[derive(Clone, Copy, Debug, PartialEq, Eq, Hash, PartialOrd, Ord)]
pub struct MsgId {
    /// The name of the node that broadcast the message.
    pub name: Name,
    /// Its incarnation then.
    pub incarnation: u64,
    /// The number of the message, from 1.
    pub number: u64,
}

impl MsgId {
    pub(crate) fn of(id: &sys::Id) -> MsgId {
        MsgId {
            name: Name(id.name),
            incarnation: id.incarnation,
            number: id.number,
        }
    }

    pub(crate) fn to_sys(self) -> sys::Id {
        sys::Id {
            name: self.name.0,
            incarnation: self.incarnation,
            number: self.number,
        }
    }
}

impl fmt::Display for MsgId {
    fn fmt(&self, f: &mut fmt::Formatter<'_>) -> fmt::Result {
        write!(f, "{}/{}/{}", self.name, self.incarnation, self.number)
    }
}
