//! What a node starts with.
use crate::error::Error;
use crate::name::Name;
use crate::sys;

/// The limits of a node. Those of the HyParView paper are the default.
#[derive(Clone, Copy, Debug, PartialEq, Eq)]
pub struct Limits {
    /// Places of the active view, 1 to 16; by default 5.
    pub active: u8,
    /// Places of the passive view, 1 to 64; by default 30.
    pub passive: u8,
    /// Steps of a walk that brings a new node or a shuffle, at most 32; by default 6.
    pub arwl: u8,
    /// Steps that are left where a new node comes into a passive view, at most `arwl`; by default 3.
    pub prwl: u8,
    /// Active names in a shuffle; by default 3. `ka + kp` is at most 7.
    pub ka: u8,
    /// Passive names in a shuffle; by default 4.
    pub kp: u8,
    /// How many links shorter a way must be to swap a branch for it; 0, the default, for no swaps.
    pub threshold: u32,
    /// How many of the last payloads are kept for peers that ask; 0, the default, for all.
    pub keep: u32,
}

impl Default for Limits {
    fn default() -> Limits {
        let mut sizes = sys::Sizes {
            active: 0,
            passive: 0,
            arwl: 0,
            prwl: 0,
            ka: 0,
            kp: 0,
            threshold: 0,
            keep: 0,
        };
        // SAFETY: `sizes` is valid.
        unsafe { sys::plumtree_limits_default(&mut sizes) };
        Limits {
            active: sizes.active,
            passive: sizes.passive,
            arwl: sizes.arwl,
            prwl: sizes.prwl,
            ka: sizes.ka,
            kp: sizes.kp,
            threshold: sizes.threshold,
            keep: sizes.keep,
        }
    }
}

impl Limits {
    pub(crate) fn to_sys(self) -> sys::Sizes {
        sys::Sizes {
            active: self.active,
            passive: self.passive,
            arwl: self.arwl,
            prwl: self.prwl,
            ka: self.ka,
            kp: self.kp,
            threshold: self.threshold,
            keep: self.keep,
        }
    }
}

/// What a node starts with: its name and incarnation, its limits, and whom it knows.
#[derive(Clone, Debug)]
pub struct Config {
    pub(crate) name: Name,
    pub(crate) incarnation: u64,
    pub(crate) limits: Limits,
    pub(crate) peers: Vec<Name>,
    pub(crate) contact: Option<Name>,
}

impl Config {
    /// A node of this name with the default limits, in incarnation 1, that knows no other.
    pub fn new(name: &str) -> Result<Config, Error> {
        Ok(Config {
            name: Name::new(name)?,
            incarnation: 1,
            limits: Limits::default(),
            peers: Vec::new(),
            contact: None,
        })
    }

    /// Sets the incarnation. It is greater than at each earlier start of a node of this name, as the seconds of a clock
    /// are: where a number comes again, the others take new messages for old ones.
    pub fn incarnation(mut self, incarnation: u64) -> Config {
        self.incarnation = incarnation;
        self
    }

    /// Sets the limits.
    pub fn limits(mut self, limits: Limits) -> Config {
        self.limits = limits;
        self
    }

    /// Adds a first peer, which names this node as its peer too.
    pub fn peer(mut self, name: &str) -> Result<Config, Error> {
        self.peers.push(Name::new(name)?);
        Ok(self)
    }

    /// Sets the node that runs already and to which this one sends that it joins.
    pub fn contact(mut self, name: &str) -> Result<Config, Error> {
        self.contact = Some(Name::new(name)?);
        Ok(self)
    }

    /// The name, the limits, the peers and the contact, as the library takes them.
    pub(crate) fn parts(&self) -> (&[u8], sys::Sizes, Vec<sys::Name>, &[u8]) {
        let contact = self.contact.as_ref().map_or(&[][..], Name::as_bytes);
        let peers = self.peers.iter().map(|name| name.0).collect();
        (self.name.as_bytes(), self.limits.to_sys(), peers, contact)
    }
}
