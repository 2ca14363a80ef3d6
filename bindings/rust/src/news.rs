//! News of a node's neighbours.
use crate::name::Name;
use crate::sys;

/// Why a neighbour went.
#[derive(Clone, Copy, Debug, PartialEq, Eq, Hash)]
pub enum Parting {
    /// It said so, by a DISCONNECT or a NEIGHBORREPLY that refuses.
    Left,
    /// The link to it failed.
    Failed,
    /// It was dropped for another name.
    Displaced,
}

/// What changed in the active view of a node.
#[derive(Clone, Copy, Debug, PartialEq, Eq, Hash)]
pub enum News {
    /// This name is a neighbour now.
    NeighborUp(Name),
    /// This name is a neighbour no longer.
    NeighborDown {
        /// The name.
        name: Name,
        /// Why it went.
        why: Parting,
    },
    /// The last neighbour went.
    Isolated,
    /// There was no neighbour, and now there is one.
    Joined,
}

impl Parting {
    fn of(number: u8) -> Parting {
        match number {
            1 => Parting::Left,
            2 => Parting::Failed,
            _ => Parting::Displaced,
        }
    }
}

impl News {
    pub(crate) fn of(news: &sys::News) -> News {
        let name = Name(news.name);
        match news.kind {
            1 => News::NeighborUp(name),
            2 => News::NeighborDown {
                name,
                why: Parting::of(news.why),
            },
            3 => News::Isolated,
            _ => News::Joined,
        }
    }
}
