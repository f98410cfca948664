//! Why a call of the library is refused.
use std::fmt;

/// Why a call is refused.
#[derive(Clone, Copy, Debug, PartialEq, Eq, Hash)]
#[non_exhaustive]
pub enum Refusal {
    /// Memory was refused, or a store has 536,870,912 entries.
    NoMemory,
    /// The history is full of what is open.
    Full,
    /// The node is closed.
    Gone,
    /// The node or hub does not take this call, or has no such place.
    WrongKind,
    /// The place was opened before.
    PlaceTaken,
    /// No item is owed an inner observable.
    NothingOwed,
    /// The node is not a root.
    NotRoot,
    /// There is no such hub.
    NoHub,
    /// A subscriber would stand below a connection of a hub that was not made after its own.
    HubOrder,
    /// The hub is connected.
    Connected,
    /// The hub is not connected.
    NotConnected,
    /// The resource is not held.
    NotHeld,
    /// Something is open below the node.
    HasChild,
    /// There would be too many nodes, hubs or visits of one item.
    TooMany,
    /// The lease is not out.
    NoLease,
    /// A lease of the resource is out.
    Leased,
}

impl Refusal {
    pub(crate) fn unless_done(status: u8) -> Result<(), Refusal> {
        if status == 0 { Ok(()) } else { Err(Refusal::of(status)) }
    }

    pub(crate) fn of(status: u8) -> Refusal {
        use Refusal::*;
        match status {
            4 => NoMemory,
            16 => Full,
            17 => Gone,
            18 => WrongKind,
            19 => PlaceTaken,
            20 => NothingOwed,
            21 => NotRoot,
            22 => NoHub,
            23 => HubOrder,
            24 => Connected,
            25 => NotConnected,
            27 => NotHeld,
            28 => HasChild,
            29 => TooMany,
            30 => NoLease,
            31 => Leased,
            other => unreachable!("the library answers the status {other}"),
        }
    }
}

impl fmt::Display for Refusal {
    fn fmt(&self, out: &mut fmt::Formatter) -> fmt::Result {
        write!(out, "the call is refused: {self:?}")
    }
}

impl std::error::Error for Refusal {}
