//! The numbers that calls answer with.

/// The number of an accepted call.
pub const ACCEPTED: u8 = 0;

/// Why a call is refused. Of several faults the first in this order is given,
/// so calls look for them in it; 18 is judged straight after 8, and 17 after
/// it. Number 9 is about a state that somebody else kept; a plain node keeps its
/// own and never gives it.
#[derive(Clone, Copy, Debug, PartialEq, Eq, PartialOrd, Ord)]
pub enum Refusal {
    /// The table is too long or its layout can't be read.
    Layout = 1,
    /// Too few or too many modules, or too many accessibles.
    Counts = 2,
    /// A bad or repeated name, a bad text, or an edition that begins otherwise
    /// than it has to.
    Names = 3,
    /// A datainfo breaks its own rules.
    Datainfo = 4,
    /// An initial value isn't one that could be stored.
    InitialValue = 5,
    /// The structure report is too long.
    Report = 6,
    /// The outbox is too short.
    Outbox = 7,
    /// The values area is too short.
    Values = 8,
    /// The index has less than 128 bytes.
    Index = 18,
    /// A list has more than nine readings.
    List = 17,
    /// The time is above the limit.
    Time = 10,
    /// The client's number is above 7.
    ClientNumber = 11,
    /// The client isn't open.
    NotOpen = 12,
    /// The client is open already.
    AlreadyOpen = 13,
    /// No parameter has this number.
    NoSuchParameter = 14,
    /// The reading's value doesn't fit.
    Reading = 15,
    /// No error class has this number.
    UnknownClass = 16,
}

impl Refusal {
    pub fn number(self) -> u8 {
        self as u8
    }
}

/// Gives the refusal unless the rule holds.
pub fn demand(holds: bool, refusal: Refusal) -> Result<(), Refusal> {
    if holds {
        Ok(())
    } else {
        Err(refusal)
    }
}
