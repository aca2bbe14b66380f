//! Why a call is refused.

use std::error::Error;
use std::fmt;

/// The numbers that a call answers with, but for 0, "accepted". A refused call
/// has altered nothing, except a list of readings that took some before it
/// stopped: those stand.
#[derive(Clone, Copy, Debug, PartialEq, Eq, PartialOrd, Ord)]
#[repr(u8)]
pub enum Refusal {
    Layout = 1,
    Counts = 2,
    Names = 3,
    Datainfo = 4,
    InitialValue = 5,
    Report = 6,
    Outbox = 7,
    Values = 8,
    State = 9,
    Time = 10,
    ClientNumber = 11,
    NotOpen = 12,
    AlreadyOpen = 13,
    NoSuchParameter = 14,
    Reading = 15,
    UnknownError = 16,
    List = 17,
    Index = 18,
}

const ALL: [(Refusal, &str); 18] = [
    (Refusal::Layout, "the table is too long or can't be read"),
    (
        Refusal::Counts,
        "the table has too few or too many modules or accessibles",
    ),
    (
        Refusal::Names,
        "a name in the table is bad or repeated, or a text is bad",
    ),
    (
        Refusal::Datainfo,
        "a datainfo in the table breaks its own rules",
    ),
    (
        Refusal::InitialValue,
        "an initial value in the table is not one that could be stored",
    ),
    (Refusal::Report, "the structure report is too long"),
    (Refusal::Outbox, "the outbox is under 32,768 bytes"),
    (Refusal::Values, "the values area is under 16,384 bytes"),
    (
        Refusal::State,
        "the state is unfit for the table and the values area",
    ),
    (Refusal::Time, "the time is above its limit"),
    (Refusal::ClientNumber, "there is no client of this number"),
    (Refusal::NotOpen, "the client isn't open"),
    (Refusal::AlreadyOpen, "the client is open already"),
    (
        Refusal::NoSuchParameter,
        "there is no parameter of this number",
    ),
    (
        Refusal::Reading,
        "the reading's value is refused by the value rules",
    ),
    (Refusal::UnknownError, "there is no error of this number"),
    (Refusal::List, "the list has more than nine readings"),
    (Refusal::Index, "the index is under 128 bytes"),
];

impl Refusal {
    pub fn number(self) -> u8 {
        self as u8
    }

    /// What a number stands for: `Ok` for 0.
    pub(crate) fn judge(number: u8) -> Result<(), Refusal> {
        match number {
            0 => Ok(()),
            _ => Err(Refusal::entry(number).0),
        }
    }

    fn entry(number: u8) -> (Refusal, &'static str) {
        let mut all = ALL.into_iter();
        all.find(|(refusal, _)| refusal.number() == number)
            .expect("a number that calls answer with")
    }
}

impl fmt::Display for Refusal {
    fn fmt(&self, f: &mut fmt::Formatter) -> fmt::Result {
        let number = self.number();
        let (_, text) = Refusal::entry(number);
        write!(f, "{text} (number {number})")
    }
}

impl Error for Refusal {}

#[cfg(test)]
mod tests {
    use super::*;

    #[test]
    fn each_number_has_its_refusal() {
        assert_eq!(Refusal::judge(0), Ok(()));
        let numbers: Vec<u8> = ALL.iter().map(|(refusal, _)| refusal.number()).collect();
        assert_eq!(numbers, (1..=18).collect::<Vec<u8>>());
        for (refusal, _) in &ALL {
            assert_eq!(Refusal::judge(refusal.number()), Err(*refusal));
        }
    }
}
