//! The refusals of documents 01 and 02 that a list, a question or a removal can meet.
//!
//! 21, 25 and 37 are missing: they speak of what is lent, and stand before the calls in [`crate::lent`]. So is 32, which
//! speaks of a quote.

/// A refusal under its number, where its condition stands.
#[derive(Clone, Copy, Debug, PartialEq, Eq, PartialOrd, Ord)]
pub enum Refusal {
    NoMark = 1,
    Version = 2,
    Cut = 3,
    UnknownKind = 4,
    NotLanded = 5,
    SameFitting = 6,
    Length = 7,
    NoCoupling = 8,
    TooShort = 9,
    FullFittings = 22,
    FullPipes = 23,
    Volume = 31,
    Beyond = 33,
    OverLimit = 36,
    NotRemovable = 38,
    Ended = 39,
}

impl Refusal {
    pub fn number(self) -> i32 {
        self as i32
    }
}
