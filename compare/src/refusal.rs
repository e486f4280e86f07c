//! The refusals of document 01: a number and a place.

/// Why a sheet, a step or a ring is refused; each reason's value is its number in document 01.
#[derive(Clone, Copy, Debug, PartialEq, Eq)]
pub enum Reason {
    EndsEarly = 1,
    WrongByte = 2,
    OutsideLimits = 3,
    DuplicateModule = 4,
    MarksNotAscending = 5,
    WrongMark = 6,
    BytesAfter = 7,
    NoRoom = 8,
    TimeIsUp = 9,
    NotARing = 10,
}

/// A refusal: its reason, and the place that document 01 gives for it.
#[derive(Clone, Copy, Debug, PartialEq, Eq)]
pub struct Refused {
    pub reason: Reason,
    pub place: usize,
}

impl Reason {
    /// The refusal for this reason at a place.
    pub fn at(self, place: usize) -> Refused {
        Refused { reason: self, place }
    }

    /// The reason's number in document 01.
    pub fn number(self) -> u32 {
        self as u32
    }
}
