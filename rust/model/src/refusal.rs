//! Why a call was not granted.

use std::fmt;

/// A refusal. Its number is what the compiled heap answers.
#[derive(Clone, Copy, Debug, PartialEq, Eq)]
pub enum Refusal {
    /// No list from the search's start on has a block.
    NoList = 1,
    /// A size or an alignment is out of range, or an alignment doesn't suit its payload.
    OutOfRange = 2,
    /// No live payload is there.
    NotLive = 3,
    /// A region is too small, outside the arena, over another, or not behind one.
    Misplaced = 4,
    /// A lent table is too short.
    TooShort = 6,
}

impl Refusal {
    pub fn number(self) -> u64 {
        self as u64
    }
}

impl fmt::Display for Refusal {
    fn fmt(&self, out: &mut fmt::Formatter) -> fmt::Result {
        let words = match self {
            Refusal::NoList => "no list has a block for it",
            Refusal::OutOfRange => "a size or an alignment is out of range",
            Refusal::NotLive => "no live payload is there",
            Refusal::Misplaced => "the region can't be given",
            Refusal::TooShort => "a table is too short",
        };
        write!(out, "{}: {}", self.number(), words)
    }
}
