//! Calls as they are drawn, and as they are made.

use model::Lent;
use std::fmt;

/// A call with its numbers.
#[derive(Clone, Copy, Debug, PartialEq, Eq)]
pub enum Call {
    Insert { start: usize, len: usize },
    Append { start: usize, len: usize },
    Allocate { size: usize, align: usize },
    Deallocate { payload: usize, align: usize },
    Reallocate { payload: usize, size: usize, align: usize },
}

/// A call as it is drawn. Live payloads are named by their take, so that it means the same where calls before it are left
/// out and offsets change.
#[derive(Clone, Copy, Debug, PartialEq, Eq)]
pub enum Asked {
    Insert { start: usize, len: usize },
    Append { start: usize, len: usize },
    Allocate { name: usize, size: usize, align: usize },
    Deallocate { whose: Whose, align: usize },
    Reallocate { whose: Whose, size: usize, align: usize },
}

/// A live payload, by the name that its take gave it; or a number that may be the offset of none.
#[derive(Clone, Copy, Debug, PartialEq, Eq)]
pub enum Whose {
    Name(usize),
    Offset(usize),
}

/// A table that is lent with fewer words, for one call.
#[derive(Clone, Copy, Debug, PartialEq, Eq)]
pub enum Shorter {
    None,
    Lists(usize),
    Live(usize),
    Regions(usize),
}

impl Shorter {
    pub fn of(self, lent: Lent) -> Lent {
        match self {
            Shorter::None => lent,
            Shorter::Lists(lists) => Lent { lists, ..lent },
            Shorter::Live(live) => Lent { live, ..lent },
            Shorter::Regions(regions) => Lent { regions, ..lent },
        }
    }
}

#[derive(Clone, Copy, Debug, PartialEq, Eq)]
pub struct Step {
    pub asked: Asked,
    pub shorter: Shorter,
}

/// All that happens to one heap.
#[derive(Clone, Debug)]
pub struct Script {
    pub lent: Lent,
    /// What the slices hold at first, and where they stand in memory.
    pub seed: u64,
    pub steps: Vec<Step>,
}

impl fmt::Display for Call {
    fn fmt(&self, out: &mut fmt::Formatter) -> fmt::Result {
        match self {
            Call::Insert { start, len } => write!(out, "give {start}, {len}"),
            Call::Append { start, len } => write!(out, "give behind another {start}, {len}"),
            Call::Allocate { size, align } => write!(out, "take {size}, align {align}"),
            Call::Deallocate { payload, align } => write!(out, "return {payload}, align {align}"),
            Call::Reallocate { payload, size, align } => write!(out, "resize {payload} to {size}, align {align}"),
        }
    }
}
