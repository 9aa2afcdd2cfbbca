//! Why a call was refused.

use core::fmt;

/// Why a call was refused. A refused call changed nothing: no byte of the arena, and no word of a table.
///
/// Shown by `{}`, a refusal says what it means and what to do; shown by `{:?}`, also its name and number.
#[derive(Clone, Copy, PartialEq, Eq, PartialOrd, Ord, Hash)]
pub enum Refusal {
    /// 1: no free block is sure to be large enough.
    NoList = 1,
    /// 2: a size or an alignment is out of range, or the alignment doesn't suit the payload or the arena.
    OutOfRange = 2,
    /// 3: no live payload starts there.
    NotLive = 3,
    /// 4: the region can't be given.
    BadRegion = 4,
    /// 5: the heap's own records contradict each other.
    Damaged = 5,
    /// 6: a lent table is too short.
    TooShort = 6,
}

impl Refusal {
    /// All refusals, in the order of their numbers.
    pub const ALL: [Refusal; 6] = [
        Refusal::NoList,
        Refusal::OutOfRange,
        Refusal::NotLive,
        Refusal::BadRegion,
        Refusal::Damaged,
        Refusal::TooShort,
    ];

    /// Its number, from 1 to 6, as C sees it.
    pub const fn number(self) -> u64 {
        self as u64
    }

    /// The refusal that an answer is, if it is one.
    #[inline]
    pub const fn of(answer: u64) -> Option<Refusal> {
        match answer {
            1 => Some(Refusal::NoList),
            2 => Some(Refusal::OutOfRange),
            3 => Some(Refusal::NotLive),
            4 => Some(Refusal::BadRegion),
            5 => Some(Refusal::Damaged),
            6 => Some(Refusal::TooShort),
            _ => None,
        }
    }

    const fn name(self) -> &'static str {
        match self {
            Refusal::NoList => "NoList",
            Refusal::OutOfRange => "OutOfRange",
            Refusal::NotLive => "NotLive",
            Refusal::BadRegion => "BadRegion",
            Refusal::Damaged => "Damaged",
            Refusal::TooShort => "TooShort",
        }
    }

    const fn text(self) -> &'static str {
        match self {
            Refusal::NoList => {
                "no free block is sure to be large enough: return something, ask for less, or give the heap another region"
            }
            Refusal::OutOfRange => {
                "a size or an alignment is out of range: an alignment is a power of two up to 4,096, divides the \
                 payload's offset and the arena's address, and is below 32 where that of the take was"
            }
            Refusal::NotLive => {
                "no live payload starts there: it was never handed out, or was returned before; look who returns it twice"
            }
            Refusal::BadRegion => {
                "the region can't be given: it has fewer than 64 bytes, is not inside the arena, overlaps one that was \
                 given, or doesn't begin where another ended"
            }
            Refusal::Damaged => {
                "the heap's records contradict each other: something wrote outside its payload; make the heap anew, and \
                 look who wrote behind or before a payload"
            }
            Refusal::TooShort => {
                "a table is too short: see lists_length, live_length and regions_length; for a region, the table of the \
                 regions is full"
            }
        }
    }
}

impl fmt::Display for Refusal {
    fn fmt(&self, f: &mut fmt::Formatter<'_>) -> fmt::Result {
        f.write_str(self.text())
    }
}

impl fmt::Debug for Refusal {
    fn fmt(&self, f: &mut fmt::Formatter<'_>) -> fmt::Result {
        write!(f, "{} ({}: {})", self.name(), self.number(), self.text())
    }
}

impl core::error::Error for Refusal {}
