//! Sizes: rounding, the list of a size, where a search for it starts, and where a payload stands in its block.

use crate::Refusal;

/// Blocks start at multiples of a grain and are whole grains long.
pub const GRAIN: usize = 32;

/// A header in use: the bytes before a payload of the small kind.
pub const HEADER: usize = 16;

/// The largest alignment that is granted.
pub const LARGEST_ALIGNMENT: usize = 4096;

/// Second-level classes of each first-level class, and all lists.
pub const WIDTH: usize = 16;
pub const LISTS: usize = 12 * WIDTH;

/// The least size of a region, and the largest part of it that is one piece: a free block and its sentinel.
pub const LEAST_PIECE: usize = 2 * GRAIN;
pub const LARGEST_PIECE: usize = GRAIN << 12;

pub fn round_up(n: usize, unit: usize) -> usize {
    n.div_ceil(unit) * unit
}

pub fn round_down(n: usize, unit: usize) -> usize {
    n / unit * unit
}

/// The list of a free block of this size, 16 * fl + sl. It may be no list: 192 or more.
fn class(size: usize) -> usize {
    let log = size.ilog2();
    let fl = log as usize - 5;
    let sl = size >> (log - 4) & (WIDTH - 1);
    WIDTH * fl + sl
}

/// The list of a free block.
pub fn list_of(size: usize) -> usize {
    let list = class(size);
    assert!(list < LISTS, "no block has {size} bytes");
    list
}

/// The first list all of whose blocks have at least this size; none where there is none.
pub fn search_from(size: usize) -> Option<usize> {
    let below_the_four = size.ilog2() - 4;
    let exact = size % (1 << below_the_four) == 0;
    let start = if exact { class(size) } else { class(size) + 1 };
    (start < LISTS).then_some(start)
}

/// What a take looks for: enough for payload and padding wherever the block stands.
pub fn looked_for(size: usize, align: usize) -> Result<usize, Refusal> {
    let sum = size as u128 + HEADER as u128 + align.saturating_sub(HEADER) as u128;
    let rounded = sum.div_ceil(GRAIN as u128) * GRAIN as u128;
    usize::try_from(rounded).map_err(|_| Refusal::OutOfRange)
}

/// Where a payload of this alignment stands in a block that begins at `block`.
pub fn payload_in(block: usize, align: usize) -> usize {
    round_up(block + HEADER, align.max(HEADER))
}

/// The bytes that a block at `block` needs for this many bytes at `payload`. More than 2^64 is more than any block has.
pub fn needed(block: usize, payload: usize, size: usize) -> usize {
    let last = usize::MAX - GRAIN;
    let sum = (payload - block).checked_add(size).filter(|&n| n <= last);
    sum.map_or(usize::MAX, |n| round_up(n, GRAIN))
}

/// Whether the alignment is a power of two in range.
pub fn is_alignment(align: usize) -> bool {
    align.is_power_of_two() && align <= LARGEST_ALIGNMENT
}

/// Alignments of less than a grain are of the small kind.
pub fn is_small(align: usize) -> bool {
    align < GRAIN
}
