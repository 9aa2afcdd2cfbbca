//! A call with its arguments; and the refusals that are due whatever the headers in the arena say, from the table in
//! docs/DECISIONS.md.

use firmheap::{lists_length, live_length};

use crate::slices::{Lengths, Slices};
use crate::words::{start_of, GRAIN, HALF, LISTS};

#[derive(Clone, Copy, PartialEq, Eq, Debug)]
pub enum Call {
    Init,
    Insert { start: usize, len: usize },
    Append { start: usize, len: usize },
    Take { size: usize, align: usize },
    Return { payload: usize, align: usize },
    Resize { payload: usize, size: usize, align: usize },
}

/// The calls by name, as they are counted.
pub const NAMES: [&str; 6] = ["init", "insert", "append", "take", "return", "resize"];

impl Call {
    /// Its place in [`NAMES`].
    pub fn number(&self) -> usize {
        match self {
            Call::Init => 0,
            Call::Insert { .. } => 1,
            Call::Append { .. } => 2,
            Call::Take { .. } => 3,
            Call::Return { .. } => 4,
            Call::Resize { .. } => 5,
        }
    }
}

/// Something that makes calls: the compiled heap, or in tests of the checks something that does it wrong.
pub type Make = fn(&Call, &Lengths, &mut Slices) -> u64;

/// Makes the call on the compiled heap.
pub fn make(call: &Call, lent: &Lengths, slices: &mut Slices) -> u64 {
    let arena = &mut slices.arena.all_mut()[..lent.arena];
    let lists = &mut slices.lists.all_mut()[..lent.lists];
    let live = &mut slices.live.all_mut()[..lent.live];
    let regions = &mut slices.regions.all_mut()[..lent.regions];
    match *call {
        Call::Init => firmheap::calls::init(arena, lists, live, regions),
        Call::Insert { start, len } => firmheap::calls::insert_free_block(arena, lists, regions, start, len),
        Call::Append { start, len } => firmheap::calls::append_free_block(arena, lists, regions, start, len),
        Call::Take { size, align } => firmheap::calls::allocate(arena, lists, live, size, align),
        Call::Return { payload, align } => firmheap::calls::deallocate(arena, lists, live, payload, align),
        Call::Resize { payload, size, align } => firmheap::calls::reallocate(arena, lists, live, payload, size, align),
    }
}

/// The same, and tells the call before it is made: what is told last is what did not end.
pub fn make_and_tell(call: &Call, lent: &Lengths, slices: &mut Slices) -> u64 {
    println!("{call:?}, lent {lent:?}");
    let answer = make(call, lent, slices);
    println!("    answered {answer}");
    answer
}

/// The refusal that is due by the arguments, the lengths and the tables alone; the rest hangs on the arena's words.
pub fn due(call: &Call, lent: &Lengths, slices: &Slices) -> Option<u64> {
    let short_lists = lent.lists < lists_length();
    let short_live = lent.live < live_length(lent.arena);
    match *call {
        Call::Init => (short_lists || short_live || lent.regions == 0).then_some(6),
        Call::Insert { start, len } => {
            let first = start.div_ceil(GRAIN);
            let end = (start as u128 + len as u128) / GRAIN as u128;
            region_due(lent, slices, first as u128, end, false)
        }
        Call::Append { start, len } => {
            let first = start / GRAIN;
            let grains = if start % GRAIN == 0 { len / GRAIN } else { 0 };
            region_due(lent, slices, first as u128, first as u128 + grains as u128, true)
        }
        Call::Take { size, align } => {
            if short_lists || short_live {
                return Some(6);
            }
            size_due(size, align).or_else(|| no_list(size, align, slices))
        }
        Call::Return { payload, align } => {
            if short_lists || short_live {
                return Some(6);
            }
            payload_due(payload, align, lent, slices)
        }
        Call::Resize { payload, size, align } => {
            if short_lists || short_live {
                return Some(6);
            }
            size_due(size, align).or_else(|| payload_due(payload, align, lent, slices))
        }
    }
}

fn is_alignment(align: usize) -> bool {
    align.is_power_of_two() && align <= 4096
}

/// What a take looks for, in bytes.
fn wanted(size: usize, align: usize) -> u128 {
    (size as u128 + HALF as u128 + align.saturating_sub(HALF) as u128).next_multiple_of(GRAIN as u128)
}

fn size_due(size: usize, align: usize) -> Option<u64> {
    (!is_alignment(align) || wanted(size, align) > u64::MAX as u128).then_some(2)
}

/// A take is refused where no list from the start of its search on is marked.
fn no_list(size: usize, align: usize, slices: &Slices) -> Option<u64> {
    let start = start_of(wanted(size, align) as usize);
    let map = slices.lists.all();
    let marked = (start..LISTS).any(|list| map[list / 64] >> (list % 64) & 1 == 1);
    (!marked).then_some(1)
}

fn payload_due(payload: usize, align: usize, lent: &Lengths, slices: &Slices) -> Option<u64> {
    if !is_alignment(align) || payload % align != 0 {
        return Some(2);
    }
    match payload % GRAIN {
        0 if align < GRAIN => return Some(2),
        0 => {}
        HALF if align >= GRAIN => return Some(2),
        HALF => {}
        _ => return Some(3),
    }
    if lent.arena / GRAIN <= payload / GRAIN {
        return Some(3);
    }
    let half = payload / HALF;
    (slices.live.all()[half / 64] >> (half % 64) & 1 == 0).then_some(3)
}

/// The region from grain `first` to grain `end`.
fn region_due(lent: &Lengths, slices: &Slices, first: u128, end: u128, behind: bool) -> Option<u64> {
    if lent.lists < lists_length() || lent.regions == 0 {
        return Some(6);
    }
    let table = &slices.regions.all()[..lent.regions];
    let (count, most) = (table[0], (lent.regions as u64 - 1) / 2);
    let grains = (lent.arena / GRAIN) as u128;
    if count == most {
        return Some(6);
    }
    if end < first + 2 || end > grains {
        return Some(4);
    }
    if count > most {
        return Some(5);
    }
    let (mut meets, mut wrong) = (false, false);
    for entry in table[1..].chunks_exact(2).take(count as usize) {
        let (from, to) = (entry[0] as u128, entry[1] as u128);
        if to > first && end > from {
            return Some(4);
        }
        meets |= to == first;
        wrong |= to < from + 2 || to > grains;
    }
    if behind && !meets {
        return Some(4);
    }
    wrong.then_some(5)
}
