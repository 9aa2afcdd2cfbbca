//! What is overwritten, and by what.

use crate::forge;
use crate::random::Random;
use crate::shape::Shape;
use crate::slices::Slices;
use crate::words::{blocks, put, word, Block, Kind, BEFORE, GRAIN, MAP, NEXT, NONE, PREV, SIZE};

/// What is overwritten.
#[derive(Clone, Copy, PartialEq, Eq, Debug)]
pub enum Target {
    Nothing,
    FreeSize,
    UsedSize,
    LastSize,
    Before,
    Next,
    Prev,
    Pad,
    Overrun,
    Word,
    Byte,
    Head,
    Map,
    Live,
    Count,
    Entry,
    Several,
    Garbage,
    Forged,
    Plausible,
}

/// All of them, with what they are called in the table.
pub const TARGETS: [(Target, &str); 20] = [
    (Target::Nothing, "nothing"),
    (Target::FreeSize, "size of a free block"),
    (Target::UsedSize, "size of a used block"),
    (Target::LastSize, "size of a sentinel"),
    (Target::Before, "link to the block before"),
    (Target::Next, "next of a free block"),
    (Target::Prev, "previous of a free block"),
    (Target::Pad, "pad of a payload"),
    (Target::Overrun, "bytes behind a payload"),
    (Target::Word, "any word of the arena"),
    (Target::Byte, "any byte of the arena"),
    (Target::Head, "head of a list"),
    (Target::Map, "map of the lists"),
    (Target::Live, "live bits"),
    (Target::Count, "count of the regions"),
    (Target::Entry, "entry of a region"),
    (Target::Several, "several of these"),
    (Target::Garbage, "all of a slice"),
    (Target::Forged, "forged blocks"),
    (Target::Plausible, "all words, each plausible"),
];

/// By what a word is overwritten.
#[derive(Clone, Copy, PartialEq, Eq, Debug)]
pub enum Way {
    Random,
    ByOne,
    ByGrain,
    Block,
    Flag,
    Bit,
    None,
    Zero,
    Edge,
}

pub const WAYS: [(Way, &str); 9] = [
    (Way::Random, "a random number"),
    (Way::ByOne, "one more or less"),
    (Way::ByGrain, "32 more or less"),
    (Way::Block, "another block's offset"),
    (Way::Flag, "a flag flipped"),
    (Way::Bit, "a bit flipped"),
    (Way::None, "none (all ones)"),
    (Way::Zero, "zero"),
    (Way::Edge, "the arena's length, or near"),
];

/// A word of the slices.
#[derive(Clone, Copy, PartialEq, Eq, Debug)]
pub enum Place {
    Arena(usize),
    Lists(usize),
    Live(usize),
    Regions(usize),
}

/// What was done: one word, by one way; or more, told in words.
pub struct Strike {
    pub target: Target,
    pub way: Option<Way>,
    /// An offset of the arena that was hit.
    pub near: Option<usize>,
    pub told: String,
}

impl Strike {
    /// Of more than one word.
    pub fn wide(target: Target, near: Option<usize>, told: String) -> Strike {
        Strike {
            target,
            way: None,
            near,
            told,
        }
    }
}

/// Overwrites something of the sound heap. Where there is no word of the kind, nothing is.
pub fn strike(shape: &mut Shape, random: &mut Random) -> Strike {
    let (target, _) = random.one_of(&TARGETS);
    strike_at(shape, target, random)
}

pub fn strike_at(shape: &mut Shape, target: Target, random: &mut Random) -> Strike {
    let found = blocks(&shape.subject.slices);
    match target {
        Target::Nothing => Strike::wide(target, None, "nothing".into()),
        Target::Several => {
            let mut told = Vec::new();
            let mut near = None;
            for _ in 0..random.from_to(2, 5) {
                let (part, _) = random.one_of(&TARGETS[1..16]);
                if let Some(one) = one_word(shape, &found, part, random) {
                    near = one.near.or(near);
                    told.push(one.told);
                }
            }
            Strike::wide(target, near, told.join("; "))
        }
        Target::Garbage => garbage(&mut shape.subject.slices, random),
        Target::Forged => forge::blocks(shape, random),
        Target::Plausible => forge::everything(shape, random),
        _ => one_word(shape, &found, target, random)
            .unwrap_or_else(|| Strike::wide(Target::Nothing, None, format!("nothing: the heap has no {target:?}"))),
    }
}

/// All of one slice.
fn garbage(slices: &mut Slices, random: &mut Random) -> Strike {
    let which = random.below(5);
    let fill = random.one_of(&[None, Some(0), Some(NONE), Some(33)]);
    let value = |random: &mut Random| fill.unwrap_or_else(|| random.any() >> random.below(64));
    if which == 0 || which == 4 {
        let bytes = slices.arena.all_mut();
        for offset in (0..bytes.len().saturating_sub(7)).step_by(8) {
            put(bytes, offset, value(random));
        }
    }
    for (number, table) in [(1, &mut slices.lists), (2, &mut slices.live), (3, &mut slices.regions)] {
        if which == number || which == 4 {
            table.all_mut().iter_mut().for_each(|entry| *entry = value(random));
        }
    }
    let told = format!(
        "{} filled with {fill:?}",
        ["the arena", "the lists", "the live bits", "the regions", "everything"][which]
    );
    Strike::wide(Target::Garbage, None, told)
}

/// One word or some bytes; none where the heap has no such word.
fn one_word(shape: &mut Shape, found: &[Block], target: Target, random: &mut Random) -> Option<Strike> {
    let arena = shape.subject.slices.lengths().arena;
    if target == Target::Overrun {
        return overrun(shape, random);
    }
    if target == Target::Byte {
        let at = random.below(arena);
        let byte = &mut shape.subject.slices.arena.all_mut()[at];
        let old = *byte;
        *byte = random.any() as u8;
        let told = format!("byte {at} of the arena: {old} became {byte}");
        return Some(Strike::wide(target, Some(at), told));
    }
    let place = place_of(shape, found, target, random)?;
    let old = value_at(&shape.subject.slices, place);
    let (way, new) = changed(old, arena, found, target, random);
    set_value(&mut shape.subject.slices, place, new);
    let near = match place {
        Place::Arena(at) => Some(at),
        _ => None,
    };
    Some(Strike {
        target,
        way: Some(way),
        near,
        told: format!("{target:?}, {place:?}: {old} became {new} ({way:?})"),
    })
}

/// A payload's owner writes some bytes behind its end, as many as were asked for.
fn overrun(shape: &mut Shape, random: &mut Random) -> Option<Strike> {
    if shape.live.is_empty() {
        return None;
    }
    let held = random.one_of(&shape.live);
    let end = held.at + held.size;
    let bytes = shape.subject.slices.arena.all_mut();
    let upto = (end + random.from_to(1, 80)).min(bytes.len());
    let fill = random.one_of(&[None, Some(0), Some(0xff), Some(b'A')]);
    for byte in &mut bytes[end..upto] {
        *byte = fill.unwrap_or(random.any() as u8);
    }
    let told = format!(
        "bytes {end} to {upto} of the arena, behind the payload at {}: {fill:?}",
        held.at
    );
    Some(Strike::wide(Target::Overrun, Some(end), told))
}

fn place_of(shape: &Shape, found: &[Block], target: Target, random: &mut Random) -> Option<Place> {
    let lengths = shape.subject.slices.lengths();
    let block = |kind: Kind, random: &mut Random| {
        let these: Vec<usize> = found
            .iter()
            .filter(|block| block.kind == kind)
            .map(|block| block.at)
            .collect();
        (!these.is_empty()).then(|| random.one_of(&these))
    };
    Some(match target {
        Target::FreeSize => Place::Arena(block(Kind::Free, random)? + SIZE),
        Target::UsedSize => Place::Arena(block(Kind::Used, random)? + SIZE),
        Target::LastSize => Place::Arena(block(Kind::Last, random)? + SIZE),
        Target::Before if found.is_empty() => return None,
        Target::Before => Place::Arena(random.one_of(found).at + BEFORE),
        Target::Next => Place::Arena(block(Kind::Free, random)? + NEXT),
        Target::Prev => Place::Arena(block(Kind::Free, random)? + PREV),
        Target::Pad => {
            let large: Vec<usize> = shape
                .live
                .iter()
                .map(|held| held.at)
                .filter(|at| at % GRAIN == 0)
                .collect();
            if large.is_empty() {
                return None;
            }
            Place::Arena(random.one_of(&large) - 8)
        }
        Target::Word => Place::Arena(8 * random.below(lengths.arena / 8)),
        Target::Head => {
            // a list that has a block, if any
            let lists = shape.subject.slices.lists.all();
            let full: Vec<usize> = (MAP..195).filter(|&entry| lists[entry] != NONE).collect();
            match full.is_empty() || random.chance(1, 4) {
                true => Place::Lists(random.from_to(MAP, 194)),
                false => Place::Lists(random.one_of(&full)),
            }
        }
        Target::Map => Place::Lists(random.below(MAP)),
        Target::Live => Place::Live(random.below(lengths.live)),
        Target::Count => Place::Regions(0),
        Target::Entry => {
            // the count may have been struck before
            let given = (shape.ends.len()).min((lengths.regions - 1) / 2);
            if given == 0 {
                return None;
            }
            Place::Regions(random.from_to(1, 2 * given))
        }
        _ => return None,
    })
}

/// What the word becomes: not what it was, unless there is no other by this way.
fn changed(old: u64, arena: usize, found: &[Block], target: Target, random: &mut Random) -> (Way, u64) {
    for _ in 0..8 {
        let (way, _) = random.one_of(&WAYS);
        let new = match way {
            Way::Random => random.any() >> random.below(64),
            Way::ByOne => random.one_of(&[old.wrapping_add(1), old.wrapping_sub(1)]),
            Way::ByGrain => random.one_of(&[old.wrapping_add(32), old.wrapping_sub(32)]),
            Way::Block if found.is_empty() => old,
            // sizes keep their flags
            Way::Block => match target {
                Target::FreeSize | Target::UsedSize | Target::LastSize => random.one_of(found).size as u64 + old % 32,
                _ => random.one_of(found).at as u64,
            },
            Way::Flag => old ^ random.one_of(&[1, 2, 3]),
            Way::Bit => old ^ (1 << random.below(64)),
            Way::None => NONE,
            Way::Zero => 0,
            Way::Edge => (arena / GRAIN * GRAIN) as u64 + random.one_of(&[0, 16, 32, 64]) - random.one_of(&[0, 32, 64]),
        };
        if new != old {
            return (way, new);
        }
    }
    (Way::Random, random.any())
}

fn value_at(slices: &Slices, place: Place) -> u64 {
    match place {
        Place::Arena(at) => word(slices.arena.all(), at),
        Place::Lists(entry) => slices.lists.all()[entry],
        Place::Live(entry) => slices.live.all()[entry],
        Place::Regions(entry) => slices.regions.all()[entry],
    }
}

pub fn set_value(slices: &mut Slices, place: Place, value: u64) {
    match place {
        Place::Arena(at) => put(slices.arena.all_mut(), at, value),
        Place::Lists(entry) => slices.lists.all_mut()[entry] = value,
        Place::Live(entry) => slices.live.all_mut()[entry] = value,
        Place::Regions(entry) => slices.regions.all_mut()[entry] = value,
    }
}
