//! What stands in the arena and in the tables, read and written from outside the heap: docs/HEAP.md says what the words are.

use crate::slices::Slices;

/// A link that leads nowhere.
pub const NONE: u64 = u64::MAX;

/// The bytes of a grain, and of half a grain.
pub const GRAIN: usize = 32;
pub const HALF: usize = 16;

/// The flags of a size word.
pub const USED: u64 = 1;
pub const LAST: u64 = 2;

/// The words of a header, from the block's offset on.
pub const SIZE: usize = 0;
pub const BEFORE: usize = 8;
pub const NEXT: usize = 16;
pub const PREV: usize = 24;

/// How many lists there are, and how many words their map has.
pub const LISTS: usize = 192;
pub const MAP: usize = 3;

/// The word of the arena at an offset.
pub fn word(arena: &[u8], offset: usize) -> u64 {
    let mut bytes = [0; 8];
    bytes.copy_from_slice(&arena[offset..offset + 8]);
    u64::from_le_bytes(bytes)
}

pub fn put(arena: &mut [u8], offset: usize, value: u64) {
    arena[offset..offset + 8].copy_from_slice(&value.to_le_bytes());
}

/// The list of blocks of so many bytes.
pub fn list_of(size: usize) -> usize {
    let grains = size / GRAIN;
    let log = grains.ilog2() as usize;
    16 * log + ((16 * grains) >> log) - 16
}

/// The list where a search for so many bytes starts, a multiple of a grain.
pub fn start_of(size: usize) -> usize {
    let grains = size / GRAIN;
    let log = grains.ilog2() as usize;
    16 * log + (16 * grains as u128).div_ceil(1 << log) as usize - 16
}

#[derive(Clone, Copy, PartialEq, Eq, Debug)]
pub enum Kind {
    Free,
    Used,
    Last,
}

#[derive(Clone, Copy, PartialEq, Eq, Debug)]
pub struct Block {
    pub at: usize,
    pub size: usize,
    pub kind: Kind,
}

/// All blocks of a sound heap, region by region.
pub fn blocks(slices: &Slices) -> Vec<Block> {
    let (arena, regions) = (slices.arena.all(), slices.regions.all());
    let mut found = Vec::new();
    for entry in 0..regions[0] as usize {
        let (mut at, end) = (
            GRAIN * regions[2 * entry + 1] as usize,
            GRAIN * regions[2 * entry + 2] as usize,
        );
        while at < end {
            let size_word = word(arena, at + SIZE);
            let kind = match size_word % GRAIN as u64 {
                0 => Kind::Free,
                USED => Kind::Used,
                _ => Kind::Last,
            };
            let size = (size_word / GRAIN as u64) as usize * GRAIN;
            assert!(size > 0, "the heap was sound");
            found.push(Block { at, size, kind });
            at += size;
        }
    }
    found
}
