//! The calls as C sees them: slices and numbers go in, and one number is answered. A heap is its slices and nothing else, so
//! nothing is kept between calls. [`Heap`](crate::Heap) is easier to use, and does the same.
//!
//! An answer from 1 to 6 is a [`Refusal`](crate::Refusal), of which [`Refusal::of`](crate::Refusal::of) tells; no granted
//! call answers such a number.

use crate::ffi::{self, Arena};

/// Makes the tables those of an empty heap. Answers 0, or 6.
pub fn init(arena: &mut [u8], lists: &mut [u64], live: &mut [u64], regions: &mut [u64]) -> u64 {
    ffi::init(&Arena::new(arena), lists, live, regions)
}

/// Gives the region of `len` bytes from the offset `start` on. Answers how many bytes of it are used, 64 or more; or 4, 5, 6.
pub fn insert_free_block(arena: &mut [u8], lists: &mut [u64], regions: &mut [u64], start: usize, len: usize) -> u64 {
    ffi::insert_free_block(&mut Arena::new(arena), lists, regions, start, len)
}

/// The same, where the region begins exactly where another ended.
pub fn append_free_block(arena: &mut [u8], lists: &mut [u64], regions: &mut [u64], start: usize, len: usize) -> u64 {
    ffi::append_free_block(&mut Arena::new(arena), lists, regions, start, len)
}

/// Takes `size` bytes at a multiple of `align`. Answers the payload's offset, 16 or more; or 1, 2, 5, 6.
pub fn allocate(arena: &mut [u8], lists: &mut [u64], live: &mut [u64], size: usize, align: usize) -> u64 {
    ffi::allocate(&mut Arena::new(arena), lists, live, size, align)
}

/// Returns the payload at the offset `payload`. Answers 0, or 2, 3, 5, 6.
pub fn deallocate(arena: &mut [u8], lists: &mut [u64], live: &mut [u64], payload: usize, align: usize) -> u64 {
    ffi::deallocate(&mut Arena::new(arena), lists, live, payload, align)
}

/// Makes the payload at the offset `payload` one of `size` bytes. Answers its new offset, 16 or more; or 1, 2, 3, 5, 6.
pub fn reallocate(
    arena: &mut [u8],
    lists: &mut [u64],
    live: &mut [u64],
    payload: usize,
    size: usize,
    align: usize,
) -> u64 {
    ffi::reallocate(&mut Arena::new(arena), lists, live, payload, size, align)
}
