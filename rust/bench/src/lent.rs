//! Memory that a heap in an arena is lent: it lasts as long as the process.

use std::alloc::{alloc, handle_alloc_error, Layout};
use std::slice;

/// Where arenas begin, so that offsets and addresses agree in all alignments that the rule draws.
const MULTIPLE: usize = 1 << 20;

/// An arena of its own. Its bytes are made up: what they are makes no difference.
pub fn arena(len: usize) -> *mut u8 {
    let layout = Layout::from_size_align(len.max(1), MULTIPLE).expect("an arena's length is in range");
    // SAFETY: the layout has a size, and the bytes are all written below, so they have values.
    unsafe {
        let start = alloc(layout);
        if start.is_null() {
            handle_alloc_error(layout);
        }
        start.write_bytes(0xA5, len);
        start
    }
}

/// A table of its own of so many words.
pub fn table(words: usize) -> &'static mut [u64] {
    vec![0x5A5A; words].leak()
}

/// The bytes of an arena.
///
/// # Safety
///
/// They are an arena's of [`arena`] with this length, and nobody else uses them while this is in use.
pub unsafe fn bytes(start: *mut u8, len: usize) -> &'static mut [u8] {
    slice::from_raw_parts_mut(start, len)
}
