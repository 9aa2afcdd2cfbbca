//! What is held to the model.

use super::memory::SlicesMut;
use super::step::Call;

/// A heap in slices that are lent at each call. Answers are numbers, and 1 to 6 are refusals.
pub trait Subject {
    fn init(&mut self, lent: SlicesMut) -> u64;
    fn make(&mut self, call: Call, lent: SlicesMut) -> u64;
}

/// The calls of the compiled archive.
#[derive(Clone, Copy, Default)]
pub struct Archive;

impl Subject for Archive {
    fn init(&mut self, lent: SlicesMut) -> u64 {
        firmheap::calls::init(lent.arena, lent.lists, lent.live, lent.regions)
    }

    fn make(&mut self, call: Call, lent: SlicesMut) -> u64 {
        use firmheap::calls::*;
        let SlicesMut {
            arena,
            lists,
            live,
            regions,
        } = lent;
        match call {
            Call::Insert { start, len } => insert_free_block(arena, lists, regions, start, len),
            Call::Append { start, len } => append_free_block(arena, lists, regions, start, len),
            Call::Allocate { size, align } => allocate(arena, lists, live, size, align),
            Call::Deallocate { payload, align } => deallocate(arena, lists, live, payload, align),
            Call::Reallocate { payload, size, align } => reallocate(arena, lists, live, payload, size, align),
        }
    }
}
