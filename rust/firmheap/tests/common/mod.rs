//! Slices to lend, and what is in them.
#![allow(dead_code)]

use firmheap::{lists_length, live_length, regions_length, Heap};

/// Slices of a heap. The arena is `len` bytes from `shift` on behind an address that is a multiple of 4,096.
pub struct Lent {
    room: Vec<u8>,
    first: usize,
    len: usize,
    pub lists: Vec<u64>,
    pub live: Vec<u64>,
    pub regions: Vec<u64>,
}

impl Lent {
    /// With room for four regions; what is in the slices is no heap.
    pub fn new(len: usize, shift: usize) -> Lent {
        let room = vec![0xa5; len + shift + 4096];
        let first = (room.as_ptr() as usize).next_multiple_of(4096) - room.as_ptr() as usize + shift;
        Lent {
            room,
            first,
            len,
            lists: vec![0x5a5a; lists_length()],
            live: vec![0x5a5a; live_length(len)],
            regions: vec![0x5a5a; regions_length(4)],
        }
    }

    /// An empty heap.
    pub fn heap(&mut self) -> Heap<'_> {
        let arena = &mut self.room[self.first..self.first + self.len];
        Heap::new(arena, &mut self.lists, &mut self.live, &mut self.regions).unwrap()
    }

    /// The heap that is there.
    pub fn again(&mut self) -> Heap<'_> {
        let arena = &mut self.room[self.first..self.first + self.len];
        Heap::resume(arena, &mut self.lists, &mut self.live, &mut self.regions)
    }

    pub fn arena(&mut self) -> &mut [u8] {
        &mut self.room[self.first..self.first + self.len]
    }
}

/// All that a heap is.
#[derive(PartialEq, Eq, Debug)]
pub struct State(Vec<u8>, Vec<u64>, Vec<u64>, Vec<u64>);

pub fn state(heap: &Heap<'_>) -> State {
    let (lists, live, regions) = heap.tables();
    State(heap.arena().to_vec(), lists.to_vec(), live.to_vec(), regions.to_vec())
}
