//! The compiled heap with slices of its own.

use crate::calls::{proper, Block, Calls};
use crate::slices::Slices;
use firmheap::{Heap, Refusal};
use model::Lent;

pub struct Compiled {
    arena: Vec<u8>,
    lists: Vec<u64>,
    live: Vec<u64>,
    regions: Vec<u64>,
}

impl Compiled {
    /// An empty heap. What its slices hold before is made up, since it makes no difference.
    pub fn new(lent: Lent) -> Result<Compiled, u64> {
        let mut heap = Compiled {
            arena: vec![0xA5; lent.arena],
            lists: vec![0x5A5A; lent.lists],
            live: vec![0x5A5A; lent.live],
            regions: vec![0x5A5A; lent.regions],
        };
        let answer = Heap::new(&mut heap.arena, &mut heap.lists, &mut heap.live, &mut heap.regions);
        answer.map_err(Refusal::number)?;
        Ok(heap)
    }

    pub fn slices(&self) -> Slices<'_> {
        Slices {
            arena: &self.arena,
            lists: &self.lists,
            live: &self.live,
            regions: &self.regions,
        }
    }

    fn heap(&mut self) -> Heap<'_> {
        Heap::resume(&mut self.arena, &mut self.lists, &mut self.live, &mut self.regions)
    }
}

impl Calls for Compiled {
    fn insert_free_block(&mut self, start: usize, len: usize) -> Result<usize, u64> {
        self.heap().insert_free_block_at(start, len).map_err(Refusal::number)
    }

    fn append_free_block(&mut self, start: usize, len: usize) -> Result<usize, u64> {
        self.heap().append_free_block_at(start, len).map_err(Refusal::number)
    }

    fn allocate(&mut self, size: usize, align: usize) -> Result<usize, u64> {
        self.heap().allocate_at(size, align).map_err(Refusal::number)
    }

    fn deallocate(&mut self, payload: usize, align: usize) -> Result<(), u64> {
        self.heap().deallocate_at(payload, align).map_err(Refusal::number)
    }

    fn reallocate(&mut self, payload: usize, size: usize, align: usize) -> Result<usize, u64> {
        self.heap().reallocate_at(payload, size, align).map_err(Refusal::number)
    }

    fn usable(&self, payload: usize) -> Result<usize, String> {
        self.slices().usable(payload)
    }

    fn blocks(&self) -> Result<Vec<Block>, String> {
        Ok(proper(&self.slices().view()?.blocks))
    }
}
