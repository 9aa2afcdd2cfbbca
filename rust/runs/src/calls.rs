//! What a run needs of a heap, so that the same run can be made on the compiled heap and on the model.

use model::{Heap, Lent, Refusal, State};

/// A block that is no sentinel.
#[derive(Clone, Copy, Debug, PartialEq, Eq)]
pub struct Block {
    pub offset: usize,
    pub size: usize,
    pub used: bool,
}

/// The calls by offset. A refusal is its number.
pub trait Calls {
    fn insert_free_block(&mut self, start: usize, len: usize) -> Result<usize, u64>;
    fn append_free_block(&mut self, start: usize, len: usize) -> Result<usize, u64>;
    fn allocate(&mut self, size: usize, align: usize) -> Result<usize, u64>;
    fn deallocate(&mut self, payload: usize, align: usize) -> Result<(), u64>;
    fn reallocate(&mut self, payload: usize, size: usize, align: usize) -> Result<usize, u64>;

    /// The bytes from a live payload's first to its block's end.
    fn usable(&self, payload: usize) -> Result<usize, String>;

    /// All blocks but sentinels, region by region in the order in which they were given, in each by address.
    fn blocks(&self) -> Result<Vec<Block>, String>;
}

/// Those of the blocks that are no sentinels.
pub fn proper<'a>(blocks: impl IntoIterator<Item = &'a model::Block>) -> Vec<Block> {
    let proper = blocks.into_iter().filter(|block| block.state != State::Sentinel);
    proper
        .map(|block| Block {
            offset: block.offset,
            size: block.size,
            used: !block.is_free(),
        })
        .collect()
}

/// The model of an empty heap in an arena of so many bytes, with room for some regions.
pub fn empty_model(arena: usize, regions: usize) -> Heap {
    Heap::new(Lent::for_arena(arena, regions)).expect("the tables are long enough")
}

impl Calls for Heap {
    fn insert_free_block(&mut self, start: usize, len: usize) -> Result<usize, u64> {
        self.insert_free_block(start, len).map_err(Refusal::number)
    }

    fn append_free_block(&mut self, start: usize, len: usize) -> Result<usize, u64> {
        self.append_free_block(start, len).map_err(Refusal::number)
    }

    fn allocate(&mut self, size: usize, align: usize) -> Result<usize, u64> {
        self.allocate(size, align).map_err(Refusal::number)
    }

    fn deallocate(&mut self, payload: usize, align: usize) -> Result<(), u64> {
        self.deallocate(payload, align).map_err(Refusal::number)
    }

    fn reallocate(&mut self, payload: usize, size: usize, align: usize) -> Result<usize, u64> {
        self.reallocate(payload, size, align).map_err(Refusal::number)
    }

    fn usable(&self, payload: usize) -> Result<usize, String> {
        self.usable(payload)
            .ok_or_else(|| format!("no live payload is at {payload}"))
    }

    fn blocks(&self) -> Result<Vec<Block>, String> {
        Ok(proper(self.regions().iter().flat_map(|&region| self.blocks_of(region))))
    }
}
