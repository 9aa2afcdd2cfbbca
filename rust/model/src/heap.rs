//! The calls. Each tests its refusals in the order of `docs/DECISIONS.md`, and changes nothing where one applies.

use crate::blocks::{Block, Blocks, State};
use crate::refusal::Refusal;
use crate::size::*;

/// The lengths of what is lent: bytes of the arena, words of the tables.
#[derive(Clone, Copy, Debug, PartialEq, Eq)]
pub struct Lent {
    pub arena: usize,
    pub lists: usize,
    pub live: usize,
    pub regions: usize,
}

impl Lent {
    /// Tables just long enough for an arena, with room for this many regions.
    pub fn for_arena(arena: usize, regions: usize) -> Lent {
        Lent {
            arena,
            lists: lists_length(),
            live: live_length(arena),
            regions: 1 + 2 * regions,
        }
    }

    fn lists_enough(&self) -> Result<(), Refusal> {
        enough(self.lists >= lists_length())
    }

    fn live_enough(&self) -> Result<(), Refusal> {
        enough(self.live >= live_length(self.arena))
    }

    fn regions_enough(&self) -> Result<(), Refusal> {
        enough(self.regions >= 1)
    }

    /// How many regions their table has room for, behind its count.
    fn room(&self) -> usize {
        (self.regions - 1) / 2
    }
}

/// The words of the table of the lists: three for their map, and a head for each.
pub fn lists_length() -> usize {
    3 + LISTS
}

/// The words of the live table.
pub fn live_length(arena: usize) -> usize {
    arena / 1024 + 1
}

fn enough(is_enough: bool) -> Result<(), Refusal> {
    if is_enough {
        Ok(())
    } else {
        Err(Refusal::TooShort)
    }
}

/// What was used of a region that was given.
#[derive(Clone, Copy, Debug, PartialEq, Eq)]
pub struct Region {
    pub start: usize,
    pub end: usize,
}

#[derive(Clone)]
pub struct Heap {
    lent: Lent,
    blocks: Blocks,
    /// In the order in which they were given.
    regions: Vec<Region>,
}

// ---- the calls

impl Heap {
    /// An empty heap.
    pub fn new(lent: Lent) -> Result<Heap, Refusal> {
        lent.lists_enough()?;
        lent.live_enough()?;
        lent.regions_enough()?;
        Ok(Heap {
            lent,
            blocks: Blocks::none(),
            regions: Vec::new(),
        })
    }

    /// Gives a region. The answer is the bytes used, counted from its start.
    pub fn insert_free_block(&mut self, start: usize, len: usize) -> Result<usize, Refusal> {
        self.room_for_region()?;
        let region = self.whole_grains(start, len)?;
        Ok(self.give(region) - start)
    }

    /// Gives a region that begins exactly where another ended.
    pub fn append_free_block(&mut self, start: usize, len: usize) -> Result<usize, Refusal> {
        self.room_for_region()?;
        let region = self.whole_grains(start, len)?;
        if !self.regions.iter().any(|other| other.end == start) {
            return Err(Refusal::Misplaced);
        }
        Ok(self.give(region) - start)
    }

    /// Takes a payload. The answer is its offset.
    pub fn allocate(&mut self, size: usize, align: usize) -> Result<usize, Refusal> {
        self.lent.lists_enough()?;
        self.lent.live_enough()?;
        alignment(align)?;
        let looked_for = looked_for(size, align)?;
        self.take(looked_for, size, align)
    }

    /// Returns a payload.
    pub fn deallocate(&mut self, payload: usize, align: usize) -> Result<(), Refusal> {
        self.lent.lists_enough()?;
        self.lent.live_enough()?;
        suits(payload, align)?;
        let place = self.blocks.live(payload).ok_or(Refusal::NotLive)?;
        self.blocks.release(place);
        Ok(())
    }

    /// Resizes a payload. The answer is its offset afterwards.
    pub fn reallocate(&mut self, payload: usize, size: usize, align: usize) -> Result<usize, Refusal> {
        self.lent.lists_enough()?;
        self.lent.live_enough()?;
        suits(payload, align)?;
        let looked_for = looked_for(size, align)?;
        let place = self.blocks.live(payload).ok_or(Refusal::NotLive)?;

        let block = self.blocks.row()[place];
        let keep = needed(block.offset, payload, size);
        let behind = self.blocks.free_behind(place);

        // 1. The block is enough. What it doesn't need is joined with a free block behind it.
        if keep == block.size {
            return Ok(payload);
        }
        if keep < block.size {
            let end = self.swallow_behind(place);
            self.blocks.lay(place..end, payload, keep);
            return Ok(payload);
        }

        // 2. It is enough with the free block behind it.
        if keep <= block.size + behind {
            let end = self.swallow_behind(place);
            self.blocks.lay(place..end, payload, keep);
            return Ok(payload);
        }

        // 3. It is enough with the free block before it, too. The padding is counted anew from there.
        if let Some(before) = self.blocks.free_before(place) {
            let lower = payload_in(before.offset, align);
            let keep = needed(before.offset, lower, size);
            if keep <= before.size + block.size + behind {
                let end = self.swallow_behind(place);
                self.blocks.unlist(place - 1);
                self.blocks.lay(place - 1..end, lower, keep);
                return Ok(lower);
            }
        }

        // 4. Another block is taken, and then this one is returned.
        let other = self.take(looked_for, size, align)?;
        let place = self.blocks.live(payload).expect("a take leaves other payloads live");
        self.blocks.release(place);
        Ok(other)
    }
}

// ---- what the heap is

impl Heap {
    /// The lengths that the next calls are lent.
    pub fn lend(&mut self, lent: Lent) {
        self.lent = lent;
    }

    pub fn lent(&self) -> Lent {
        self.lent
    }

    /// What was used of each region, in the order in which they were given.
    pub fn regions(&self) -> &[Region] {
        &self.regions
    }

    /// All blocks in order of address, sentinels among them.
    pub fn blocks(&self) -> &[Block] {
        self.blocks.row()
    }

    /// The blocks of a region.
    pub fn blocks_of(&self, region: Region) -> &[Block] {
        let first = self.blocks.place_of(region.start);
        let end = self.blocks.place_of(region.end);
        &self.blocks.row()[first..end]
    }

    /// The offsets of the free blocks in a list, its head first.
    pub fn list(&self, list: usize) -> impl Iterator<Item = usize> + '_ {
        self.blocks.list(list)
    }

    /// The block of a live payload.
    pub fn block_of(&self, payload: usize) -> Option<Block> {
        let place = self.blocks.live(payload)?;
        Some(self.blocks.row()[place])
    }

    /// The bytes from a live payload's first to its block's end.
    pub fn usable(&self, payload: usize) -> Option<usize> {
        Some(self.block_of(payload)?.end() - payload)
    }

    /// The offsets of the live payloads, in order.
    pub fn live(&self) -> impl Iterator<Item = usize> + '_ {
        self.blocks().iter().filter_map(|block| match block.state {
            State::Used { payload } => Some(payload),
            _ => None,
        })
    }
}

// ---- parts of the calls

impl Heap {
    fn room_for_region(&self) -> Result<(), Refusal> {
        self.lent.lists_enough()?;
        self.lent.regions_enough()?;
        enough(self.regions.len() < self.lent.room())
    }

    /// The whole grains of a region, where it can be given.
    fn whole_grains(&self, start: usize, len: usize) -> Result<Region, Refusal> {
        let grain = GRAIN as u128;
        let first = (start as u128).div_ceil(grain) * grain;
        let end = (start as u128 + len as u128) / grain * grain;
        if end < first + LEAST_PIECE as u128 || end > round_down(self.lent.arena, GRAIN) as u128 {
            return Err(Refusal::Misplaced);
        }
        let region = Region {
            start: first as usize,
            end: end as usize,
        };
        let overlaps = |other: &Region| region.start < other.end && other.start < region.end;
        if self.regions.iter().any(overlaps) {
            return Err(Refusal::Misplaced);
        }
        Ok(region)
    }

    /// Cuts a region into pieces, first to last. The answer is where what is used of it ends.
    fn give(&mut self, region: Region) -> usize {
        let end = used_end(region);
        let mut at = region.start;
        while at < end {
            let size = (end - at).min(LARGEST_PIECE);
            self.blocks.found(at, size);
            at += size;
        }
        self.regions.push(Region {
            start: region.start,
            end,
        });
        end
    }

    /// Takes the first block that the search finds.
    fn take(&mut self, looked_for: usize, size: usize, align: usize) -> Result<usize, Refusal> {
        let start = search_from(looked_for).ok_or(Refusal::NoList)?;
        let place = self.blocks.take_head(start).ok_or(Refusal::NoList)?;
        let block = self.blocks.row()[place].offset;
        let payload = payload_in(block, align);
        self.blocks.lay(place..place + 1, payload, needed(block, payload, size));
        Ok(payload)
    }

    /// A free block behind leaves its list. The answer is the place behind it, or behind the block where there is none.
    fn swallow_behind(&mut self, place: usize) -> usize {
        if !self.blocks.is_free(place + 1) {
            return place + 1;
        }
        self.blocks.unlist(place + 1);
        place + 2
    }
}

/// Where what is used of a region's grains ends: a last piece that is too small is left over.
fn used_end(region: Region) -> usize {
    let last = (region.end - region.start) % LARGEST_PIECE;
    if last < LEAST_PIECE {
        region.end - last
    } else {
        region.end
    }
}

fn alignment(align: usize) -> Result<(), Refusal> {
    if is_alignment(align) {
        Ok(())
    } else {
        Err(Refusal::OutOfRange)
    }
}

/// Whether an alignment can be that of a payload at this offset. Offsets of no kind are none's: no live payload is there.
fn suits(payload: usize, align: usize) -> Result<(), Refusal> {
    alignment(align)?;
    let other_kind = match payload % GRAIN {
        0 => is_small(align),
        HEADER => !is_small(align),
        _ => false,
    };
    if payload % align != 0 || other_kind {
        return Err(Refusal::OutOfRange);
    }
    Ok(())
}
