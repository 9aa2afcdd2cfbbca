//! A heap as it stands in its slices, read without asking it. `docs/HEAP.md` says what a block is, and
//! `docs/DECISIONS.md` what the tables hold. Every word that the heap keeps is looked at, and an error names the first that
//! is not as it should be.

use model::size::{list_of, GRAIN, HEADER, LISTS};
use model::{Block, Region, State};

/// The words of a header, in bytes from its start.
const SIZE: usize = 0;
const BEFORE: usize = 8;
const NEXT: usize = 16;
const PREVIOUS: usize = 24;

/// The size word of a sentinel, and what that of a used block has more than its size.
const SENTINEL: u64 = 35;
const USED: u64 = 1;

/// A link that leads nowhere.
const NONE: u64 = u64::MAX;

/// The words of the lists' map; the heads stand behind it.
const MAP_WORDS: usize = 3;

/// Bytes that a live bit stands for.
const HALF: usize = 16;

/// What is lent to a heap.
#[derive(Clone, Copy)]
pub struct Slices<'a> {
    pub arena: &'a [u8],
    pub lists: &'a [u64],
    pub live: &'a [u64],
    pub regions: &'a [u64],
}

/// All of a heap: what was used of each region in the order given, all blocks region by region, and each list that has one,
/// its head first.
#[derive(Clone, Debug, PartialEq, Eq)]
pub struct View {
    pub regions: Vec<Region>,
    pub blocks: Vec<Block>,
    pub lists: Vec<(usize, Vec<usize>)>,
}

impl View {
    /// The same of a model.
    pub fn of_model(heap: &model::Heap) -> View {
        let filled = (0..LISTS).filter(|&list| heap.list(list).next().is_some());
        View {
            regions: heap.regions().to_vec(),
            blocks: heap
                .regions()
                .iter()
                .flat_map(|&region| heap.blocks_of(region))
                .copied()
                .collect(),
            lists: filled.map(|list| (list, heap.list(list).collect())).collect(),
        }
    }
}

impl<'a> Slices<'a> {
    pub fn view(&self) -> Result<View, String> {
        let regions = self.read_regions()?;
        let blocks = self.read_blocks(&regions)?;
        let used = blocks
            .iter()
            .filter(|block| matches!(block.state, State::Used { .. }))
            .count();
        let bits: u32 = self.live.iter().map(|word| word.count_ones()).sum();
        if bits as usize != used {
            return Err(format!("{bits} live bits are set, and {used} blocks are used"));
        }
        let free = blocks.iter().filter(|block| block.is_free()).count();
        let lists = self.read_lists(free)?;
        let listed: usize = lists.iter().map(|(_, list)| list.len()).sum();
        if listed != free {
            return Err(format!("{listed} blocks are in lists, and {free} are free"));
        }
        Ok(View { regions, blocks, lists })
    }

    /// The bytes from a live payload's first to its block's end.
    pub fn usable(&self, payload: usize) -> Result<usize, String> {
        let block = match payload % GRAIN {
            0 => self.word(payload - 8)? as usize,
            _ => payload - HEADER,
        };
        let word = self.word(block)?;
        let end = block as u64 + word - USED;
        if word % GRAIN as u64 != USED || end < payload as u64 {
            return Err(format!("payload {payload}: its block {block} has size word {word}"));
        }
        Ok(end as usize - payload)
    }

    /// All blocks of the regions, sentinels among them.
    pub fn read_blocks(&self, regions: &[Region]) -> Result<Vec<Block>, String> {
        let mut blocks = Vec::new();
        for region in regions {
            let mut at = region.start;
            let mut before = NONE;
            while at < region.end {
                let block = self.read_block(at)?;
                let back = self.word(at + BEFORE)?;
                if back != before {
                    return Err(format!(
                        "block {at}: its word of the block before is {back}, and not {before}"
                    ));
                }
                let is_last = block.state == State::Sentinel;
                before = if is_last { NONE } else { at as u64 };
                at = block.end();
                blocks.push(block);
                if at > region.end || at == region.end && !is_last {
                    return Err(format!(
                        "block {}: no sentinel before the region's end {}",
                        block.offset, region.end
                    ));
                }
            }
        }
        Ok(blocks)
    }

    /// What was used of each region, in the order in which they were given.
    pub fn read_regions(&self) -> Result<Vec<Region>, String> {
        let count = *self.regions.first().ok_or("the table of the regions has no word")? as usize;
        let pairs = self.regions[1..].chunks_exact(2);
        if count > pairs.len() {
            return Err(format!(
                "the table of the regions counts {count}, and has room for {}",
                pairs.len()
            ));
        }
        let bytes = |grains: u64| grains as usize * GRAIN;
        Ok(pairs
            .take(count)
            .map(|pair| Region {
                start: bytes(pair[0]),
                end: bytes(pair[1]),
            })
            .collect())
    }

    fn read_block(&self, offset: usize) -> Result<Block, String> {
        let word = self.word(offset + SIZE)?;
        let size = word as usize & !(GRAIN - 1);
        let state = match word % GRAIN as u64 {
            _ if word == SENTINEL => State::Sentinel,
            _ if size == 0 => return Err(format!("block {offset}: size word {word}")),
            0 => State::Free,
            USED => State::Used {
                payload: self.payload_of(offset, size)?,
            },
            _ => return Err(format!("block {offset}: size word {word}")),
        };
        Ok(Block { offset, size, state })
    }

    /// The live payload of a used block.
    fn payload_of(&self, block: usize, size: usize) -> Result<usize, String> {
        if self.is_live(block + HEADER) {
            return Ok(block + HEADER);
        }
        let later = (block + GRAIN..=block + size).step_by(GRAIN);
        let mut own = later.filter(|&payload| self.is_live(payload) && self.word(payload - 8) == Ok(block as u64));
        own.next()
            .ok_or_else(|| format!("block {block}: it is used, and has no live payload"))
    }

    fn is_live(&self, payload: usize) -> bool {
        let bit = payload / HALF;
        self.live.get(bit / 64).is_some_and(|word| word >> (bit % 64) & 1 == 1)
    }

    /// The lists that have a block, with their links and marks looked at. No list has more than this many blocks.
    fn read_lists(&self, most: usize) -> Result<Vec<(usize, Vec<usize>)>, String> {
        let mut lists = Vec::new();
        for list in 0..LISTS {
            let head = self.lists[MAP_WORDS + list];
            let marked = self.lists[list / 64] >> (list % 64) & 1 == 1;
            if marked != (head != NONE) {
                return Err(format!("list {list}: marked is {marked}, and its head is {head}"));
            }
            if marked {
                lists.push((list, self.read_list(list, head, most)?));
            }
        }
        Ok(lists)
    }

    fn read_list(&self, list: usize, head: u64, most: usize) -> Result<Vec<usize>, String> {
        let mut blocks = Vec::new();
        let mut before = NONE;
        let mut at = head;
        while at != NONE {
            let offset = at as usize;
            let block = self.read_block(offset)?;
            if !block.is_free() || list_of(block.size) != list || offset % GRAIN != 0 {
                return Err(format!("list {list}: it has the block {block:?}"));
            }
            let back = self.word(offset + PREVIOUS)?;
            if back != before {
                return Err(format!(
                    "list {list}: block {offset} has {back} before it, and not {before}"
                ));
            }
            if blocks.len() == most {
                return Err(format!("list {list}: it has more blocks than are free, or doesn't end"));
            }
            blocks.push(offset);
            before = at;
            at = self.word(offset + NEXT)?;
        }
        Ok(blocks)
    }

    fn word(&self, offset: usize) -> Result<u64, String> {
        let bytes = offset.checked_add(8).and_then(|end| self.arena.get(offset..end));
        let bytes = bytes.ok_or_else(|| format!("a link leads to {offset}, outside the arena"))?;
        Ok(u64::from_le_bytes(bytes.try_into().expect("eight bytes")))
    }
}
