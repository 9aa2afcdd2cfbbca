//! The blocks in order of address, and the free ones in their lists.

use crate::size::{list_of, GRAIN, LISTS};

#[derive(Clone, Copy, Debug, PartialEq, Eq)]
pub enum State {
    Free,
    Used { payload: usize },
    Sentinel,
}

#[derive(Clone, Copy, Debug, PartialEq, Eq)]
pub struct Block {
    pub offset: usize,
    pub size: usize,
    pub state: State,
}

impl Block {
    pub fn end(&self) -> usize {
        self.offset + self.size
    }

    pub fn is_free(&self) -> bool {
        self.state == State::Free
    }
}

#[derive(Clone)]
pub(crate) struct Blocks {
    row: Vec<Block>,
    /// The last of each is its head.
    lists: Vec<Vec<usize>>,
}

impl Blocks {
    pub fn none() -> Blocks {
        Blocks {
            row: Vec::new(),
            lists: vec![Vec::new(); LISTS],
        }
    }

    pub fn row(&self) -> &[Block] {
        &self.row
    }

    /// The offsets in a list, its head first.
    pub fn list(&self, list: usize) -> impl Iterator<Item = usize> + '_ {
        self.lists[list].iter().rev().copied()
    }

    /// How many blocks begin before this offset: the place of the first that doesn't.
    pub fn place_of(&self, offset: usize) -> usize {
        self.row.partition_point(|block| block.offset < offset)
    }

    /// The place of a live payload's block: the last one that begins before it.
    pub fn live(&self, payload: usize) -> Option<usize> {
        let place = self.place_of(payload).checked_sub(1)?;
        (self.row[place].state == State::Used { payload }).then_some(place)
    }

    pub fn is_free(&self, place: usize) -> bool {
        self.row.get(place).is_some_and(Block::is_free)
    }

    /// The free block behind a place; its size is 0 where there is none.
    pub fn free_behind(&self, place: usize) -> usize {
        if self.is_free(place + 1) {
            self.row[place + 1].size
        } else {
            0
        }
    }

    /// The free block before a place. It is of the same piece, since every piece ends in a sentinel.
    pub fn free_before(&self, place: usize) -> Option<Block> {
        let before = *self.row.get(place.checked_sub(1)?)?;
        before.is_free().then_some(before)
    }

    /// A piece: one free block, and its sentinel.
    pub fn found(&mut self, offset: usize, size: usize) {
        let place = self.place_of(offset);
        let sentinel = Block {
            offset: offset + size - GRAIN,
            size: GRAIN,
            state: State::Sentinel,
        };
        self.row.insert(place, sentinel);
        self.row.insert(place, free(offset, size - GRAIN));
        self.enlist(place);
    }

    /// The head of the first list from `start` on that is not empty, taken out of it.
    pub fn take_head(&mut self, start: usize) -> Option<usize> {
        let list = (start..LISTS).find(|&list| !self.lists[list].is_empty())?;
        let head = self.lists[list].pop()?;
        Some(self.place_of(head))
    }

    /// A free block goes to the head of its list.
    fn enlist(&mut self, place: usize) {
        let block = self.row[place];
        self.lists[list_of(block.size)].push(block.offset);
    }

    /// A free block leaves its list.
    pub fn unlist(&mut self, place: usize) {
        let block = self.row[place];
        let list = &mut self.lists[list_of(block.size)];
        let at = list.iter().position(|&offset| offset == block.offset);
        list.remove(at.expect("a free block is in its list"));
    }

    /// Of the blocks in `places`, which are in no list, the first bytes become one used block, and the rest a free one.
    pub fn lay(&mut self, places: std::ops::Range<usize>, payload: usize, keep: usize) {
        let first = places.start;
        let offset = self.row[first].offset;
        let end = self.row[places.end - 1].end();
        let used = Block {
            offset,
            size: keep,
            state: State::Used { payload },
        };
        let rest = end - used.end();
        self.row.splice(places, [used]);
        if rest > 0 {
            self.row.insert(first + 1, free(used.end(), rest));
            self.enlist(first + 1);
        }
    }

    /// A used block becomes free, joined with the free blocks behind and before it.
    pub fn release(&mut self, place: usize) {
        let mut first = place;
        let mut last = place;
        if self.is_free(place + 1) {
            self.unlist(place + 1);
            last += 1;
        }
        if self.free_before(place).is_some() {
            self.unlist(place - 1);
            first -= 1;
        }
        let offset = self.row[first].offset;
        let size = self.row[last].end() - offset;
        self.row.splice(first..=last, [free(offset, size)]);
        self.enlist(first);
    }
}

fn free(offset: usize, size: usize) -> Block {
    Block {
        offset,
        size,
        state: State::Free,
    }
}
