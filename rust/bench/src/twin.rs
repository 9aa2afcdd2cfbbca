//! The trusting twin: the same algorithm on the same words as the heap, with no check and no live bits. It is what the checks
//! are measured against, and good for nothing else: a wrong call, or a word that something else wrote, leads anywhere.
//!
//! `docs/HEAP.md` says what a block and a list are, and `docs/DECISIONS.md` what the words hold.

use std::ptr;

/// The words of the table of the lists: their map, then their heads.
pub const LISTS_LENGTH: usize = MAP_WORDS + LISTS;

const GRAIN: usize = 32;
const HEADER: usize = 16;
const LISTS: usize = 192;
const MAP_WORDS: usize = 3;
const LARGEST_PIECE: usize = GRAIN << 12;

/// The words of a header, in bytes from its start.
const SIZE: usize = 0;
const BEFORE: usize = 8;
const NEXT: usize = 16;
const PREVIOUS: usize = 24;

/// The flag of a used block in its size word, and the size word of a sentinel.
const USED: usize = 1;
const SENTINEL: usize = 35;

/// A link that leads nowhere.
const NONE: usize = usize::MAX;

/// The answer to a call that is refused: no payload stands at the arena's first byte.
pub const REFUSED: usize = 0;

/// An arena and its lists. Everything is by offset from the arena's first byte.
#[derive(Clone, Copy)]
pub struct Twin {
    arena: *mut u8,
    lists: *mut usize,
}

// ---- the calls

impl Twin {
    /// An empty heap.
    ///
    /// # Safety
    ///
    /// Here and below: `arena` is at a multiple of 32, `lists` has [`LISTS_LENGTH`] words, both stay the heap's alone, regions
    /// lie in the arena and don't overlap, and payloads are live and given with the alignment that they were taken with.
    pub unsafe fn new(arena: *mut u8, lists: *mut usize) -> Twin {
        for word in 0..MAP_WORDS {
            lists.add(word).write(0);
        }
        for list in 0..LISTS {
            lists.add(MAP_WORDS + list).write(NONE);
        }
        Twin { arena, lists }
    }

    /// Gives a region. Answers the bytes used, counted from its start.
    ///
    /// # Safety
    ///
    /// As for [`Twin::new`].
    pub unsafe fn give(self, start: usize, len: usize) -> usize {
        let mut at = rounded(start);
        let end = (start + len) & !(GRAIN - 1);
        while at + 2 * GRAIN <= end {
            let piece = (end - at).min(LARGEST_PIECE);
            let sentinel = at + piece - GRAIN;
            self.write(at + SIZE, piece - GRAIN);
            self.write(at + BEFORE, NONE);
            self.write(sentinel + SIZE, SENTINEL);
            self.write(sentinel + BEFORE, at);
            self.link(at, piece - GRAIN);
            at += piece;
        }
        if at == rounded(start) {
            REFUSED
        } else {
            at - start
        }
    }

    /// Takes a payload. Answers its offset.
    ///
    /// # Safety
    ///
    /// As for [`Twin::new`].
    #[inline(never)]
    pub unsafe fn take(self, size: usize, align: usize) -> usize {
        self.taken(size, align)
    }

    /// Returns a payload.
    ///
    /// # Safety
    ///
    /// As for [`Twin::new`].
    #[inline(never)]
    pub unsafe fn give_back(self, payload: usize, align: usize) {
        let block = self.block_of(payload, align);
        self.release(block, self.read(block + SIZE) - USED);
    }

    /// Resizes a payload. Answers its offset afterwards.
    ///
    /// # Safety
    ///
    /// As for [`Twin::new`].
    #[inline(never)]
    pub unsafe fn resize(self, payload: usize, size: usize, align: usize) -> usize {
        let block = self.block_of(payload, align);
        let has = self.read(block + SIZE) - USED;
        let keep = rounded(payload - block + size);
        if keep == has {
            return payload;
        }
        let behind = block + has;
        let behind_word = self.read(behind + SIZE);
        let room = if behind_word & USED == 0 { behind_word } else { 0 };

        // The block is enough, alone or with the free block behind it.
        if keep <= has + room {
            if room != 0 {
                self.unlink(behind, room);
                self.write(behind + room + BEFORE, block);
            }
            self.lay(block, has + room, keep);
            return payload;
        }

        // It is enough with the free block before it, too: the payload moves down.
        let before = self.read(block + BEFORE);
        if before != NONE {
            let before_word = self.read(before + SIZE);
            let all = before_word + has + room;
            let lower = placed(before, align);
            let keep = rounded(lower - before + size);
            if before_word & USED == 0 && keep <= all {
                if room != 0 {
                    self.unlink(behind, room);
                }
                self.unlink(before, before_word);
                ptr::copy(self.arena.add(payload), self.arena.add(lower), behind - payload);
                if align > HEADER {
                    self.write(lower - 8, before);
                }
                self.write(before + all + BEFORE, before);
                self.lay(before, all, keep);
                return lower;
            }
        }

        // Another block is taken, and this one returned.
        let other = self.taken(size, align);
        if other != REFUSED {
            ptr::copy_nonoverlapping(self.arena.add(payload), self.arena.add(other), behind - payload);
            self.release(block, has);
        }
        other
    }
}

// ---- parts of the calls

impl Twin {
    #[inline(always)]
    unsafe fn taken(self, size: usize, align: usize) -> usize {
        let sought = rounded(size + align.max(HEADER));
        let list = self.search(list_for(sought));
        if list == LISTS {
            return REFUSED;
        }
        let head = self.lists.add(MAP_WORDS + list);
        let block = head.read();
        let next = self.read(block + NEXT);
        head.write(next);
        if next == NONE {
            self.unmark(list);
        } else {
            self.write(next + PREVIOUS, NONE);
        }
        let has = self.read(block + SIZE);
        if align <= HEADER {
            self.lay(block, has, sought);
            return block + HEADER;
        }
        let payload = placed(block, align);
        self.write(payload - 8, block);
        self.lay(block, has, rounded(payload - block + size));
        payload
    }

    /// The first list from this one on that has a block, or the number of lists where there is none.
    #[inline(always)]
    unsafe fn search(self, from: usize) -> usize {
        if from >= LISTS {
            return LISTS;
        }
        let mut word = from / 64;
        let mut marks = self.lists.add(word).read() & (usize::MAX << (from % 64));
        while marks == 0 {
            word += 1;
            if word == MAP_WORDS {
                return LISTS;
            }
            marks = self.lists.add(word).read();
        }
        word * 64 + marks.trailing_zeros() as usize
    }

    /// A used block at `block` that keeps some of its bytes; the rest, if any, becomes a free block.
    #[inline(always)]
    unsafe fn lay(self, block: usize, has: usize, keep: usize) {
        self.write(block + SIZE, keep + USED);
        let rest = block + keep;
        if has != keep {
            self.write(rest + SIZE, has - keep);
            self.write(rest + BEFORE, block);
            self.write(block + has + BEFORE, rest);
            self.link(rest, has - keep);
        }
    }

    /// A block becomes free, joined with the free blocks beside it.
    #[inline(always)]
    unsafe fn release(self, mut block: usize, mut size: usize) {
        let behind = block + size;
        let behind_word = self.read(behind + SIZE);
        if behind_word & USED == 0 {
            self.unlink(behind, behind_word);
            size += behind_word;
        }
        let before = self.read(block + BEFORE);
        if before != NONE {
            let before_word = self.read(before + SIZE);
            if before_word & USED == 0 {
                self.unlink(before, before_word);
                size += before_word;
                block = before;
            }
        }
        self.write(block + SIZE, size);
        self.write(block + size + BEFORE, block);
        self.link(block, size);
    }

    /// Puts a free block at the head of its list.
    #[inline(always)]
    unsafe fn link(self, block: usize, size: usize) {
        let list = list_of(size);
        let head = self.lists.add(MAP_WORDS + list);
        let next = head.read();
        self.write(block + NEXT, next);
        self.write(block + PREVIOUS, NONE);
        if next == NONE {
            *self.lists.add(list / 64) |= 1 << (list % 64);
        } else {
            self.write(next + PREVIOUS, block);
        }
        head.write(block);
    }

    /// Takes a free block out of its list.
    #[inline(always)]
    unsafe fn unlink(self, block: usize, size: usize) {
        let next = self.read(block + NEXT);
        let previous = self.read(block + PREVIOUS);
        if next != NONE {
            self.write(next + PREVIOUS, previous);
        }
        if previous != NONE {
            self.write(previous + NEXT, next);
            return;
        }
        let list = list_of(size);
        self.lists.add(MAP_WORDS + list).write(next);
        if next == NONE {
            self.unmark(list);
        }
    }

    #[inline(always)]
    unsafe fn unmark(self, list: usize) {
        *self.lists.add(list / 64) &= !(1 << (list % 64));
    }

    #[inline(always)]
    unsafe fn block_of(self, payload: usize, align: usize) -> usize {
        if align <= HEADER {
            payload - HEADER
        } else {
            self.read(payload - 8)
        }
    }

    #[inline(always)]
    unsafe fn read(self, at: usize) -> usize {
        self.arena.add(at).cast::<usize>().read()
    }

    #[inline(always)]
    unsafe fn write(self, at: usize, word: usize) {
        self.arena.add(at).cast::<usize>().write(word);
    }
}

// ---- sizes

/// Rounded up to grains.
#[inline(always)]
fn rounded(bytes: usize) -> usize {
    (bytes + GRAIN - 1) & !(GRAIN - 1)
}

/// Where a payload of this alignment stands in a block.
#[inline(always)]
fn placed(block: usize, align: usize) -> usize {
    let align = align.max(HEADER);
    (block + HEADER + align - 1) & !(align - 1)
}

/// The list of a free block: 16 for each power of two from 32 on, by the four bits below the highest.
#[inline(always)]
fn list_of(size: usize) -> usize {
    let log = 63 - size.leading_zeros() as usize;
    log * 16 + (size >> (log - 4)) - 96
}

/// The first list all of whose blocks have at least this size.
#[inline(always)]
fn list_for(size: usize) -> usize {
    let log = 63 - size.leading_zeros() as usize;
    let up = size + (1 << (log - 4)) - 1;
    log * 16 + (up >> (log - 4)) - 96
}
