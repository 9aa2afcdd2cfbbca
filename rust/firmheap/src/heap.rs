//! A heap, and its calls by offset.

use core::fmt;

use crate::ffi::{self, Arena};
use crate::refusal::Refusal;

/// A heap in lent slices: an arena, whose parts it hands out, and three tables.
///
/// The heap has no memory of its own and keeps nothing but the borrows, so it may be dropped and made again of the same
/// slices ([`Heap::resume`]). Whatever is in the slices and whatever the numbers are, a call does its work or is refused,
/// stays inside the slices, and a refusal changes nothing.
///
/// Its calls come in two forms. Those by **offset** from the arena's first byte, whose names end in `_at`, are the proved
/// calls as they are. Those by **pointer** have the names and types of rlsf's `Tlsf`, and know the arena's address.
pub struct Heap<'a> {
    pub(crate) arena: Arena<'a>,
    pub(crate) lists: &'a mut [u64],
    pub(crate) live: &'a mut [u64],
    pub(crate) regions: &'a mut [u64],
}

impl<'a> Heap<'a> {
    /// An empty heap, to which no region was given yet. What is in the slices makes no difference.
    ///
    /// Refused with [`Refusal::TooShort`] where a table is shorter than [`lists_length`](crate::lists_length),
    /// [`live_length`](crate::live_length) or one word.
    pub fn new(
        arena: &'a mut [u8],
        lists: &'a mut [u64],
        live: &'a mut [u64],
        regions: &'a mut [u64],
    ) -> Result<Heap<'a>, Refusal> {
        let heap = Heap::resume(arena, lists, live, regions);
        done(ffi::init(&heap.arena, heap.lists, heap.live, heap.regions))?;
        Ok(heap)
    }

    /// The heap that is in the slices already. Nothing is looked at here: each call checks what it needs, and is refused
    /// with [`Refusal::TooShort`] where a table that it needs is shorter than [`Heap::new`] would have it.
    pub fn resume(arena: &'a mut [u8], lists: &'a mut [u64], live: &'a mut [u64], regions: &'a mut [u64]) -> Heap<'a> {
        Heap {
            arena: Arena::new(arena),
            lists,
            live,
            regions,
        }
    }

    // ---- the calls by offset

    /// Gives the heap the region of `len` bytes from the offset `start` on: the grains of 32 bytes that lie wholly in it.
    /// Answers how many bytes are used, counted from `start`.
    ///
    /// Refused with [`Refusal::TooShort`] where the table of the regions is full, or a table too short (see
    /// [`Heap::resume`]), with [`Refusal::BadRegion`] where the region has fewer than two grains, leaves the arena or
    /// overlaps another, and with [`Refusal::Damaged`].
    pub fn insert_free_block_at(&mut self, start: usize, len: usize) -> Result<usize, Refusal> {
        number(ffi::insert_free_block(
            &mut self.arena,
            self.lists,
            self.regions,
            start,
            len,
        ))
    }

    /// The same for a region that begins exactly where another one ended: at its start and the bytes used of it.
    ///
    /// Refused as [`Heap::insert_free_block_at`], and with [`Refusal::BadRegion`] where no region ended at `start`.
    pub fn append_free_block_at(&mut self, start: usize, len: usize) -> Result<usize, Refusal> {
        number(ffi::append_free_block(
            &mut self.arena,
            self.lists,
            self.regions,
            start,
            len,
        ))
    }

    /// Takes `size` bytes at a multiple of `align`, a power of two up to 4,096. Answers the payload's offset; the bytes are
    /// the caller's until it is returned. `size` may be 0.
    ///
    /// Refused with [`Refusal::NoList`] where no free block is sure to be large enough, with [`Refusal::OutOfRange`], with
    /// [`Refusal::Damaged`], and with [`Refusal::TooShort`] (see [`Heap::resume`]).
    #[inline]
    pub fn allocate_at(&mut self, size: usize, align: usize) -> Result<usize, Refusal> {
        number(ffi::allocate(&mut self.arena, self.lists, self.live, size, align))
    }

    /// Returns the payload at `offset`, with the alignment it was taken with, or another that divides the offset and is on
    /// the same side of 32.
    ///
    /// Refused with [`Refusal::OutOfRange`] where the alignment can't be that, with [`Refusal::NotLive`] where no live
    /// payload starts at `offset`, with [`Refusal::Damaged`], and with [`Refusal::TooShort`] (see [`Heap::resume`]).
    #[inline]
    pub fn deallocate_at(&mut self, offset: usize, align: usize) -> Result<(), Refusal> {
        done(ffi::deallocate(&mut self.arena, self.lists, self.live, offset, align))
    }

    /// Makes the payload at `offset` one of `size` bytes, where it is or elsewhere. Answers its offset from now on. As many
    /// bytes as it had and keeps are the same there; where it moved, the old offset is no payload any more.
    ///
    /// Refused as a take or a return is, and the payload is then as it was.
    #[inline]
    pub fn reallocate_at(&mut self, offset: usize, size: usize, align: usize) -> Result<usize, Refusal> {
        number(ffi::reallocate(
            &mut self.arena,
            self.lists,
            self.live,
            offset,
            size,
            align,
        ))
    }

    // ---- what is in the slices

    /// The arena: all payloads, and the heap's headers between them.
    pub fn arena(&self) -> &[u8] {
        self.arena.bytes()
    }

    /// The tables: of the lists, of the live payloads, of the regions.
    pub fn tables(&self) -> (&[u64], &[u64], &[u64]) {
        (self.lists, self.live, self.regions)
    }

    /// The first `len` bytes of the payload at `offset`; none where no live payload starts there, or its block ends before.
    pub fn payload(&self, offset: usize, len: usize) -> Option<&[u8]> {
        let end = self.end_of(offset, len)?;
        self.arena().get(offset..end)
    }

    /// The same, to be written to.
    pub fn payload_mut(&mut self, offset: usize, len: usize) -> Option<&mut [u8]> {
        let end = self.end_of(offset, len)?;
        self.arena.bytes_mut().get_mut(offset..end)
    }

    /// Where `len` bytes of the live payload at `offset` end, if they lie in its block.
    fn end_of(&self, offset: usize, len: usize) -> Option<usize> {
        let half = offset / HALF_GRAIN;
        let bits = self.live.get(half / 64)?;
        if offset % HALF_GRAIN != 0 || bits >> (half % 64) & 1 == 0 {
            return None;
        }
        let block = match offset % GRAIN {
            0 => self.word(offset.checked_sub(8)?)?,
            _ => offset - HALF_GRAIN,
        };
        let size = self.word(block)?.checked_sub(USED)?;
        let end = offset.checked_add(len)?;
        let inside = block < offset && size % GRAIN == 0 && end <= block.checked_add(size)?;
        inside.then_some(end)
    }

    /// The word of the arena that starts at `offset`.
    fn word(&self, offset: usize) -> Option<usize> {
        let bytes = self.arena().get(offset..offset.checked_add(8)?)?;
        Some(usize::from_le_bytes(bytes.try_into().ok()?))
    }
}

impl fmt::Debug for Heap<'_> {
    fn fmt(&self, f: &mut fmt::Formatter<'_>) -> fmt::Result {
        f.debug_struct("Heap")
            .field("arena", &self.arena.start())
            .field("bytes", &self.arena.len())
            .finish_non_exhaustive()
    }
}

/// What blocks are counted in, and payloads.
const GRAIN: usize = 32;
const HALF_GRAIN: usize = 16;

/// The flag of a used block in its size word.
const USED: usize = 1;

/// An answer that is a number, or a refusal.
#[inline]
pub(crate) fn number(answer: u64) -> Result<usize, Refusal> {
    match Refusal::of(answer) {
        Some(why) => Err(why),
        None => Ok(answer as usize),
    }
}

/// An answer that says that it is done, or a refusal.
#[inline]
pub(crate) fn done(answer: u64) -> Result<(), Refusal> {
    number(answer).map(|_| ())
}
