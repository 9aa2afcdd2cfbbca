//! The calls by pointer, with the names and types of rlsf's `Tlsf`; and the same with the reason of a refusal.
//!
//! rlsf's calls that are given a pointer are unsafe. These are not: a pointer is only compared with the arena's address,
//! never followed, and the heap knows its live payloads. What stays unsafe is to use a pointer that was handed out.

use core::alloc::Layout;
use core::num::NonZeroUsize;
use core::ptr::NonNull;

use crate::heap::Heap;
use crate::refusal::Refusal;

impl Heap<'_> {
    // ---- with the names and types of rlsf

    /// Gives the heap a part of its arena. Answers how many bytes of it are used, or none: see
    /// [`Heap::insert_free_block_at`]. A block that doesn't start in the arena is refused, and not touched.
    pub fn insert_free_block_ptr(&mut self, block: NonNull<[u8]>) -> Option<NonZeroUsize> {
        NonZeroUsize::new(self.try_insert_free_block_ptr(block).ok()?)
    }

    /// Gives the heap a part of its arena that begins where another one ended. Answers how many bytes of it are used; 0 is a
    /// refusal.
    pub fn append_free_block_ptr(&mut self, block: NonNull<[u8]>) -> usize {
        self.try_append_free_block_ptr(block).unwrap_or(0)
    }

    /// Takes a payload of this size and alignment. None is a refusal, whose reason [`Heap::try_allocate`] says.
    ///
    /// # Using the pointer
    ///
    /// Its bytes may be read and written, as many as were asked for, until the payload is returned, moved or made smaller,
    /// and as long as the slices are lent. They must stay initialised, since the heap's safe calls read them, and so does who
    /// lent the arena: a type with padding that is written through the pointer may leave bytes that are not. All this is up
    /// to who uses it: the heap's own calls never need it. A reference that is made of it may live through calls that take,
    /// return, resize and give; but not through [`Heap::arena`], [`Heap::payload`] and [`Heap::payload_mut`], which make
    /// references to the same bytes.
    #[inline]
    pub fn allocate(&mut self, layout: Layout) -> Option<NonNull<u8>> {
        self.try_allocate(layout).ok()
    }

    /// Returns a payload. Of a refusal nothing is told: what is no live payload is left alone. [`Heap::try_deallocate`] tells.
    #[inline]
    pub fn deallocate(&mut self, payload: NonNull<u8>, align: usize) {
        let _ = self.try_deallocate(payload, align);
    }

    /// Makes a payload one of another size, with the alignment it has: where it is, or elsewhere with its bytes. None is a
    /// refusal: the payload is then as it was.
    #[inline]
    pub fn reallocate(&mut self, payload: NonNull<u8>, layout: Layout) -> Option<NonNull<u8>> {
        self.try_reallocate(payload, layout).ok()
    }

    // ---- with the reason of a refusal

    /// [`Heap::insert_free_block_ptr`], with the reason of a refusal.
    pub fn try_insert_free_block_ptr(&mut self, block: NonNull<[u8]>) -> Result<usize, Refusal> {
        let start = self.offset_of(block.cast()).ok_or(Refusal::BadRegion)?;
        self.insert_free_block_at(start, block.len())
    }

    /// [`Heap::append_free_block_ptr`], with the reason of a refusal.
    pub fn try_append_free_block_ptr(&mut self, block: NonNull<[u8]>) -> Result<usize, Refusal> {
        let start = self.offset_of(block.cast()).ok_or(Refusal::BadRegion)?;
        self.append_free_block_at(start, block.len())
    }

    /// [`Heap::allocate`], with the reason of a refusal. An alignment that the arena's address is no multiple of is refused
    /// with [`Refusal::OutOfRange`]: offsets are aligned, and an address is so only where the arena's is.
    #[inline]
    pub fn try_allocate(&mut self, layout: Layout) -> Result<NonNull<u8>, Refusal> {
        self.suits(layout.align())?;
        let offset = self.allocate_at(layout.size(), layout.align())?;
        Ok(self.pointer_to(offset))
    }

    /// [`Heap::deallocate`], with the reason of a refusal: [`Refusal::NotLive`] where the pointer leads out of the arena, and
    /// else as [`Heap::deallocate_at`].
    #[inline]
    pub fn try_deallocate(&mut self, payload: NonNull<u8>, align: usize) -> Result<(), Refusal> {
        let offset = self.offset_of(payload).ok_or(Refusal::NotLive)?;
        self.deallocate_at(offset, align)
    }

    /// [`Heap::reallocate`], with the reason of a refusal.
    #[inline]
    pub fn try_reallocate(&mut self, payload: NonNull<u8>, layout: Layout) -> Result<NonNull<u8>, Refusal> {
        self.suits(layout.align())?;
        let offset = self.offset_of(payload).ok_or(Refusal::NotLive)?;
        let offset = self.reallocate_at(offset, layout.size(), layout.align())?;
        Ok(self.pointer_to(offset))
    }

    // ---- offsets and pointers

    /// The pointer to the byte at `offset`, as the calls by pointer answer it; none where it lies behind the arena.
    pub fn pointer_at(&self, offset: usize) -> Option<NonNull<u8>> {
        (offset <= self.arena.len()).then(|| self.pointer_to(offset))
    }

    /// The offset that a pointer has in the arena; none where it leads out of it. The pointer is not followed.
    #[inline]
    pub fn offset_of(&self, pointer: NonNull<u8>) -> Option<usize> {
        let start = self.arena.start().as_ptr() as usize;
        let offset = (pointer.as_ptr() as usize).checked_sub(start)?;
        (offset <= self.arena.len()).then_some(offset)
    }

    /// An offset that a granted call answered lies in the arena, so this is never null; where it were, it is the arena's
    /// first byte, which is no payload.
    #[inline]
    fn pointer_to(&self, offset: usize) -> NonNull<u8> {
        let start = self.arena.start();
        NonNull::new(start.as_ptr().wrapping_add(offset)).unwrap_or(start)
    }

    /// Whether offsets at multiples of `align` are addresses at multiples of it.
    #[inline]
    fn suits(&self, align: usize) -> Result<(), Refusal> {
        // The alignment of a layout is a power of two, so that a mask does, and no division.
        match self.arena.start().as_ptr() as usize & align.wrapping_sub(1) {
            0 => Ok(()),
            _ => Err(Refusal::OutOfRange),
        }
    }
}
