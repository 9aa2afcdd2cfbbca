//! The heaps in an arena: firmheap through its crate, by offset and by pointer, and the trusting twin.

use crate::candidate::Heap;
use crate::lent;
use crate::twin::{Twin, LISTS_LENGTH};
use core::alloc::Layout;
use core::ptr::NonNull;
use std::slice;

/// What a heap in an arena is lent.
#[derive(Clone, Copy)]
struct Memory {
    arena: *mut u8,
    len: usize,
}

impl Memory {
    fn new(len: usize) -> Memory {
        let arena = lent::arena(len);
        Memory { arena, len }
    }

    #[inline(always)]
    fn at(&self, offset: usize) -> *mut u8 {
        self.arena.wrapping_add(offset)
    }
}

/// Firmheap, by offset.
pub struct ByOffset {
    memory: Memory,
    tables: [*mut [u64]; 3],
    heap: firmheap::Heap<'static>,
}

impl ByOffset {
    pub fn new(arena: usize) -> ByOffset {
        let memory = Memory::new(arena);
        let tables: [*mut [u64]; 3] = [
            lent::table(firmheap::lists_length()),
            lent::table(firmheap::live_length(arena)),
            lent::table(firmheap::regions_length(1)),
        ];
        let heap = made(memory, tables);
        ByOffset { memory, tables, heap }
    }
}

/// An empty heap with one region. What was made of the same memory before is used no more.
fn made(memory: Memory, tables: [*mut [u64]; 3]) -> firmheap::Heap<'static> {
    let [lists, live, regions] = tables;
    // SAFETY: the memory is lent for good, and to this heap alone.
    let heap = unsafe {
        let arena = lent::bytes(memory.arena, memory.len);
        firmheap::Heap::new(arena, &mut *lists, &mut *live, &mut *regions)
    };
    let mut heap = heap.expect("the tables are long enough");
    heap.insert_free_block_at(0, memory.len).expect("the arena is no gap");
    heap
}

impl Heap for ByOffset {
    fn name(&self) -> &'static str {
        "firmheap"
    }

    fn empty(&mut self, _live: &[(usize, usize)]) {
        self.heap = made(self.memory, self.tables);
    }

    #[inline(always)]
    fn take(&mut self, size: usize, align: usize) -> usize {
        self.heap.allocate_at(size, align).unwrap_or(0)
    }

    #[inline(always)]
    fn give_back(&mut self, payload: usize, align: usize) {
        let _ = self.heap.deallocate_at(payload, align);
    }

    #[inline(always)]
    fn resize(&mut self, payload: usize, size: usize, align: usize) -> usize {
        self.heap.reallocate_at(payload, size, align).unwrap_or(0)
    }

    fn first_byte(&self, payload: usize) -> Option<*mut u8> {
        Some(self.memory.at(payload))
    }

    fn offset(&self, payload: usize) -> Option<usize> {
        Some(payload)
    }
}

/// Firmheap, by pointer: the calls that have rlsf's names and types.
pub struct ByPointer(ByOffset);

impl ByPointer {
    pub fn new(arena: usize) -> ByPointer {
        ByPointer(ByOffset::new(arena))
    }
}

/// The layout of a call: the rule's alignments are powers of two, and its sizes small.
#[inline(always)]
pub fn layout(size: usize, align: usize) -> Layout {
    Layout::from_size_align(size, align).expect("a size and an alignment of the rule")
}

/// The address of what was answered, 0 where it was refused.
#[inline(always)]
pub fn address(answer: Option<NonNull<u8>>) -> usize {
    answer.map_or(0, |payload| payload.as_ptr() as usize)
}

impl Heap for ByPointer {
    fn name(&self) -> &'static str {
        "firmheap, pointers"
    }

    fn empty(&mut self, live: &[(usize, usize)]) {
        self.0.empty(live);
    }

    #[inline(always)]
    fn take(&mut self, size: usize, align: usize) -> usize {
        address(self.0.heap.allocate(layout(size, align)))
    }

    #[inline(always)]
    fn give_back(&mut self, payload: usize, align: usize) {
        if let Some(payload) = NonNull::new(payload as *mut u8) {
            self.0.heap.deallocate(payload, align);
        }
    }

    #[inline(always)]
    fn resize(&mut self, payload: usize, size: usize, align: usize) -> usize {
        match NonNull::new(payload as *mut u8) {
            Some(payload) => address(self.0.heap.reallocate(payload, layout(size, align))),
            None => 0,
        }
    }

    fn first_byte(&self, payload: usize) -> Option<*mut u8> {
        Some(payload as *mut u8)
    }

    fn offset(&self, payload: usize) -> Option<usize> {
        Some(payload.wrapping_sub(self.0.memory.arena as usize))
    }
}

/// The trusting twin.
pub struct Trusting {
    memory: Memory,
    lists: *mut u64,
    twin: Twin,
}

impl Trusting {
    pub fn new(arena: usize) -> Trusting {
        let memory = Memory::new(arena);
        let lists = lent::table(LISTS_LENGTH).as_mut_ptr();
        // SAFETY: the memory is lent for good, and to this heap alone.
        let twin = unsafe { Twin::new(memory.arena, lists.cast()) };
        let mut made = Trusting { memory, lists, twin };
        made.empty(&[]);
        made
    }

    /// The arena and the lists, as they are.
    pub fn slices(&self) -> (&[u8], &[u64]) {
        // SAFETY: both were lent with these lengths, and are written by exclusive borrows of this heap alone.
        unsafe {
            (
                slice::from_raw_parts(self.memory.arena, self.memory.len),
                slice::from_raw_parts(self.lists, LISTS_LENGTH),
            )
        }
    }

    /// The twin itself.
    pub fn twin(&self) -> Twin {
        self.twin
    }
}

// Of all calls below: payloads come from the same heap and are live, as the record says.
impl Heap for Trusting {
    fn name(&self) -> &'static str {
        "trusting twin"
    }

    fn empty(&mut self, _live: &[(usize, usize)]) {
        // SAFETY: the memory is lent for good, and to this heap alone; the region is the whole arena.
        unsafe {
            self.twin = Twin::new(self.memory.arena, self.lists.cast());
            self.twin.give(0, self.memory.len);
        }
    }

    #[inline(always)]
    fn take(&mut self, size: usize, align: usize) -> usize {
        // SAFETY: the rule's sizes and alignments are in range.
        unsafe { self.twin.take(size, align) }
    }

    #[inline(always)]
    fn give_back(&mut self, payload: usize, align: usize) {
        // SAFETY: the payload is live.
        unsafe { self.twin.give_back(payload, align) }
    }

    #[inline(always)]
    fn resize(&mut self, payload: usize, size: usize, align: usize) -> usize {
        // SAFETY: the payload is live.
        unsafe { self.twin.resize(payload, size, align) }
    }

    fn first_byte(&self, payload: usize) -> Option<*mut u8> {
        Some(self.memory.at(payload))
    }

    fn offset(&self, payload: usize) -> Option<usize> {
        Some(payload)
    }
}
