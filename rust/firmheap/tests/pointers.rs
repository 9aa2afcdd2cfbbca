//! The calls by pointer: rlsf's names and types, wrong pointers, and arenas that are not aligned.

mod common;

use core::alloc::Layout;
use core::num::NonZeroUsize;
use core::ptr::NonNull;

use common::{state, Lent};
use firmheap::{Heap, Refusal};

fn layout(size: usize, align: usize) -> Layout {
    Layout::from_size_align(size, align).unwrap()
}

/// `len` bytes of the arena from `start` on.
fn part(heap: &Heap<'_>, start: usize, len: usize) -> NonNull<[u8]> {
    NonNull::slice_from_raw_parts(heap.pointer_at(start).unwrap(), len)
}

/// The names and types of rlsf's calls.
#[test]
fn names_and_types() {
    type Inserts<'a> = fn(&mut Heap<'a>, NonNull<[u8]>) -> Option<NonZeroUsize>;
    type Appends<'a> = fn(&mut Heap<'a>, NonNull<[u8]>) -> usize;
    type Takes<'a> = fn(&mut Heap<'a>, Layout) -> Option<NonNull<u8>>;
    type Returns<'a> = fn(&mut Heap<'a>, NonNull<u8>, usize);
    type Resizes<'a> = fn(&mut Heap<'a>, NonNull<u8>, Layout) -> Option<NonNull<u8>>;
    let _: Inserts = Heap::insert_free_block_ptr;
    let _: Appends = Heap::append_free_block_ptr;
    let _: Takes = Heap::allocate;
    let _: Returns = Heap::deallocate;
    let _: Resizes = Heap::reallocate;
}

/// Goes to other threads as rlsf's heap does.
#[test]
fn sent_and_shared() {
    fn is_both<T: Send + Sync>() {}
    is_both::<Heap<'static>>();
}

/// Payloads are written through their pointers while the heap takes, returns and resizes beside them.
#[test]
fn payloads_keep_their_bytes() {
    let mut lent = Lent::new(65_536, 0);
    let mut heap = lent.heap();
    assert_eq!(
        heap.insert_free_block_ptr(part(&heap, 0, 32_768)),
        NonZeroUsize::new(32_768)
    );
    assert_eq!(heap.append_free_block_ptr(part(&heap, 32_768, 32_768)), 32_768);
    let mut held: Vec<(NonNull<u8>, usize, usize)> = Vec::new();
    for round in 0..2000usize {
        let (size, align) = (round * 37 % 300 + 1, 1 << (round % 9));
        if let Some(pointer) = heap.allocate(layout(size, align)) {
            assert_eq!(pointer.as_ptr() as usize % align, 0);
            // SAFETY: the payload has so many bytes, is live, and nobody else refers to it.
            unsafe { pointer.as_ptr().write_bytes(size as u8, size) };
            held.push((pointer, size, align));
        }
        if round % 3 != 0 && held.len() > 20 {
            let (pointer, size, align) = held.swap_remove(round * 7 % held.len());
            // SAFETY: the payload is live, and its bytes were written.
            let bytes = unsafe { core::slice::from_raw_parts(pointer.as_ptr(), size) };
            assert!(bytes.iter().all(|&byte| byte == size as u8));
            let moved = heap.reallocate(pointer, layout(size + 100, align));
            // SAFETY: as above, at the payload's new place; refused, it is where it was.
            let bytes = unsafe { core::slice::from_raw_parts(moved.unwrap_or(pointer).as_ptr(), size) };
            assert!(bytes.iter().all(|&byte| byte == size as u8));
            assert_eq!(heap.try_deallocate(moved.unwrap_or(pointer), align), Ok(()));
        }
    }
    for (pointer, _, align) in held {
        assert_eq!(heap.try_deallocate(pointer, align), Ok(()));
    }
}

/// A reference to one payload lives through calls for others.
#[test]
fn a_reference_lives_through_calls() {
    let mut lent = Lent::new(4096, 0);
    let mut heap = lent.heap();
    heap.insert_free_block_at(0, 4096).unwrap();
    let before = heap.allocate(layout(64, 8)).unwrap();
    let held = heap.allocate(layout(64, 8)).unwrap();
    // SAFETY: the payload has so many bytes, and stays live as long as the reference.
    let bytes = unsafe { core::slice::from_raw_parts_mut(held.as_ptr(), 64) };
    bytes.fill(1);
    let behind = heap.allocate(layout(64, 8)).unwrap();
    heap.deallocate(before, 8);
    bytes[0] = 2;
    let behind = heap.reallocate(behind, layout(500, 8)).unwrap();
    heap.deallocate(behind, 8);
    bytes[63] = 3;
    assert_eq!(bytes.iter().map(|&byte| byte as usize).sum::<usize>(), 62 + 2 + 3);
    assert_eq!(heap.try_deallocate(held, 8), Ok(()));
}

#[test]
fn pointers_out_of_the_arena_are_refused() {
    let mut lent = Lent::new(4096, 0);
    let mut heap = lent.heap();
    heap.insert_free_block_at(0, 2048).unwrap();
    let payload = heap.allocate(layout(100, 8)).unwrap();
    let before = state(&heap);
    let start = heap.pointer_at(0).unwrap().as_ptr();
    let mut other = 0u64;
    let wrong = [
        start.wrapping_sub(16),
        start.wrapping_add(4097),
        start.wrapping_add(1 << 40),
        &mut other as *mut u64 as *mut u8,
        core::ptr::without_provenance_mut(1),
        core::ptr::without_provenance_mut(usize::MAX - 15),
    ];
    for pointer in wrong.map(|pointer| NonNull::new(pointer).unwrap()) {
        assert_eq!(heap.offset_of(pointer), None);
        assert_eq!(heap.try_deallocate(pointer, 8), Err(Refusal::NotLive));
        assert_eq!(heap.try_reallocate(pointer, layout(8, 8)), Err(Refusal::NotLive));
        heap.deallocate(pointer, 8);
        assert_eq!(heap.reallocate(pointer, layout(8, 8)), None);
        let block = NonNull::slice_from_raw_parts(pointer, 1024);
        assert_eq!(heap.try_insert_free_block_ptr(block), Err(Refusal::BadRegion));
        assert_eq!(heap.try_append_free_block_ptr(block), Err(Refusal::BadRegion));
        assert_eq!(heap.insert_free_block_ptr(block), None);
        assert_eq!(heap.append_free_block_ptr(block), 0);
    }
    assert!(state(&heap) == before);
    assert_eq!(heap.try_deallocate(payload, 8), Ok(()));
}

#[test]
fn pointers_inside_that_are_no_payloads_are_refused() {
    let mut lent = Lent::new(4096, 0);
    let mut heap = lent.heap();
    heap.insert_free_block_at(0, 4096).unwrap();
    let payload = heap.allocate(layout(100, 8)).unwrap();
    let before = state(&heap);
    for offset in (0..=4096)
        .filter(|&offset| Some(offset) != heap.offset_of(payload))
        .collect::<Vec<_>>()
    {
        let pointer = heap.pointer_at(offset).unwrap();
        assert!(heap.try_deallocate(pointer, 1).is_err(), "offset {offset}");
    }
    assert!(state(&heap) == before);
    heap.deallocate(payload, 8);
    heap.deallocate(payload, 8); // a second time: left alone
    assert_eq!(heap.try_deallocate(payload, 8), Err(Refusal::NotLive));
}

/// Where the arena's address is no multiple of an alignment, it is refused rather than answered wrongly.
#[test]
fn arenas_that_are_not_aligned() {
    for shift in [1, 2, 4, 8, 16, 32, 64, 100, 2048, 4095] {
        let mut lent = Lent::new(65_536, shift);
        let mut heap = lent.heap();
        heap.insert_free_block_at(0, 65_536).unwrap();
        for bit in 0..=13 {
            let align = 1usize << bit;
            let before = state(&heap);
            match heap.try_allocate(layout(10, align)) {
                Ok(pointer) => {
                    assert!(shift % align == 0 && align <= 4096);
                    assert_eq!(pointer.as_ptr() as usize % align, 0);
                    assert_eq!(heap.try_reallocate(pointer, layout(11, align)), Ok(pointer));
                    assert_eq!(heap.try_deallocate(pointer, align), Ok(()));
                }
                Err(why) => {
                    assert!(shift % align != 0 || align > 4096);
                    assert_eq!(why, Refusal::OutOfRange);
                    assert!(state(&heap) == before);
                }
            }
        }
        let pointer = heap.allocate(layout(10, 1)).unwrap();
        assert_eq!(heap.try_reallocate(pointer, layout(10, 4096)), Err(Refusal::OutOfRange));
    }
}

#[test]
fn offsets_and_pointers() {
    let mut lent = Lent::new(100, 0);
    let heap = lent.heap();
    for offset in 0..=100 {
        assert_eq!(heap.offset_of(heap.pointer_at(offset).unwrap()), Some(offset));
    }
    assert_eq!(heap.pointer_at(101), None);
    assert_eq!(heap.pointer_at(usize::MAX), None);
}
