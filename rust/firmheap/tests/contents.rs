//! What is in payloads: safe access to them, and that a resize keeps their bytes.

mod common;

use common::{state, Lent};
use firmheap::Heap;

/// Bytes that tell their place and whose they are.
fn pattern(seed: usize, len: usize) -> Vec<u8> {
    (0..len)
        .map(|place| (place * 31 + seed * 17 + place / 251) as u8)
        .collect()
}

fn filled(heap: &mut Heap<'_>, size: usize, align: usize) -> usize {
    let offset = heap.allocate_at(size, align).unwrap();
    heap.payload_mut(offset, size)
        .unwrap()
        .copy_from_slice(&pattern(offset, size));
    offset
}

#[test]
fn a_resize_in_place_keeps_all_bytes() {
    let mut lent = Lent::new(65_536, 0);
    let mut heap = lent.heap();
    heap.insert_free_block_at(0, 65_536).unwrap();
    let payload = filled(&mut heap, 1000, 8);
    for size in [1000, 1001, 5000, 1000] {
        assert_eq!(heap.reallocate_at(payload, size, 8), Ok(payload));
        assert_eq!(heap.payload(payload, 1000).unwrap(), pattern(payload, 1000));
    }
    assert_eq!(heap.reallocate_at(payload, 10, 8), Ok(payload));
    assert_eq!(heap.payload(payload, 10).unwrap(), pattern(payload, 10));
    assert_eq!(heap.payload(payload, 1000), None);
}

#[test]
fn a_resize_downwards_keeps_all_bytes() {
    for (align, room) in [(8, 300), (64, 300), (1024, 1100)] {
        let mut lent = Lent::new(65_536, 0);
        let mut heap = lent.heap();
        heap.insert_free_block_at(0, 65_536).unwrap();
        let below = heap.allocate_at(room, 8).unwrap();
        let payload = filled(&mut heap, 1000, align);
        let above = heap.allocate_at(60_000, 8).unwrap();
        heap.deallocate_at(below, 8).unwrap();
        let moved = heap.reallocate_at(payload, 1250, align).unwrap();
        assert!(moved < payload && payload <= moved + 1024, "down, next to where it was");
        assert_eq!(heap.payload(moved, 1000).unwrap(), pattern(payload, 1000));
        heap.deallocate_at(above, 8).unwrap();
        heap.deallocate_at(moved, align).unwrap();
    }
}

#[test]
fn a_resize_elsewhere_keeps_all_bytes() {
    for align in [1, 32, 4096] {
        let mut lent = Lent::new(65_536, 0);
        let mut heap = lent.heap();
        heap.insert_free_block_at(0, 65_536).unwrap();
        let payload = filled(&mut heap, 1000, align);
        let behind = filled(&mut heap, 100, 8);
        let moved = heap.reallocate_at(payload, 20_000, align).unwrap();
        assert!(moved > behind);
        assert_eq!(moved % align, 0);
        assert_eq!(heap.payload(moved, 1000).unwrap(), pattern(payload, 1000));
        assert_eq!(heap.payload(behind, 100).unwrap(), pattern(behind, 100));
        assert_eq!(heap.payload(payload, 0), None);
    }
}

/// Calls change no byte of the payloads that they are not for.
#[test]
fn other_payloads_stay() {
    let mut lent = Lent::new(65_536, 0);
    let mut heap = lent.heap();
    heap.insert_free_block_at(0, 65_536).unwrap();
    let mut held: Vec<(usize, usize, usize, Vec<u8>)> = Vec::new();
    for round in 0..1500usize {
        let (size, align) = (round * 53 % 700, 1 << (round % 13));
        if let Ok(offset) = heap.allocate_at(size, align) {
            let bytes = pattern(round, size);
            heap.payload_mut(offset, size).unwrap().copy_from_slice(&bytes);
            held.push((offset, size, align, bytes));
        }
        if held.len() > 15 {
            let entry = round * 11 % held.len();
            let (offset, size, align, _) = held[entry];
            if round % 2 == 0 {
                held.swap_remove(entry);
                heap.deallocate_at(offset, align).unwrap();
            } else if let Ok(moved) = heap.reallocate_at(offset, size / 2, align) {
                held[entry].0 = moved;
                held[entry].1 = size / 2;
                held[entry].3.truncate(size / 2);
            }
        }
        for (offset, size, _, bytes) in &held {
            assert_eq!(heap.payload(*offset, *size).unwrap(), bytes, "round {round}");
        }
    }
}

#[test]
fn access_is_to_live_payloads_and_inside_their_blocks() {
    let mut lent = Lent::new(4096, 0);
    let mut heap = lent.heap();
    heap.insert_free_block_at(0, 4096).unwrap();
    let small = heap.allocate_at(100, 8).unwrap();
    let large = heap.allocate_at(100, 512).unwrap();
    let empty = heap.allocate_at(0, 32).unwrap();
    // the block has 16 + 100 bytes, rounded up to 128
    assert_eq!(heap.payload(small, 112).unwrap().len(), 112);
    assert_eq!(heap.payload(small, 113), None);
    assert_eq!(heap.payload(large, 128).unwrap().len(), 128);
    assert_eq!(heap.payload(large, 129), None);
    assert_eq!(heap.payload(empty, 0).unwrap().len(), 0);
    assert_eq!(heap.payload(empty, 1), None);
    assert_eq!(heap.payload(small, usize::MAX), None);
    for offset in (0..5000).chain([usize::MAX - 15, usize::MAX]) {
        let live = [small, large, empty].contains(&offset);
        assert_eq!(heap.payload(offset, 0).is_some(), live, "offset {offset}");
        assert_eq!(heap.payload_mut(offset, 0).is_some(), live, "offset {offset}");
    }
    heap.deallocate_at(small, 8).unwrap();
    assert_eq!(heap.payload(small, 0), None);
}

/// Access to payloads of damaged heaps stays in the arena.
#[test]
fn access_on_any_memory() {
    for fill in [0u8, 1, 0x21, 0x7f, 0xff] {
        let mut lent = Lent::new(1000, 0);
        lent.arena().fill(fill);
        lent.live.fill(u64::MAX);
        lent.live.extend([u64::MAX; 8]);
        let mut heap = lent.again();
        for offset in (0..2000).chain([usize::MAX - 31, usize::MAX - 15]) {
            for len in [0, 1, 16, 900, usize::MAX] {
                if let Some(bytes) = heap.payload_mut(offset, len) {
                    assert!(offset + bytes.len() <= 1000 && bytes.len() == len);
                }
            }
        }
    }
}

/// The heap is its slices: dropped and made again, it goes on.
#[test]
fn a_heap_is_resumed() {
    let mut lent = Lent::new(65_536, 0);
    let mut heap = lent.heap();
    heap.insert_free_block_at(0, 65_536).unwrap();
    let payload = filled(&mut heap, 1000, 8);
    let before = state(&heap);
    let mut heap = lent.again();
    assert!(state(&heap) == before);
    assert_eq!(heap.payload(payload, 1000).unwrap(), pattern(payload, 1000));
    assert_eq!(heap.deallocate_at(payload, 8), Ok(()));
    assert_eq!(heap.allocate_at(100, 8), Ok(16));
}
