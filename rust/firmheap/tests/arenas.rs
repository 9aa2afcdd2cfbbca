//! Arenas of odd lengths and at odd addresses, empty ones, and tables that are longer than they must be.

mod common;

use common::Lent;
use firmheap::{calls, lists_length, live_length, regions_length, Heap, Refusal};

#[test]
fn every_short_arena() {
    for len in 0..300 {
        for shift in [0, 1, 7, 31] {
            let mut lent = Lent::new(len, shift);
            let mut heap = lent.heap();
            let whole = len / 32 * 32;
            if whole < 64 {
                assert_eq!(heap.insert_free_block_at(0, len), Err(Refusal::BadRegion));
                assert_eq!(heap.allocate_at(0, 1), Err(Refusal::NoList));
                continue;
            }
            assert_eq!(heap.insert_free_block_at(0, len), Ok(whole), "arena of {len}");
            let mut taken = Vec::new();
            while let Ok(offset) = heap.allocate_at(1, 1) {
                heap.payload_mut(offset, 1).unwrap()[0] = 0xee;
                taken.push(offset);
            }
            assert_eq!(taken.len(), whole / 32 - 1);
            for offset in taken {
                assert_eq!(heap.deallocate_at(offset, 1), Ok(()));
            }
            // what is behind the last whole grain is nobody's
            assert!(heap.arena()[whole..].iter().all(|&byte| byte == 0xa5));
        }
    }
}

#[test]
fn regions_in_odd_places() {
    let mut lent = Lent::new(1000, 3);
    let mut heap = lent.heap();
    assert_eq!(heap.insert_free_block_at(5, 100), Ok(91));
    assert_eq!(heap.append_free_block_at(96, 70), Ok(64));
    // the arena has 31 whole grains: bytes of the one behind them may be named, but not all 32
    assert_eq!(heap.insert_free_block_at(500, 524), Err(Refusal::BadRegion));
    assert_eq!(heap.insert_free_block_at(500, 523), Ok(492));
    assert_eq!(heap.insert_free_block_at(200, 300), Ok(280));
    assert_eq!(heap.append_free_block_at(480, 10), Err(Refusal::TooShort));
}

#[test]
fn a_region_in_pieces() {
    let mut lent = Lent::new(400_000, 0);
    let mut heap = lent.heap();
    assert_eq!(heap.insert_free_block_at(0, 400_000), Ok(400_000));
    // the largest take that is sure to find a block of a whole piece
    assert_eq!(heap.allocate_at(126_961, 1), Err(Refusal::NoList));
    for _ in 0..3 {
        assert!(heap.allocate_at(126_960, 1).is_ok());
    }
    assert_eq!(heap.allocate_at(126_960, 1), Err(Refusal::NoList));
}

#[test]
fn longer_tables() {
    let mut arena = vec![0; 4096];
    let (mut lists, mut live) = (vec![7; lists_length() + 9], vec![7; live_length(4096) + 9]);
    let mut regions = vec![7; regions_length(2) + 1];
    let mut heap = Heap::new(&mut arena, &mut lists, &mut live, &mut regions).unwrap();
    assert_eq!(heap.insert_free_block_at(0, 2048), Ok(2048));
    assert_eq!(heap.append_free_block_at(2048, 1024), Ok(1024));
    // a word that is half an entry is no room
    assert_eq!(heap.append_free_block_at(3072, 1024), Err(Refusal::TooShort));
    let payload = heap.allocate_at(1000, 8).unwrap();
    assert_eq!(heap.deallocate_at(payload, 8), Ok(()));
}

/// The calls as C sees them answer the same numbers.
#[test]
fn the_calls_by_slices() {
    let (mut arena, mut lists) = (vec![0; 4096], vec![0; lists_length()]);
    let (mut live, mut regions) = (vec![0; live_length(4096)], vec![0; regions_length(2)]);
    assert_eq!(calls::init(&mut arena, &mut lists, &mut live, &mut regions), 0);
    assert_eq!(
        calls::insert_free_block(&mut arena, &mut lists, &mut regions, 0, 2048),
        2048
    );
    assert_eq!(
        calls::append_free_block(&mut arena, &mut lists, &mut regions, 2048, 2048),
        2048
    );
    assert_eq!(
        calls::insert_free_block(&mut arena, &mut lists, &mut regions, 0, 2048),
        6
    );
    assert_eq!(calls::allocate(&mut arena, &mut lists, &mut live, 100, 8), 2064);
    assert_eq!(calls::reallocate(&mut arena, &mut lists, &mut live, 2064, 200, 8), 2064);
    assert_eq!(calls::deallocate(&mut arena, &mut lists, &mut live, 2064, 8), 0);
    assert_eq!(calls::deallocate(&mut arena, &mut lists, &mut live, 2064, 8), 3);
    assert_eq!(calls::allocate(&mut arena, &mut lists, &mut live, 1, 3), 2);
    assert_eq!(calls::allocate(&mut arena, &mut lists, &mut live, 4000, 8), 1);
    arena[2048] = 0xff;
    assert_eq!(calls::allocate(&mut arena, &mut lists, &mut live, 100, 8), 5);
    assert_eq!(calls::init(&mut arena, &mut lists, &mut live, &mut []), 6);
}
