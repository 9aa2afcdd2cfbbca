//! Each refusal at each call that has it; and that nothing changes.

mod common;

use std::error::Error;

use common::{state, Lent};
use firmheap::{Heap, Refusal};

use Refusal::{BadRegion, Damaged, NoList, NotLive, OutOfRange, TooShort};

/// The call is refused so, and nothing has changed.
fn refused<T: std::fmt::Debug + PartialEq>(
    heap: &mut Heap<'_>,
    why: Refusal,
    call: impl Fn(&mut Heap<'_>) -> Result<T, Refusal>,
) {
    let before = state(heap);
    assert_eq!(call(heap), Err(why));
    assert!(state(heap) == before, "a refusal changed something");
}

#[test]
fn numbers_and_names() {
    for (refusal, number) in Refusal::ALL.into_iter().zip(1..) {
        assert_eq!(refusal.number(), number);
        assert_eq!(Refusal::of(number), Some(refusal));
    }
    for answer in [0, 7, 16, u64::MAX] {
        assert_eq!(Refusal::of(answer), None);
    }
}

#[test]
fn refusals_say_what_to_do() {
    assert!(NoList.to_string().contains("give the heap another region"));
    assert!(OutOfRange.to_string().contains("a power of two up to 4,096"));
    assert!(NotLive.to_string().contains("returned before"));
    assert!(BadRegion.to_string().contains("fewer than 64 bytes"));
    assert!(Damaged.to_string().contains("make the heap anew"));
    assert!(TooShort.to_string().contains("lists_length"));
    assert!(format!("{NotLive:?}").starts_with("NotLive (3: no live payload"));
    let boxed: Box<dyn Error> = Box::new(Damaged);
    assert_eq!(boxed.to_string(), Damaged.to_string());
}

#[test]
fn no_list() {
    let mut lent = Lent::new(4096, 0);
    let mut heap = lent.heap();
    refused(&mut heap, NoList, |heap| heap.allocate_at(0, 1));
    heap.insert_free_block_at(0, 4096).unwrap();
    refused(&mut heap, NoList, |heap| heap.allocate_at(4096, 1));
    refused(&mut heap, NoList, |heap| heap.allocate_at(1 << 40, 1));
    let payload = heap.allocate_at(100, 1).unwrap();
    refused(&mut heap, NoList, |heap| heap.reallocate_at(payload, 5000, 1));
    assert_eq!(heap.deallocate_at(payload, 1), Ok(()));
}

#[test]
fn out_of_range() {
    let mut lent = Lent::new(65_536, 0);
    let mut heap = lent.heap();
    heap.insert_free_block_at(0, 65_536).unwrap();
    let small = heap.allocate_at(100, 16).unwrap();
    let large = heap.allocate_at(100, 64).unwrap();
    for align in [0, 3, 12, 4097, 8192, usize::MAX] {
        refused(&mut heap, OutOfRange, |heap| heap.allocate_at(8, align));
        refused(&mut heap, OutOfRange, |heap| heap.deallocate_at(small, align));
        refused(&mut heap, OutOfRange, |heap| heap.reallocate_at(small, 8, align));
    }
    for size in [usize::MAX, usize::MAX - 15] {
        refused(&mut heap, OutOfRange, |heap| heap.allocate_at(size, 1));
        refused(&mut heap, OutOfRange, |heap| heap.reallocate_at(small, size, 1));
    }
    // of the other kind, or no divisor of the offset
    refused(&mut heap, OutOfRange, |heap| heap.deallocate_at(small, 32));
    refused(&mut heap, OutOfRange, |heap| heap.deallocate_at(large, 16));
    refused(&mut heap, OutOfRange, |heap| heap.deallocate_at(large, 4096));
    assert_eq!(heap.deallocate_at(small, 1), Ok(()));
    assert_eq!(heap.deallocate_at(large, 32), Ok(()));
}

#[test]
fn not_live() {
    let mut lent = Lent::new(4096, 0);
    let mut heap = lent.heap();
    heap.insert_free_block_at(0, 4096).unwrap();
    let payload = heap.allocate_at(100, 8).unwrap();
    for offset in [0, 8, 24, 48, payload + 32, 4080, 4096, 4112, 1 << 20, usize::MAX - 15] {
        let align = if offset % 32 == 0 { 32 } else { 1 };
        refused(&mut heap, NotLive, |heap| heap.deallocate_at(offset, align));
        refused(&mut heap, NotLive, |heap| heap.reallocate_at(offset, 8, align));
    }
    assert_eq!(heap.deallocate_at(payload, 8), Ok(()));
    refused(&mut heap, NotLive, |heap| heap.deallocate_at(payload, 8));
    refused(&mut heap, NotLive, |heap| heap.reallocate_at(payload, 8, 8));
}

#[test]
fn a_moved_payload_is_not_live_where_it_was() {
    let mut lent = Lent::new(4096, 0);
    let mut heap = lent.heap();
    heap.insert_free_block_at(0, 4096).unwrap();
    let old = heap.allocate_at(100, 8).unwrap();
    heap.allocate_at(100, 8).unwrap();
    let new = heap.reallocate_at(old, 500, 8).unwrap();
    assert_ne!(old, new);
    refused(&mut heap, NotLive, |heap| heap.deallocate_at(old, 8));
    assert_eq!(heap.deallocate_at(new, 8), Ok(()));
}

#[test]
fn bad_region() {
    let mut lent = Lent::new(4096, 0);
    let mut heap = lent.heap();
    for (start, len) in [
        (0, 0),
        (0, 63),
        (1, 94),
        (0, 4128),
        (4064, 64),
        (4096, 64),
        (usize::MAX, 64),
        (64, usize::MAX),
    ] {
        refused(&mut heap, BadRegion, |heap| heap.insert_free_block_at(start, len));
    }
    refused(&mut heap, BadRegion, |heap| heap.append_free_block_at(0, 64));
    assert_eq!(heap.insert_free_block_at(64, 64), Ok(64));
    for (start, len) in [(0, 96), (64, 64), (96, 64), (32, 128)] {
        refused(&mut heap, BadRegion, |heap| heap.insert_free_block_at(start, len));
    }
    refused(&mut heap, BadRegion, |heap| heap.append_free_block_at(160, 64));
    assert_eq!(heap.append_free_block_at(128, 64), Ok(64));
}

#[test]
fn damaged() {
    let mut lent = Lent::new(4096, 0);
    let mut heap = lent.heap();
    heap.insert_free_block_at(0, 2048).unwrap();
    let payload = heap.allocate_at(100, 8).unwrap();
    // a write behind the payload's end goes over the next block's header
    lent.arena()[128..160].fill(0xff);
    let mut heap = lent.again();
    refused(&mut heap, Damaged, |heap| heap.allocate_at(8, 8));
    refused(&mut heap, Damaged, |heap| heap.deallocate_at(payload, 8));
    refused(&mut heap, Damaged, |heap| heap.reallocate_at(payload, 8, 8));
    lent.regions[1] = 77;
    let mut heap = lent.again();
    refused(&mut heap, Damaged, |heap| heap.insert_free_block_at(3072, 1024));
    refused(&mut heap, Damaged, |heap| heap.append_free_block_at(2048, 1024));
}

#[test]
fn too_short() {
    let mut lent = Lent::new(4096, 0);
    let mut heap = lent.heap();
    for start in [0, 64, 128, 192] {
        heap.insert_free_block_at(start, 64).unwrap();
    }
    refused(&mut heap, TooShort, |heap| heap.insert_free_block_at(512, 64));
    refused(&mut heap, TooShort, |heap| heap.append_free_block_at(256, 64));

    let (mut arena, mut lists, mut live, mut regions) = ([0; 2048], [0; 195], [0; 3], [0; 3]);
    assert_eq!(
        Heap::new(&mut arena, &mut lists[1..], &mut live, &mut regions).err(),
        Some(TooShort)
    );
    assert_eq!(
        Heap::new(&mut arena, &mut lists, &mut live[1..], &mut regions).err(),
        Some(TooShort)
    );
    assert_eq!(
        Heap::new(&mut arena, &mut lists, &mut live, &mut []).err(),
        Some(TooShort)
    );
    let mut heap = Heap::new(&mut arena, &mut lists, &mut live, &mut regions).unwrap();
    heap.insert_free_block_at(0, 2048).unwrap();
    let payload = heap.allocate_at(8, 8).unwrap();
    let mut heap = Heap::resume(&mut arena, &mut lists, &mut live[1..], &mut []);
    refused(&mut heap, TooShort, |heap| heap.allocate_at(8, 8));
    refused(&mut heap, TooShort, |heap| heap.deallocate_at(payload, 8));
    refused(&mut heap, TooShort, |heap| heap.reallocate_at(payload, 8, 8));
    refused(&mut heap, TooShort, |heap| heap.insert_free_block_at(0, 64));
    let mut heap = Heap::resume(&mut arena, &mut lists[1..], &mut live, &mut regions);
    refused(&mut heap, TooShort, |heap| heap.allocate_at(8, 8));
    refused(&mut heap, TooShort, |heap| heap.append_free_block_at(0, 64));
    let mut heap = Heap::resume(&mut arena, &mut lists, &mut live, &mut regions);
    assert_eq!(heap.deallocate_at(payload, 8), Ok(()));
}
