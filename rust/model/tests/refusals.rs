//! Each row of the table of refusals in `docs/DECISIONS.md` that a model can answer, and their order.

use model::Refusal::{Misplaced, NoList, NotLive, OutOfRange, TooShort};
use model::{Heap, Lent};

const ARENA: usize = 65_536;

fn heap() -> Heap {
    let mut heap = Heap::new(Lent::for_arena(ARENA, 4)).unwrap();
    heap.insert_free_block(0, 32_768).unwrap();
    heap
}

#[test]
fn tables_that_are_too_short() {
    let enough = Lent::for_arena(ARENA, 4);
    assert_eq!((enough.lists, enough.live), (195, 65));
    for lent in [
        Lent { lists: 194, ..enough },
        Lent { live: 64, ..enough },
        Lent { regions: 0, ..enough },
    ] {
        assert_eq!(Heap::new(lent).err(), Some(TooShort));
    }

    // 6 comes before all others.
    let mut heap = heap();
    heap.lend(Lent { lists: 194, ..enough });
    assert_eq!(heap.insert_free_block(0, 0), Err(TooShort));
    assert_eq!(heap.append_free_block(1, 0), Err(TooShort));
    assert_eq!(heap.allocate(0, 3), Err(TooShort));
    assert_eq!(heap.deallocate(1, 3), Err(TooShort));
    assert_eq!(heap.reallocate(1, 0, 3), Err(TooShort));
    heap.lend(Lent { live: 64, ..enough });
    assert_eq!(heap.allocate(0, 3), Err(TooShort));
    assert_eq!(heap.deallocate(1, 3), Err(TooShort));
    assert_eq!(heap.reallocate(1, 0, 3), Err(TooShort));
    assert_eq!(heap.insert_free_block(32_768, 64), Ok(64));
    heap.lend(Lent { regions: 0, ..enough });
    assert_eq!(heap.insert_free_block(0, 0), Err(TooShort));
    assert_eq!(heap.append_free_block(1, 0), Err(TooShort));
    assert_eq!(heap.allocate(0, 8), Ok(32_784));
}

#[test]
fn a_full_table_of_regions() {
    let mut heap = heap();
    for start in [40_000, 50_000, 60_000] {
        assert!(heap.insert_free_block(start, 1_000).is_ok());
    }
    assert_eq!(heap.insert_free_block(0, 0), Err(TooShort));
    assert_eq!(heap.append_free_block(1, 0), Err(TooShort));

    let mut none = Heap::new(Lent::for_arena(ARENA, 0)).unwrap();
    assert_eq!(none.insert_free_block(0, 64), Err(TooShort));
}

#[test]
fn regions_that_are_misplaced() {
    let mut heap = heap();
    for (start, len) in [
        (40_000, 63),             // fewer than two grains
        (40_001, 94),             //
        (ARENA - 64, 96),         // behind the arena's last grain
        (ARENA, 64),              //
        (usize::MAX - 100, 200),  // its end leaves 64 bits
        (usize::MAX, usize::MAX), //
        (0, 64),                  // over another
        (32_736, 64),             //
        (32_768 - 1, 32),         // fewer than two grains
        (0, ARENA),               //
    ] {
        assert_eq!(heap.insert_free_block(start, len), Err(Misplaced), "{start}, {len}");
    }
    assert_eq!(heap.append_free_block(32_800, 64), Err(Misplaced));
    assert_eq!(heap.append_free_block(32_769, 128), Err(Misplaced));
    assert_eq!(heap.append_free_block(32_768, 63), Err(Misplaced));
    assert_eq!(heap.append_free_block(32_768, 95), Ok(64));
}

#[test]
fn regions_count_by_whole_grains() {
    // Bytes that rounding cuts off belong to nobody.
    let mut heap = Heap::new(Lent::for_arena(1_024, 4)).unwrap();
    assert_eq!(heap.insert_free_block(69, 91), Ok(91));
    assert_eq!(heap.insert_free_block(0, 80), Ok(64));

    let mut heap = Heap::new(Lent::for_arena(64, 4)).unwrap();
    assert_eq!(heap.insert_free_block(0, 96), Err(Misplaced));
    assert_eq!(heap.insert_free_block(0, 95), Ok(64));

    // What a region left over may be given again; what another uses may not be left over.
    let mut heap = Heap::new(Lent::for_arena(1 << 20, 4)).unwrap();
    assert_eq!(heap.insert_free_block(0, 131_104), Ok(131_072));
    assert_eq!(heap.insert_free_block(131_072, 64), Ok(64));
    let mut heap = Heap::new(Lent::for_arena(1 << 20, 4)).unwrap();
    assert_eq!(heap.insert_free_block(131_072, 64), Ok(64));
    assert_eq!(heap.insert_free_block(0, 131_104), Err(Misplaced));
}

#[test]
fn alignments_and_sizes_out_of_range() {
    let mut heap = heap();
    for align in [0, 3, 24, 8_192, 1 << 63, usize::MAX] {
        assert_eq!(heap.allocate(0, align), Err(OutOfRange));
        assert_eq!(heap.deallocate(16, align), Err(OutOfRange));
        assert_eq!(heap.reallocate(16, 0, align), Err(OutOfRange));
    }
    // Header and payload, rounded up to 32, have to be below 2^64.
    for align in [1, 16] {
        assert_eq!(heap.allocate(usize::MAX - 46, align), Err(OutOfRange));
        assert_eq!(heap.allocate(usize::MAX - 47, align), Err(NoList));
    }
    assert_eq!(heap.allocate(usize::MAX - 4_126, 4_096), Err(OutOfRange));
    assert_eq!(heap.allocate(usize::MAX - 4_127, 4_096), Err(NoList));

    // In a resize this is tested before the payload is.
    assert_eq!(heap.reallocate(16, usize::MAX - 46, 8), Err(OutOfRange));
    assert_eq!(heap.reallocate(8, usize::MAX - 46, 8), Err(OutOfRange));
    assert_eq!(heap.reallocate(16, usize::MAX - 47, 8), Err(NotLive));
    assert_eq!(heap.allocate(10, 8), Ok(16));
    assert_eq!(heap.reallocate(16, usize::MAX - 47, 8), Err(NoList));
}

#[test]
fn alignments_that_do_not_suit_a_payload() {
    let mut heap = heap();
    let small = heap.allocate(10, 8).unwrap();
    let large = heap.allocate(10, 64).unwrap();
    assert_eq!((small, large), (16, 64));
    for (payload, align) in [
        (small, 32),
        (large, 16),
        (large, 8),
        (large, 128),
        (8, 16),
        (8, 32),
        (0, 1),
    ] {
        assert_eq!(heap.deallocate(payload, align), Err(OutOfRange), "{payload}, {align}");
        assert_eq!(
            heap.reallocate(payload, 1, align),
            Err(OutOfRange),
            "{payload}, {align}"
        );
    }
    assert_eq!(heap.deallocate(large, 32), Ok(()));
    assert_eq!(heap.deallocate(small, 16), Ok(()));
}

#[test]
fn payloads_that_are_not_live() {
    let mut heap = heap();
    let x = heap.allocate(10, 8).unwrap();
    for (payload, align) in [
        (8, 8),                // of no kind
        (1, 1),                //
        (48, 8),               // never handed out
        (0, 32),               //
        (ARENA, 32),           //
        (ARENA + 16, 16),      // behind the arena
        (usize::MAX, 1),       //
        (usize::MAX - 15, 16), //
    ] {
        assert_eq!(heap.deallocate(payload, align), Err(NotLive), "{payload}, {align}");
        assert_eq!(heap.reallocate(payload, 1, align), Err(NotLive), "{payload}, {align}");
    }
    heap.deallocate(x, 8).unwrap();
    assert_eq!(heap.deallocate(x, 8), Err(NotLive));
}

#[test]
fn a_refusal_changes_nothing() {
    let mut heap = heap();
    let x = heap.allocate(100, 8).unwrap();
    let blocks = heap.blocks().to_vec();
    assert_eq!(heap.reallocate(x, 40_000, 8), Err(NoList));
    assert_eq!(heap.allocate(40_000, 8), Err(NoList));
    assert_eq!(heap.blocks(), blocks);
}
