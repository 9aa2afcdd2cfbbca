//! What rlsf 0.2.3 was seen to answer in cases on which an account of it says little. "Take s" is at alignment 8 unless it
//! says otherwise.

use model::size::{list_of, looked_for, search_from, GRAIN, LARGEST_PIECE, LISTS};
use model::{Heap, Lent, Refusal, State};

/// A heap whose whole arena is one region.
fn region(size: usize) -> Heap {
    let mut heap = empty(size);
    heap.insert_free_block(0, size).unwrap();
    heap
}

fn empty(arena: usize) -> Heap {
    Heap::new(Lent::for_arena(arena, 8)).unwrap()
}

fn take(heap: &mut Heap, size: usize) -> usize {
    heap.allocate(size, 8).unwrap()
}

fn give_back(heap: &mut Heap, payload: usize) {
    heap.deallocate(payload, 8).unwrap()
}

fn resize(heap: &mut Heap, payload: usize, size: usize) -> usize {
    heap.reallocate(payload, size, 8).unwrap()
}

/// The free blocks in order of address, as offset and size.
fn free(heap: &Heap) -> Vec<(usize, usize)> {
    let free = heap.blocks().iter().filter(|block| block.is_free());
    free.map(|block| (block.offset, block.size)).collect()
}

/// The list of a size, head first.
fn list(heap: &Heap, size: usize) -> Vec<usize> {
    heap.list(list_of(size)).collect()
}

/// Offset and size of a payload's block.
fn block(heap: &Heap, payload: usize) -> (usize, usize) {
    let block = heap.block_of(payload).unwrap();
    (block.offset, block.size)
}

// ---- lists

#[test]
fn lists_of_sizes() {
    let pair = |(fl, sl): (usize, usize)| 16 * fl + sl;
    for (size, own, from) in [
        (32, (0, 0), Some((0, 0))),
        (64, (1, 0), Some((1, 0))),
        (96, (1, 8), Some((1, 8))),
        (160, (2, 4), Some((2, 4))),
        (544, (4, 1), Some((4, 1))),
        (1_024, (5, 0), Some((5, 0))),
        (1_056, (5, 0), Some((5, 1))),
        (1_088, (5, 1), Some((5, 1))),
        (4_128, (7, 0), Some((7, 1))),
        (65_504, (10, 15), Some((11, 0))),
        (65_536, (11, 0), Some((11, 0))),
        (126_976, (11, 15), Some((11, 15))),
        (131_040, (11, 15), None),
    ] {
        assert_eq!(list_of(size), pair(own), "list of {size}");
        assert_eq!(search_from(size), from.map(pair), "search for {size}");
    }
}

#[test]
fn lists_that_can_have_a_block() {
    let sizes = (GRAIN..LARGEST_PIECE).step_by(GRAIN);
    let mut lists: Vec<_> = sizes.map(list_of).collect();
    lists.dedup();
    assert_eq!((lists.len(), LISTS), (143, 192));
}

#[test]
fn a_search_passes_over_a_block_that_fits() {
    let mut heap = region(1_088);
    assert_eq!(free(&heap), [(0, 1_056)]);
    assert_eq!(looked_for(1_040, 8), Ok(1_056));
    assert_eq!(heap.allocate(1_040, 8), Err(Refusal::NoList));
    assert_eq!(looked_for(1_008, 8), Ok(1_024));
    assert_eq!(heap.allocate(1_008, 8), Ok(16));
}

// ---- every freed or left-over block goes to the head of its list

#[test]
fn rest_of_step_2_to_the_head() {
    let mut heap = region(65_536);
    let taken: Vec<_> = [16, 1_040, 16, 1_040, 16].map(|size| take(&mut heap, size)).into();
    assert_eq!(taken[..4], [16, 48, 1_104, 1_136]);
    give_back(&mut heap, 48);
    give_back(&mut heap, 1_136);
    assert_eq!(list(&heap, 1_056), [1_120, 32]);
    assert_eq!(resize(&mut heap, 16, 17), 16);
    assert_eq!(list(&heap, 1_024), [64, 1_120]);
    assert_eq!(free(&heap)[..2], [(64, 1_024), (1_120, 1_056)]);
    assert_eq!(take(&mut heap, 1_008), 80);
}

#[test]
fn rest_of_step_1_to_the_head() {
    let mut heap = region(65_536);
    let taken: Vec<_> = [48, 1_008, 16, 1_040, 16].map(|size| take(&mut heap, size)).into();
    give_back(&mut heap, taken[1]);
    give_back(&mut heap, taken[3]);
    assert_eq!(resize(&mut heap, taken[0], 16), taken[0]);
    assert_eq!(take(&mut heap, 1_008), 48);
}

#[test]
fn step_1_with_no_change() {
    let mut heap = region(65_536);
    let taken = take(&mut heap, 48);
    assert_eq!(block(&heap, taken), (0, 64));
    let before = free(&heap);
    for size in 17..=48 {
        assert_eq!(resize(&mut heap, taken, size), taken);
        assert_eq!((block(&heap, taken), free(&heap)), ((0, 64), before.clone()));
    }
}

#[test]
fn step_4_leaves_the_new_blocks_rest_first() {
    let mut heap = region(1_120);
    let first = take(&mut heap, 16);
    take(&mut heap, 16);
    assert_eq!(resize(&mut heap, first, 976), 80);
    assert_eq!(list(&heap, 32), [0, 1_056]);
}

// ---- step 3: the padding is counted anew from the block before

#[test]
fn old_padding_does_not_count() {
    let mut heap = region(65_536);
    let before = take(&mut heap, 0);
    let x = heap.allocate(0, 64).unwrap();
    take(&mut heap, 0);
    give_back(&mut heap, before);
    assert_eq!((x, block(&heap, x), free(&heap)[0]), (64, (32, 32), (0, 32)));
    assert_eq!(heap.reallocate(x, 4, 64), Ok(128));
}

#[test]
fn step_3_with_nothing_left_over() {
    let mut heap = region(65_536);
    let before = take(&mut heap, 48);
    let x = heap.allocate(32, 64).unwrap();
    take(&mut heap, 0);
    give_back(&mut heap, before);
    assert_eq!((x, block(&heap, x), free(&heap)[0]), (128, (64, 96), (0, 64)));
    assert_eq!(heap.reallocate(x, 96, 64), Ok(64));
    assert_eq!(block(&heap, 64), (0, 160));
    assert_eq!(free(&heap).len(), 1);
}

#[test]
fn step_3_at_the_largest_alignment() {
    let mut heap = region(65_536);
    let before = take(&mut heap, 4_080);
    let x = heap.allocate(0, 4_096).unwrap();
    take(&mut heap, 0);
    give_back(&mut heap, before);
    assert_eq!(
        (x, block(&heap, x), free(&heap)[0]),
        (8_192, (4_096, 4_096), (0, 4_096))
    );
    assert_eq!(heap.reallocate(x, 1, 4_096), Ok(4_096));
    assert_eq!(free(&heap)[0], (4_128, 4_064));
}

#[test]
fn step_4_where_the_padding_grows() {
    let mut heap = region(65_536);
    let before = take(&mut heap, 112);
    let x = heap.allocate(0, 4_096).unwrap();
    take(&mut heap, 0);
    give_back(&mut heap, before);
    assert_eq!((x, block(&heap, x), free(&heap)[0]), (4_096, (128, 3_968), (0, 128)));
    assert_eq!(heap.reallocate(x, 1, 4_096), Ok(8_192));
}

#[test]
fn between_two_free_blocks() {
    // Free 0:32 and 64:64 around x = 48, and nothing else.
    let made = || {
        let mut heap = region(160);
        let before = take(&mut heap, 0);
        let x = take(&mut heap, 0);
        give_back(&mut heap, before);
        assert_eq!((x, free(&heap)), (48, vec![(0, 32), (64, 64)]));
        heap
    };
    for size in 0..=80 {
        assert_eq!(made().reallocate(48, size, 8), Ok(48));
    }
    for size in 81..=112 {
        assert_eq!(made().reallocate(48, size, 8), Ok(16));
    }
    assert_eq!(made().reallocate(48, 113, 8), Err(Refusal::NoList));
}

#[test]
fn what_the_block_holds_never_moves() {
    let mut heap = region(65_536);
    let before = take(&mut heap, 1_000);
    let x = take(&mut heap, 500);
    take(&mut heap, 0);
    give_back(&mut heap, before);
    for size in (0..=heap.usable(x).unwrap()).rev() {
        assert_eq!(resize(&mut heap, x, size), x);
    }
}

// ---- largest sizes

#[test]
fn largest_takes() {
    for (align, largest) in [
        (1, 126_960),
        (8, 126_960),
        (16, 126_960),
        (32, 126_944),
        (64, 126_912),
        (4_096, 122_880),
    ] {
        assert!(region(131_072).allocate(largest, align).is_ok());
        assert_eq!(region(131_072).allocate(largest + 1, align), Err(Refusal::NoList));
    }
    for size in [126_961, 131_024, 1 << 20, usize::MAX - 47] {
        assert_eq!(region(131_072).allocate(size, 8), Err(Refusal::NoList));
    }
}

#[test]
fn a_resize_may_be_larger_than_a_take() {
    let mut heap = region(131_072);
    let x = take(&mut heap, 0);
    assert_eq!(resize(&mut heap, x, 131_024), 16);

    let mut heap = region(1_088);
    assert_eq!(heap.allocate(1_040, 8), Err(Refusal::NoList));
    let x = take(&mut heap, 0);
    assert_eq!(resize(&mut heap, x, 1_040), 16);
}

// ---- size 0 with an alignment of 32 or more

#[test]
fn payloads_at_their_blocks_end() {
    let mut heap = region(64);
    assert_eq!(heap.allocate(0, 32), Ok(32));
    assert_eq!(heap.usable(32), Some(0));
    assert_eq!(heap.blocks()[1].state, State::Sentinel);
    assert_eq!(heap.blocks()[1].offset, 32);

    let mut heap = region(96);
    assert_eq!(heap.allocate(0, 32), Ok(32));
    assert_eq!(heap.allocate(0, 8), Ok(48));
    assert_eq!((block(&heap, 32), block(&heap, 48)), ((0, 32), (32, 32)));
    heap.deallocate(32, 32).unwrap();
    heap.deallocate(48, 8).unwrap();
    assert_eq!(free(&heap), [(0, 64)]);

    let mut heap = region(65_536);
    assert_eq!(heap.allocate(0, 4_096), Ok(4_096));
    assert_eq!(block(&heap, 4_096), (0, 4_096));
}

#[test]
fn least_usable_size_of_the_small_kind() {
    for align in [1, 2, 4, 8, 16] {
        let mut heap = region(64);
        assert_eq!(heap.allocate(0, align), Ok(16));
        assert_eq!(heap.usable(16), Some(16));
    }
}

// ---- regions

#[test]
fn the_last_piece_is_taken_first() {
    for (size, first) in [(262_144, 131_088), (1 << 20, 917_520)] {
        assert_eq!(region(size).allocate(0, 8), Ok(first));
    }
}

#[test]
fn pieces_are_rows_of_their_own() {
    let heap = region(262_144);
    let shown: Vec<_> = heap
        .blocks()
        .iter()
        .map(|block| (block.offset, block.size, block.state))
        .collect();
    assert_eq!(
        shown,
        [
            (0, 131_040, State::Free),
            (131_040, 32, State::Sentinel),
            (131_072, 131_040, State::Free),
            (262_112, 32, State::Sentinel),
        ]
    );
}

#[test]
fn least_lengths() {
    for (start, least) in [(0, 64), (1, 95), (5, 91), (31, 65)] {
        assert_eq!(
            empty(4_096).insert_free_block(start, least - 1),
            Err(Refusal::Misplaced)
        );
        assert_eq!(empty(4_096).insert_free_block(start, least), Ok(least));
    }
    assert_eq!(empty(4_096).insert_free_block(5, 100), Ok(91));
}

#[test]
fn bytes_used_of_cut_regions() {
    for (len, used) in [
        (131_104, 131_072),
        (131_135, 131_072),
        (131_136, 131_136),
        (131_168, 131_168),
    ] {
        assert_eq!(empty(1 << 20).insert_free_block(0, len), Ok(used));
    }
}

#[test]
fn a_region_behind_another() {
    let mut heap = empty(1 << 20);
    assert_eq!(heap.insert_free_block(5, 100), Ok(91));
    // It ended at 96. rlsf answers 0 where the next one is too small; here that is a refusal.
    for len in [0, 32, 63] {
        assert_eq!(heap.append_free_block(96, len), Err(Refusal::Misplaced));
    }
    assert_eq!(heap.append_free_block(96, 64), Ok(64));
    assert_eq!(heap.append_free_block(160, 131_104), Ok(131_072));
    // It doesn't join: three free blocks.
    assert_eq!(free(&heap), [(32, 32), (96, 32), (160, 131_040)]);
}

// ---- another alignment than at the take

#[test]
fn the_alignment_that_is_given_now_decides() {
    for (align, answer) in [(4_096, 8_192), (64, 4_224), (32, 4_192)] {
        let mut heap = region(65_536);
        assert_eq!(heap.allocate(10, 4_096), Ok(4_096));
        take(&mut heap, 0);
        assert_eq!(heap.reallocate(4_096, 5_000, align), Ok(answer));
    }
}
