//! Each contradiction that a call must notice, one by one: the calls that need the word are granted on the sound heap, are
//! refused with 5 on the damaged one, and change nothing.
//!
//! The heap of these tests, with all numbers in bytes; `.` is free. The free blocks of 128 are one list: 640, 384, 128.
//!
//! ```text
//!      0     128    256    384    512    640    768    896       1088          8160     8192   12288    12352   16400
//!      | used |  .   | used |  .   | used |  .   | used | large   |  .          | last   |  gap  | region |  gap  |
//! ```
//!
//! The payload of the large kind is at 960. The arena ends inside a grain.

use damage::calls::{make, Call};
use damage::check::Subject;
use damage::random::Random;
use damage::slices::{Rooms, Slices};
use damage::words::{list_of, put, BEFORE, LAST, MAP, NEXT, NONE, PREV, SIZE, USED};

const ARENA: usize = 16_400;

// Takes: of a whole block, of a part of one whose rest goes to an empty list, and of a part of the large free block.
const TAKE: Call = Call::Take { size: 100, align: 8 };
const SPLIT: Call = Call::Take { size: 40, align: 8 };
const TAKE_LARGE: Call = Call::Take { size: 5000, align: 8 };

// Returns: of the block at 0 with a free block behind it, of that at 256 between two free ones, of that at 512 the same, and
// of the payload of the large kind.
const BACK_FIRST: Call = Call::Return { payload: 16, align: 8 };
const BACK: Call = Call::Return { payload: 272, align: 8 };
const BACK_THIRD: Call = Call::Return { payload: 528, align: 8 };
const BACK_LARGE: Call = Call::Return {
    payload: 960,
    align: 64,
};

// Resizes of the block at 256: smaller, larger where it is, down, elsewhere; and of the payload of the large kind.
const LESS: Call = Call::Resize {
    payload: 272,
    size: 10,
    align: 8,
};
const STAY: Call = Call::Resize {
    payload: 272,
    size: 200,
    align: 8,
};
const DOWN: Call = Call::Resize {
    payload: 272,
    size: 300,
    align: 8,
};
const AWAY: Call = Call::Resize {
    payload: 272,
    size: 1000,
    align: 8,
};
const LESS_LARGE: Call = Call::Resize {
    payload: 960,
    size: 10,
    align: 64,
};

// A region whose free block has 128 bytes.
const INSERT: Call = Call::Insert { start: 9000, len: 184 };
const APPEND: Call = Call::Append { start: 8192, len: 160 };

/// The answers of a sound heap.
const GRANTED: [(Call, u64); 14] = [
    (TAKE, 656),
    (SPLIT, 656),
    (TAKE_LARGE, 1104),
    (BACK_FIRST, 0),
    (BACK, 0),
    (BACK_THIRD, 0),
    (BACK_LARGE, 0),
    (LESS, 272),
    (STAY, 272),
    (DOWN, 144),
    (AWAY, 1104),
    (LESS_LARGE, 960),
    (INSERT, 184),
    (APPEND, 160),
];

const ALL_RESIZES: [Call; 4] = [LESS, STAY, DOWN, AWAY];
const GIVES: [Call; 2] = [INSERT, APPEND];

/// Calls that are granted here.
fn granted(subject: &mut Subject, calls: &[(Call, u64)]) {
    for (call, answer) in calls {
        assert_eq!(subject.call(call), Ok(*answer), "{call:?}");
    }
}

fn sound() -> Subject {
    let slices = Slices::new(ARENA, 4, Rooms::Zoned, &mut Random::new(1, 1));
    let mut subject = Subject::new(slices, make);
    granted(
        &mut subject,
        &[(Call::Init, 0), (Call::Insert { start: 0, len: 8192 }, 8192)],
    );
    granted(
        &mut subject,
        &[16, 144, 272, 400, 528, 656, 784].map(|payload| (TAKE, payload)),
    );
    granted(&mut subject, &[(Call::Take { size: 100, align: 64 }, 960)]);
    granted(
        &mut subject,
        &[144, 400, 656].map(|payload| (Call::Return { payload, align: 8 }, 0)),
    );
    granted(&mut subject, &[(Call::Insert { start: 12_288, len: 64 }, 64)]);
    subject
}

/// Each of the calls is granted before the damage, and is refused with 5 after it.
fn contradicts(strike: impl Fn(&mut Slices), calls: &[Call]) {
    let mut subject = sound();
    let before = subject.slices.clone();
    for call in calls {
        let due = GRANTED.iter().find(|granted| granted.0 == *call).expect("an answer").1;
        assert_eq!(subject.try_call(call), Ok(due), "sound");
        strike(&mut subject.slices);
        assert_eq!(subject.call(call), Ok(5), "damaged: {call:?}");
        subject.slices.copy_from(&before);
    }
}

/// A word of the arena becomes another.
fn word(at: usize, value: u64) -> impl Fn(&mut Slices) {
    move |slices| put(slices.arena.all_mut(), at, value)
}

fn head(size: usize, value: u64) -> impl Fn(&mut Slices) {
    move |slices| slices.lists.all_mut()[MAP + list_of(size)] = value
}

/// The mark of a list, flipped.
fn mark(size: usize) -> impl Fn(&mut Slices) {
    move |slices| slices.lists.all_mut()[list_of(size) / 64] ^= 1 << (list_of(size) % 64)
}

fn joined(parts: &[&[Call]]) -> Vec<Call> {
    parts.concat()
}

/// All that is said of GRANTED.
#[test]
fn the_sound_heap_grants_all() {
    let mut subject = sound();
    for (call, answer) in GRANTED {
        assert_eq!(subject.try_call(&call), Ok(answer), "{call:?}");
    }
}

// ---- a block's offset: a multiple of 32, and its header is in the arena

#[test]
fn a_head_is_no_grain() {
    let calls = joined(&[&[TAKE, SPLIT, BACK, BACK_FIRST, BACK_THIRD], &ALL_RESIZES, &GIVES]);
    contradicts(head(128, 640 + 16), &calls);
    contradicts(head(128, 640 + 1), &calls);
}

#[test]
fn a_head_is_behind_the_arena() {
    let calls = joined(&[&[TAKE, SPLIT, BACK, BACK_FIRST, BACK_THIRD], &ALL_RESIZES, &GIVES]);
    contradicts(head(128, 16_416), &calls);
    contradicts(head(128, 1 << 40), &calls);
    contradicts(head(128, NONE - 31), &calls);
}

#[test]
fn a_head_whose_header_is_not_all_in_the_arena() {
    contradicts(
        head(128, 16_384),
        &joined(&[&[TAKE, SPLIT, BACK, BACK_FIRST, BACK_THIRD], &ALL_RESIZES, &GIVES]),
    );
}

#[test]
fn a_next_is_no_grain() {
    contradicts(
        word(640 + NEXT, 384 + 8),
        &joined(&[&[TAKE, SPLIT, BACK, BACK_THIRD], &ALL_RESIZES]),
    );
}

#[test]
fn a_next_is_behind_the_arena() {
    for value in [16_384, 16_416, 1 << 40] {
        contradicts(
            word(640 + NEXT, value),
            &joined(&[&[TAKE, SPLIT, BACK, BACK_THIRD], &ALL_RESIZES]),
        );
    }
}

#[test]
fn a_previous_is_no_grain() {
    contradicts(
        word(384 + PREV, 640 + 8),
        &joined(&[&[TAKE, SPLIT, BACK, BACK_THIRD], &ALL_RESIZES]),
    );
}

#[test]
fn a_previous_is_behind_the_arena() {
    for value in [16_384, 16_416, 1 << 40] {
        contradicts(
            word(384 + PREV, value),
            &joined(&[&[TAKE, SPLIT, BACK, BACK_THIRD], &ALL_RESIZES]),
        );
    }
}

#[test]
fn a_block_before_is_no_grain() {
    contradicts(word(256 + BEFORE, 128 + 8), &[BACK, BACK_FIRST, DOWN, AWAY]);
}

#[test]
fn a_block_before_is_behind_the_arena() {
    for value in [16_384, 16_416, 1 << 40] {
        contradicts(word(256 + BEFORE, value), &[BACK, BACK_FIRST, DOWN, AWAY]);
    }
}

#[test]
fn a_pad_is_no_grain() {
    contradicts(word(952, 896 + 8), &[BACK_LARGE, LESS_LARGE]);
}

#[test]
fn a_pad_is_behind_the_arena() {
    for value in [16_384, 16_416, 1 << 40, NONE] {
        contradicts(word(952, value), &[BACK_LARGE, LESS_LARGE]);
    }
}

#[test]
fn a_pad_is_not_below_its_payload() {
    for value in [960, 1088] {
        contradicts(word(952, value), &[BACK_LARGE, LESS_LARGE]);
    }
}

// ---- a free block's size

#[test]
fn a_free_block_is_flagged_as_used() {
    contradicts(word(640 + SIZE, 128 + USED), &[TAKE, SPLIT]);
}

#[test]
fn a_free_block_has_the_flag_of_a_sentinel() {
    contradicts(word(640 + SIZE, 128 + LAST), &[TAKE, SPLIT, BACK_THIRD]);
    contradicts(word(640 + SIZE, 128 + USED + LAST), &[TAKE, SPLIT, BACK_THIRD]);
    contradicts(
        word(384 + SIZE, 128 + LAST),
        &joined(&[&[BACK, BACK_THIRD], &ALL_RESIZES]),
    );
}

#[test]
fn a_free_block_is_smaller_than_a_grain() {
    for value in [0, 8, 16, 31] {
        contradicts(word(640 + SIZE, value), &[TAKE, SPLIT, BACK_THIRD]);
        contradicts(word(384 + SIZE, value), &joined(&[&[BACK, BACK_THIRD], &ALL_RESIZES]));
    }
}

#[test]
fn a_free_block_is_not_of_whole_grains() {
    contradicts(word(640 + SIZE, 128 + 16), &[TAKE, SPLIT, BACK_THIRD]);
    contradicts(
        word(384 + SIZE, 128 + 16),
        &joined(&[&[BACK, BACK_THIRD], &ALL_RESIZES]),
    );
}

#[test]
fn a_free_block_is_in_the_list_of_another_size() {
    contradicts(head(128, 1088), &[TAKE, SPLIT]);
    contradicts(word(640 + SIZE, 96), &[TAKE, SPLIT, BACK_THIRD]);
}

/// The free block at the row's end is as long as the arena from there on, and in the list of that size.
#[test]
fn behind_a_free_block_is_no_arena() {
    let (old, new) = (8160 - 1088, 16_384 - 1088);
    let strike = |slices: &mut Slices| {
        word(1088 + SIZE, new as u64)(slices);
        head(old, NONE)(slices);
        mark(old)(slices);
        head(new, 1088)(slices);
        mark(new)(slices);
    };
    contradicts(strike, &[TAKE_LARGE, BACK_LARGE, LESS_LARGE]);
}

#[test]
fn behind_a_free_block_is_another() {
    contradicts(word(768 + SIZE, 128), &[TAKE, SPLIT, BACK_THIRD]);
    contradicts(word(512 + SIZE, 128), &joined(&[&[BACK], &ALL_RESIZES]));
}

#[test]
fn the_block_behind_a_free_one_does_not_link_back() {
    for value in [512, 640 + 8, 768, NONE] {
        contradicts(word(768 + BEFORE, value), &[TAKE, SPLIT, BACK_THIRD]);
    }
    for value in [256, 384 + 8, 512, NONE] {
        contradicts(word(512 + BEFORE, value), &joined(&[&[BACK], &ALL_RESIZES]));
    }
}

// ---- a used block's size

#[test]
fn a_used_block_is_flagged_as_free() {
    contradicts(word(256 + SIZE, 128), &joined(&[&[BACK, BACK_FIRST], &ALL_RESIZES]));
}

#[test]
fn a_used_block_has_the_flag_of_a_sentinel() {
    contradicts(
        word(256 + SIZE, 128 + USED + LAST),
        &joined(&[&[BACK, BACK_FIRST], &ALL_RESIZES]),
    );
    contradicts(
        word(256 + SIZE, 128 + LAST),
        &joined(&[&[BACK, BACK_FIRST], &ALL_RESIZES]),
    );
    contradicts(word(256 + SIZE, 32 + USED + LAST), &joined(&[&[BACK], &ALL_RESIZES]));
}

#[test]
fn a_used_block_is_smaller_than_a_grain() {
    for value in [0, USED, 16 + USED] {
        contradicts(word(256 + SIZE, value), &joined(&[&[BACK, BACK_FIRST], &ALL_RESIZES]));
    }
}

#[test]
fn a_used_block_is_not_of_whole_grains() {
    for value in [128 + 16 + USED, 128 + 4 + USED] {
        contradicts(word(256 + SIZE, value), &joined(&[&[BACK, BACK_FIRST], &ALL_RESIZES]));
    }
}

/// The pad leads to a used block in which all is well, but which ends before the payload.
#[test]
fn a_payload_is_not_in_its_block() {
    contradicts(word(952, 768), &[BACK_LARGE, LESS_LARGE]);
}

#[test]
fn behind_a_used_block_is_no_arena() {
    for value in [16_384 - 256, 16_416 - 256, 1 << 40] {
        contradicts(
            word(256 + SIZE, value + USED),
            &joined(&[&[BACK, BACK_FIRST], &ALL_RESIZES]),
        );
    }
}

#[test]
fn the_block_behind_a_used_one_does_not_link_back() {
    for value in [128, 256 + 8, 384, NONE] {
        contradicts(word(384 + BEFORE, value), &joined(&[&[BACK], &ALL_RESIZES]));
    }
}

// ---- the block before

#[test]
fn the_block_before_is_not_below() {
    for value in [256, 384] {
        contradicts(word(256 + BEFORE, value), &[BACK, DOWN, AWAY]);
    }
}

#[test]
fn the_block_before_does_not_lead_here() {
    contradicts(word(256 + BEFORE, 0), &[BACK, DOWN, AWAY]);
    for value in [96, 160, 96 + USED, 160 + USED, 128 + LAST, 0] {
        contradicts(word(128 + SIZE, value), &[BACK, DOWN, AWAY]);
    }
}

#[test]
fn the_block_before_is_a_sentinel() {
    contradicts(word(128 + SIZE, 32 + USED + LAST), &[BACK, DOWN, AWAY]);
    contradicts(word(128 + SIZE, 128 + USED + LAST), &[BACK, DOWN, AWAY]);
}

// ---- an entry of a list

#[test]
fn the_head_has_a_previous() {
    contradicts(word(640 + PREV, 128), &joined(&[&[TAKE, SPLIT, BACK_THIRD], &GIVES]));
}

#[test]
fn what_is_not_the_head_has_no_previous() {
    contradicts(
        word(384 + PREV, NONE),
        &joined(&[&[TAKE, SPLIT, BACK, BACK_THIRD], &ALL_RESIZES]),
    );
    contradicts(word(128 + PREV, NONE), &joined(&[&[BACK_FIRST, BACK], &ALL_RESIZES]));
}

#[test]
fn the_head_is_another_block_than_the_first() {
    contradicts(head(128, 384), &joined(&[&[TAKE, SPLIT, BACK_THIRD], &GIVES]));
}

#[test]
fn the_next_does_not_link_back() {
    contradicts(word(384 + PREV, 128), &[TAKE, SPLIT, BACK_THIRD]);
    contradicts(word(128 + PREV, 640), &joined(&[&[BACK], &ALL_RESIZES]));
}

#[test]
fn the_previous_does_not_link_back() {
    contradicts(word(640 + NEXT, 128), &joined(&[&[BACK], &ALL_RESIZES]));
    contradicts(word(384 + NEXT, NONE), &[BACK_FIRST, BACK]);
}

// ---- the map

#[test]
fn a_list_is_marked_and_has_no_head() {
    let calls = joined(&[&[TAKE, SPLIT, BACK, BACK_FIRST, BACK_THIRD], &ALL_RESIZES, &GIVES]);
    contradicts(head(128, NONE), &calls);
    contradicts(mark(64), &[SPLIT]);
    contradicts(mark(384), &[BACK]);
    contradicts(mark(256), &[BACK_FIRST]);
}

#[test]
fn a_list_has_a_head_and_is_not_marked() {
    let calls = joined(&[&[BACK, BACK_FIRST, BACK_THIRD], &ALL_RESIZES, &GIVES]);
    contradicts(mark(128), &calls);
    contradicts(head(64, 1088), &[SPLIT]);
    contradicts(head(384, 1088), &[BACK]);
}

/// The list that gets a block has a head that is none of its blocks: it has a previous.
#[test]
fn a_list_that_gets_a_block_has_a_head_with_a_previous() {
    let strike = |slices: &mut Slices| {
        head(384, 128)(slices);
        mark(384)(slices);
    };
    contradicts(strike, &[BACK]);
}

// ---- a size that results

/// A used block that is longer than any piece: what it leaves, or becomes, has no list.
#[test]
fn a_size_that_results_has_no_list() {
    let slices = Slices::new(300_000, 4, Rooms::Zoned, &mut Random::new(1, 1));
    let mut subject = Subject::new(slices, make);
    granted(
        &mut subject,
        &[(Call::Init, 0), (Call::Insert { start: 0, len: 300_000 }, 300_000)],
    );
    // the first piece, its sentinel and a part of the second become one used block
    let arena = subject.slices.arena.all_mut();
    for (at, value) in [
        (SIZE, 160_000 + USED),
        (160_000 + SIZE, 32 + USED + LAST),
        (160_000 + BEFORE, 0),
    ] {
        put(arena, at, value);
    }
    subject.slices.live.all_mut()[0] |= 1 << 1;
    assert_eq!(subject.call(&BACK_FIRST), Ok(5), "it becomes free");
    let less = Call::Resize {
        payload: 16,
        size: 1000,
        align: 8,
    };
    assert_eq!(subject.call(&less), Ok(5), "what it leaves becomes free");
}

/// A used block and the free one behind it, each of which has a list, are one that has none.
#[test]
fn two_blocks_that_are_joined_have_no_list() {
    let slices = Slices::new(300_000, 4, Rooms::Zoned, &mut Random::new(1, 1));
    let mut subject = Subject::new(slices, make);
    granted(
        &mut subject,
        &[(Call::Init, 0), (Call::Insert { start: 0, len: 300_000 }, 300_000)],
    );
    let (used, free) = (120_000u64, 16_000u64);
    let arena = subject.slices.arena.all_mut();
    let behind = (used + free) as usize;
    let words = [
        (SIZE, used + USED),
        (used as usize + SIZE, free),
        (used as usize + BEFORE, 0),
        (used as usize + NEXT, NONE),
        (used as usize + PREV, NONE),
        (behind + SIZE, 32 + USED + LAST),
        (behind + BEFORE, used),
    ];
    for (at, value) in words {
        put(arena, at, value);
    }
    head(free as usize, used)(&mut subject.slices);
    mark(free as usize)(&mut subject.slices);
    subject.slices.live.all_mut()[0] |= 1 << 1;
    let alone = Call::Resize {
        payload: 16,
        size: 120_000 - 16,
        align: 8,
    };
    assert_eq!(
        subject.try_call(&alone),
        Ok(16),
        "as long as it is nothing is read of the next"
    );
    assert_eq!(subject.call(&BACK_FIRST), Ok(5));
    let less = Call::Resize {
        payload: 16,
        size: 10,
        align: 8,
    };
    assert_eq!(subject.call(&less), Ok(5), "the rest, joined with the free block");
}

// ---- the regions

#[test]
fn the_table_counts_more_regions_than_it_holds() {
    for count in [5, 1 << 40, NONE] {
        contradicts(move |slices| slices.regions.all_mut()[0] = count, &GIVES);
    }
}

#[test]
fn a_region_is_shorter_than_two_grains() {
    for (from, to) in [(400, 401), (400, 400), (401, 400), (NONE, 0)] {
        contradicts(
            move |slices| slices.regions.all_mut()[3..5].copy_from_slice(&[from, to]),
            &GIVES,
        );
    }
}

#[test]
fn a_region_ends_behind_the_arena() {
    for (from, to) in [(400, 513), (9000, 10_000), (400, NONE)] {
        contradicts(
            move |slices| slices.regions.all_mut()[3..5].copy_from_slice(&[from, to]),
            &GIVES,
        );
    }
}

/// Of a region in pieces, the list of the full ones and that of the last one.
#[test]
fn the_lists_of_a_region_in_pieces() {
    let slices = Slices::new(300_000, 4, Rooms::Zoned, &mut Random::new(1, 1));
    let mut subject = Subject::new(slices, make);
    granted(&mut subject, &[(Call::Init, 0)]);
    let whole = Call::Insert { start: 0, len: 300_000 };
    assert_eq!(subject.try_call(&whole), Ok(300_000));
    let before = subject.slices.clone();
    let last = 300_000 - 2 * 131_072 - 32;
    for strike in [mark(131_040), mark(last)] {
        strike(&mut subject.slices);
        assert_eq!(subject.call(&whole), Ok(5), "marked and no head");
        subject.slices.copy_from(&before);
    }
    for size in [131_040, last] {
        head(size, 64)(&mut subject.slices);
        assert_eq!(subject.call(&whole), Ok(5), "a head and not marked");
        subject.slices.copy_from(&before);
    }
}

// ---- a resize that was half done

/// A resize elsewhere takes first and looks then at what the return needs; refused there, the take is undone.
#[test]
fn a_resize_elsewhere_is_undone() {
    contradicts(mark(384), &[AWAY]);
    contradicts(head(384, 1088), &[AWAY]);
    contradicts(head(384, 16_416), &[AWAY]);
}
