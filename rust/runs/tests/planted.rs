//! Whether a comparison notices what is wrong. Each test plants one fault in the compiled heap, which has to be found, and to
//! be shown by few calls, none of which can be left out.

use runs::compare::{compare, report, shortest, Archive, Call, Script, Shown, SlicesMut, Subject};

/// The compiled heap with a fault: a function that is called in place of the heap.
#[derive(Clone, Copy)]
struct Planted(fn(Call, SlicesMut) -> u64);

impl Subject for Planted {
    fn init(&mut self, lent: SlicesMut) -> u64 {
        Archive.init(lent)
    }

    fn make(&mut self, call: Call, lent: SlicesMut) -> u64 {
        (self.0)(call, lent)
    }
}

/// Finds the fault, and makes the calls that show it as few as possible.
fn found(fault: fn(Call, SlicesMut) -> u64) -> Shown {
    let subject = || Planted(fault);
    let difference = match compare(1, 100_000, subject, |_| ()) {
        Ok(_) => panic!("100,000 calls show no difference"),
        Err(difference) => difference,
    };
    let shown = shortest(&difference.script, subject).expect("the same calls show it again");
    assert_eq!(shown.lines.len(), shown.script.steps.len());
    for left_out in 0..shown.script.steps.len() {
        let mut steps = shown.script.steps.clone();
        steps.remove(left_out);
        let script = Script {
            steps,
            ..shown.script.clone()
        };
        assert!(
            shortest(&script, subject).is_none(),
            "step {left_out} could be left out"
        );
    }
    shown
}

/// The fault is found, in these words, and this many calls at most show it.
fn is_found(fault: fn(Call, SlicesMut) -> u64, calls: usize, words: &str) {
    let shown = found(fault);
    assert!(shown.what.contains(words), "{}", shown.what);
    assert!(shown.lines.len() <= calls, "{:#?}\n{}", shown.script.steps, shown.what);
}

fn is_refusal(answer: u64) -> bool {
    (1..=6).contains(&answer)
}

fn is_take(call: Call) -> bool {
    matches!(call, Call::Allocate { .. })
}

fn is_return(call: Call) -> bool {
    matches!(call, Call::Deallocate { .. })
}

fn is_resize(call: Call) -> bool {
    matches!(call, Call::Reallocate { .. })
}

/// The word of the arena at an offset.
fn word(arena: &[u8], at: usize) -> u64 {
    u64::from_le_bytes(arena[at..at + 8].try_into().unwrap())
}

fn put(arena: &mut [u8], at: usize, word: u64) {
    arena[at..at + 8].copy_from_slice(&word.to_le_bytes());
}

/// The offsets whose live bits are set.
fn live(bits: &[u64]) -> Vec<usize> {
    let is_set = |&half: &usize| bits[half / 64] >> (half % 64) & 1 == 1;
    (0..64 * bits.len()).filter(is_set).map(|half| 16 * half).collect()
}

const NONE: u64 = u64::MAX;

// ---- answers

#[test]
fn nothing_planted() {
    let fault = |call, lent: SlicesMut| Archive.make(call, lent);
    assert!(compare(1, 20_000, || Planted(fault), |_| ()).is_ok());
}

#[test]
fn another_refusal() {
    let fault = |call, lent: SlicesMut| match Archive.make(call, lent) {
        3 => 2,
        answer => answer,
    };
    is_found(fault, 1, "the heap refuses with 2, and the model answers refusal 3");
}

#[test]
fn another_offset() {
    let fault = |call, lent: SlicesMut| match Archive.make(call, lent) {
        answer if is_take(call) && !is_refusal(answer) => answer + 16,
        answer => answer,
    };
    is_found(fault, 2, "take");
}

#[test]
fn a_region_used_in_part() {
    let fault = |call, lent: SlicesMut| match (call, Archive.make(call, lent)) {
        (Call::Insert { .. }, answer) if answer > 100_000 => answer - 32,
        (_, answer) => answer,
    };
    is_found(fault, 1, "give");
}

// ---- rules

#[test]
fn sizes_rounded_down() {
    let fault = |call, lent: SlicesMut| match call {
        Call::Allocate { size, align } if size % 32 == 17 => {
            let size = size - 1;
            Archive.make(Call::Allocate { size, align }, lent)
        }
        _ => Archive.make(call, lent),
    };
    is_found(fault, 2, "take");
}

#[test]
fn regions_behind_none() {
    let fault = |call, lent: SlicesMut| match call {
        Call::Append { start, len } => Archive.make(Call::Insert { start, len }, lent),
        _ => Archive.make(call, lent),
    };
    is_found(fault, 1, "give behind another");
}

#[test]
fn lists_first_in_first_out() {
    // Where a return leaves a list of two or more, its first two change their places.
    let fault = |call, mut lent: SlicesMut| {
        let answer = Archive.make(call, lent.again());
        if is_return(call) && answer == 0 {
            let heads = &mut lent.lists[3..195];
            let second = |arena: &[u8], head: u64| word(arena, head as usize + 16);
            let two = |head: &&mut u64| **head != NONE && second(lent.arena, **head) != NONE;
            if let Some(head) = heads.iter_mut().find(two) {
                let first = *head as usize;
                let second = second(lent.arena, *head) as usize;
                let third = word(lent.arena, second + 16);
                put(lent.arena, first + 16, third);
                put(lent.arena, first + 24, second as u64);
                put(lent.arena, second + 16, first as u64);
                put(lent.arena, second + 24, NONE);
                if third != NONE {
                    put(lent.arena, third as usize + 24, first as u64);
                }
                *head = second as u64;
            }
        }
        answer
    };
    is_found(fault, 7, "lists: the heap has");
}

#[test]
fn resizes_that_always_go_elsewhere() {
    let fault = |call, mut lent: SlicesMut| match call {
        Call::Reallocate { payload, size, align } if live(lent.live).contains(&payload) => {
            let old = lent.arena.to_vec();
            let answer = Archive.make(Call::Allocate { size, align }, lent.again());
            if !is_refusal(answer) {
                let to = answer as usize;
                let n = size.min(old.len() - payload).min(old.len() - to);
                lent.arena[to..to + n].copy_from_slice(&old[payload..payload + n]);
                Archive.make(Call::Deallocate { payload, align }, lent);
            }
            answer
        }
        _ => Archive.make(call, lent),
    };
    is_found(fault, 3, "resize");
}

// ---- bytes

#[test]
fn a_resize_that_loses_a_byte() {
    let fault = |call, mut lent: SlicesMut| {
        let answer = Archive.make(call, lent.again());
        if let Call::Reallocate { payload, size, .. } = call {
            if !is_refusal(answer) && answer != payload as u64 && size > 0 {
                lent.arena[answer as usize] ^= 0x80;
            }
        }
        answer
    };
    let shown = found(fault);
    assert!(
        shown.what.contains("byte 0 of the payload that was resized"),
        "{}",
        shown.what
    );
    assert!(shown.lines.len() <= 5, "{:#?}", shown.script.steps);
}

#[test]
fn another_payload_overwritten() {
    let fault = |call, mut lent: SlicesMut| {
        let answer = Archive.make(call, lent.again());
        if is_take(call) && !is_refusal(answer) {
            let small = |&payload: &usize| payload % 32 == 16 && payload as u64 != answer;
            if let Some(other) = live(lent.live).into_iter().find(small) {
                lent.arena[other + 15] ^= 1;
            }
        }
        answer
    };
    is_found(fault, 3, "byte 15 of another live payload");
}

#[test]
fn a_refusal_that_writes() {
    let fault = |call, mut lent: SlicesMut| {
        let answer = Archive.make(call, lent.again());
        if let (1, Some(last)) = (answer, lent.arena.last_mut()) {
            *last ^= 1;
        }
        answer
    };
    is_found(fault, 1, "it is refused, and yet arena byte");
}

#[test]
fn a_live_bit_that_stays() {
    let fault = |call, mut lent: SlicesMut| {
        let answer = Archive.make(call, lent.again());
        if let (Call::Deallocate { payload, .. }, 0) = (call, answer) {
            lent.live[payload / 1024] |= 1 << (payload / 16 % 64);
        }
        answer
    };
    is_found(fault, 3, "1 live bits are set, and 0 blocks are used");
}

#[test]
fn a_byte_that_was_never_given() {
    let fault = |call, mut lent: SlicesMut| {
        let answer = Archive.make(call, lent.again());
        if let (true, false, Some(last)) = (is_take(call), is_refusal(answer), lent.arena.last_mut()) {
            *last ^= 1;
        }
        answer
    };
    let shown = found(fault);
    assert!(
        shown.what.contains("what was never given") || shown.what.contains("another live payload"),
        "{}",
        shown.what
    );
    assert!(shown.lines.len() <= 3);
}

#[test]
fn a_link_that_is_wrong() {
    // The sentinel's link to the block before is not kept up by a resize.
    let fault = |call, mut lent: SlicesMut| {
        let old = lent.arena.to_vec();
        let answer = Archive.make(call, lent.again());
        if is_resize(call) && !is_refusal(answer) {
            let sentinel = (0..old.len() / 32)
                .map(|grain| 32 * grain)
                .find(|&at| word(&old, at) == 35);
            let sentinel = sentinel.expect("there is a region");
            put(lent.arena, sentinel + 8, word(&old, sentinel + 8));
        }
        answer
    };
    is_found(fault, 4, "its word of the block before is");
}

// ---- what is shown

/// The report has what a reader needs, and its calls are calls of the record, with answers that a heap of its own gives.
#[test]
fn a_report_can_be_replayed() {
    fn fault(call: Call, lent: SlicesMut) -> u64 {
        match call {
            Call::Allocate { size, align } if size % 32 == 17 => {
                let size = size - 1;
                Archive.make(Call::Allocate { size, align }, lent)
            }
            _ => Archive.make(call, lent),
        }
    }
    let difference = compare(7, 100_000, || Planted(fault), |_| ()).err().unwrap();
    let report = report(7, &difference, || Planted(fault));
    assert!(
        report.words.starts_with("seed 7: DIFFERENCE on heap number "),
        "{}",
        report.words
    );
    assert!(
        report.words.contains("show it, and none of these can be left out"),
        "{}",
        report.words
    );

    let mut heap = runs::calls::empty_model(1 << 20, 32);
    assert_eq!(report.calls.len(), 2);
    for call in &report.calls {
        let numbers: Vec<u64> = call.split(' ').map(|number| number.parse().unwrap()).collect();
        let [kind, first, second, 0, answer, usable] = numbers[..] else {
            panic!("{call}");
        };
        let (first, second) = (first as usize, second as usize);
        let got = match kind {
            0 => heap.insert_free_block(first, second),
            _ => heap.allocate(first, second),
        };
        assert_eq!(got.map_or(NONE, |got| got as u64), answer);
        assert_eq!(heap.usable(answer as usize).unwrap_or(0), usable as usize);
    }
}
