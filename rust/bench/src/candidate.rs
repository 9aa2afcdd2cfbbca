//! What is measured: a heap that makes recorded calls, whatever it is.

use crate::measure::Spread;
use crate::record::{Call, Kind, Record, SLOTS};
use crate::ticks;
use std::hint::black_box;

/// A heap for a replay. Payloads are numbers, offsets or addresses; 0 is a refusal.
pub trait Heap {
    fn name(&self) -> &'static str;

    /// Makes the heap empty, with its whole arena to take from. These payloads are all that is live.
    fn empty(&mut self, live: &[(usize, usize)]);

    fn take(&mut self, size: usize, align: usize) -> usize;
    fn give_back(&mut self, payload: usize, align: usize);
    fn resize(&mut self, payload: usize, size: usize, align: usize) -> usize;

    /// Where a payload's first byte is; none where the candidate hands out nothing.
    fn first_byte(&self, payload: usize) -> Option<*mut u8>;

    /// A payload's offset in the arena, to compare with the recorded one; none where there is no arena.
    fn offset(&self, payload: usize) -> Option<usize>;
}

/// A heap, and the payloads that its last replay left.
pub struct Candidate<H> {
    heap: H,
    held: Box<[usize; SLOTS]>,
    aligns: Box<[usize; SLOTS]>,
}

/// What can be done with a candidate, whichever heap it is.
pub trait Replay {
    fn name(&self) -> &'static str;

    /// Makes all calls on the heap, which was emptied before. This is what is timed.
    fn replay(&mut self, record: &Record);

    /// The same with the clock read behind each call.
    fn replay_each(&mut self, record: &Record, spreads: &mut [Spread; 3]);

    /// The same where each call of one kind goes through [`observed`].
    fn replay_counted(&mut self, record: &Record, kind: Kind);

    /// The same, where each answer is compared with the recorded one, and the first and last byte of every payload are
    /// written, and looked at before it is returned or resized.
    fn check(&mut self, record: &Record) -> Result<(), String>;

    /// Makes the heap empty.
    fn empty(&mut self);

    /// Whether the last replay ended with the payloads that were recorded.
    fn ended_well(&self, record: &Record) -> Result<(), String>;
}

impl<H: Heap> Candidate<H> {
    pub fn new(heap: H) -> Candidate<H> {
        Candidate {
            heap,
            held: Box::new([0; SLOTS]),
            aligns: Box::new([0; SLOTS]),
        }
    }

    #[inline(always)]
    fn make(&mut self, call: &Call) {
        let slot = call.slot as usize % SLOTS;
        let align = 1 << (call.log_align % 16);
        match call.kind {
            Kind::Take => self.held[slot] = self.heap.take(call.size as usize, align),
            Kind::Return => self.heap.give_back(self.held[slot], align),
            Kind::Resize => self.held[slot] = self.heap.resize(self.held[slot], call.size as usize, align),
        }
    }

    /// What was live at the record's end is live now.
    fn note_ends(&mut self, record: &Record) {
        self.aligns.fill(0);
        for call in &record.calls {
            self.aligns[call.slot as usize] = match call.kind {
                Kind::Return => 0,
                _ => 1 << call.log_align,
            };
        }
    }

    /// The bytes that say whose a payload is: its first and its last.
    fn marks(&self, slot: usize, size: usize) -> Option<[*mut u8; 2]> {
        let first = self.heap.first_byte(self.held[slot])?;
        (size > 0).then(|| [first, first.wrapping_add(size - 1)])
    }
}

/// Calls of the kind that is counted go through here, so that callgrind can be told to count here alone.
#[inline(never)]
fn observed<H: Heap>(candidate: &mut Candidate<H>, call: &Call) {
    candidate.make(black_box(call));
}

impl<H: Heap> Replay for Candidate<H> {
    fn name(&self) -> &'static str {
        self.heap.name()
    }

    #[inline(never)]
    fn replay(&mut self, record: &Record) {
        for call in &record.calls {
            self.make(call);
        }
    }

    #[inline(never)]
    fn replay_each(&mut self, record: &Record, spreads: &mut [Spread; 3]) {
        let mut before = ticks::now();
        for call in &record.calls {
            self.make(call);
            let after = ticks::now();
            spreads[call.kind as usize].add(after.wrapping_sub(before));
            before = ticks::now();
        }
    }

    fn replay_counted(&mut self, record: &Record, kind: Kind) {
        for call in &record.calls {
            if call.kind == kind {
                observed(self, call);
            } else {
                self.make(call);
            }
        }
    }

    fn check(&mut self, record: &Record) -> Result<(), String> {
        let mut sizes = [0; SLOTS];
        let name = self.name();
        for (number, (call, &answer)) in record.calls.iter().zip(&record.answers).enumerate() {
            let slot = call.slot as usize;
            let size = call.size as usize;
            let mark = slot as u8 ^ 0x5A;
            let fail = |why: String| Err(format!("{name}: call {number}, {call:?}: {why}"));
            if call.kind != Kind::Take {
                for byte in self.marks(slot, sizes[slot]).into_iter().flatten() {
                    // SAFETY: the byte is the live payload's first or last, and was written when it was taken.
                    let now = unsafe { byte.read() };
                    if now != mark {
                        return fail(format!("a byte of the payload is {now}, and not {mark}"));
                    }
                }
            }
            self.make(call);
            if call.kind == Kind::Return {
                continue;
            }
            let payload = self.held[slot];
            let align = 1usize << call.log_align;
            if payload == 0 {
                return fail("refused".into());
            }
            if let Some(offset) = self.heap.offset(payload) {
                if offset != answer as usize {
                    return fail(format!("answered {offset}, and not {answer}"));
                }
            }
            if let Some(first) = self.heap.first_byte(payload) {
                if first as usize & (align - 1) != 0 {
                    return fail(format!("answered {first:?}, no multiple of {align}"));
                }
                // The bytes that a payload had and keeps are the same.
                if call.kind == Kind::Resize && sizes[slot] > 0 && size > 0 {
                    // SAFETY: the payload is live, and has at least one byte.
                    let now = unsafe { first.read() };
                    if now != mark {
                        return fail(format!("the first byte is {now} now, and not {mark}"));
                    }
                }
            }
            sizes[slot] = size;
            for byte in self.marks(slot, size).into_iter().flatten() {
                // SAFETY: the byte is the live payload's first or last.
                unsafe { byte.write(mark) };
            }
        }
        self.note_ends(record);
        self.ended_well(record)
    }

    fn empty(&mut self) {
        let live = self.held.iter().copied().zip(self.aligns.iter().copied());
        let live: Vec<_> = live.filter(|&(_, align)| align != 0).collect();
        self.heap.empty(&live);
        self.held.fill(0);
    }

    fn ended_well(&self, record: &Record) -> Result<(), String> {
        let live = record.held.iter().enumerate().filter(|(_, &offset)| offset != 0);
        for (slot, &recorded) in live {
            let payload = self.held[slot];
            let offset = self.heap.offset(payload).unwrap_or(recorded);
            if payload == 0 || offset != recorded {
                return Err(format!(
                    "{}: slot {slot} ends with {offset}, and not with {recorded}",
                    self.name()
                ));
            }
        }
        Ok(())
    }
}

/// No heap at all: what the replay itself costs.
pub struct Nothing;

#[inline(never)]
fn nothing(number: usize, other: usize) -> usize {
    black_box(other);
    black_box(number)
}

impl Heap for Nothing {
    fn name(&self) -> &'static str {
        "nothing"
    }

    fn empty(&mut self, _live: &[(usize, usize)]) {}

    #[inline(always)]
    fn take(&mut self, size: usize, align: usize) -> usize {
        nothing(size | 1, align)
    }

    #[inline(always)]
    fn give_back(&mut self, payload: usize, align: usize) {
        nothing(payload, align);
    }

    #[inline(always)]
    fn resize(&mut self, payload: usize, size: usize, _align: usize) -> usize {
        nothing(payload, size)
    }

    fn first_byte(&self, _payload: usize) -> Option<*mut u8> {
        None
    }

    fn offset(&self, _payload: usize) -> Option<usize> {
        None
    }
}
