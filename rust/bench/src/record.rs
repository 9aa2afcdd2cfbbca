//! Recorded calls of the rule in `data/answers/RULE.md`: what it drew, and not what was answered. So each candidate makes the
//! same calls on payloads of its own, and the rule's own cost is out.
//!
//! Calls that the heap refuses are left out: malloc would grant them, and then be another run.

use model::Lent;
use runs::calls::{Block, Calls};
use runs::compiled::Compiled;
use runs::digest::follow;
use runs::rule::{Profile, Run};

/// Slots for live payloads: as many as the rule ever has.
pub const SLOTS: usize = 1024;

/// What kind of call.
#[derive(Clone, Copy, Debug, PartialEq, Eq)]
#[repr(u8)]
pub enum Kind {
    Take,
    Return,
    Resize,
}

impl Kind {
    pub const ALL: [Kind; 3] = [Kind::Take, Kind::Return, Kind::Resize];

    pub fn name(self) -> &'static str {
        match self {
            Kind::Take => "take",
            Kind::Return => "return",
            Kind::Resize => "resize",
        }
    }
}

/// A call: a payload goes to a slot, leaves it, or is resized there. A return has no size.
#[derive(Clone, Copy, Debug, PartialEq, Eq)]
pub struct Call {
    pub kind: Kind,
    pub log_align: u8,
    pub slot: u16,
    pub size: u32,
}

pub struct Record {
    /// Bytes of the arena; all of it is one region, given first.
    pub arena: usize,
    pub calls: Vec<Call>,
    /// What each call answered: an offset, and 0 for a return.
    pub answers: Vec<u32>,
    /// The offsets in the slots at the end, 0 where nothing is live.
    pub held: Vec<usize>,
    /// Calls of the rule that were refused.
    pub refused: u64,
    /// The rule's digest of all its calls.
    pub digest: u64,
}

impl Record {
    /// Makes so many calls of the rule on the heap, and records them.
    pub fn of(profile: &Profile, seed: u64, calls: u64) -> Result<Record, String> {
        if profile.regions() != 1 {
            return Err(format!(
                "{}: only a profile whose whole arena is given at first can be recorded",
                profile.name
            ));
        }
        let heap = Compiled::new(Lent::for_arena(profile.arena, 1)).map_err(|why| format!("refused with {why}"))?;
        let mut run = Run::new(Recorder::new(heap, profile.arena), profile, seed);
        let mut last = 0;
        follow(&mut run, calls, |_, digest| {
            last = digest;
            Ok(())
        })?;
        let made = run.into_heap().made;
        Ok(Record { digest: last, ..made })
    }

    /// The calls with their answers, for another program: of each its kind, the logarithm of its alignment, its slot, its
    /// size and its answer, in 1, 1, 2, 4 and 4 bytes, lowest first.
    pub fn bytes(&self) -> Vec<u8> {
        let mut all = Vec::with_capacity(12 * self.calls.len());
        for (call, answer) in self.calls.iter().zip(&self.answers) {
            all.extend([call.kind as u8, call.log_align]);
            all.extend(call.slot.to_le_bytes());
            all.extend(call.size.to_le_bytes());
            all.extend(answer.to_le_bytes());
        }
        all
    }

    /// How many calls of a kind there are.
    pub fn count(&self, kind: Kind) -> usize {
        self.calls.iter().filter(|call| call.kind == kind).count()
    }
}

/// A heap whose granted calls are recorded.
struct Recorder {
    heap: Compiled,
    made: Record,
    /// The slot of each live payload, by its offset in half grains.
    slots: Vec<u16>,
    empty: Vec<u16>,
}

const HALF_GRAIN: usize = 16;

impl Recorder {
    fn new(heap: Compiled, arena: usize) -> Recorder {
        Recorder {
            heap,
            made: Record {
                arena,
                calls: Vec::new(),
                answers: Vec::new(),
                held: vec![0; SLOTS],
                refused: 0,
                digest: 0,
            },
            slots: vec![0; arena / HALF_GRAIN + 1],
            empty: (0..SLOTS as u16).rev().collect(),
        }
    }

    fn record(&mut self, kind: Kind, slot: u16, size: usize, align: usize, answer: usize) {
        self.made.calls.push(Call {
            kind,
            log_align: align.ilog2() as u8,
            slot,
            size: u32::try_from(size).expect("the rule draws small sizes"),
        });
        let answer_word = u32::try_from(answer).expect("the arena is small");
        self.made.answers.push(answer_word);
        self.made.held[slot as usize] = answer;
        self.slots[answer / HALF_GRAIN] = slot;
    }
}

impl Calls for Recorder {
    fn insert_free_block(&mut self, start: usize, len: usize) -> Result<usize, u64> {
        assert_eq!((start, len), (0, self.made.arena), "the region is the whole arena");
        self.heap.insert_free_block(start, len)
    }

    fn append_free_block(&mut self, start: usize, len: usize) -> Result<usize, u64> {
        self.heap.append_free_block(start, len)
    }

    fn allocate(&mut self, size: usize, align: usize) -> Result<usize, u64> {
        let answer = self
            .heap
            .allocate(size, align)
            .inspect_err(|_| self.made.refused += 1)?;
        let slot = self.empty.pop().expect("the rule has no more live payloads than slots");
        self.record(Kind::Take, slot, size, align, answer);
        Ok(answer)
    }

    fn deallocate(&mut self, payload: usize, align: usize) -> Result<(), u64> {
        self.heap.deallocate(payload, align)?;
        let slot = self.slots[payload / HALF_GRAIN];
        self.empty.push(slot);
        self.record(Kind::Return, slot, 0, align, 0);
        Ok(())
    }

    fn reallocate(&mut self, payload: usize, size: usize, align: usize) -> Result<usize, u64> {
        let answer = self
            .heap
            .reallocate(payload, size, align)
            .inspect_err(|_| self.made.refused += 1)?;
        let slot = self.slots[payload / HALF_GRAIN];
        self.record(Kind::Resize, slot, size, align, answer);
        Ok(answer)
    }

    fn usable(&self, payload: usize) -> Result<usize, String> {
        self.heap.usable(payload)
    }

    fn blocks(&self) -> Result<Vec<Block>, String> {
        self.heap.blocks()
    }
}
