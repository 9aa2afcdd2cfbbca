//! One heap and its model, side by side.

use super::memory::Memory;
use super::same::{behind_tables, same_answer, same_bytes, same_view, unchanged};
use super::step::{Asked, Call, Script, Step, Whose};
use super::subject::Subject;
use crate::random::Random;
use crate::rule::{Made, NONE};
use crate::slices::View;
use model::{Heap, Lent, Refusal, State};

/// Calls between two looks at all payloads by their patterns.
const LOOK: u64 = 64;

/// A live payload: what it is called, where it is, with which alignment it was taken, and what it was filled with.
#[derive(Clone, Copy, Debug)]
pub struct Payload {
    pub name: usize,
    pub offset: usize,
    pub align: usize,
    pattern: u64,
}

pub struct Trial<S> {
    subject: S,
    lent: Lent,
    memory: Memory,
    /// The memory as the last call and the caller left it.
    before: Memory,
    model: Heap,
    live: Vec<Payload>,
    made: u64,
}

/// What became of a step.
pub enum Outcome {
    /// Its payload is not live, so no call was made.
    Skipped,
    /// Heap and model agree.
    Same(Answered),
    Differs(Answered, String),
}

/// A call and what the model answered.
#[derive(Clone, Copy, Debug)]
pub struct Answered {
    pub call: Call,
    pub answer: Result<usize, Refusal>,
    /// Bytes from the payload's first to its block's end; 0 where there is none.
    pub usable: usize,
    /// What became of a payload that was resized.
    pub moved: Option<Moved>,
}

#[derive(Clone, Copy, Debug, PartialEq, Eq)]
pub enum Moved {
    /// It stands where it did.
    Nowhere,
    /// Into the free block before its own.
    Down,
    /// To another block.
    Elsewhere,
}

/// A payload before it is resized: where it is, how many bytes it may use, and the free block before its own.
#[derive(Clone, Copy)]
struct Old {
    payload: usize,
    usable: usize,
    before: Option<usize>,
}

impl Answered {
    /// The payload that was taken or resized, at its new place.
    fn payload(&self) -> Option<usize> {
        match self.call {
            Call::Allocate { .. } | Call::Reallocate { .. } => self.answer.ok(),
            _ => None,
        }
    }

    /// As a line of recorded calls, which know no refusal of a return.
    pub fn line(&self) -> Made {
        let (kind, arguments) = match self.call {
            Call::Insert { start, len } => (0, [start, len, 0]),
            Call::Append { start, len } => (0, [start, len, 1]),
            Call::Allocate { size, align } => (1, [size, align, 0]),
            Call::Deallocate { payload, align } => (2, [payload, align, 0]),
            Call::Reallocate { payload, size, align } => (3, [payload, size, align]),
        };
        Made {
            kind,
            arguments: arguments.map(|n| n as u64),
            answer: match self.call {
                Call::Deallocate { .. } => 0,
                _ => self.answer.map_or(NONE, |n| n as u64),
            },
            usable: self.usable as u64,
        }
    }
}

impl<S: Subject> Trial<S> {
    /// An empty heap; none where a table is too short for one, and heap and model agree on that.
    pub fn begin(script: &Script, mut subject: S) -> Result<Option<Trial<S>>, String> {
        let lent = script.lent;
        let mut memory = Memory::new(lent, script.seed);
        let before = memory.clone();
        let answer = subject.init(memory.lend(lent));
        let model = match Heap::new(lent) {
            Ok(model) => model,
            Err(why) => {
                same_answer(answer, Err(why)).map_err(|what| format!("init: {what}"))?;
                unchanged(&memory, &before)?;
                refused_without(lent, &mut subject, &mut memory, &before)?;
                return Ok(None);
            }
        };
        same_answer(answer, Ok(0)).map_err(|what| format!("init: {what}"))?;
        if memory.slices().arena != before.slices().arena {
            return Err("init: it wrote to the arena".into());
        }
        let mut trial = Trial {
            subject,
            lent,
            memory,
            before,
            model,
            live: Vec::new(),
            made: 0,
        };
        trial.settle(None).map_err(|what| format!("init: {what}"))?;
        Ok(Some(trial))
    }

    pub fn lent(&self) -> Lent {
        self.lent
    }

    pub fn model(&self) -> &Heap {
        &self.model
    }

    pub fn live(&self) -> &[Payload] {
        &self.live
    }

    /// Makes a call on both, and compares all there is to compare.
    pub fn make(&mut self, step: &Step) -> Outcome {
        let Some(call) = self.call(step.asked) else {
            return Outcome::Skipped;
        };
        self.made += 1;
        let lent = step.shorter.of(self.lent);
        let old = self.old_payload(call);
        self.model.lend(lent);
        let answer = on_model(&mut self.model, call);
        self.model.lend(self.lent);
        let got = self.subject.make(call, self.memory.lend(lent));
        let mut answered = Answered {
            call,
            answer,
            usable: 0,
            moved: None,
        };
        if let Some(payload) = answered.payload() {
            answered.usable = self.model.usable(payload).unwrap_or(0);
            answered.moved = old.map(|old| self.moved(old, payload));
        }
        match self.judge(step.asked, answered, got, old) {
            Ok(()) => Outcome::Same(answered),
            Err(what) => Outcome::Differs(answered, format!("{call}: {what}")),
        }
    }

    /// What a step comes to now.
    fn call(&self, asked: Asked) -> Option<Call> {
        let offset = |whose| match whose {
            Whose::Name(name) => self
                .live
                .iter()
                .find(|payload| payload.name == name)
                .map(|payload| payload.offset),
            Whose::Offset(offset) => Some(offset),
        };
        Some(match asked {
            Asked::Insert { start, len } => Call::Insert { start, len },
            Asked::Append { start, len } => Call::Append { start, len },
            Asked::Allocate { size, align, .. } => Call::Allocate { size, align },
            Asked::Deallocate { whose, align } => Call::Deallocate {
                payload: offset(whose)?,
                align,
            },
            Asked::Reallocate { whose, size, align } => Call::Reallocate {
                payload: offset(whose)?,
                size,
                align,
            },
        })
    }

    /// The live payload that a call may resize.
    fn old_payload(&self, call: Call) -> Option<Old> {
        let Call::Reallocate { payload, .. } = call else {
            return None;
        };
        let block = self.model.block_of(payload)?;
        let blocks = self.model.blocks();
        let place = blocks.partition_point(|other| other.offset < block.offset);
        let before = blocks[..place].last().filter(|block| block.is_free());
        Some(Old {
            payload,
            usable: block.end() - payload,
            before: before.map(|block| block.offset),
        })
    }

    fn moved(&self, old: Old, now: usize) -> Moved {
        let block = self.model.block_of(now).map(|block| block.offset);
        if now == old.payload {
            Moved::Nowhere
        } else if block == old.before {
            Moved::Down
        } else {
            Moved::Elsewhere
        }
    }

    fn judge(&mut self, asked: Asked, answered: Answered, got: u64, old: Option<Old>) -> Result<(), String> {
        same_answer(got, answered.answer)?;
        let Ok(answer) = answered.answer else {
            unchanged(&self.memory, &self.before)?;
            return self.look_at_patterns();
        };
        self.kept(answered, old)?;
        self.follow(asked, answered.call, answer);
        self.settle(answered.payload())
    }

    /// The bytes that a resized payload keeps: as many as it had, at most those asked for where it moved.
    fn kept(&self, answered: Answered, old: Option<Old>) -> Result<(), String> {
        let (Call::Reallocate { size, .. }, Some(old), Some(now)) = (answered.call, old, answered.payload()) else {
            return Ok(());
        };
        let room = if now == old.payload { answered.usable } else { size };
        let kept = old.usable.min(room);
        let was = &self.before.slices().arena[old.payload..old.payload + kept];
        let is = &self.memory.slices().arena[now..now + kept];
        same_bytes(is, was, now, "the payload that was resized")
    }

    /// Which payloads are live now, and under which names.
    fn follow(&mut self, asked: Asked, call: Call, answer: usize) {
        let pattern = self.made;
        match (asked, call) {
            (Asked::Allocate { name, align, .. }, _) => self.live.push(Payload {
                name,
                offset: answer,
                align,
                pattern,
            }),
            (_, Call::Deallocate { payload, .. }) => self.live.retain(|live| live.offset != payload),
            (_, Call::Reallocate { payload, align, .. }) => {
                let found = self.live.iter_mut().find(|live| live.offset == payload);
                let found = found.expect("a payload that was resized is live");
                *found = Payload {
                    offset: answer,
                    align,
                    pattern,
                    ..*found
                };
            }
            _ => {}
        }
    }

    /// After a granted call: all is as the model has it, and nothing else was written. The payload that was taken or resized
    /// is then filled anew.
    fn settle(&mut self, touched: Option<usize>) -> Result<(), String> {
        if let Some(name) = self.memory.border_written(&self.before) {
            return Err(format!("something was written beside {name}"));
        }
        same_view(&self.memory.slices().view()?, &View::of_model(&self.model))?;
        self.others_untouched(touched)?;
        if let Some(payload) = self.live.iter().find(|payload| Some(payload.offset) == touched) {
            let usable = self.model.usable(payload.offset).unwrap_or(0);
            let bytes = &mut self.memory.arena_mut()[payload.offset..payload.offset + usable];
            pattern(payload.pattern, bytes);
        }
        self.look_at_patterns()?;
        self.before.copy_from(&self.memory);
        Ok(())
    }

    /// No byte of another live payload was written, none that was never given, and no word behind the tables.
    fn others_untouched(&self, touched: Option<usize>) -> Result<(), String> {
        let (is, was) = (self.memory.slices(), self.before.slices());
        for block in self.model.blocks() {
            let State::Used { payload } = block.state else {
                continue;
            };
            if Some(payload) != touched {
                let range = payload..block.end();
                same_bytes(
                    &is.arena[range.clone()],
                    &was.arena[range],
                    payload,
                    "another live payload",
                )?;
            }
        }
        let mut regions = self.model.regions().to_vec();
        regions.sort_by_key(|region| region.start);
        let mut at = 0;
        for region in regions {
            let range = at..region.start;
            same_bytes(&is.arena[range.clone()], &was.arena[range], at, "what was never given")?;
            at = region.end;
        }
        same_bytes(&is.arena[at..], &was.arena[at..], at, "what was never given")?;
        behind_tables(&is, &was, self.model.regions().len())
    }

    /// Now and then, whether each payload still holds what it was filled with.
    fn look_at_patterns(&self) -> Result<(), String> {
        if self.made % LOOK != 0 {
            return Ok(());
        }
        let mut expected = Vec::new();
        for payload in &self.live {
            let usable = self.model.usable(payload.offset).unwrap_or(0);
            expected.resize(usable, 0);
            pattern(payload.pattern, &mut expected);
            let is = &self.memory.slices().arena[payload.offset..payload.offset + usable];
            same_bytes(
                is,
                &expected,
                payload.offset,
                "a live payload, which was filled before,",
            )?;
        }
        Ok(())
    }
}

/// Where a table is too short for an empty heap, every call that needs it is refused with 6 and changes nothing. What the
/// others do hangs on what the tables hold, which is made up.
fn refused_without<S: Subject>(
    lent: Lent,
    subject: &mut S,
    memory: &mut Memory,
    before: &Memory,
) -> Result<(), String> {
    let no_lists = lent.lists < model::lists_length();
    let no_live = lent.live < model::live_length(lent.arena);
    let no_regions = lent.regions == 0;
    let (start, len) = (0, lent.arena);
    let (payload, size, align) = (16, 10, 8);
    for (call, refused) in [
        (Call::Insert { start, len }, no_lists || no_regions),
        (Call::Append { start, len }, no_lists || no_regions),
        (Call::Allocate { size, align }, no_lists || no_live),
        (Call::Deallocate { payload, align }, no_lists || no_live),
        (Call::Reallocate { payload, size, align }, no_lists || no_live),
    ] {
        if refused {
            let got = subject.make(call, memory.lend(lent));
            let same = same_answer(got, Err(Refusal::TooShort)).and_then(|()| unchanged(memory, before));
            same.map_err(|what| format!("{call}: {what}"))?;
        }
    }
    Ok(())
}

fn on_model(model: &mut Heap, call: Call) -> Result<usize, Refusal> {
    match call {
        Call::Insert { start, len } => model.insert_free_block(start, len),
        Call::Append { start, len } => model.append_free_block(start, len),
        Call::Allocate { size, align } => model.allocate(size, align),
        Call::Deallocate { payload, align } => model.deallocate(payload, align).map(|()| 0),
        Call::Reallocate { payload, size, align } => model.reallocate(payload, size, align),
    }
}

/// A made-up content.
fn pattern(number: u64, bytes: &mut [u8]) {
    let mut random = Random::new(number);
    for chunk in bytes.chunks_mut(8) {
        chunk.copy_from_slice(&random.next().to_le_bytes()[..chunk.len()]);
    }
}
