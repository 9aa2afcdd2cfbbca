//! Sound heaps of many shapes, made by calls; and good and bad arguments for more of them.

use crate::calls::{Call, Make};
use crate::check::Subject;
use crate::random::Random;
use crate::slices::{Rooms, Slices};
use crate::words::{put, GRAIN, NONE};

/// A live payload, as the caller knows it.
#[derive(Clone, Copy, PartialEq, Eq, Debug)]
pub struct Payload {
    pub at: usize,
    pub size: usize,
    pub align: usize,
}

/// A sound heap, its live payloads, and where its regions ended.
pub struct Shape {
    pub subject: Subject,
    pub live: Vec<Payload>,
    pub ends: Vec<usize>,
}

impl Shape {
    /// A heap after some calls. Says what was wrong if a call on a sound heap was.
    pub fn new(random: &mut Random, rooms: Rooms, make: Make) -> Result<Shape, String> {
        let arena = match random.below(100) {
            0..20 => random.from_to(64, 400),
            20..40 => random.from_to(64, 2048),
            40..75 => random.from_to(2048, 8192),
            75..97 => random.from_to(8192, 40_000),
            _ => random.from_to(140_000, 300_000),
        };
        let slices = Slices::new(arena, random.from_to(1, 6), rooms, random);
        let mut shape = Shape {
            subject: Subject::new(slices, make),
            live: Vec::new(),
            ends: Vec::new(),
        };
        shape.granted(&Call::Init)?;
        if random.chance(3, 4) {
            shape.give(&Call::Insert {
                start: 0,
                len: random.one_of(&[arena, arena / 2, arena / 4 * 3]),
            })?;
        }
        let calls = random.one_of(&[3, 10, 10, 30, 30, 60]);
        for _ in 0..calls {
            let call = match random.below(12) {
                0 => shape.region(random),
                1..7 => shape.take(random),
                7..10 => shape.back(random),
                _ => shape.resize(random),
            };
            shape.grow(&call, random)?;
        }
        Ok(shape)
    }

    fn granted(&mut self, call: &Call) -> Result<u64, String> {
        match self.subject.call(call)? {
            answer @ 1..=6 => Err(format!("{call:?} on a sound heap was refused with {answer}")),
            answer => Ok(answer),
        }
    }

    fn give(&mut self, call: &Call) -> Result<(), String> {
        let answer = self.subject.call(call)?;
        if let (Call::Insert { start, .. } | Call::Append { start, .. }, 64..) = (call, answer) {
            self.ends.push(start + answer as usize);
        }
        Ok(())
    }

    /// A call on the sound heap: it is never refused with 5, and what is live is granted.
    fn grow(&mut self, call: &Call, random: &mut Random) -> Result<(), String> {
        let answer = match call {
            Call::Insert { .. } | Call::Append { .. } => return self.give(call),
            _ => self.subject.call(call)?,
        };
        if answer == 5 {
            return Err(format!("{call:?} on a sound heap was refused with 5"));
        }
        match *call {
            Call::Take { size, align } if answer >= 16 => {
                self.live.push(Payload {
                    at: answer as usize,
                    size,
                    align,
                });
                self.fill(self.live.len() - 1, random);
            }
            Call::Return { payload, .. } if answer == 0 => self.live.retain(|held| held.at != payload),
            Call::Return { .. } => return Err(format!("{call:?} of a live payload was refused with {answer}")),
            Call::Resize { payload, size, .. } if answer >= 16 => {
                if !self.subject.is_live(answer as usize) {
                    return Err(format!("{call:?} on a sound heap answered {answer}, which is not live"));
                }
                if let Some(held) = self.live.iter_mut().find(|held| held.at == payload) {
                    (held.at, held.size) = (answer as usize, size);
                }
            }
            _ => {}
        }
        Ok(())
    }

    /// The caller writes into a payload, sometimes what looks like headers.
    fn fill(&mut self, entry: usize, random: &mut Random) {
        let Payload { at, size, .. } = self.live[entry];
        let other = random.one_of(&self.live).at;
        let bytes = self.subject.slices.arena.all_mut();
        match random.below(3) {
            0 => bytes[at..at + size].fill(random.any() as u8),
            1 => {}
            _ => {
                for offset in (at..(at + size).saturating_sub(7)).step_by(8).take(16) {
                    let value = random.one_of(&[0, 1, 32, 33, 35, 64, 65, NONE, other as u64, other as u64 / 32 * 32]);
                    put(bytes, offset, value);
                }
            }
        }
    }

    // ---- good arguments

    fn a_size(&self, random: &mut Random) -> usize {
        let arena = self.subject.slices.lengths().arena;
        match random.below(10) {
            0..4 => random.below(65),
            4..8 => random.below(arena / 16 + 32),
            8 => random.below(arena / 3 + 1),
            _ => random.below(arena + 1),
        }
    }

    pub fn take(&self, random: &mut Random) -> Call {
        let align = 1
            << if random.chance(3, 4) {
                random.below(5)
            } else {
                random.from_to(5, 10)
            };
        Call::Take {
            size: self.a_size(random),
            align,
        }
    }

    /// Of a live payload; a take where there is none.
    pub fn back(&self, random: &mut Random) -> Call {
        match self.live.is_empty() {
            true => self.take(random),
            false => back_of(&random.one_of(&self.live)),
        }
    }

    pub fn resize(&self, random: &mut Random) -> Call {
        match self.live.is_empty() {
            true => self.take(random),
            false => self.resize_of(&random.one_of(&self.live), random),
        }
    }

    pub fn resize_of(&self, held: &Payload, random: &mut Random) -> Call {
        let size = match random.below(4) {
            0 => held.size / 2,
            1 => held.size + random.below(100),
            2 => held.size * 2,
            _ => self.a_size(random),
        };
        Call::Resize {
            payload: held.at,
            size,
            align: held.align,
        }
    }

    /// A region that may well be free, at odd numbers too; or one behind another.
    pub fn region(&self, random: &mut Random) -> Call {
        let arena = self.subject.slices.lengths().arena;
        let len = random.one_of(&[64, 100, arena / 8, arena / 2]);
        match random.chance(1, 2) && !self.ends.is_empty() {
            true => Call::Append {
                start: random.one_of(&self.ends),
                len,
            },
            false => Call::Insert {
                start: random.below(arena),
                len,
            },
        }
    }

    // ---- bad arguments

    /// Numbers that are no payload, no alignment, no size or no region, and such as are by chance.
    pub fn bad(&self, random: &mut Random) -> Call {
        let align = random.one_of(&[0, 1, 2, 3, 8, 12, 16, 32, 64, 4096, 4097, 8192, 1 << 63, usize::MAX]);
        let (any, size) = (self.a_number(random), self.a_number(random));
        match random.below(6) {
            0 => Call::Init,
            1 => Call::Insert { start: any, len: size },
            2 => Call::Append { start: any, len: size },
            3 => Call::Take { size, align },
            4 => Call::Return { payload: any, align },
            _ => Call::Resize {
                payload: any,
                size,
                align,
            },
        }
    }

    fn a_number(&self, random: &mut Random) -> usize {
        let arena = self.subject.slices.lengths().arena;
        match random.below(8) {
            0 => random.below(arena + 64),
            1 => random.below(arena + 64) / GRAIN * GRAIN,
            2 => random.below(arena + 64) / GRAIN * GRAIN + GRAIN / 2,
            3 => (random.any() as usize) >> random.below(64),
            4 => usize::MAX - random.below(80),
            5 => (1 << random.below(64)) + random.below(3),
            6 if !self.live.is_empty() => random.one_of(&self.live).at,
            _ => random.below(200),
        }
    }
}

pub fn back_of(held: &Payload) -> Call {
    Call::Return {
        payload: held.at,
        align: held.align,
    }
}
