//! One call, made and checked: whatever is in the slices, all of this must hold.

use crate::calls::{due, Call, Make};
use crate::slices::{Lengths, Slices};
use crate::words::{GRAIN, HALF};

/// The most words that a granted take changes, a granted return, and a granted resize beside what it moves: T3 of
/// docs/THEOREMS.md.
const TAKE_WORDS: usize = 12;
const RETURN_WORDS: usize = 11;
const RESIZE_WORDS: usize = 23;

/// Slices, and a copy of them as they were before the last call.
pub struct Subject {
    pub slices: Slices,
    before: Slices,
    make: Make,
}

impl Subject {
    pub fn new(slices: Slices, make: Make) -> Subject {
        Subject {
            before: slices.clone(),
            slices,
            make,
        }
    }

    /// Makes a call, and says what is wrong with it if anything is. The slices may have been changed since the last one.
    pub fn call(&mut self, call: &Call) -> Result<u64, String> {
        self.call_lent(call, &self.slices.lengths())
    }

    /// The same, where not all of the slices is lent.
    pub fn call_lent(&mut self, call: &Call, lent: &Lengths) -> Result<u64, String> {
        self.before.copy_from(&self.slices);
        let answer = (self.make)(call, lent, &mut self.slices);
        match self.wrong(call, lent, answer) {
            None => Ok(answer),
            Some(what) => Err(format!("{call:?}, lent {lent:?}, answered {answer}: {what}")),
        }
    }

    /// Makes a call, and puts everything back.
    pub fn try_call(&mut self, call: &Call) -> Result<u64, String> {
        let answer = self.call(call)?;
        self.slices.copy_from(&self.before);
        Ok(answer)
    }

    fn wrong(&self, call: &Call, lent: &Lengths, answer: u64) -> Option<String> {
        if !self.slices.zones_stand() {
            return Some("it wrote outside a slice".into());
        }
        if !self.unlent_stands(call, lent) {
            return Some("it wrote to what was not lent".into());
        }
        match due(call, lent, &self.before) {
            Some(refusal) if answer != refusal => return Some(format!("refusal {refusal} is due")),
            None if !may_answer(call, answer) => return Some("it may not answer this here".into()),
            _ => {}
        }
        if (1..=6).contains(&answer) {
            return (!self.slices.same(&self.before)).then(|| "it was refused and changed something".into());
        }
        self.granted_wrong(call, lent, answer as usize)
    }

    /// Slices that the call is not lent, and what is behind the part that is lent.
    fn unlent_stands(&self, call: &Call, lent: &Lengths) -> bool {
        let (arena, live, regions) = match call {
            Call::Init => (0, lent.live, lent.regions),
            Call::Insert { .. } | Call::Append { .. } => (lent.arena, 0, lent.regions),
            Call::Take { .. } | Call::Return { .. } | Call::Resize { .. } => (lent.arena, lent.live, 0),
        };
        let (now, before) = (&self.slices, &self.before);
        now.arena.all()[arena..] == before.arena.all()[arena..]
            && now.lists.all()[lent.lists..] == before.lists.all()[lent.lists..]
            && now.live.all()[live..] == before.live.all()[live..]
            && now.regions.all()[regions..] == before.regions.all()[regions..]
    }

    /// What is wrong with what a granted call did.
    fn granted_wrong(&self, call: &Call, lent: &Lengths, answer: usize) -> Option<String> {
        match *call {
            Call::Init => None,
            Call::Insert { start, len } | Call::Append { start, len } => {
                let inside = answer <= len && start + answer <= lent.arena;
                (!inside).then(|| "these bytes are not in the region and the arena".into())
            }
            Call::Take { size, align } => {
                let changed = self.slices.differing_words(&self.before);
                let dead = (!self.is_live(answer)).then(|| "the payload is not live".into());
                self.place_wrong(lent, answer, size, align)
                    .or(dead)
                    .or_else(|| too_many(changed, TAKE_WORDS))
            }
            Call::Return { payload, .. } => {
                if self.is_live(payload) {
                    return Some("the payload is live still".into());
                }
                too_many(self.slices.differing_words(&self.before), RETURN_WORDS)
            }
            Call::Resize { payload, size, align } => {
                let wrong = match (self.is_live(answer), answer != payload && self.is_live(payload)) {
                    (_, true) => Some("the payload is live where it was, too".into()),
                    // A free block that lies over the payload can be what is taken for it, and is returned then. Such damage
                    // looks sound: that the payload is live is promised of sound heaps alone.
                    (false, false) if answer != payload => Some("the payload is not live".into()),
                    _ => None,
                };
                self.place_wrong(lent, answer, size, align).or(wrong).or_else(|| {
                    // What was moved is in the new payload.
                    let (now, before) = (&self.slices.arena.all()[answer..], &self.before.arena.all()[answer..]);
                    let words = if answer == payload { 0 } else { size.div_ceil(8) };
                    let pairs = now.chunks(8).zip(before.chunks(8)).take(words);
                    let moved = pairs.filter(|(a, b)| a != b).count();
                    too_many(self.slices.differing_words(&self.before) - moved, RESIZE_WORDS)
                })
            }
        }
    }

    /// What is wrong with where the payload is.
    fn place_wrong(&self, lent: &Lengths, at: usize, size: usize, align: usize) -> Option<String> {
        if at % align != 0 || at % HALF != 0 {
            return Some("the payload is not aligned".into());
        }
        if at.checked_add(size).is_none_or(|end| end > lent.arena) || at >= lent.arena / GRAIN * GRAIN {
            return Some("the payload is not in the arena".into());
        }
        None
    }

    /// Whether a live payload starts at this offset, by the live bits.
    pub fn is_live(&self, payload: usize) -> bool {
        let half = payload / HALF;
        self.slices
            .live
            .all()
            .get(half / 64)
            .is_some_and(|bits| bits >> (half % 64) & 1 == 1)
    }
}

/// What a call may answer where no refusal is due by its arguments and the tables.
fn may_answer(call: &Call, answer: u64) -> bool {
    match call {
        Call::Init => answer == 0,
        Call::Insert { .. } | Call::Append { .. } => answer == 5 || answer >= 64,
        Call::Take { .. } => answer == 5 || answer >= 16,
        Call::Return { .. } => answer == 5 || answer == 0,
        Call::Resize { .. } => answer == 5 || answer == 1 || answer >= 16,
    }
}

fn too_many(changed: usize, most: usize) -> Option<String> {
    (changed > most).then(|| format!("it changed {changed} words, and may change {most}"))
}

#[cfg(test)]
mod tests {
    //! That each check sees what it is for: calls that do it wrong in one way each.

    use super::*;
    use crate::calls::make;
    use crate::random::Random;
    use crate::slices::Rooms;

    /// A heap with one live payload at 16, on which calls are made that are as wrong as `faulty`.
    fn subject(faulty: Make) -> Subject {
        let slices = Slices::new(4096, 4, Rooms::Zoned, &mut Random::new(1, 1));
        let mut subject = Subject::new(slices, make);
        assert_eq!(subject.call(&Call::Init), Ok(0));
        assert_eq!(subject.call(&Call::Insert { start: 0, len: 2048 }), Ok(2048));
        assert_eq!(subject.call(&Call::Take { size: 100, align: 8 }), Ok(16));
        subject.make = faulty;
        subject
    }

    fn sees(faulty: Make, call: Call, what: &str) {
        let said = subject(faulty).call(&call).expect_err("the fault was not seen");
        assert!(said.contains(what), "said: {said}");
        assert!(subject(make).call(&call).is_ok());
    }

    const TAKE: Call = Call::Take { size: 8, align: 8 };
    const TOO_LARGE: Call = Call::Take { size: 4000, align: 8 };
    const RETURN: Call = Call::Return { payload: 16, align: 8 };
    const RESIZE: Call = Call::Resize {
        payload: 16,
        size: 8,
        align: 8,
    };

    #[test]
    fn a_write_before_the_arena() {
        sees(
            |call, lent, slices| {
                slices.arena.room_mut()[0] = 0;
                make(call, lent, slices)
            },
            TAKE,
            "outside a slice",
        );
    }

    #[test]
    fn a_write_behind_a_table() {
        sees(
            |call, lent, slices| {
                *slices.lists.room_mut().last_mut().unwrap() = 0;
                make(call, lent, slices)
            },
            TAKE,
            "outside a slice",
        );
    }

    #[test]
    fn a_write_to_a_slice_that_is_not_lent() {
        sees(
            |call, lent, slices| {
                slices.regions.all_mut()[0] += 1;
                make(call, lent, slices)
            },
            TAKE,
            "not lent",
        );
    }

    #[test]
    fn a_write_behind_what_is_lent() {
        let mut subject = subject(|call, lent, slices| {
            let answer = make(call, lent, slices);
            slices.arena.all_mut()[lent.arena] ^= 1;
            answer
        });
        let lent = Lengths {
            arena: 4000,
            ..subject.slices.lengths()
        };
        assert!(subject
            .call_lent(&TAKE, &lent)
            .expect_err("not seen")
            .contains("not lent"));
    }

    #[test]
    fn a_refusal_that_changes_a_byte() {
        sees(
            |call, lent, slices| {
                slices.arena.all_mut()[4000] ^= 1;
                make(call, lent, slices)
            },
            TOO_LARGE,
            "changed something",
        );
    }

    #[test]
    fn another_refusal_than_is_due() {
        sees(|_, _, _| 5, TOO_LARGE, "refusal 1 is due");
        sees(|_, _, _| 1, Call::Take { size: 8, align: 3 }, "refusal 2 is due");
        sees(|_, _, _| 0, Call::Return { payload: 48, align: 8 }, "refusal 3 is due");
        sees(|_, _, _| 64, Call::Insert { start: 0, len: 64 }, "refusal 4 is due");
    }

    #[test]
    fn answers_that_no_such_call_has() {
        sees(|_, _, _| 7, TAKE, "may not answer");
        sees(|_, _, _| 3, TAKE, "may not answer");
        sees(|_, _, _| 1, RETURN, "may not answer");
        sees(|_, _, _| 16, RETURN, "may not answer");
        sees(|_, _, _| 0, RESIZE, "may not answer");
        sees(|_, _, _| 32, Call::Insert { start: 2048, len: 64 }, "may not answer");
    }

    #[test]
    fn payloads_outside_or_not_aligned() {
        sees(|_, _, _| 4096, TAKE, "not in the arena");
        sees(|_, _, _| 1 << 40, RESIZE, "not in the arena");
        sees(|_, _, _| u64::MAX - 15, RESIZE, "not in the arena");
        sees(|_, _, _| 24, TAKE, "not aligned");
        sees(|_, _, _| 2048 + 16, TAKE, "not live");
    }

    #[test]
    fn a_region_outside() {
        sees(
            |_, _, _| 4096,
            Call::Insert { start: 2048, len: 64 },
            "not in the region",
        );
    }

    #[test]
    fn a_return_that_leaves_its_live_bit() {
        sees(|_, _, _| 0, RETURN, "live still");
    }

    #[test]
    fn too_many_words() {
        let faulty: Make = |call, lent, slices| {
            for byte in slices.arena.all_mut()[3000..3200].iter_mut() {
                *byte ^= 1;
            }
            make(call, lent, slices)
        };
        sees(faulty, TAKE, "may change 12");
        sees(faulty, RETURN, "may change 11");
        sees(faulty, RESIZE, "may change 23");
    }
}
