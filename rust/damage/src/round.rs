//! One round: a sound heap, a damage, all calls. What was answered is counted by the kind of damage.

use crate::calls::{Call, Make, NAMES};
use crate::random::Random;
use crate::shape::{back_of, Payload, Shape};
use crate::slices::{Lengths, Rooms, Slices};
use crate::strike::{strike, Strike, Target, TARGETS, WAYS};

/// Answers to one call: as on the sound heap; another grant; another refusal, 1 to 6.
#[derive(Clone, Copy, Default, PartialEq, Eq, Debug)]
pub struct Answers {
    pub same: u64,
    pub other: u64,
    pub refused: [u64; 6],
}

impl Answers {
    pub fn calls(&self) -> u64 {
        self.same + self.other + self.refused.iter().sum::<u64>()
    }

    fn count(&mut self, sound: u64, answer: u64) {
        match answer {
            _ if answer == sound => self.same += 1,
            1..=6 => self.refused[answer as usize - 1] += 1,
            _ => self.other += 1,
        }
    }

    pub fn add(&mut self, more: &Answers) {
        self.same += more.same;
        self.other += more.other;
        for (sum, refused) in self.refused.iter_mut().zip(more.refused) {
            *sum += refused;
        }
    }
}

/// What was counted: by target and call, and by way.
#[derive(Clone, PartialEq, Eq, Debug)]
pub struct Tally {
    pub calls: u64,
    pub by_target: [[Answers; NAMES.len()]; TARGETS.len()],
    pub by_way: [Answers; WAYS.len()],
}

impl Default for Tally {
    fn default() -> Tally {
        Tally {
            calls: 0,
            by_target: [[Answers::default(); NAMES.len()]; TARGETS.len()],
            by_way: [Answers::default(); WAYS.len()],
        }
    }
}

impl Tally {
    fn count(&mut self, strike: &Strike, call: &Call, sound: u64, answer: u64) {
        if let Some(row) = TARGETS.iter().position(|(target, _)| *target == strike.target) {
            self.by_target[row][call.number()].count(sound, answer);
        }
        if let Some(row) = WAYS.iter().position(|(way, _)| Some(*way) == strike.way) {
            self.by_way[row].count(sound, answer);
        }
    }
}

/// Rounds of one seed.
pub struct Rounds {
    pub seed: u64,
    pub rooms: Rooms,
    pub make: Make,
    /// Whether the damage is told as soon as it is done.
    pub told: bool,
}

impl Rounds {
    /// Makes a round. Where something is wrong, says what, and after which damage and calls.
    pub fn round(&self, number: u64, tally: &mut Tally) -> Result<(), String> {
        let random = &mut Random::new(self.seed, number);
        let mut shape = Shape::new(random, self.rooms, self.make)?;
        let sound = shape.subject.slices.clone();
        let heap = format!(
            "an arena of {} bytes with {} live payloads",
            sound.lengths().arena,
            shape.live.len()
        );
        let hit = strike(&mut shape, random);
        if self.told {
            println!("{heap}; damage: {}", hit.told);
        }
        let mut made = Vec::new();
        let result = alone(&mut shape, &sound, &hit, random, tally)
            .and_then(|()| in_turn(&mut shape, random, &mut made, tally))
            .and_then(|()| made_anew(&mut shape, tally));
        result.map_err(|what| {
            let calls: String = made
                .iter()
                .map(|(call, answer)| format!("; {call:?}, answered {answer}"))
                .collect();
            format!("{heap}; damage: {}{calls}; {what}", hit.told)
        })
    }
}

/// Each call by itself, with good arguments, on the sound heap and on the damaged one. The heap is damaged then.
fn alone(
    shape: &mut Shape,
    sound: &Slices,
    hit: &Strike,
    random: &mut Random,
    tally: &mut Tally,
) -> Result<(), String> {
    let struck = shape.subject.slices.clone();
    for call in good_calls(shape, hit, random) {
        shape.subject.slices.copy_from(sound);
        let due = shape.subject.call(&call)?;
        shape.subject.slices.copy_from(&struck);
        let answer = shape.subject.call(&call)?;
        if hit.target == Target::Nothing && answer != due {
            return Err(format!("{call:?} answered {due} and, with nothing changed, {answer}"));
        }
        tally.count(hit, &call, due, answer);
        tally.calls += 2;
    }
    shape.subject.slices.copy_from(&struck);
    Ok(())
}

/// Calls with good and bad arguments, each on what those before it left.
fn in_turn(
    shape: &mut Shape,
    random: &mut Random,
    made: &mut Vec<(Call, u64)>,
    tally: &mut Tally,
) -> Result<(), String> {
    for _ in 0..random.from_to(8, 20) {
        let call = match random.below(8) {
            0..2 => shape.take(random),
            2 => shape.back(random),
            3..5 => shape.resize(random),
            5 => shape.region(random),
            _ => shape.bad(random),
        };
        let answer = shape.subject.call_lent(&call, &lent(shape, random))?;
        tally.calls += 1;
        made.push((call, answer));
        match call {
            Call::Take { size, align } if answer >= 16 => {
                shape.live.push(Payload {
                    at: answer as usize,
                    size,
                    align,
                });
            }
            _ => {}
        }
    }
    Ok(())
}

/// Made anew, it is a heap again.
fn made_anew(shape: &mut Shape, tally: &mut Tally) -> Result<(), String> {
    let len = shape.subject.slices.lengths().arena;
    shape.subject.call(&Call::Init)?;
    let given = shape.subject.call(&Call::Insert { start: 0, len })?;
    let taken = shape.subject.call(&Call::Take { size: 0, align: 1 })?;
    tally.calls += 3;
    match given >= 64 && taken >= 16 {
        true => Ok(()),
        false => Err(format!("made anew, the heap answered {given} and {taken}")),
    }
}

/// Good calls, of each kind; return and resize also of the payload that is nearest to what was hit.
fn good_calls(shape: &Shape, hit: &Strike, random: &mut Random) -> Vec<Call> {
    let arena = shape.subject.slices.lengths().arena;
    let append = Call::Append {
        start: shape.ends.last().copied().unwrap_or(0),
        len: arena / 8 + 64,
    };
    let insert = Call::Insert {
        start: random.below(arena),
        len: random.one_of(&[64, arena / 8 + 64]),
    };
    let mut calls = vec![Call::Init, insert, append, shape.take(random), shape.take(random)];
    if !shape.live.is_empty() {
        calls.extend([shape.back(random), shape.resize(random)]);
        let near = hit.near.unwrap_or(0);
        if let Some(held) = shape.live.iter().min_by_key(|held| held.at.abs_diff(near)) {
            calls.extend([back_of(held), shape.resize_of(held, random)]);
        }
    }
    calls
}

/// How much is lent: mostly all, and sometimes less than must be.
fn lent(shape: &Shape, random: &mut Random) -> Lengths {
    let mut lent = shape.subject.slices.lengths();
    match random.below(24) {
        0 => lent.arena = random.below(lent.arena + 1),
        1 => lent.lists = random.below(lent.lists + 1),
        2 => lent.live = random.below(lent.live + 1),
        3 => lent.regions = random.below(lent.regions + 1),
        _ => {}
    }
    lent
}

#[cfg(test)]
mod tests {
    //! Heaps that do one thing wrong, now and then: the rounds must find each.

    use super::*;
    use crate::calls::make;
    use crate::words::GRAIN;

    /// What is said of the first round that finds a fault.
    fn found(make: Make) -> String {
        let (rounds, mut tally) = (
            Rounds {
                seed: 1,
                rooms: Rooms::Zoned,
                make,
                told: false,
            },
            Tally::default(),
        );
        let told = (0..300).find_map(|number| rounds.round(number, &mut tally).err());
        told.expect("a fault that no round found")
    }

    #[test]
    fn nothing_is_found_of_the_heap() {
        let mut tally = Tally::default();
        for rooms in [Rooms::Zoned, Rooms::Own] {
            let rounds = Rounds {
                seed: 1,
                rooms,
                make,
                told: false,
            };
            for number in 0..300 {
                assert_eq!(rounds.round(number, &mut tally), Ok(()), "round {number}");
            }
        }
        assert!(tally.calls > 10_000);
    }

    /// It writes before it has looked at everything.
    #[test]
    fn a_refusal_that_wrote() {
        let told = found(|call, lent, slices| {
            let answer = make(call, lent, slices);
            if answer == 5 {
                slices.arena.all_mut()[0] ^= 1;
            }
            answer
        });
        assert!(
            told.contains("damage: ") && told.contains("it was refused and changed something"),
            "{told}"
        );
    }

    /// It trusts the headers of a payload that is given back.
    #[test]
    fn a_return_that_sees_no_damage() {
        let told = found(|call, lent, slices| match (call, make(call, lent, slices)) {
            (Call::Return { .. }, 5) => 0,
            (_, answer) => answer,
        });
        assert!(told.contains("the payload is live still"), "{told}");
    }

    /// It writes a header where the block behind ends, and that is behind the arena.
    #[test]
    fn a_header_behind_the_arena() {
        let told = found(|call, lent, slices| {
            let answer = make(call, lent, slices);
            if matches!(call, Call::Take { .. }) && answer as usize + 4 * GRAIN > lent.arena {
                *slices.arena.room_mut().last_mut().unwrap() = 0;
            }
            answer
        });
        assert!(told.contains("it wrote outside a slice"), "{told}");
    }

    /// A damaged heap that is made anew, but not all of it.
    #[test]
    fn a_heap_that_is_not_made_anew() {
        let told = found(|call, lent, slices| match call {
            Call::Init if slices.regions.all()[0] < 7 => 0,
            _ => make(call, lent, slices),
        });
        assert!(
            told.contains("made anew") || told.contains("on a sound heap was refused"),
            "{told}"
        );
    }
}
