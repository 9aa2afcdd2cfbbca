//! How often each kind of call got each kind of answer.

use super::step::Call;
use super::trial::{Answered, Moved};
use std::fmt;

const KINDS: [&str; 5] = ["region", "region behind another", "take", "return", "resize"];

#[derive(Clone, Default)]
pub struct Tally {
    pub heaps: u64,
    /// Heaps for which a table was too short.
    pub too_short: u64,
    /// For each kind of call, those granted, and those refused with 1 to 6.
    pub answers: [[u64; 7]; 5],
    /// Granted resizes: the payload stayed, moved into the free block before, or to another block.
    pub stayed: u64,
    pub down: u64,
    pub elsewhere: u64,
}

impl Tally {
    /// Calls made, those of making an empty heap among them.
    pub fn calls(&self) -> u64 {
        self.too_short + self.answers.iter().flatten().sum::<u64>()
    }

    pub(super) fn not_begun(&mut self) {
        self.too_short += 1;
    }

    pub(super) fn count(&mut self, answered: &Answered) {
        let kind = match answered.call {
            Call::Insert { .. } => 0,
            Call::Append { .. } => 1,
            Call::Allocate { .. } => 2,
            Call::Deallocate { .. } => 3,
            Call::Reallocate { .. } => 4,
        };
        let answer = answered.answer.map_or_else(|why| why.number() as usize, |_| 0);
        self.answers[kind][answer] += 1;
        match answered.moved {
            Some(Moved::Nowhere) => self.stayed += 1,
            Some(Moved::Down) => self.down += 1,
            Some(Moved::Elsewhere) => self.elsewhere += 1,
            None => {}
        }
    }
}

impl fmt::Display for Tally {
    fn fmt(&self, out: &mut fmt::Formatter) -> fmt::Result {
        writeln!(out, "{:24}{:>10}{:>40}", "", "granted", "refused with 1, 2, 3, 4, 6")?;
        for (kind, answers) in KINDS.iter().zip(self.answers) {
            let [granted, one, two, three, four, _, six] = answers;
            writeln!(out, "{kind:24}{granted:>10}{one:>8}{two:>8}{three:>8}{four:>8}{six:>8}")?;
        }
        write!(
            out,
            "resizes that stayed {}, moved down {}, elsewhere {}; heaps {}, and {} with too short a table",
            self.stayed,
            self.down,
            self.elsewhere,
            self.heaps - self.too_short,
            self.too_short
        )
    }
}
