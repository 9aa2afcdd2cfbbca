//! The wild rule: heaps of all shapes, and calls with good and bad numbers. Many numbers are drawn beside those at which
//! something changes, which the model tells: the sizes of free blocks, of a payload's neighbours, the ends of regions.

use super::step::{Asked, Script, Shorter, Step, Whose};
use super::subject::Subject;
use super::trial::{Payload, Trial};
use crate::random::Random;
use model::size::{payload_in, GRAIN, LARGEST_PIECE, LEAST_PIECE};
use model::{Block, Lent, Region};

/// What is to happen to one heap.
pub struct Plan {
    random: Random,
    lent: Lent,
    seed: u64,
    /// Calls yet to be made.
    left: u64,
    names: usize,
    style: Style,
    /// Offsets that were handed out lately.
    handed_out: Vec<usize>,
}

/// How a heap is used. It changes now and then.
struct Style {
    /// Takes, returns, resizes, regions.
    weights: [u64; 4],
    /// Most live payloads.
    most: usize,
    /// Of so many numbers one is bad; none where it is 0.
    bad: u64,
    /// Sizes below this are drawn most often.
    usual: u64,
    /// How many powers of two there are as alignments.
    alignments: u64,
}

impl Plan {
    pub fn draw(run: &mut Random, most_calls: u64) -> Plan {
        let mut random = Random::new(run.next());
        let mut lent = draw_lent(&mut random);
        let mut style = Style::draw(&mut random);
        let calls = match random.below(12) {
            0..=2 => random.below(15),
            3..=7 => random.below(300),
            8 => random.below(3_000),
            _ => {
                // Many regions in a large arena.
                lent = Lent::for_arena(140_000 + random.below(700_000) as usize, 12);
                style.weights = [1, 1, 1, 20];
                random.below(30)
            }
        };
        Plan {
            lent,
            seed: random.next(),
            left: (1 + calls).min(most_calls),
            names: 0,
            style,
            handed_out: Vec::new(),
            random,
        }
    }

    /// The beginning of the script: no call yet.
    pub fn script(&self) -> Script {
        Script {
            lent: self.lent,
            seed: self.seed,
            steps: Vec::new(),
        }
    }

    pub fn next<S: Subject>(&mut self, trial: &Trial<S>) -> Option<Step> {
        self.left = self.left.checked_sub(1)?;
        if self.random.below(100) == 0 {
            self.style = Style::draw(&mut self.random);
        }
        let asked = self.ask(trial);
        let shorter = if self.is_bad() {
            self.shorter(trial)
        } else {
            Shorter::None
        };
        Some(Step { asked, shorter })
    }

    fn is_bad(&mut self) -> bool {
        self.style.bad > 0 && self.random.below(self.style.bad) == 0
    }

    fn one_in(&mut self, n: u64) -> bool {
        self.random.below(n) == 0
    }

    fn below(&mut self, n: usize) -> usize {
        self.random.below(n as u64) as usize
    }

    /// A number beside this one: the same, one or a grain less or more.
    fn beside(&mut self, n: usize) -> usize {
        match self.random.below(8) {
            0 => n.wrapping_sub(1),
            1 => n.wrapping_add(1),
            2 => n.wrapping_sub(GRAIN),
            3 => n.wrapping_add(GRAIN),
            _ => n,
        }
    }
}

// ---- calls

impl Plan {
    fn ask<S: Subject>(&mut self, trial: &Trial<S>) -> Asked {
        if trial.model().regions().is_empty() && self.one_in(2) {
            return self.first_region(trial);
        }
        let [takes, returns, resizes, regions] = self.style.weights;
        let drawn = self.random.below(takes + returns + resizes + regions);
        let live = trial.live();
        for payload in live.iter().rev().take(2) {
            self.handed_out.push(payload.offset);
        }
        if self.handed_out.len() > 32 {
            self.handed_out.drain(..16);
        }
        let is_take = drawn < takes && live.len() < self.style.most || live.is_empty() && !self.one_in(8);
        if is_take {
            self.take(trial)
        } else if drawn < takes + returns {
            self.give_back(trial)
        } else if drawn < takes + returns + resizes {
            self.resize(trial)
        } else {
            self.region(trial)
        }
    }

    fn take<S: Subject>(&mut self, trial: &Trial<S>) -> Asked {
        let align = self.alignment();
        let size = self.size(trial, align);
        let name = self.names;
        self.names += 1;
        Asked::Allocate { name, size, align }
    }

    fn give_back<S: Subject>(&mut self, trial: &Trial<S>) -> Asked {
        let (whose, payload) = self.whose(trial);
        let align = self.alignment_of(payload);
        Asked::Deallocate { whose, align }
    }

    fn resize<S: Subject>(&mut self, trial: &Trial<S>) -> Asked {
        let (whose, payload) = self.whose(trial);
        let align = self.alignment_of(payload);
        let size = match payload {
            Some(payload) if self.one_in(2) => self.size_beside_neighbours(trial, payload, align),
            _ => self.size(trial, align),
        };
        Asked::Reallocate { whose, size, align }
    }

    /// A live payload, or a number that may be none.
    fn whose<S: Subject>(&mut self, trial: &Trial<S>) -> (Whose, Option<Payload>) {
        let live = trial.live();
        if live.is_empty() || self.is_bad() {
            return (Whose::Offset(self.offset(trial)), None);
        }
        let payload = live[self.below(live.len())];
        (Whose::Name(payload.name), Some(payload))
    }

    /// A number that is mostly no live payload's offset: one that was handed out before, or is beside one, or any.
    fn offset<S: Subject>(&mut self, trial: &Trial<S>) -> usize {
        let near = match self.handed_out.len() {
            0 => 0,
            n => {
                let at = self.below(n);
                self.handed_out[at]
            }
        };
        let arena = trial.lent().arena;
        match self.random.below(8) {
            0..=2 => near,
            3 => near.wrapping_add(16),
            4 => near.wrapping_sub(16),
            5 => self.beside(near),
            6 => self.below(arena + 64) & !15,
            _ => match self.random.below(4) {
                0 => self.beside(arena),
                1 => self.random.next() as usize,
                2 => usize::MAX - self.below(100),
                _ => self.below(arena + 64),
            },
        }
    }
}

// ---- sizes and alignments

impl Plan {
    fn size<S: Subject>(&mut self, trial: &Trial<S>, align: usize) -> usize {
        if self.is_bad() {
            return match self.random.below(4) {
                0 => usize::MAX - self.below(5_000),
                1 => self.random.next() as usize,
                2 => {
                    let power = 1 << self.below(64);
                    self.beside(power)
                }
                _ => usize::MAX - self.below(64) - align,
            };
        }
        match self.random.below(10) {
            0..=4 => self.random.below(self.style.usual) as usize,
            5 => self.below(300),
            6 => {
                let class = self.random.below(13);
                let bound = (32 << class) + (2 << class) * self.random.below(16);
                let header = 16 * self.below(2);
                self.beside(bound as usize - header)
            }
            7 => self.below(trial.lent().arena + 100),
            _ => self.size_beside_a_free_block(trial, align),
        }
    }

    /// What would just fit a free block, or just not.
    fn size_beside_a_free_block<S: Subject>(&mut self, trial: &Trial<S>, align: usize) -> usize {
        let blocks = trial.model().blocks();
        if blocks.is_empty() {
            return self.below(40);
        }
        let start = self.below(blocks.len());
        let found = blocks[start..].iter().find(|block| block.is_free());
        let Some(&block) = found else {
            return self.below(40);
        };
        let padding = if self.one_in(2) {
            align.clamp(16, 4_096)
        } else {
            padding(block, align)
        };
        let room = block.size.saturating_sub(padding);
        self.beside(room).min(usize::MAX / 2)
    }

    /// What a payload's block and its neighbours would just hold, or just not.
    fn size_beside_neighbours<S: Subject>(&mut self, trial: &Trial<S>, payload: Payload, align: usize) -> usize {
        let model = trial.model();
        let blocks = model.blocks();
        let block = model.block_of(payload.offset).expect("it is live");
        let place = blocks.partition_point(|other| other.offset < block.offset);
        let behind = blocks
            .get(place + 1)
            .filter(|block| block.is_free())
            .map_or(0, |block| block.size);
        let before = place.checked_sub(1).map(|place| blocks[place]).filter(Block::is_free);
        let own = block.end() - payload.offset;
        let size = match (self.random.below(3), before) {
            (0, _) => own,
            (1, _) | (_, None) => own + behind,
            (_, Some(before)) => {
                let total = before.size + block.size + if self.one_in(3) { 0 } else { behind };
                total.saturating_sub(padding(before, align))
            }
        };
        self.beside(size).min(usize::MAX / 2)
    }

    fn alignment(&mut self) -> usize {
        if self.is_bad() {
            return self.bad_alignment();
        }
        1 << self.random.below(self.style.alignments)
    }

    /// An alignment for a payload: that of its take, or another one that suits it.
    fn alignment_of(&mut self, payload: Option<Payload>) -> usize {
        let Some(payload) = payload else {
            return match self.random.below(3) {
                0 => self.alignment(),
                1 => 16,
                _ => 32,
            };
        };
        if self.is_bad() {
            return if self.one_in(2) {
                self.alignment()
            } else {
                self.bad_alignment()
            };
        }
        if !self.one_in(4) {
            return payload.align;
        }
        let suits = |align: &usize| payload.offset % align == 0 && (*align < GRAIN) == (payload.align < GRAIN);
        let suitable: Vec<usize> = (0..13).map(|power| 1 << power).filter(suits).collect();
        suitable[self.below(suitable.len())]
    }

    fn bad_alignment(&mut self) -> usize {
        match self.random.below(6) {
            0 => 0,
            1 => 3,
            2 => 8_192,
            3 => 1 << self.below(64),
            4 => self.below(5_000),
            _ => self.random.next() as usize,
        }
    }
}

/// The bytes before a payload in a block.
fn padding(block: Block, align: usize) -> usize {
    let align = if align.is_power_of_two() { align.min(4_096) } else { 16 };
    payload_in(block.offset, align) - block.offset
}

// ---- regions and tables

impl Plan {
    fn region<S: Subject>(&mut self, trial: &Trial<S>) -> Asked {
        let regions = trial.model().regions();
        let arena = trial.lent().arena;
        let other = match regions.len() {
            0 => Region { start: 0, end: 0 },
            n => regions[self.below(n)],
        };
        if self.one_in(8) {
            return self.region_before(other);
        }
        let start = match self.random.below(10) {
            0..=1 if regions.is_empty() => 0,
            0..=3 => other.end,
            4 => self.beside(other.end),
            5 => self.beside(other.start),
            6 if self.is_bad() => usize::MAX - self.below(300),
            _ => self.below(arena + 40),
        };
        let room = arena.saturating_sub(start);
        let len = match self.random.below(12) {
            0..=1 => room,
            2 => self.beside(room),
            3 => LEAST_PIECE - 4 + self.below(40),
            4..=5 => self.pieces(),
            6..=7 => self.beside(other.start.wrapping_sub(start)),
            8 if self.is_bad() => usize::MAX - self.below(300),
            9 => room / 2,
            _ => self.below(room + 40),
        };
        if !self.one_in(3) {
            return Asked::Insert { start, len };
        }
        let start = match self.random.below(4) {
            0 => start,
            1 => other.end.saturating_sub(self.below(GRAIN)),
            _ => other.end,
        };
        Asked::Append { start, len }
    }

    /// A region that ends where another begins, or a little before or behind that.
    fn region_before(&mut self, other: Region) -> Asked {
        let len = self.pieces().min(other.start);
        let start = self.beside(other.start - len);
        let len = if self.one_in(2) { len } else { len + self.below(100) };
        Asked::Insert { start, len }
    }

    /// Some whole pieces, and what is just left over or just isn't.
    fn pieces(&mut self) -> usize {
        let rest = [0, 0, 31, 32, 63, 64, 95, 96][self.below(8)];
        self.below(4) * LARGEST_PIECE + rest
    }

    /// Mostly a region that can be given, and is most of the arena.
    fn first_region<S: Subject>(&mut self, trial: &Trial<S>) -> Asked {
        if self.one_in(4) {
            return self.region(trial);
        }
        let arena = trial.lent().arena;
        let start = match self.random.below(4) {
            0..=1 => 0,
            2 => self.below(100),
            _ => self.below(arena + 1),
        };
        let room = arena.saturating_sub(start);
        let len = if self.one_in(2) {
            room
        } else {
            room - self.below(room / 2 + 1)
        };
        Asked::Insert { start, len }
    }

    /// A table with too few words for one call. The table of the regions still has room for those that were given.
    fn shorter<S: Subject>(&mut self, trial: &Trial<S>) -> Shorter {
        let lent = trial.lent();
        let given = trial.model().regions().len();
        match self.random.below(3) {
            0 => Shorter::Lists(self.below(model::lists_length())),
            1 => Shorter::Live(self.below(model::live_length(lent.arena))),
            _ if self.one_in(2) => Shorter::Regions(0),
            _ => Shorter::Regions((1 + 2 * given + self.below(2)).min(lent.regions)),
        }
    }
}

/// How long the slices of a heap are. Some tables are longer than they must be, and a few too short.
fn draw_lent(random: &mut Random) -> Lent {
    let arena = match random.below(8) {
        0 => random.below(300),
        1..=3 => 300 + random.below(8_000),
        4..=6 => 8_000 + random.below(130_000),
        _ => 140_000 + random.below(700_000),
    } as usize;
    let mut length = |least: usize| match random.below(20) {
        0 => random.below(least as u64) as usize,
        1..=4 => least + random.below(20) as usize,
        _ => least,
    };
    let lists = length(model::lists_length());
    let live = length(model::live_length(arena));
    let regions = match random.below(20) {
        0 => 0,
        1 => 1 + random.below(2),
        _ => 1 + 2 * (1 + random.below(6)) + random.below(2),
    } as usize;
    Lent {
        arena,
        lists,
        live,
        regions,
    }
}

impl Style {
    fn draw(random: &mut Random) -> Style {
        let weights = match random.below(7) {
            0 => [80, 20, 10, 3],
            1 => [20, 60, 10, 3],
            2 => [30, 20, 60, 3],
            3 => [50, 40, 20, 1],
            4 => [50, 45, 2, 1],
            5 => [10, 5, 5, 40],
            _ => [40, 40, 40, 10],
        };
        Style {
            weights,
            most: [5, 30, 100, 400][random.below(4) as usize],
            bad: [0, 100, 30, 10, 4][random.below(5) as usize],
            usual: [20, 100, 300, 2_000, 8_193][random.below(5) as usize],
            alignments: [1, 5, 5, 8, 13][random.below(5) as usize],
        }
    }
}
