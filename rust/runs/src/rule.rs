//! The rule of `data/answers/RULE.md`: a fixed sequence of heap calls for each profile and seed.

use crate::calls::Calls;
use crate::random::Random;
use std::fmt;

/// The answer that stands for a refusal.
pub const NONE: u64 = u64::MAX;

/// Live payloads at most.
const CAPACITY: usize = 1024;

/// The numbers of the refusals that a run of the rule may get.
const NO_LIST: u64 = 1;
const MISPLACED: u64 = 4;

// ---- profiles

pub struct Profile {
    pub name: &'static str,
    /// Bytes of arena.
    pub arena: usize,
    /// Of ten or nine calls, how many take, return and resize.
    weights: [u64; 3],
    sizes: Sizes,
    alignments: Alignments,
    regions: &'static [Given],
}

/// How a size is drawn.
#[derive(Clone, Copy)]
enum Sizes {
    /// All up to this one.
    UpTo(u64),
    /// The bounds of the lists, one below and one above.
    Bounds,
}

/// How an alignment is drawn.
#[derive(Clone, Copy)]
enum Alignments {
    /// 8, and 64 once in twenty times.
    Mostly8,
    /// Powers of two up to 4,096.
    All,
}

/// A region that is given at a call's number.
struct Given {
    call: u64,
    mode: Mode,
    start: usize,
    len: usize,
}

#[derive(Clone, Copy, PartialEq, Eq)]
enum Mode {
    Give,
    Append,
}

const fn give(call: u64, start: usize, len: usize) -> Given {
    let mode = Mode::Give;
    Given { call, mode, start, len }
}

const fn append(call: u64, start: usize, len: usize) -> Given {
    let mode = Mode::Append;
    Given { call, mode, start, len }
}

/// Regions at odd places, three of them too small or behind another.
const ODD_PLACES: &[Given] = &[
    give(0, 5, 100),
    give(1, 131, 65_521),
    give(2, 70_001, 40),
    give(3, 70_001, 200_003),
    append(1_000, 269_984, 131_168),
    give(2_000, 401_153, 63),
    give(3_000, 450_017, 131_167),
    give(5_000, 600_007, 300_009),
    give(10_000, 1_000_000, 48_576),
];

const TAKES_AND_RETURNS: [u64; 3] = [5, 4, 0];
const WITH_RESIZES: [u64; 3] = [5, 4, 1];

const fn profile(
    name: &'static str,
    arena: usize,
    weights: [u64; 3],
    sizes: Sizes,
    alignments: Alignments,
    regions: &'static [Given],
) -> Profile {
    Profile {
        name,
        arena,
        weights,
        sizes,
        alignments,
        regions,
    }
}

pub const PROFILES: [Profile; 9] = {
    use Alignments::*;
    use Sizes::*;
    const SMALL: &[Given] = &[give(0, 0, 65_536)];
    const MIDDLE: &[Given] = &[give(0, 0, 262_144)];
    const LARGE: &[Given] = &[give(0, 0, 1_048_576)];
    const HUGE: &[Given] = &[give(0, 0, 8_388_608)];
    [
        profile("P1", 65_536, TAKES_AND_RETURNS, UpTo(8_192), Mostly8, SMALL),
        profile("N2", 1_048_576, TAKES_AND_RETURNS, UpTo(8_192), Mostly8, ODD_PLACES),
        profile("N3", 262_144, TAKES_AND_RETURNS, UpTo(256), All, MIDDLE),
        profile("N4", 1_048_576, TAKES_AND_RETURNS, Bounds, Mostly8, LARGE),
        profile("P2", 1_048_576, WITH_RESIZES, UpTo(8_192), Mostly8, ODD_PLACES),
        profile("P3", 262_144, WITH_RESIZES, UpTo(256), All, MIDDLE),
        profile("P4", 1_048_576, WITH_RESIZES, Bounds, Mostly8, LARGE),
        profile("P5", 1_048_576, WITH_RESIZES, UpTo(8_192), Mostly8, LARGE),
        profile("P6", 8_388_608, WITH_RESIZES, UpTo(8_192), Mostly8, HUGE),
    ]
};

impl Profile {
    pub fn named(name: &str) -> Option<&'static Profile> {
        static ALL: [Profile; 9] = PROFILES;
        ALL.iter().find(|profile| profile.name == name)
    }

    /// Regions that are asked for.
    pub fn regions(&self) -> usize {
        self.regions.len()
    }

    fn draw_size(&self, random: &mut Random) -> usize {
        let size = match self.sizes {
            Sizes::UpTo(largest) => random.below(largest + 1),
            Sizes::Bounds => {
                let class = random.below(13);
                let step = random.below(16);
                let beside = random.below(3);
                let header = random.below(2);
                (32 << class) + (2 << class) * step + beside - 1 - 16 * header
            }
        };
        size as usize
    }

    fn draw_alignment(&self, random: &mut Random) -> usize {
        match self.alignments {
            Alignments::Mostly8 if random.below(20) == 0 => 64,
            Alignments::Mostly8 => 8,
            Alignments::All => 1 << random.below(13),
        }
    }
}

// ---- runs

/// A call and what it answered, as `data/answers/README.md` has it in a line of six numbers.
#[derive(Clone, Copy, Debug, PartialEq, Eq)]
pub struct Made {
    pub kind: u64,
    pub arguments: [u64; 3],
    pub answer: u64,
    pub usable: u64,
}

impl fmt::Display for Made {
    fn fmt(&self, out: &mut fmt::Formatter) -> fmt::Result {
        let [first, second, third] = self.arguments;
        write!(
            out,
            "{} {first} {second} {third} {} {}",
            self.kind, self.answer, self.usable
        )
    }
}

/// A run of the rule on a heap.
pub struct Run<'a, C> {
    heap: C,
    profile: &'a Profile,
    random: Random,
    made: u64,
    /// Offset and alignment of each live payload.
    live: Vec<(usize, usize)>,
}

impl<'a, C: Calls> Run<'a, C> {
    /// A run from an empty heap on.
    pub fn new(heap: C, profile: &'a Profile, seed: u64) -> Run<'a, C> {
        Run {
            heap,
            profile,
            random: Random::new(seed),
            made: 0,
            live: Vec::with_capacity(CAPACITY),
        }
    }

    /// Calls made.
    pub fn made(&self) -> u64 {
        self.made
    }

    /// Live payloads.
    pub fn live(&self) -> usize {
        self.live.len()
    }

    pub fn heap(&self) -> &C {
        &self.heap
    }

    /// The heap, at the run's end.
    pub fn into_heap(self) -> C {
        self.heap
    }

    /// The next call. An error says which refusal the rule knows nothing of, or what of the heap can't be read.
    pub fn step(&mut self) -> Result<Made, String> {
        let number = self.made;
        self.made += 1;
        let made = match self.profile.regions.iter().find(|region| region.call == number) {
            Some(region) => self.give(region),
            None => self.draw(),
        };
        made.map_err(|why| format!("call number {number}: {why}"))
    }

    fn draw(&mut self) -> Result<Made, String> {
        let [takes, returns, resizes] = self.profile.weights;
        let drawn = self.random.below(takes + returns + resizes);
        let is_take = drawn < takes;
        let is_return = !is_take && drawn < takes + returns;
        if self.live.is_empty() || is_take && self.live.len() < CAPACITY {
            self.take()
        } else if is_take || is_return {
            self.give_back()
        } else {
            self.resize()
        }
    }

    fn give(&mut self, region: &Given) -> Result<Made, String> {
        let answer = match region.mode {
            Mode::Give => self.heap.insert_free_block(region.start, region.len),
            Mode::Append => self.heap.append_free_block(region.start, region.len),
        };
        let arguments = [region.start, region.len, (region.mode == Mode::Append) as usize];
        let answer = due(answer, MISPLACED, "region", &arguments)?;
        Ok(made(0, arguments, answer, 0))
    }

    fn take(&mut self) -> Result<Made, String> {
        let size = self.profile.draw_size(&mut self.random);
        let align = self.profile.draw_alignment(&mut self.random);
        let answer = self.heap.allocate(size, align);
        let answer = due(answer, NO_LIST, "take", &[size, align])?;
        let mut usable = 0;
        if let Some(payload) = answer {
            self.live.push((payload, align));
            usable = self.heap.usable(payload)?;
        }
        Ok(made(1, [size, align, 0], answer, usable))
    }

    fn give_back(&mut self) -> Result<Made, String> {
        let drawn = self.random.below(self.live.len() as u64) as usize;
        let (payload, align) = self.live.swap_remove(drawn);
        let answer = self.heap.deallocate(payload, align);
        answer.map_err(|why| format!("return {payload} {align}: refused with {why}"))?;
        Ok(made(2, [payload, align, 0], Some(0), 0))
    }

    fn resize(&mut self) -> Result<Made, String> {
        let drawn = self.random.below(self.live.len() as u64) as usize;
        let size = self.profile.draw_size(&mut self.random);
        let (payload, align) = self.live[drawn];
        let answer = self.heap.reallocate(payload, size, align);
        let answer = due(answer, NO_LIST, "resize", &[payload, size, align])?;
        let mut usable = 0;
        if let Some(payload) = answer {
            self.live[drawn].0 = payload;
            usable = self.heap.usable(payload)?;
        }
        Ok(made(3, [payload, size, align], answer, usable))
    }
}

/// The answer, or none where it was refused with the number that is due.
fn due(answer: Result<usize, u64>, number: u64, call: &str, arguments: &[usize]) -> Result<Option<usize>, String> {
    match answer {
        Ok(answer) => Ok(Some(answer)),
        Err(why) if why == number => Ok(None),
        Err(why) => Err(format!(
            "{call} {arguments:?}: refused with {why}, and not with {number}"
        )),
    }
}

fn made(kind: u64, arguments: [usize; 3], answer: Option<usize>, usable: usize) -> Made {
    Made {
        kind,
        arguments: arguments.map(|n| n as u64),
        answer: answer.map_or(NONE, |n| n as u64),
        usable: usable as u64,
    }
}
