//! The trusting twin meets the recorded digests of rlsf's answers and blocks: the same algorithm, all but the checks.

use bench::lent;
use bench::twin::{Twin, LISTS_LENGTH, REFUSED};
use runs::calls::{Block, Calls};
use runs::digest::{follow, line};
use runs::rule::{Profile, Run, PROFILES};
use runs::slices::Slices;

const NO_LIST: u64 = 1;
const MISPLACED: u64 = 4;

struct Lent {
    twin: Twin,
    arena: *mut u8,
    len: usize,
    /// Where what is used of each region starts and ends.
    regions: Vec<(usize, usize)>,
}

impl Lent {
    fn new(len: usize) -> Lent {
        let arena = lent::arena(len);
        let lists = lent::table(LISTS_LENGTH).as_mut_ptr();
        // SAFETY: both are this heap's alone.
        let twin = unsafe { Twin::new(arena, lists.cast()) };
        let regions = Vec::new();
        Lent {
            twin,
            arena,
            len,
            regions,
        }
    }

    fn bytes(&self) -> &[u8] {
        // SAFETY: the arena is written by exclusive borrows of this heap alone.
        unsafe { std::slice::from_raw_parts(self.arena, self.len) }
    }

    fn word(&self, offset: usize) -> usize {
        usize::from_le_bytes(self.bytes()[offset..offset + 8].try_into().unwrap())
    }
}

fn granted(answer: usize, refusal: u64) -> Result<usize, u64> {
    if answer == REFUSED {
        return Err(refusal);
    }
    Ok(answer)
}

// SAFETY of all: the rule gives regions that lie in the arena and don't overlap, and payloads that are live.
impl Calls for Lent {
    fn insert_free_block(&mut self, start: usize, len: usize) -> Result<usize, u64> {
        let used = granted(unsafe { self.twin.give(start, len) }, MISPLACED)?;
        self.regions.push((start.next_multiple_of(32), start + used));
        Ok(used)
    }

    fn append_free_block(&mut self, start: usize, len: usize) -> Result<usize, u64> {
        self.insert_free_block(start, len)
    }

    fn allocate(&mut self, size: usize, align: usize) -> Result<usize, u64> {
        granted(unsafe { self.twin.take(size, align) }, NO_LIST)
    }

    fn deallocate(&mut self, payload: usize, align: usize) -> Result<(), u64> {
        unsafe { self.twin.give_back(payload, align) };
        Ok(())
    }

    fn reallocate(&mut self, payload: usize, size: usize, align: usize) -> Result<usize, u64> {
        granted(unsafe { self.twin.resize(payload, size, align) }, NO_LIST)
    }

    fn usable(&self, payload: usize) -> Result<usize, String> {
        let slices = Slices {
            arena: self.bytes(),
            lists: &[],
            live: &[],
            regions: &[],
        };
        slices.usable(payload)
    }

    fn blocks(&self) -> Result<Vec<Block>, String> {
        let mut blocks = Vec::new();
        for &(start, end) in &self.regions {
            let mut offset = start;
            while offset < end {
                let word = self.word(offset);
                let size = word & !31;
                if word & 2 == 0 {
                    let used = word & 1 == 1;
                    blocks.push(Block { offset, size, used });
                }
                offset += size;
            }
        }
        Ok(blocks)
    }
}

/// The recorded lines of a profile and seed up to this many calls, without those two.
fn recorded(name: &str, seed: u64, most: u64) -> Vec<String> {
    let file = concat!(env!("CARGO_MANIFEST_DIR"), "/../../data/answers/digests.txt");
    let digests = std::fs::read_to_string(file).unwrap();
    let start = format!("{name} {seed} ");
    let lines = digests.lines().filter_map(|line| line.strip_prefix(&start));
    let within = lines.filter(|line| line.split(' ').next().unwrap().parse::<u64>().unwrap() <= most);
    within.map(String::from).collect()
}

/// Whether the twin meets all recorded digests of a profile up to so many calls.
fn meets(profile: &Profile, seed: u64, calls: u64) {
    let mut run = Run::new(Lent::new(profile.arena), profile, seed);
    let mut lines = Vec::new();
    follow(&mut run, calls, |run, digest| {
        lines.push(line(run, digest, true)?);
        Ok(())
    })
    .unwrap();
    let recorded = recorded(profile.name, seed, calls);
    if calls == 1_000_000 && profile.name != "P6" {
        assert_eq!(recorded.len(), 10, "{} seed {seed}", profile.name);
    }
    for expected in &recorded {
        assert!(lines.contains(expected), "{} seed {seed}: {expected}", profile.name);
    }
}

#[test]
fn a_million_calls_seed_1() {
    for profile in &PROFILES {
        meets(profile, 1, 1_000_000);
    }
}

#[test]
fn a_million_calls_seed_2() {
    for profile in &PROFILES {
        meets(profile, 2, 1_000_000);
    }
}

#[test]
fn ten_million_calls_of_p5() {
    meets(Profile::named("P5").unwrap(), 1, 10_000_000);
}
