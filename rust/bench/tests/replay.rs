//! The replay: what is recorded is the rule's, candidates that work are found to, and one that doesn't is found out.

use bench::arenas::{ByOffset, ByPointer, Trusting};
use bench::candidate::{Candidate, Heap, Nothing, Replay};
use bench::malloc::families;
use bench::measure::measure;
use bench::picture::picture;
use bench::record::{Kind, Record};
use bench::table::table;
use runs::rule::Profile;

fn record(calls: u64) -> Record {
    Record::of(Profile::named("P5").unwrap(), 1, calls).unwrap()
}

#[test]
fn the_record_is_the_rules() {
    let record = record(100_000);
    let file = concat!(env!("CARGO_MANIFEST_DIR"), "/../../data/answers/digests.txt");
    let digests = std::fs::read_to_string(file).unwrap();
    let start = format!("P5 1 100000 {:016x} ", record.digest);
    assert!(digests.lines().any(|line| line.starts_with(&start)), "{start}");
    // One call gave the region.
    assert_eq!(record.calls.len() as u64 + record.refused + 1, 100_000);
    let kinds: usize = Kind::ALL.iter().map(|&kind| record.count(kind)).sum();
    assert_eq!(kinds, record.calls.len());
}

#[test]
fn regions_that_come_later_are_not_recorded() {
    assert!(Record::of(Profile::named("P2").unwrap(), 1, 1000).is_err());
}

#[test]
fn all_candidates_work() {
    let record = record(20_000);
    let mut all: Vec<Box<dyn Replay>> = vec![
        Box::new(Candidate::new(Nothing)),
        Box::new(Candidate::new(ByOffset::new(record.arena))),
        Box::new(Candidate::new(ByPointer::new(record.arena))),
        Box::new(Candidate::new(Trusting::new(record.arena))),
    ];
    for family in families() {
        all.push(Box::new(Candidate::new(family)));
    }
    let times = measure(&record, &mut all, 2).unwrap();
    assert!(table(&times).contains("trusting twin"));
    assert!(picture("a run", &times).ends_with("</svg>\n"));
}

/// A heap that answers one payload wrongly, or spoils the first byte of a payload that it resizes.
struct Liar {
    heap: Trusting,
    takes: usize,
    spoils: bool,
}

impl Heap for Liar {
    fn name(&self) -> &'static str {
        "liar"
    }

    fn empty(&mut self, live: &[(usize, usize)]) {
        self.heap.empty(live);
        self.takes = 0;
    }

    fn take(&mut self, size: usize, align: usize) -> usize {
        self.takes += 1;
        let payload = self.heap.take(size, align);
        match self.takes {
            100 if !self.spoils => payload + 64,
            _ => payload,
        }
    }

    fn give_back(&mut self, payload: usize, align: usize) {
        self.heap.give_back(payload, align);
    }

    fn resize(&mut self, payload: usize, size: usize, align: usize) -> usize {
        let moved = self.heap.resize(payload, size, align);
        if self.spoils && size > 0 {
            if let Some(first) = self.heap.first_byte(moved) {
                // SAFETY: the payload is live, and has at least one byte.
                unsafe { first.write(!first.read()) };
            }
        }
        moved
    }

    fn first_byte(&self, payload: usize) -> Option<*mut u8> {
        self.heap.first_byte(payload)
    }

    fn offset(&self, payload: usize) -> Option<usize> {
        self.heap.offset(payload)
    }
}

#[test]
fn a_liar_is_found_out() {
    let record = record(2_000);
    for (spoils, complaint) in [(false, "answered"), (true, "first byte")] {
        let heap = Trusting::new(record.arena);
        let takes = 0;
        let mut liar = Candidate::new(Liar { heap, takes, spoils });
        liar.empty();
        let why = liar.check(&record).unwrap_err();
        assert!(why.contains(complaint), "{why}");
    }
}
