//! Measures the heap, the trusting twin and the malloc family on the calls of the rule. `bench --help` says how.

use bench::arenas::{ByOffset, ByPointer, Trusting};
use bench::candidate::{Candidate, Nothing, Replay};
use bench::command;
use bench::malloc::families;

fn main() {
    command::run(|arena| {
        let mut all: Vec<Box<dyn Replay>> = vec![
            Box::new(Candidate::new(Nothing)),
            Box::new(Candidate::new(ByOffset::new(arena))),
            Box::new(Candidate::new(ByPointer::new(arena))),
            Box::new(Candidate::new(Trusting::new(arena))),
        ];
        for family in families() {
            all.push(Box::new(Candidate::new(family)));
        }
        all
    });
}
