//! Compares the compiled heap with the model after every one of many wild calls.

use runs::compare::{compare, report, Archive, Tally};
use std::process::exit;
use std::time::{Duration, Instant};

const USAGE: &str = "usage: compare SEED CALLS
  SEED   a number below 2^64: the same calls are made for the same seed and number of calls
  CALLS  how many calls are made, on one heap after the other
After every call the answer, all blocks, all free lists in order and all live payloads are compared with the model.
On a difference the calls that show it are made as few as possible and written to standard output, as tools/replay reads
them, with the model's answers. Exit status: 0 no difference; 1 one was found; 2 bad usage.";

fn main() {
    let words: Vec<String> = std::env::args().skip(1).collect();
    let numbers: Vec<u64> = words.iter().filter_map(|word| word.parse().ok()).collect();
    let ([seed, calls], true) = (&numbers[..], numbers.len() == words.len()) else {
        eprintln!("compare: two numbers below 2^64 are expected\n{USAGE}");
        exit(2)
    };
    let mut clock = Clock::new(*calls);
    match compare(*seed, *calls, || Archive, |tally| clock.tell(tally)) {
        Ok(tally) => {
            let seconds = clock.began.elapsed().as_secs_f64();
            println!("{tally}");
            println!("seed {seed}: {} calls in {seconds:.1} s, no difference", tally.calls());
        }
        Err(difference) => {
            let report = report(*seed, &difference, || Archive);
            eprint!("{}", report.words);
            report.calls.iter().for_each(|call| println!("{call}"));
            exit(1)
        }
    }
}

/// Says how far the run is, once in a while.
struct Clock {
    calls: u64,
    began: Instant,
    told: Instant,
}

impl Clock {
    fn new(calls: u64) -> Clock {
        let began = Instant::now();
        Clock {
            calls,
            began,
            told: began,
        }
    }

    fn tell(&mut self, tally: &Tally) {
        if self.told.elapsed() < Duration::from_secs(2) {
            return;
        }
        self.told = Instant::now();
        let made = tally.calls();
        let rate = made as f64 / self.began.elapsed().as_secs_f64();
        eprintln!(
            "compare: {made} of {} calls, {} heaps, {rate:.0} calls per second",
            self.calls, tally.heaps
        );
    }
}
