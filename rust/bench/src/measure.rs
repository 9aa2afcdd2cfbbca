//! Times of the candidates, taken in turn: A B C A B C, so that whatever else the machine does hits all alike.

use crate::candidate::Replay;
use crate::record::{Kind, Record};
use crate::ticks::{thread_time, Rate};

/// A call that took longer than this was interrupted by something else, and is left out of its kind's mean.
const INTERRUPTED: f64 = 20_000.0;

/// How many single calls took how long, in ticks: eight buckets for each power of two.
#[derive(Clone)]
pub struct Spread {
    buckets: Vec<u64>,
    calls: u64,
    ticks: u64,
    limit: u64,
}

const BUCKETS: usize = 320;

impl Spread {
    pub fn new(limit: u64) -> Spread {
        Spread {
            buckets: vec![0; BUCKETS],
            calls: 0,
            ticks: 0,
            limit,
        }
    }

    #[inline(always)]
    pub fn add(&mut self, ticks: u64) {
        self.buckets[bucket(ticks)] += 1;
        if ticks <= self.limit {
            self.calls += 1;
            self.ticks += ticks;
        }
    }

    pub fn join(&mut self, other: &Spread) {
        for (own, more) in self.buckets.iter_mut().zip(&other.buckets) {
            *own += more;
        }
        self.calls += other.calls;
        self.ticks += other.ticks;
    }

    /// The mean of the calls that were not interrupted, in ticks.
    pub fn mean(&self) -> f64 {
        self.ticks as f64 / self.calls.max(1) as f64
    }

    /// All calls, and how many of them were interrupted.
    pub fn calls(&self) -> (u64, u64) {
        let all = self.buckets.iter().sum::<u64>();
        (all, all - self.calls)
    }

    /// The ticks that this share of the calls took at most, to the bucket's end.
    pub fn at_most(&self, share: f64) -> f64 {
        let (all, _) = self.calls();
        let mut left = (share * all as f64).ceil() as u64;
        for (number, &calls) in self.buckets.iter().enumerate() {
            if calls >= left {
                return start_of(number + 1) as f64;
            }
            left -= calls;
        }
        start_of(BUCKETS) as f64
    }

    /// The share of the calls in each bucket, with its first tick and the first behind it.
    pub fn shares(&self) -> impl Iterator<Item = (u64, u64, f64)> + '_ {
        let all = self.calls().0.max(1) as f64;
        let buckets = self.buckets.iter().enumerate();
        buckets.map(move |(number, &calls)| (start_of(number), start_of(number + 1), calls as f64 / all))
    }
}

#[inline(always)]
fn bucket(ticks: u64) -> usize {
    if ticks < 8 {
        return ticks as usize;
    }
    let log = 63 - ticks.leading_zeros() as usize;
    let number = (log - 2) * 8 + ((ticks >> (log - 3)) & 7) as usize;
    number.min(BUCKETS - 1)
}

/// The first number in a bucket.
fn start_of(bucket: usize) -> u64 {
    if bucket < 8 {
        return bucket as u64;
    }
    (8 + bucket as u64 % 8) << (bucket / 8 - 1)
}

/// What was measured of a candidate. Times are nanoseconds.
pub struct Measured {
    pub name: &'static str,
    /// For each run, the time of a call, the replay's own included.
    pub all: Vec<f64>,
    /// For each kind and run, the time of a call less that of no heap at all, which is the clock's and the loop's.
    pub kinds: [Vec<f64>; 3],
    /// Single calls of all runs, by kind, clock included.
    pub spreads: [Spread; 3],
}

impl Measured {
    /// Single calls of all kinds.
    pub fn spread(&self) -> Spread {
        let mut all = self.spreads[0].clone();
        all.join(&self.spreads[1]);
        all.join(&self.spreads[2]);
        all
    }
}

pub struct Times {
    pub measured: Vec<Measured>,
    /// Nanoseconds of a tick.
    pub tick: f64,
}

/// Replays the record on each candidate, so many times in turn; the first is no heap at all. Before that, each is shown to work.
pub fn measure(record: &Record, candidates: &mut [Box<dyn Replay>], runs: usize) -> Result<Times, String> {
    let rate = Rate::start();
    for candidate in candidates.iter_mut() {
        eprintln!("bench: {}: is it right?", candidate.name());
        candidate.empty();
        candidate.check(record)?;
        candidate.empty();
    }
    let tick = rate.nanoseconds();
    let limit = (INTERRUPTED / tick) as u64;
    let fresh = || [(); 3].map(|()| Spread::new(limit));
    let mut measured: Vec<_> = candidates
        .iter()
        .map(|candidate| Measured {
            name: candidate.name(),
            all: Vec::new(),
            kinds: Default::default(),
            spreads: fresh(),
        })
        .collect();

    for run in 1..=runs {
        eprintln!("bench: run {run} of {runs}");
        for (candidate, measured) in candidates.iter_mut().zip(&mut measured) {
            let start = thread_time();
            candidate.replay(record);
            let time = thread_time() - start;
            candidate.ended_well(record)?;
            candidate.empty();
            measured.all.push(time / record.calls.len() as f64);
        }
        let mut loops = [0.0; 3];
        for (number, (candidate, measured)) in candidates.iter_mut().zip(&mut measured).enumerate() {
            let mut spreads = fresh();
            candidate.replay_each(record, &mut spreads);
            candidate.ended_well(record)?;
            candidate.empty();
            for kind in Kind::ALL {
                let kind = kind as usize;
                let time = spreads[kind].mean() * tick;
                if number == 0 {
                    loops[kind] = time;
                }
                measured.kinds[kind].push(time - loops[kind]);
                measured.spreads[kind].join(&spreads[kind]);
            }
        }
    }
    Ok(Times { measured, tick })
}

/// The middle one; of two, the lower.
pub fn median(numbers: &[f64]) -> f64 {
    let mut sorted = numbers.to_vec();
    sorted.sort_by(f64::total_cmp);
    sorted[(sorted.len() - 1) / 2]
}

/// The median of one's share of the other in each run.
pub fn ratio(one: &[f64], other: &[f64]) -> f64 {
    let shares: Vec<_> = one.iter().zip(other).map(|(one, other)| one / other).collect();
    median(&shares)
}

#[cfg(test)]
mod tests {
    use super::*;

    #[test]
    fn buckets_have_no_gaps() {
        for number in 0..BUCKETS - 1 {
            let (start, end) = (start_of(number), start_of(number + 1));
            assert!(start < end);
            assert_eq!(bucket(start), number);
            assert_eq!(bucket(end - 1), number);
        }
    }

    #[test]
    fn means_and_shares() {
        let mut spread = Spread::new(100);
        for ticks in [1, 2, 3, 4, 1000] {
            spread.add(ticks);
        }
        assert_eq!(spread.mean(), 2.5);
        assert_eq!(spread.calls(), (5, 1));
        assert_eq!(spread.at_most(0.4), 3.0);
        assert_eq!(spread.at_most(1.0), 1024.0);
        assert_eq!(median(&[3.0, 1.0, 2.0]), 2.0);
        assert_eq!(ratio(&[2.0, 9.0, 4.0], &[1.0, 3.0, 2.0]), 2.0);
    }
}
