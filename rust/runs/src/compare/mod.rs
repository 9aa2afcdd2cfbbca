//! The compiled heap against the model: wild calls on many heaps, compared after every call.
//!
//! Compared are the answer or the refusal's number, all regions, blocks and free lists in order, the links and marks that
//! hold them together, the contents of every live payload, and what the heap has to leave alone: after a refusal every byte
//! and word, and after a granted call the bytes that were never given and the words behind the tables.

mod memory;
mod report;
mod same;
mod shrink;
mod step;
mod subject;
mod tally;
mod trial;
mod wild;

pub use memory::{Memory, SlicesMut};
pub use report::{report, Report};
pub use shrink::{shortest, Shown};
pub use step::{Asked, Call, Script, Shorter, Step, Whose};
pub use subject::{Archive, Subject};
pub use tally::Tally;
pub use trial::{Answered, Moved, Outcome, Payload, Trial};

use crate::random::Random;

/// A difference, on one heap.
pub struct Difference {
    /// The number of the heap in the run, from 0 on.
    pub heap: u64,
    /// Calls made in the run before it.
    pub made: u64,
    /// What was done, up to the call that shows it.
    pub script: Script,
    pub what: String,
}

/// Makes wild calls on one heap after the other, until there were so many. Progress is told after every heap.
pub fn compare<S: Subject>(
    seed: u64,
    calls: u64,
    subject: impl Fn() -> S,
    mut progress: impl FnMut(&Tally),
) -> Result<Tally, Box<Difference>> {
    let mut tally = Tally::default();
    let mut random = Random::new(seed);
    while tally.calls() < calls {
        let heap = tally.heaps;
        tally.heaps += 1;
        let begun = tally.calls();
        let plan = wild::Plan::draw(&mut random, calls - begun);
        let mut script = plan.script();
        if let Some(what) = one_heap(plan, &mut script, subject(), &mut tally) {
            let made = tally.calls();
            return Err(Box::new(Difference {
                heap,
                made,
                script,
                what,
            }));
        }
        progress(&tally);
    }
    Ok(tally)
}

/// All calls on one heap; the script gets each before it is made. The answer is what differs, if anything does.
fn one_heap<S: Subject>(mut plan: wild::Plan, script: &mut Script, subject: S, tally: &mut Tally) -> Option<String> {
    let mut trial = match Trial::begin(script, subject) {
        Ok(Some(trial)) => trial,
        Ok(None) => {
            tally.not_begun();
            return None;
        }
        Err(what) => return Some(what),
    };
    while let Some(step) = plan.next(&trial) {
        script.steps.push(step);
        match trial.make(&step) {
            Outcome::Skipped => {}
            Outcome::Same(answered) => tally.count(&answered),
            Outcome::Differs(_, what) => return Some(what),
        }
    }
    None
}
