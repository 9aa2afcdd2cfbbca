//! The shortest calls that still show a difference.

use super::step::{Asked, Script, Shorter, Step};
use super::subject::Subject;
use super::trial::{Outcome, Trial};
use crate::rule::Made;

/// Scripts with more steps than this are only shortened: to try smaller numbers would take too long.
const FEW: usize = 50;

/// A difference and the calls that lead to it.
pub struct Shown {
    pub script: Script,
    /// The calls that were answered alike, and then the one that shows the difference, all with the model's answers.
    pub lines: Vec<Made>,
    pub what: String,
}

/// Leaves out calls and makes numbers smaller as long as a difference still shows. In the end no call can be left out.
pub fn shortest<S: Subject>(script: &Script, subject: impl Fn() -> S) -> Option<Shown> {
    let mut best = replay(script, subject())?;
    loop {
        leave_out(&mut best, &subject);
        if best.script.steps.len() > FEW || !make_smaller(&mut best, &subject) {
            return Some(best);
        }
    }
}

/// Takes a script where a difference shows with it.
fn try_script<S: Subject>(best: &mut Shown, script: &Script, subject: &impl Fn() -> S) -> bool {
    match replay(script, subject()) {
        Some(shown) => {
            *best = shown;
            true
        }
        None => false,
    }
}

/// Leaves out ever shorter runs of calls, down to single ones.
fn leave_out<S: Subject>(best: &mut Shown, subject: &impl Fn() -> S) {
    let mut run = best.script.steps.len().div_ceil(2).max(1);
    loop {
        let mut shorter = false;
        let mut at = 0;
        while at < best.script.steps.len() {
            let mut less = best.script.clone();
            let end = (at + run).min(less.steps.len());
            less.steps.drain(at..end);
            if try_script(best, &less, subject) {
                shorter = true;
            } else {
                at += run;
            }
        }
        if run == 1 && !shorter {
            return;
        }
        if !shorter {
            run = run.div_ceil(2);
        }
    }
}

/// Tries a smaller arena and smaller numbers in each call, and tells whether one was taken.
fn make_smaller<S: Subject>(best: &mut Shown, subject: &impl Fn() -> S) -> bool {
    let mut smaller = false;
    while below(best.script.lent.arena).any(|arena| {
        let mut other = best.script.clone();
        other.lent.arena = arena;
        other.lent.live = model::live_length(arena);
        try_script(best, &other, subject)
    }) {
        smaller = true;
    }
    let mut at = 0;
    while at < best.script.steps.len() {
        let tried = simpler(best.script.steps[at]).into_iter().any(|step| {
            let mut other = best.script.clone();
            other.steps[at] = step;
            try_script(best, &other, subject)
        });
        if tried {
            smaller = true;
        } else {
            at += 1;
        }
    }
    smaller
}

/// The same call with one number smaller, the smallest first.
fn simpler(step: Step) -> Vec<Step> {
    let with = |asked| Step { asked, ..step };
    let mut all = Vec::new();
    if step.shorter != Shorter::None {
        let shorter = Shorter::None;
        all.push(Step { shorter, ..step });
    }
    match step.asked {
        Asked::Insert { start, len } => {
            all.extend(below(start).map(|start| with(Asked::Insert { start, len })));
            all.extend(below(len).map(|len| with(Asked::Insert { start, len })));
        }
        Asked::Append { start, len } => {
            all.extend(below(len).map(|len| with(Asked::Append { start, len })));
        }
        Asked::Allocate { name, size, align } => {
            all.extend(lower(align).map(|align| with(Asked::Allocate { name, size, align })));
            all.extend(below(size).map(|size| with(Asked::Allocate { name, size, align })));
        }
        Asked::Reallocate { whose, size, align } => {
            all.extend(below(size).map(|size| with(Asked::Reallocate { whose, size, align })));
        }
        Asked::Deallocate { .. } => {}
    }
    all
}

/// Numbers below one, each nearer to it.
fn below(n: usize) -> impl Iterator<Item = usize> {
    (0..usize::BITS)
        .map(move |half| n >> half)
        .take_while(|&less| less > 0)
        .map(move |less| n - less)
}

/// A usual alignment below one.
fn lower(align: usize) -> impl Iterator<Item = usize> {
    [8, 32].into_iter().filter(move |&usual| usual < align)
}

/// Makes the calls of a script up to the first difference. None where there is none.
fn replay<S: Subject>(script: &Script, subject: S) -> Option<Shown> {
    let mut done = Script {
        steps: Vec::new(),
        ..script.clone()
    };
    let mut lines = Vec::new();
    let mut trial = match Trial::begin(script, subject) {
        Ok(trial) => trial?,
        Err(what) => {
            return Some(Shown {
                script: done,
                lines,
                what,
            })
        }
    };
    for step in &script.steps {
        match trial.make(step) {
            Outcome::Skipped => continue,
            Outcome::Same(answered) => lines.push(answered.line()),
            Outcome::Differs(answered, what) => {
                done.steps.push(*step);
                lines.push(answered.line());
                return Some(Shown {
                    script: done,
                    lines,
                    what,
                });
            }
        }
        done.steps.push(*step);
    }
    None
}
