//! A difference in words.

use super::shrink::shortest;
use super::subject::Subject;
use super::Difference;
use std::fmt::Write;

/// What is told of a difference, and the calls that show it, one to a line, as tools/replay reads them.
pub struct Report {
    pub words: String,
    pub calls: Vec<String>,
}

/// Makes the calls that show a difference as few as possible, and says what differs.
pub fn report<S: Subject>(seed: u64, difference: &Difference, subject: impl Fn() -> S) -> Report {
    let Difference {
        heap,
        made,
        script,
        what,
    } = difference;
    let mut words = format!("seed {seed}: DIFFERENCE on heap number {heap}, after {made} calls of the run\n  {what}\n");
    let steps = script.steps.len();
    let Some(shown) = shortest(script, subject) else {
        words += &format!("the {steps} calls on that heap show no difference when they are made once more\n");
        return Report {
            words,
            calls: Vec::new(),
        };
    };
    let lent = shown.script.lent;
    let _ = write!(
        words,
        "of {steps} calls on that heap {} show it, and none of these can be left out\n  {}\n  \
         an arena of {} bytes; words of the lists {}, of the live table {}, of the regions {}\n",
        shown.lines.len(),
        shown.what,
        lent.arena,
        lent.lists,
        lent.live,
        lent.regions
    );
    for step in &shown.script.steps {
        let _ = writeln!(words, "  {step:?}");
    }
    words +=
        "the same as lines for tools/replay, with the model's answers (its arena has 1048576 bytes, and the only\n\
              refusals it knows are 4 of a region, and 1):\n";
    Report {
        words,
        calls: shown.lines.iter().map(ToString::to_string).collect(),
    }
}
