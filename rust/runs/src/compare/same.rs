//! What is compared, and in which words a difference is told.

use super::memory::Memory;
use crate::slices::{Slices, View};
use model::size::LISTS;
use model::Refusal;

/// The words of the lists' table that the heap has for itself, and those for each region.
const LISTS_WORDS: usize = 3 + LISTS;
const REGION_WORDS: usize = 2;

pub fn same_answer(got: u64, expected: Result<usize, Refusal>) -> Result<(), String> {
    let number = expected.map_or_else(Refusal::number, |answer| answer as u64);
    if got == number {
        return Ok(());
    }
    let expected = match expected {
        Ok(answer) => format!("{answer}"),
        Err(why) => format!("refusal {why}"),
    };
    let got = match got {
        1..=6 => format!("refuses with {got}"),
        _ => format!("answers {got}"),
    };
    Err(format!("the heap {got}, and the model answers {expected}"))
}

pub fn unchanged(memory: &Memory, before: &Memory) -> Result<(), String> {
    if let Some(name) = memory.border_written(before) {
        return Err(format!("something was written beside {name}"));
    }
    match memory.changed(before) {
        Some(what) => Err(format!("it is refused, and yet {what}")),
        None => Ok(()),
    }
}

pub fn same_bytes(is: &[u8], was: &[u8], start: usize, name: &str) -> Result<(), String> {
    if is == was {
        return Ok(());
    }
    let at = (0..is.len()).find(|&at| is[at] != was[at]).expect("they differ");
    Err(format!(
        "byte {at} of {name} at {start} was {}, and is {}",
        was[at], is[at]
    ))
}

/// Words behind what the heap needs of the lists and regions.
pub fn behind_tables(is: &Slices, was: &Slices, regions: usize) -> Result<(), String> {
    if is.lists[LISTS_WORDS..] != was.lists[LISTS_WORDS..] {
        return Err("a word behind the lists was written".into());
    }
    let used = 1 + REGION_WORDS * regions;
    if is.regions[used..] != was.regions[used..] {
        return Err("a word behind the regions was written".into());
    }
    Ok(())
}

pub fn same_view(heap: &View, model: &View) -> Result<(), String> {
    differs("regions", &heap.regions, &model.regions)?;
    differs("blocks", &heap.blocks, &model.blocks)?;
    differs("lists", &heap.lists, &model.lists)
}

/// The first entry in which two vectors differ.
fn differs<T: PartialEq + std::fmt::Debug>(name: &str, heap: &[T], model: &[T]) -> Result<(), String> {
    if heap == model {
        return Ok(());
    }
    let shown = |all: &[T], at| all.get(at).map_or("no more".into(), |entry| format!("{entry:?}"));
    let at = (0..).find(|&at| heap.get(at) != model.get(at)).expect("they differ");
    Err(format!(
        "{name}: the heap has {}, and the model has {}",
        shown(heap, at),
        shown(model, at)
    ))
}
