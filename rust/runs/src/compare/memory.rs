//! The slices that are lent, each with a border on both sides that nobody may write to.

use crate::random::Random;
use crate::slices::Slices;
use model::Lent;

/// Entries of a border.
const BORDER: usize = 16;

/// A slice inside a longer one.
#[derive(Clone, PartialEq, Eq)]
struct Bordered<T> {
    all: Vec<T>,
    start: usize,
    len: usize,
}

impl<T: Copy + PartialEq> Bordered<T> {
    fn new(len: usize, start: usize, entry: impl FnMut() -> T) -> Bordered<T> {
        let mut entry = entry;
        let all = (0..start + len + BORDER).map(|_| entry()).collect();
        Bordered { all, start, len }
    }

    fn inner(&self) -> &[T] {
        &self.all[self.start..self.start + self.len]
    }

    fn inner_mut(&mut self) -> &mut [T] {
        &mut self.all[self.start..self.start + self.len]
    }

    fn same_border(&self, other: &Bordered<T>) -> bool {
        let end = self.start + self.len;
        self.all[..self.start] == other.all[..self.start] && self.all[end..] == other.all[end..]
    }

    fn copy_from(&mut self, other: &Bordered<T>) {
        self.all.copy_from_slice(&other.all);
    }
}

#[derive(Clone)]
pub struct Memory {
    arena: Bordered<u8>,
    lists: Bordered<u64>,
    live: Bordered<u64>,
    regions: Bordered<u64>,
}

/// The slices, to be written to.
pub struct SlicesMut<'a> {
    pub arena: &'a mut [u8],
    pub lists: &'a mut [u64],
    pub live: &'a mut [u64],
    pub regions: &'a mut [u64],
}

impl SlicesMut<'_> {
    /// The same slices, lent for a shorter time.
    pub fn again(&mut self) -> SlicesMut<'_> {
        SlicesMut {
            arena: self.arena,
            lists: self.lists,
            live: self.live,
            regions: self.regions,
        }
    }
}

impl Memory {
    /// Slices of these lengths with made-up contents, the arena at any address.
    pub fn new(lent: Lent, seed: u64) -> Memory {
        let mut random = Random::new(seed);
        let start = BORDER + random.below(32) as usize;
        let mut drawn = 0;
        let mut byte = || {
            drawn = if drawn < 256 { random.next() } else { drawn >> 8 };
            drawn as u8
        };
        Memory {
            arena: Bordered::new(lent.arena, start, &mut byte),
            lists: Bordered::new(lent.lists, BORDER, || random.next()),
            live: Bordered::new(lent.live, BORDER, || random.next()),
            regions: Bordered::new(lent.regions, BORDER, || random.next()),
        }
    }

    pub fn slices(&self) -> Slices<'_> {
        Slices {
            arena: self.arena.inner(),
            lists: self.lists.inner(),
            live: self.live.inner(),
            regions: self.regions.inner(),
        }
    }

    /// As many entries of each slice as are lent.
    pub fn lend(&mut self, lent: Lent) -> SlicesMut<'_> {
        SlicesMut {
            arena: &mut self.arena.inner_mut()[..lent.arena],
            lists: &mut self.lists.inner_mut()[..lent.lists],
            live: &mut self.live.inner_mut()[..lent.live],
            regions: &mut self.regions.inner_mut()[..lent.regions],
        }
    }

    pub fn arena_mut(&mut self) -> &mut [u8] {
        self.arena.inner_mut()
    }

    pub fn copy_from(&mut self, other: &Memory) {
        self.arena.copy_from(&other.arena);
        self.lists.copy_from(&other.lists);
        self.live.copy_from(&other.live);
        self.regions.copy_from(&other.regions);
    }

    /// Whether something was written beside the slices; if so, beside which.
    pub fn border_written(&self, before: &Memory) -> Option<&'static str> {
        let same = [
            (self.arena.same_border(&before.arena), "the arena"),
            (self.lists.same_border(&before.lists), "the table of the lists"),
            (self.live.same_border(&before.live), "the live table"),
            (self.regions.same_border(&before.regions), "the table of the regions"),
        ];
        same.iter().find(|(same, _)| !same).map(|&(_, name)| name)
    }

    /// The first entry of a slice that is not as it was.
    pub fn changed(&self, before: &Memory) -> Option<String> {
        let (new, old) = (self.slices(), before.slices());
        first(new.arena, old.arena, "arena byte")
            .or_else(|| first(new.lists, old.lists, "word of the lists"))
            .or_else(|| first(new.live, old.live, "word of the live table"))
            .or_else(|| first(new.regions, old.regions, "word of the regions"))
    }
}

/// The first entry that differs, in words.
fn first<T: PartialEq + std::fmt::Display>(new: &[T], old: &[T], name: &str) -> Option<String> {
    if new == old {
        return None;
    }
    let at = (0..new.len()).find(|&at| new[at] != old[at])?;
    Some(format!("{name} {at} was {}, and is {}", old[at], new[at]))
}

#[cfg(test)]
mod tests {
    use super::*;

    #[test]
    fn a_border_that_is_written() {
        let lent = Lent::for_arena(1_000, 2);
        let before = Memory::new(lent, 1);
        let mut memory = before.clone();
        memory.arena_mut().fill(0);
        memory.lend(lent).live.fill(0);
        assert_eq!(memory.border_written(&before), None);

        let first = memory.arena.start;
        memory.arena.all[first - 1] ^= 1;
        assert_eq!(memory.border_written(&before), Some("the arena"));
        memory.arena.all[first - 1] ^= 1;
        let end = memory.regions.start + memory.regions.len;
        memory.regions.all[end] ^= 1;
        assert_eq!(memory.border_written(&before), Some("the table of the regions"));
    }

    #[test]
    fn an_entry_that_is_changed() {
        let lent = Lent::for_arena(1_000, 2);
        let before = Memory::new(lent, 1);
        let mut memory = before.clone();
        assert_eq!(memory.changed(&before), None);
        memory.lend(lent).lists[194] ^= 1;
        assert!(memory
            .changed(&before)
            .unwrap()
            .starts_with("word of the lists 194 was "));
        memory.arena_mut()[999] ^= 1;
        assert!(memory.changed(&before).unwrap().starts_with("arena byte 999 was "));
        memory.copy_from(&before);
        assert_eq!(memory.changed(&before), None);
    }
}
