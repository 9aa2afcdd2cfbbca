//! The slices of a heap. Around each stands a red zone, which nobody may touch; or each is an allocation of its own, so that
//! a tool which knows the allocations, such as valgrind, sees what is read outside too.

use firmheap::{lists_length, live_length};

use crate::random::Random;

/// Where the slices stand.
#[derive(Clone, Copy, PartialEq, Eq)]
pub enum Rooms {
    Zoned,
    Own,
}

/// The bytes of a red zone, before and behind a slice.
const ZONE: usize = 1024;

/// A slice in a room that may be larger.
#[derive(Clone)]
pub struct Zoned<T> {
    room: Box<[T]>,
    first: usize,
    len: usize,
    zone: T,
}

impl<T: Copy + PartialEq> Zoned<T> {
    fn new(len: usize, zone: T, before: usize, behind: usize) -> Zoned<T> {
        Zoned {
            room: vec![zone; before + len + behind].into_boxed_slice(),
            first: before,
            len,
            zone,
        }
    }

    pub fn all(&self) -> &[T] {
        &self.room[self.first..self.first + self.len]
    }

    pub fn all_mut(&mut self) -> &mut [T] {
        &mut self.room[self.first..self.first + self.len]
    }

    /// Whether the red zones are as they were made.
    pub fn zones_stand(&self) -> bool {
        let (before, rest) = self.room.split_at(self.first);
        before.iter().all(|&item| item == self.zone) && rest[self.len..].iter().all(|&item| item == self.zone)
    }

    /// The slice with its red zones.
    pub fn room_mut(&mut self) -> &mut [T] {
        &mut self.room
    }

    fn copy_from(&mut self, other: &Zoned<T>) {
        self.all_mut().copy_from_slice(other.all());
    }
}

#[derive(Clone)]
pub struct Slices {
    pub arena: Zoned<u8>,
    pub lists: Zoned<u64>,
    pub live: Zoned<u64>,
    pub regions: Zoned<u64>,
}

/// How many items of each slice are lent.
#[derive(Clone, Copy, PartialEq, Eq, Debug)]
pub struct Lengths {
    pub arena: usize,
    pub lists: usize,
    pub live: usize,
    pub regions: usize,
}

impl Slices {
    /// Slices for an arena of so many bytes, with room for so many regions. What is in them is no heap.
    pub fn new(arena: usize, regions: usize, rooms: Rooms, random: &mut Random) -> Slices {
        // the arena may begin at any address
        let shift = random.one_of(&[0, 0, 8, 16, 1, 5, 31]);
        let (bytes, words) = match rooms {
            Rooms::Zoned => ((ZONE + shift, ZONE), ZONE / 8),
            Rooms::Own => ((0, 0), 0),
        };
        let longer = random.one_of(&[0, 0, 0, 1, 7]);
        let table = |len: usize| Zoned::new(len, 0xe1e2_e3e4_e5e6_e7e8, words, words);
        let mut slices = Slices {
            arena: Zoned::new(arena, 0xe9, bytes.0, bytes.1),
            lists: table(lists_length() + longer),
            live: table(live_length(arena) + longer),
            regions: table(1 + 2 * regions + longer % 2),
        };
        for bytes in slices.arena.all_mut().chunks_mut(8) {
            bytes.copy_from_slice(&random.any().to_le_bytes()[..bytes.len()]);
        }
        slices
    }

    pub fn lengths(&self) -> Lengths {
        Lengths {
            arena: self.arena.len,
            lists: self.lists.len,
            live: self.live.len,
            regions: self.regions.len,
        }
    }

    /// Both have slices of the same lengths.
    pub fn copy_from(&mut self, other: &Slices) {
        self.arena.copy_from(&other.arena);
        self.lists.copy_from(&other.lists);
        self.live.copy_from(&other.live);
        self.regions.copy_from(&other.regions);
    }

    pub fn zones_stand(&self) -> bool {
        self.arena.zones_stand() && self.lists.zones_stand() && self.live.zones_stand() && self.regions.zones_stand()
    }

    pub fn same(&self, other: &Slices) -> bool {
        self.arena.all() == other.arena.all()
            && self.lists.all() == other.lists.all()
            && self.live.all() == other.live.all()
            && self.regions.all() == other.regions.all()
    }

    /// How many words of 8 bytes differ. What is behind the arena's last word counts as one.
    pub fn differing_words(&self, other: &Slices) -> usize {
        let bytes = self
            .arena
            .all()
            .chunks(8)
            .zip(other.arena.all().chunks(8))
            .filter(|(a, b)| a != b)
            .count();
        let table = |a: &Zoned<u64>, b: &Zoned<u64>| a.all().iter().zip(b.all()).filter(|(a, b)| a != b).count();
        bytes + table(&self.lists, &other.lists) + table(&self.live, &other.live) + table(&self.regions, &other.regions)
    }
}
