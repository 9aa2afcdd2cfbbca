//! Damage that looks sound: blocks that hang together, over others. Calls are granted on it, and must stay inside the slices.

use crate::random::Random;
use crate::shape::{Payload, Shape};
use crate::strike::{Strike, Target};
use crate::words::{list_of, put, BEFORE, GRAIN, HALF, LISTS, MAP, NEXT, NONE, PREV, SIZE, USED};

/// Some blocks that hang together, each for itself, over whatever stands there: free ones in front of their lists, and used
/// ones with a live payload. They may overlap each other and the blocks of the heap.
pub fn blocks(shape: &mut Shape, random: &mut Random) -> Strike {
    let grains = shape.subject.slices.lengths().arena / GRAIN;
    let middle = random.below(grains);
    let told = format!(
        "forged blocks {}",
        forge_some(shape, middle, random.from_to(1, 8), random)
    );
    Strike::wide(Target::Forged, Some(middle * GRAIN), told)
}

/// So many blocks from a grain on, one behind the other or near each other, so that they meet.
fn forge_some(shape: &mut Shape, middle: usize, count: usize, random: &mut Random) -> String {
    let grains = shape.subject.slices.lengths().arena / GRAIN;
    let (mut told, mut end) = (Vec::new(), middle);
    for _ in 0..count {
        let at = match random.chance(2, 3) {
            true => end.min(grains - 2),
            false => (middle + random.below(12)).min(grains - 2),
        };
        let most = grains - 1 - at;
        let size = if random.chance(7, 8) {
            random.from_to(1, most.min(6))
        } else {
            random.from_to(1, most)
        };
        let is_free = random.chance(1, 2);
        end = at + size;
        forge(shape, at * GRAIN, size * GRAIN, is_free, random);
        told.push(format!(
            "{}:{} {}",
            at * GRAIN,
            size * GRAIN,
            if is_free { "free" } else { "used" }
        ));
    }
    told.join(", ")
}

fn forge(shape: &mut Shape, at: usize, size: usize, is_free: bool, random: &mut Random) {
    let bytes = shape.subject.slices.arena.all_mut();
    put(bytes, at + size + BEFORE, at as u64);
    if random.chance(1, 2) {
        put(bytes, at + size + SIZE, random.one_of(&[35, 33, 65]));
    }
    if random.chance(1, 4) {
        put(bytes, at + BEFORE, NONE);
    }
    match is_free {
        true => forge_free(shape, at, size, random),
        false => forge_used(shape, at, size, random),
    }
}

/// With a live payload: of the large kind, if there is a grain for it; else half a grain behind the block.
fn forge_used(shape: &mut Shape, at: usize, size: usize, random: &mut Random) {
    let slices = &mut shape.subject.slices;
    let bytes = slices.arena.all_mut();
    let (payload, align) = match size > GRAIN && random.chance(1, 3) {
        true => (at + GRAIN * random.from_to(1, size / GRAIN), GRAIN),
        false => (at + HALF, HALF),
    };
    put(bytes, at + SIZE, size as u64 + USED);
    if align == GRAIN {
        put(bytes, payload - 8, at as u64);
    }
    slices.live.all_mut()[payload / HALF / 64] |= 1 << (payload / HALF % 64);
    shape.live.push(Payload {
        at: payload,
        size: at + size - payload,
        align,
    });
}

/// At the head of its list, if there is one for it.
fn forge_free(shape: &mut Shape, at: usize, size: usize, random: &mut Random) {
    let list = list_of(size);
    if list >= LISTS {
        return;
    }
    let slices = &mut shape.subject.slices;
    let (bytes, lists) = (slices.arena.all_mut(), slices.lists.all_mut());
    let next = match lists[MAP + list] {
        head if head == at as u64 || random.chance(1, 4) => NONE,
        head => head,
    };
    put(bytes, at + SIZE, size as u64);
    put(bytes, at + NEXT, next);
    put(bytes, at + PREV, NONE);
    if (next as usize) < bytes.len() - GRAIN {
        put(bytes, next as usize + PREV, at as u64);
    }
    lists[MAP + list] = at as u64;
    lists[list / 64] |= 1 << (list % 64);
}

/// Every word is one that could stand there: sizes inside the arena, links to grains or to none, heads with their marks; and
/// some blocks hang together.
pub fn everything(shape: &mut Shape, random: &mut Random) -> Strike {
    let slices = &mut shape.subject.slices;
    let grains = slices.lengths().arena / GRAIN;
    let link = |random: &mut Random| match random.chance(1, 3) {
        true => NONE,
        false => (GRAIN * random.below(grains)) as u64,
    };
    let bytes = slices.arena.all_mut();
    for header in (0..grains).map(|grain| grain * GRAIN) {
        let size = (GRAIN * random.from_to(1, (grains - header / GRAIN).min(6))) as u64;
        put(
            bytes,
            header + SIZE,
            random.one_of(&[size, size + USED, size + USED, 35]),
        );
        put(bytes, header + BEFORE, link(random));
        put(bytes, header + NEXT, link(random));
        put(bytes, header + PREV, link(random));
    }
    let lists = slices.lists.all_mut();
    lists[..MAP].fill(0);
    lists[MAP..].fill(NONE);
    for _ in 0..random.below(3) {
        let list = random.below(LISTS);
        lists[MAP + list] = link(random);
        lists[list / 64] |= 1 << (list % 64);
    }
    slices.live.all_mut().fill(0);
    shape.live.clear();
    let middle = random.below(grains);
    let told = format!(
        "all words, and the blocks {}",
        forge_some(shape, middle, random.from_to(2, 12), random)
    );
    Strike::wide(Target::Plausible, Some(middle * GRAIN), told)
}
