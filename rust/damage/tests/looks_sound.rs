//! Damage that looks sound can't be noticed at constant cost: calls are granted on it. What is promised then is that they stay
//! inside the slices; all that [`damage::check`] checks. These are the smallest heaps of that kind.

use damage::calls::{make, Call};
use damage::check::Subject;
use damage::random::Random;
use damage::slices::{Rooms, Slices};
use damage::words::{list_of, put, BEFORE, LAST, MAP, NEXT, NONE, PREV, SIZE, USED};

/// A heap of 8,192 bytes: a payload at 1,024 whose block is at 0, and one whose block is behind it, at 1,152.
fn heap() -> Subject {
    let slices = Slices::new(8192, 1, Rooms::Zoned, &mut Random::new(1, 1));
    let mut subject = Subject::new(slices, make);
    assert_eq!(subject.call(&Call::Init), Ok(0));
    assert_eq!(subject.call(&Call::Insert { start: 0, len: 8192 }), Ok(8192));
    assert_eq!(subject.call(&Call::Take { size: 100, align: 1024 }), Ok(1024));
    assert_eq!(subject.call(&Call::Take { size: 100, align: 8 }), Ok(1168));
    subject
}

/// A free block at 32 of 2,048 bytes, over both: it hangs together with its list and with the block behind it.
fn forge(slices: &mut Slices) {
    let (at, size) = (32, 2048);
    let words = [
        (at + SIZE, size as u64),
        (at + BEFORE, NONE),
        (at + NEXT, NONE),
        (at + PREV, NONE),
        (at + size + SIZE, 32 + USED + LAST),
        (at + size + BEFORE, at as u64),
    ];
    for (at, value) in words {
        put(slices.arena.all_mut(), at, value);
    }
    let lists = slices.lists.all_mut();
    lists[MAP + list_of(size)] = at as u64;
    lists[list_of(size) / 64] |= 1 << (list_of(size) % 64);
}

/// A take gets a part of a live payload.
#[test]
fn a_take_over_a_payload() {
    let mut subject = heap();
    forge(&mut subject.slices);
    assert_eq!(subject.call(&Call::Take { size: 1500, align: 8 }), Ok(48));
}

/// A resize that goes elsewhere takes the forged block, in which the payload's place is the very one that it has. What is
/// returned then is the payload at that place: the answer is granted, and is not live.
#[test]
fn a_resize_to_where_it_was() {
    let mut subject = heap();
    let resize = Call::Resize {
        payload: 1024,
        size: 300,
        align: 1024,
    };
    assert_eq!(subject.try_call(&resize), Ok(2048));
    forge(&mut subject.slices);
    assert_eq!(subject.call(&resize), Ok(1024));
    assert!(!subject.is_live(1024));
    assert_eq!(
        subject.call(&Call::Return {
            payload: 1024,
            align: 1024
        }),
        Ok(3)
    );
}
