//! Reads a byte before or behind an allocation. Nothing is printed: this is there for `tools/damage`, which looks whether
//! valgrind sees it, as it must see it of a heap that reads outside its slices.

use std::hint::black_box;

fn main() {
    let bytes = black_box(vec![1u8; 1000].into_boxed_slice());
    let outside = if std::env::args().any(|word| word == "before") {
        -8
    } else {
        1000
    };
    // SAFETY: there is none. It is a byte that belongs to nobody.
    black_box(unsafe { bytes.as_ptr().wrapping_offset(outside).read_volatile() });
}
