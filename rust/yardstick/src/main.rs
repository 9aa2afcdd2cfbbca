//! Measures the heap beside rlsf 0.2.3 on the calls of the rule. The options are those of `bench`.

use bench::arenas::{address, layout, ByOffset, ByPointer, Trusting};
use bench::candidate::{Candidate, Heap, Nothing, Replay};
use bench::malloc::families;
use bench::{command, lent};
use rlsf::Tlsf;
use std::ptr::NonNull;

/// rlsf, with the parameters with which its answers were recorded.
struct Rlsf {
    arena: NonNull<u8>,
    len: usize,
    heap: Tlsf<'static, u16, u16, 12, 16>,
}

impl Rlsf {
    fn new(len: usize) -> Rlsf {
        let arena = NonNull::new(lent::arena(len)).expect("an arena is somewhere");
        let heap = Tlsf::new();
        let mut made = Rlsf { arena, len, heap };
        made.empty(&[]);
        made
    }
}

// Of all calls below: payloads come from the same heap and are live, as the record says.
impl Heap for Rlsf {
    fn name(&self) -> &'static str {
        "rlsf"
    }

    fn empty(&mut self, _live: &[(usize, usize)]) {
        self.heap = Tlsf::new();
        let region = NonNull::slice_from_raw_parts(self.arena, self.len);
        // SAFETY: the arena is lent for good, and to this heap alone.
        let used = unsafe { self.heap.insert_free_block_ptr(region) };
        used.expect("the arena is large enough");
    }

    #[inline(always)]
    fn take(&mut self, size: usize, align: usize) -> usize {
        address(self.heap.allocate(layout(size, align)))
    }

    #[inline(always)]
    fn give_back(&mut self, payload: usize, align: usize) {
        if let Some(payload) = NonNull::new(payload as *mut u8) {
            // SAFETY: the payload is live, and was taken with this alignment.
            unsafe { self.heap.deallocate(payload, align) }
        }
    }

    #[inline(always)]
    fn resize(&mut self, payload: usize, size: usize, align: usize) -> usize {
        match NonNull::new(payload as *mut u8) {
            // SAFETY: the payload is live, and was taken with this alignment.
            Some(payload) => address(unsafe { self.heap.reallocate(payload, layout(size, align)) }),
            None => 0,
        }
    }

    fn first_byte(&self, payload: usize) -> Option<*mut u8> {
        Some(payload as *mut u8)
    }

    fn offset(&self, payload: usize) -> Option<usize> {
        Some(payload.wrapping_sub(self.arena.as_ptr() as usize))
    }
}

fn main() {
    command::run(|arena| {
        let mut all: Vec<Box<dyn Replay>> = vec![
            Box::new(Candidate::new(Nothing)),
            Box::new(Candidate::new(Rlsf::new(arena))),
            Box::new(Candidate::new(ByPointer::new(arena))),
            Box::new(Candidate::new(ByOffset::new(arena))),
            Box::new(Candidate::new(Trusting::new(arena))),
        ];
        for family in families() {
            all.push(Box::new(Candidate::new(family)));
        }
        all
    });
}
