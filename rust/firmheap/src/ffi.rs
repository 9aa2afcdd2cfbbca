//! The calls of the archive, and the arena as they see it. All unsafe code of this crate is here.
//!
//! What the archive promises: whatever is in the slices and whatever the numbers are, a call returns, and reads and writes
//! nothing but the slices that it was lent.

use core::marker::PhantomData;
use core::ptr::NonNull;
use core::slice;

#[cfg(not(target_pointer_width = "64"))]
compile_error!("the archive's calls take lengths of 64 bits");

mod archive {
    extern "C" {
        pub fn firmheap_init(
            arena: *const u8,
            arena_len: usize,
            lists: *mut u64,
            lists_len: usize,
            live: *mut u64,
            live_len: usize,
            regions: *mut u64,
            regions_len: usize,
        ) -> u64;

        pub fn firmheap_insert_free_block(
            arena: *mut u8,
            arena_len: usize,
            lists: *mut u64,
            lists_len: usize,
            regions: *mut u64,
            regions_len: usize,
            start: usize,
            len: usize,
        ) -> u64;

        pub fn firmheap_append_free_block(
            arena: *mut u8,
            arena_len: usize,
            lists: *mut u64,
            lists_len: usize,
            regions: *mut u64,
            regions_len: usize,
            start: usize,
            len: usize,
        ) -> u64;

        pub fn firmheap_allocate(
            arena: *mut u8,
            arena_len: usize,
            lists: *mut u64,
            lists_len: usize,
            live: *mut u64,
            live_len: usize,
            size: usize,
            align: usize,
        ) -> u64;

        pub fn firmheap_deallocate(
            arena: *mut u8,
            arena_len: usize,
            lists: *mut u64,
            lists_len: usize,
            live: *mut u64,
            live_len: usize,
            payload: usize,
            align: usize,
        ) -> u64;

        pub fn firmheap_reallocate(
            arena: *mut u8,
            arena_len: usize,
            lists: *mut u64,
            lists_len: usize,
            live: *mut u64,
            live_len: usize,
            payload: usize,
            size: usize,
            align: usize,
        ) -> u64;

        #[cfg(test)]
        pub fn firmheap_lists_length() -> u64;

        #[cfg(test)]
        pub fn firmheap_live_length(arena_len: usize) -> u64;
    }
}

/// A lent arena. It keeps the pointer and makes no reference of it between calls, so that pointers to payloads, which
/// come from the same pointer, stay good while the heap writes its headers beside them.
pub(crate) struct Arena<'a> {
    start: NonNull<u8>,
    len: usize,
    lent: PhantomData<&'a mut [u8]>,
}

// SAFETY: an arena is what it was made of, an exclusive borrow of bytes, and those may go to another thread.
unsafe impl Send for Arena<'_> {}

// SAFETY: through a shared arena bytes can be read, and nothing can be written: as with a shared borrow of them.
unsafe impl Sync for Arena<'_> {}

impl<'a> Arena<'a> {
    pub(crate) fn new(bytes: &'a mut [u8]) -> Arena<'a> {
        Arena {
            len: bytes.len(),
            start: NonNull::from(bytes).cast(),
            lent: PhantomData,
        }
    }

    #[inline]
    pub(crate) fn len(&self) -> usize {
        self.len
    }

    /// The first byte.
    #[inline]
    pub(crate) fn start(&self) -> NonNull<u8> {
        self.start
    }

    pub(crate) fn bytes(&self) -> &[u8] {
        // SAFETY: pointer and length are those of the borrow that the arena was made of, which lasts; every byte was
        // initialised then, the heap writes initialised bytes alone, and so must who writes through a pointer to a payload,
        // and keep no reference made of it: `Heap::allocate` says so. What is written through `&mut self` waits for this
        // borrow's end.
        unsafe { slice::from_raw_parts(self.start.as_ptr(), self.len) }
    }

    pub(crate) fn bytes_mut(&mut self) -> &mut [u8] {
        // SAFETY: as for `bytes`, and this borrow is exclusive.
        unsafe { slice::from_raw_parts_mut(self.start.as_ptr(), self.len) }
    }
}

// Each of the calls below lends slices by pointer and length. They don't overlap, being borrows that are held at the same
// time, all but the arena exclusive ones of slices, and it of an arena: what it was made of is borrowed as long as it lasts.

pub(crate) fn init(arena: &Arena<'_>, lists: &mut [u64], live: &mut [u64], regions: &mut [u64]) -> u64 {
    // SAFETY: pointers and lengths are those of slices that don't overlap, as said above.
    unsafe {
        archive::firmheap_init(
            arena.start.as_ptr(),
            arena.len,
            lists.as_mut_ptr(),
            lists.len(),
            live.as_mut_ptr(),
            live.len(),
            regions.as_mut_ptr(),
            regions.len(),
        )
    }
}

pub(crate) fn insert_free_block(
    arena: &mut Arena<'_>,
    lists: &mut [u64],
    regions: &mut [u64],
    start: usize,
    len: usize,
) -> u64 {
    // SAFETY: pointers and lengths are those of slices that don't overlap, as said above.
    unsafe {
        archive::firmheap_insert_free_block(
            arena.start.as_ptr(),
            arena.len,
            lists.as_mut_ptr(),
            lists.len(),
            regions.as_mut_ptr(),
            regions.len(),
            start,
            len,
        )
    }
}

pub(crate) fn append_free_block(
    arena: &mut Arena<'_>,
    lists: &mut [u64],
    regions: &mut [u64],
    start: usize,
    len: usize,
) -> u64 {
    // SAFETY: pointers and lengths are those of slices that don't overlap, as said above.
    unsafe {
        archive::firmheap_append_free_block(
            arena.start.as_ptr(),
            arena.len,
            lists.as_mut_ptr(),
            lists.len(),
            regions.as_mut_ptr(),
            regions.len(),
            start,
            len,
        )
    }
}

#[inline]
pub(crate) fn allocate(arena: &mut Arena<'_>, lists: &mut [u64], live: &mut [u64], size: usize, align: usize) -> u64 {
    // SAFETY: pointers and lengths are those of slices that don't overlap, as said above.
    unsafe {
        archive::firmheap_allocate(
            arena.start.as_ptr(),
            arena.len,
            lists.as_mut_ptr(),
            lists.len(),
            live.as_mut_ptr(),
            live.len(),
            size,
            align,
        )
    }
}

#[inline]
pub(crate) fn deallocate(
    arena: &mut Arena<'_>,
    lists: &mut [u64],
    live: &mut [u64],
    payload: usize,
    align: usize,
) -> u64 {
    // SAFETY: pointers and lengths are those of slices that don't overlap, as said above.
    unsafe {
        archive::firmheap_deallocate(
            arena.start.as_ptr(),
            arena.len,
            lists.as_mut_ptr(),
            lists.len(),
            live.as_mut_ptr(),
            live.len(),
            payload,
            align,
        )
    }
}

#[inline]
pub(crate) fn reallocate(
    arena: &mut Arena<'_>,
    lists: &mut [u64],
    live: &mut [u64],
    payload: usize,
    size: usize,
    align: usize,
) -> u64 {
    // SAFETY: pointers and lengths are those of slices that don't overlap, as said above.
    unsafe {
        archive::firmheap_reallocate(
            arena.start.as_ptr(),
            arena.len,
            lists.as_mut_ptr(),
            lists.len(),
            live.as_mut_ptr(),
            live.len(),
            payload,
            size,
            align,
        )
    }
}

#[cfg(test)]
mod tests {
    use super::archive;

    /// The lengths that this crate computes are those of the archive.
    #[test]
    fn lengths_are_those_of_the_archive() {
        // SAFETY: the function takes nothing and reads nothing.
        assert_eq!(crate::lists_length() as u64, unsafe {
            archive::firmheap_lists_length()
        });
        let edges = (0..64).flat_map(|bit| [(1usize << bit) - 1, 1 << bit, (1 << bit) + 1]);
        for n in (0..5000).chain(edges).chain([usize::MAX]) {
            // SAFETY: the function takes a number and reads nothing.
            assert_eq!(
                crate::live_length(n) as u64,
                unsafe { archive::firmheap_live_length(n) },
                "arena of {n} bytes"
            );
        }
    }
}
