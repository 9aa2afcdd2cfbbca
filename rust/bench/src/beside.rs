//! Another build of the heap, measured beside this one: a shared library with the calls of `include/firmheap.h`, such as one
//! made of the archive of an earlier version. It is opened at run time.

use crate::candidate::Heap;
use crate::lent;
use crate::library::functions;
use std::ffi::{c_void, CString};
use std::mem;
use std::path::Path;

type Init = unsafe extern "C" fn(*const u8, usize, *mut u64, usize, *mut u64, usize, *mut u64, usize) -> u64;
type Call = unsafe extern "C" fn(*mut u8, usize, *mut u64, usize, *mut u64, usize, usize, usize) -> u64;
type Resize = unsafe extern "C" fn(*mut u8, usize, *mut u64, usize, *mut u64, usize, usize, usize, usize) -> u64;

pub struct Beside {
    name: &'static str,
    init: Init,
    insert: Call,
    allocate: Call,
    deallocate: Call,
    reallocate: Resize,
    arena: *mut u8,
    len: usize,
    lists: &'static mut [u64],
    live: &'static mut [u64],
    regions: &'static mut [u64],
}

impl Beside {
    /// The heap of a library, with an arena of its own. It is called as the library's file is.
    pub fn open(file: &str, arena: usize) -> Result<Beside, String> {
        let path = CString::new(file).map_err(|_| format!("{file:?} is no file"))?;
        let names = [
            c"firmheap_init",
            c"firmheap_insert_free_block",
            c"firmheap_allocate",
            c"firmheap_deallocate",
            c"firmheap_reallocate",
        ];
        // SAFETY: a library of these calls does nothing when it is opened.
        let [init, insert, allocate, deallocate, reallocate] =
            unsafe { functions(Some(&path), names) }.map_err(|why| format!("{file}: {why}"))?;
        let name = Path::new(file)
            .file_stem()
            .map_or(file.into(), |stem| stem.to_string_lossy());
        // SAFETY: these are the calls of these names, whose types the header says.
        unsafe {
            Ok(Beside {
                name: name.into_owned().leak(),
                init: mem::transmute::<*mut c_void, Init>(init),
                insert: mem::transmute::<*mut c_void, Call>(insert),
                allocate: mem::transmute::<*mut c_void, Call>(allocate),
                deallocate: mem::transmute::<*mut c_void, Call>(deallocate),
                reallocate: mem::transmute::<*mut c_void, Resize>(reallocate),
                arena: lent::arena(arena),
                len: arena,
                lists: lent::table(firmheap::lists_length()),
                live: lent::table(firmheap::live_length(arena)),
                regions: lent::table(firmheap::regions_length(1)),
            })
        }
    }

    /// One of the calls that are lent the arena, the lists and the live table.
    #[inline(always)]
    fn call(&mut self, call: Call, first: usize, second: usize) -> u64 {
        let (lists, live) = (self.lists.len(), self.live.len());
        // SAFETY: the slices are lent for good, with these lengths, and to this heap alone.
        unsafe {
            call(
                self.arena,
                self.len,
                self.lists.as_mut_ptr(),
                lists,
                self.live.as_mut_ptr(),
                live,
                first,
                second,
            )
        }
    }
}

/// A payload's offset; 0 where it was refused.
#[inline(always)]
fn offset(answer: u64) -> usize {
    if answer < 16 {
        0
    } else {
        answer as usize
    }
}

impl Heap for Beside {
    fn name(&self) -> &'static str {
        self.name
    }

    fn empty(&mut self, _live: &[(usize, usize)]) {
        let (lists, live, regions) = (&mut *self.lists, &mut *self.live, &mut *self.regions);
        // SAFETY: as in `call`.
        unsafe {
            (self.init)(
                self.arena,
                self.len,
                lists.as_mut_ptr(),
                lists.len(),
                live.as_mut_ptr(),
                live.len(),
                regions.as_mut_ptr(),
                regions.len(),
            );
            let (start, len) = (lists.as_mut_ptr(), lists.len());
            (self.insert)(
                self.arena,
                self.len,
                start,
                len,
                regions.as_mut_ptr(),
                regions.len(),
                0,
                self.len,
            );
        }
    }

    #[inline(always)]
    fn take(&mut self, size: usize, align: usize) -> usize {
        offset(self.call(self.allocate, size, align))
    }

    #[inline(always)]
    fn give_back(&mut self, payload: usize, align: usize) {
        self.call(self.deallocate, payload, align);
    }

    #[inline(always)]
    fn resize(&mut self, payload: usize, size: usize, align: usize) -> usize {
        let (lists, live) = (self.lists.len(), self.live.len());
        let (lists_start, live_start) = (self.lists.as_mut_ptr(), self.live.as_mut_ptr());
        // SAFETY: as in `call`.
        let answer = unsafe {
            (self.reallocate)(
                self.arena,
                self.len,
                lists_start,
                lists,
                live_start,
                live,
                payload,
                size,
                align,
            )
        };
        offset(answer)
    }

    fn first_byte(&self, payload: usize) -> Option<*mut u8> {
        Some(self.arena.wrapping_add(payload))
    }

    fn offset(&self, payload: usize) -> Option<usize> {
        Some(payload)
    }
}
