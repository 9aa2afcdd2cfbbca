//! The malloc family: glibc's, and mimalloc's and jemalloc's where their libraries are installed. They are opened at run time,
//! so nothing is linked. For jemalloc the loader has to keep room: GLIBC_TUNABLES=glibc.rtld.optional_static_tls=65536.
//!
//! Alignments up to 16 are malloc's own. Larger ones are posix_memalign's, and are resized by a take, a copy and a return, as
//! Rust's standard library does it, since realloc may forget them.

use crate::candidate::Heap;
use crate::library::functions;
use std::ffi::{c_int, c_void, CStr};
use std::{mem, ptr};

/// The alignment that malloc gives.
const OWN_ALIGNMENT: usize = 16;

type Malloc = unsafe extern "C" fn(usize) -> *mut c_void;
type PosixMemalign = unsafe extern "C" fn(*mut *mut c_void, usize, usize) -> c_int;
type Realloc = unsafe extern "C" fn(*mut c_void, usize) -> *mut c_void;
type Free = unsafe extern "C" fn(*mut c_void);
type UsableSize = unsafe extern "C" fn(*mut c_void) -> usize;

pub struct Family {
    name: &'static str,
    malloc: Malloc,
    posix_memalign: PosixMemalign,
    realloc: Realloc,
    free: Free,
    usable_size: UsableSize,
}

/// Where a family is found: its library, none for the C library, and its functions.
struct Place {
    name: &'static str,
    library: Option<&'static CStr>,
    functions: [&'static CStr; 5],
}

const STANDARD: [&CStr; 5] = [c"malloc", c"posix_memalign", c"realloc", c"free", c"malloc_usable_size"];

const PLACES: [Place; 3] = [
    Place {
        name: "glibc",
        library: None,
        functions: STANDARD,
    },
    Place {
        name: "mimalloc",
        library: Some(c"libmimalloc.so.2"),
        functions: [
            c"mi_malloc",
            c"mi_posix_memalign",
            c"mi_realloc",
            c"mi_free",
            c"mi_usable_size",
        ],
    },
    Place {
        name: "jemalloc",
        library: Some(c"libjemalloc.so.2"),
        functions: STANDARD,
    },
];

/// All of the family that there are here; the others are named on stderr.
pub fn families() -> Vec<Family> {
    let mut families = Vec::new();
    for place in &PLACES {
        match found(place) {
            Ok(family) => families.push(family),
            Err(why) => eprintln!("bench: {} is left out: {why}", place.name),
        }
    }
    families
}

fn found(place: &Place) -> Result<Family, String> {
    // SAFETY: the libraries have no effect when they are opened, but to make themselves ready.
    let [malloc, posix_memalign, realloc, free, usable_size] = unsafe { functions(place.library, place.functions) }?;
    // SAFETY: these are the functions of these names, of which C says the types.
    unsafe {
        Ok(Family {
            name: place.name,
            malloc: mem::transmute::<*mut c_void, Malloc>(malloc),
            posix_memalign: mem::transmute::<*mut c_void, PosixMemalign>(posix_memalign),
            realloc: mem::transmute::<*mut c_void, Realloc>(realloc),
            free: mem::transmute::<*mut c_void, Free>(free),
            usable_size: mem::transmute::<*mut c_void, UsableSize>(usable_size),
        })
    }
}

impl Family {
    #[inline(never)]
    fn take_aligned(&self, size: usize, align: usize) -> usize {
        let mut payload = ptr::null_mut();
        // SAFETY: the answer has a place, and the alignment is a power of two above that of a pointer.
        match unsafe { (self.posix_memalign)(&mut payload, align, size) } {
            0 => payload as usize,
            _ => 0,
        }
    }

    #[inline(never)]
    fn resize_aligned(&self, payload: usize, size: usize, align: usize) -> usize {
        let other = self.take_aligned(size, align);
        if other == 0 {
            return 0;
        }
        // SAFETY: the payload is live, the other one is new, and both have the bytes that are copied.
        unsafe {
            let kept = (self.usable_size)(payload as *mut c_void).min(size);
            ptr::copy_nonoverlapping(payload as *const u8, other as *mut u8, kept);
            (self.free)(payload as *mut c_void);
        }
        other
    }
}

impl Heap for Family {
    fn name(&self) -> &'static str {
        self.name
    }

    fn empty(&mut self, live: &[(usize, usize)]) {
        for &(payload, align) in live {
            if payload != 0 {
                self.give_back(payload, align);
            }
        }
    }

    #[inline(always)]
    fn take(&mut self, size: usize, align: usize) -> usize {
        if align > OWN_ALIGNMENT {
            return self.take_aligned(size, align);
        }
        // SAFETY: malloc takes any size.
        unsafe { (self.malloc)(size) as usize }
    }

    #[inline(always)]
    fn give_back(&mut self, payload: usize, _align: usize) {
        // SAFETY: the payload came from the same family and is live.
        unsafe { (self.free)(payload as *mut c_void) }
    }

    #[inline(always)]
    fn resize(&mut self, payload: usize, size: usize, align: usize) -> usize {
        if align > OWN_ALIGNMENT {
            return self.resize_aligned(payload, size, align);
        }
        // To resize to nothing is to return; what is taken then is the least that malloc has.
        // SAFETY: the payload came from the same family and is live.
        unsafe { (self.realloc)(payload as *mut c_void, size.max(1)) as usize }
    }

    fn first_byte(&self, payload: usize) -> Option<*mut u8> {
        Some(payload as *mut u8)
    }

    fn offset(&self, _payload: usize) -> Option<usize> {
        None
    }
}
