//! Functions of a library that is opened at run time, so that nothing is linked.

use std::ffi::{c_char, c_int, c_void, CStr};
use std::ptr;

extern "C" {
    fn dlopen(file: *const c_char, mode: c_int) -> *mut c_void;
    fn dlsym(library: *mut c_void, name: *const c_char) -> *mut c_void;
    fn dlerror() -> *const c_char;
}

/// All symbols are looked up when the library is opened, and no other code sees them.
const RTLD_NOW: c_int = 2;

/// Where the functions of these names are; none of them is null. No file is the C library. The library stays open.
///
/// # Safety
///
/// Opening the library has no effect but to make it ready.
pub unsafe fn functions<const N: usize>(file: Option<&CStr>, names: [&CStr; N]) -> Result<[*mut c_void; N], String> {
    let library = dlopen(file.map_or(ptr::null(), CStr::as_ptr), RTLD_NOW);
    if library.is_null() {
        return Err(complaint());
    }
    let found = names.map(|name| dlsym(library, name.as_ptr()));
    if found.iter().any(|symbol| symbol.is_null()) {
        return Err(complaint());
    }
    Ok(found)
}

/// Why the last library or symbol was not found.
unsafe fn complaint() -> String {
    // The answer is null, or a text that lasts until the next call of its kind.
    let words = dlerror();
    if words.is_null() {
        return "no reason is known".into();
    }
    CStr::from_ptr(words).to_string_lossy().into_owned()
}
