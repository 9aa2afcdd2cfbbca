//! Another build of the heap, beside this one: it is found to work, and what is no such library is refused with a word.

use bench::beside::Beside;
use bench::candidate::{Candidate, Replay};
use bench::record::Record;
use runs::rule::Profile;
use std::env::consts::ARCH;
use std::ffi::OsString;
use std::path::{Path, PathBuf};
use std::process::Command;

/// The archive that is linked here.
fn archive() -> OsString {
    std::env::var_os("FIRMHEAP_ARCHIVE").unwrap_or_else(|| {
        format!(
            "{}/../../target/archive/{ARCH}-unknown-linux-gnu/libfirmheap.a",
            env!("CARGO_MANIFEST_DIR")
        )
        .into()
    })
}

/// A shared library of some objects or archives, in the tests' own folder.
fn shared(name: &str, from: &[OsString]) -> PathBuf {
    let library = Path::new(env!("CARGO_TARGET_TMPDIR")).join(name);
    let done = Command::new("cc")
        .args(["-shared", "-o"])
        .arg(&library)
        .arg("-Wl,--whole-archive")
        .args(from)
        .arg("-Wl,--no-whole-archive")
        .status();
    assert!(done.is_ok_and(|status| status.success()), "cc makes no {name}");
    library
}

fn record(calls: u64) -> Record {
    Record::of(Profile::named("P5").unwrap(), 1, calls).unwrap()
}

#[test]
fn another_build_gives_the_recorded_answers() {
    let record = record(20_000);
    let library = shared("another.so", &[archive()]);
    let mut other = Candidate::new(Beside::open(library.to_str().unwrap(), record.arena).unwrap());
    assert_eq!(other.name(), "another");
    other.empty();
    other.check(&record).unwrap();
    other.empty();
    other.replay(&record);
    other.ended_well(&record).unwrap();
}

#[test]
fn what_is_no_such_library_is_refused() {
    let open = |file: &str| Beside::open(file, 1 << 20).err().expect("it is refused");
    let why = open("/no/such/file.so");
    assert!(why.starts_with("/no/such/file.so: "), "{why}");
    let empty = shared("empty.so", &[]);
    let why = open(empty.to_str().unwrap());
    assert!(why.contains("undefined symbol: firmheap_"), "{why}");
}
