//! Links the archive of the proved heap. Where it is missing, or older than what it is made of, `tools/archive` makes it.
//!
//! The environment may name another archive in `FIRMHEAP_ARCHIVE`: it is linked as it is, and nothing is made. So who has
//! an archive needs neither the toolchain nor the rest of the repository.

use std::env;
use std::fs::{self, File};
use std::path::{Path, PathBuf};
use std::process::Command;
use std::time::{Instant, SystemTime};

/// What an archive is made of, from the repository's top.
const SOURCES: [&str; 4] = ["crates.txt", "RATTLE-KIT", "tools/archive", "tools/proved_module.py"];

/// And of each crate these. What else stands in its folder, such as `out`, changes with every check.
const OF_A_CRATE: [&str; 3] = ["src", "specs", "proofs"];

pub fn main() {
    println!("cargo:rerun-if-env-changed=FIRMHEAP_ARCHIVE");
    let archive = match env::var_os("FIRMHEAP_ARCHIVE") {
        Some(named) => {
            let archive = PathBuf::from(named);
            println!("cargo:rerun-if-changed={}", archive.display());
            archive
        }
        None => made_here(),
    };
    if !archive.is_file() {
        panic!("there is no archive {}", archive.display());
    }
    // The linker looks for libfirmheap.a in a folder; the archive that was named may be called otherwise.
    let folder = PathBuf::from(variable("OUT_DIR"));
    let linked = folder.join("libfirmheap.a");
    if let Err(why) = fs::copy(&archive, &linked) {
        panic!("{} can't be copied to {}: {why}", archive.display(), linked.display());
    }
    println!("cargo:rustc-link-search=native={}", folder.display());
    println!("cargo:rustc-link-lib=static=firmheap");
}

/// The archive for the target that is built for, made where it has to be.
fn made_here() -> PathBuf {
    let (arch, os) = (variable("CARGO_CFG_TARGET_ARCH"), variable("CARGO_CFG_TARGET_OS"));
    let Some(triple) = triple_of(&arch, &os) else {
        panic!(
            "no archive is made for {arch} and {os}: there are those for linux (x86_64, aarch64) and for none (x86_64, \
             aarch64, riscv64). FIRMHEAP_ARCHIVE may name another."
        );
    };
    let flags = flags_of(&arch, &env::var("CARGO_CFG_TARGET_FEATURE").unwrap_or_default());
    let top = PathBuf::from(variable("CARGO_MANIFEST_DIR")).join("../..");
    let name = format!("target/archive/{triple}/libfirmheap.a");
    let archive = top.join(&name);
    let sources = sources(&top);
    for path in sources.iter().chain([&archive]) {
        println!("cargo:rerun-if-changed={}", path.display());
    }
    let newest = sources.iter().filter_map(|source| newest(source)).max();
    let made = changed(&archive);
    // On riscv64 the archive that is there may have been made with other flags.
    if arch == "riscv64" || made.is_none() || made < newest {
        make(&top, triple, flags, &name);
        // The tool leaves an archive alone that would come out the same; from now on it is as new as its sources. No newer,
        // or cargo would take it for changed since this build.
        if let (Some(newest), Ok(archive)) = (newest, File::options().append(true).open(&archive)) {
            let _ = archive.set_modified(newest);
        }
    }
    archive
}

/// The archive's target: it needs nothing of the system, so each machine has one for linux and one for none.
pub fn triple_of(arch: &str, os: &str) -> Option<&'static str> {
    match (arch, os) {
        ("x86_64", "linux") => Some("x86_64-unknown-linux-gnu"),
        ("aarch64", "linux") => Some("aarch64-unknown-linux-gnu"),
        ("x86_64", "none") => Some("x86_64-none-elf"),
        ("aarch64", "none") => Some("aarch64-none-elf"),
        ("riscv64", "none") => Some("riscv64-none-elf"),
        _ => None,
    }
}

/// On riscv64 all that is linked must agree on the registers in which floating-point numbers are passed.
pub fn flags_of(arch: &str, features: &str) -> &'static [&'static str] {
    let doubles = features.split(',').any(|feature| feature == "d");
    match arch {
        "riscv64" if doubles => &["-march=rv64gc", "-mabi=lp64d"],
        _ => &[],
    }
}

fn changed(file: &Path) -> Option<SystemTime> {
    fs::metadata(file).and_then(|data| data.modified()).ok()
}

/// The files and folders that an archive is made of.
fn sources(top: &Path) -> Vec<PathBuf> {
    let mut found: Vec<PathBuf> = SOURCES.map(|source| top.join(source)).into();
    let crates = fs::read_dir(top.join("crates")).into_iter().flatten().flatten();
    for folder in crates {
        found.extend(
            OF_A_CRATE
                .map(|part| folder.path().join(part))
                .into_iter()
                .filter(|part| part.exists()),
        );
    }
    found
}

/// When the file, or the newest file below the folder, was changed.
fn newest(path: &Path) -> Option<SystemTime> {
    let Ok(entries) = fs::read_dir(path) else {
        return changed(path);
    };
    entries.flatten().filter_map(|entry| newest(&entry.path())).max()
}

/// Runs `tools/archive`, and says so and how long it took: it may be minutes, where the heap has to be proved first.
fn make(top: &Path, triple: &str, flags: &[&str], name: &str) {
    let start = Instant::now();
    let tool = top.join("tools/archive");
    let run = match Command::new(&tool).arg(triple).args(flags).current_dir(top).output() {
        Ok(run) => run,
        Err(why) => panic!(
            "{name} has to be made, and {} can't be run: {why}. FIRMHEAP_ARCHIVE may name an archive.",
            tool.display()
        ),
    };
    if !run.status.success() {
        let (said, complained) = (
            String::from_utf8_lossy(&run.stdout),
            String::from_utf8_lossy(&run.stderr),
        );
        panic!("tools/archive {triple} failed, {}:\n{said}{complained}", run.status);
    }
    let seconds = start.elapsed().as_secs_f64();
    println!("cargo:warning={name} had to be made or looked at: tools/archive {triple} took {seconds:.1} seconds");
}

fn variable(name: &str) -> String {
    env::var(name).unwrap_or_else(|_| panic!("cargo sets no {name}"))
}
