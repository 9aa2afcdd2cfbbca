//! Which archive is linked for which target.

#[allow(dead_code)]
#[path = "../build.rs"]
mod build_script;

use build_script::{flags_of, triple_of};

#[test]
fn each_target_has_its_archive() {
    assert_eq!(triple_of("x86_64", "linux"), Some("x86_64-unknown-linux-gnu"));
    assert_eq!(triple_of("aarch64", "linux"), Some("aarch64-unknown-linux-gnu"));
    assert_eq!(triple_of("x86_64", "none"), Some("x86_64-none-elf"));
    assert_eq!(triple_of("aarch64", "none"), Some("aarch64-none-elf"));
    assert_eq!(triple_of("riscv64", "none"), Some("riscv64-none-elf"));
}

#[test]
fn other_targets_have_none() {
    for (arch, os) in [
        ("arm", "none"),
        ("riscv32", "none"),
        ("x86_64", "windows"),
        ("aarch64", "macos"),
        ("", ""),
    ] {
        assert_eq!(triple_of(arch, os), None, "{arch} and {os}");
    }
}

#[test]
fn riscv_agrees_on_its_registers() {
    assert_eq!(flags_of("riscv64", "a,c,d,f,m"), ["-march=rv64gc", "-mabi=lp64d"]);
    assert!(flags_of("riscv64", "a,c,m").is_empty());
    assert!(flags_of("x86_64", "d").is_empty());
}
