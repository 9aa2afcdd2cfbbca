//! What the binaries say and how they end.

use std::process::{Command, Output};

fn run(binary: &str, words: &[&str]) -> Output {
    Command::new(binary).args(words).output().unwrap()
}

fn said(bytes: &[u8]) -> String {
    String::from_utf8(bytes.to_vec()).unwrap()
}

#[test]
fn digests() {
    let recorded = "100000 32326c14bfd9c109 f20bbf33d070ba3c 861\n";
    for model in [&[][..], &["--model"]] {
        let words = [&["P3", "1", "100000", "--state"], model].concat();
        let output = run(env!("CARGO_BIN_EXE_digest"), &words);
        assert_eq!(
            (said(&output.stdout).as_str(), output.status.code()),
            (recorded, Some(0))
        );
    }
    let output = run(env!("CARGO_BIN_EXE_digest"), &["P3", "1", "250000"]);
    let calls: Vec<_> = said(&output.stdout)
        .lines()
        .map(|line| line.split(' ').next().unwrap().to_string())
        .collect();
    assert_eq!(calls, ["100000", "200000", "250000"]);
    let output = run(env!("CARGO_BIN_EXE_digest"), &["P1", "1", "2", "--full"]);
    assert_eq!(said(&output.stdout), "0 0 65536 0 65536 0\n1 6110 8 0 16 6128\n");
}

#[test]
fn comparison() {
    let output = run(env!("CARGO_BIN_EXE_compare"), &["3", "1000"]);
    assert_eq!(output.status.code(), Some(0));
    let out = said(&output.stdout);
    assert!(
        out.lines().last().unwrap().starts_with("seed 3: 1000 calls in "),
        "{out}"
    );
    assert!(out.trim_end().ends_with(" s, no difference"), "{out}");
}

#[test]
fn bad_usage() {
    for words in [
        &[][..],
        &["P1", "1"],
        &["P7", "1", "2"],
        &["P1", "-1", "2"],
        &["P1", "1", "x"],
        &["P1", "1", "2", "--all"],
    ] {
        let output = run(env!("CARGO_BIN_EXE_digest"), words);
        assert_eq!(output.status.code(), Some(2), "{words:?}");
        assert!(said(&output.stderr).contains("usage: digest PROFILE SEED CALLS"));
    }
    for words in [&[][..], &["1"], &["1", "x"], &["1", "2", "3"]] {
        let output = run(env!("CARGO_BIN_EXE_compare"), words);
        assert_eq!(output.status.code(), Some(2), "{words:?}");
        assert!(said(&output.stderr).contains("usage: compare SEED CALLS"));
    }
}
