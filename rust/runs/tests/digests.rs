//! The recorded digests of rlsf's answers and blocks, on the compiled heap and on the model: one test for each profile, seed
//! and heap. `data/answers/digests.txt` has them after every 100,000 calls up to 1,000,000, and one after 10,000,000.

use model::Lent;
use runs::calls::{empty_model, Calls};
use runs::compiled::Compiled;
use runs::digest::{follow, line};
use runs::rule::{Profile, Run};
use std::path::PathBuf;

fn answers(name: &str) -> String {
    let file = PathBuf::from(env!("CARGO_MANIFEST_DIR"))
        .join("../../data/answers")
        .join(name);
    std::fs::read_to_string(&file).unwrap_or_else(|why| panic!("{}: {why}", file.display()))
}

/// The recorded lines of a profile and seed, without those two.
fn recorded(name: &str, seed: u64) -> Vec<String> {
    let start = format!("{name} {seed} ");
    let digests = answers("digests.txt");
    digests
        .lines()
        .filter_map(|line| line.strip_prefix(&start))
        .map(String::from)
        .collect()
}

/// Makes all calls up to the last recorded digest, and compares where one is recorded.
fn agrees(name: &str, seed: u64, heap: impl Calls) {
    let profile = Profile::named(name).unwrap();
    let recorded = recorded(name, seed);
    let calls = |line: &String| line.split(' ').next().unwrap().parse::<u64>().unwrap();
    let last = recorded.iter().map(calls).max().expect("there are digests");
    let mut run = Run::new(heap, profile, seed);
    let mut compared = 0;
    let mut compare = |run: &Run<_>, digest| {
        if let Some(expected) = recorded.iter().find(|line| calls(line) == run.made()) {
            assert_eq!(&line(run, digest, true)?, expected, "{name} seed {seed}");
            compared += 1;
        }
        Ok(())
    };
    follow(&mut run, last, &mut compare).unwrap();
    assert_eq!(compared, recorded.len());
}

fn compiled(name: &str) -> Compiled {
    let profile = Profile::named(name).unwrap();
    Compiled::new(Lent::for_arena(profile.arena, profile.regions())).unwrap()
}

fn modelled(name: &str) -> model::Heap {
    let profile = Profile::named(name).unwrap();
    empty_model(profile.arena, profile.regions())
}

macro_rules! digests {
    ($($heap:ident $modelled:ident $name:literal $seed:literal;)*) => {$(
        #[test]
        fn $heap() {
            agrees($name, $seed, compiled($name));
        }

        #[test]
        fn $modelled() {
            agrees($name, $seed, modelled($name));
        }
    )*};
}

digests! {
    heap_p1_seed_1 model_p1_seed_1 "P1" 1;
    heap_p1_seed_2 model_p1_seed_2 "P1" 2;
    heap_n2_seed_1 model_n2_seed_1 "N2" 1;
    heap_n2_seed_2 model_n2_seed_2 "N2" 2;
    heap_n3_seed_1 model_n3_seed_1 "N3" 1;
    heap_n3_seed_2 model_n3_seed_2 "N3" 2;
    heap_n4_seed_1 model_n4_seed_1 "N4" 1;
    heap_n4_seed_2 model_n4_seed_2 "N4" 2;
    heap_p2_seed_1 model_p2_seed_1 "P2" 1;
    heap_p2_seed_2 model_p2_seed_2 "P2" 2;
    heap_p3_seed_1 model_p3_seed_1 "P3" 1;
    heap_p3_seed_2 model_p3_seed_2 "P3" 2;
    heap_p4_seed_1 model_p4_seed_1 "P4" 1;
    heap_p4_seed_2 model_p4_seed_2 "P4" 2;
    heap_p5_seed_1 model_p5_seed_1 "P5" 1;
    heap_p5_seed_2 model_p5_seed_2 "P5" 2;
}

/// No recorded digest is left out above.
#[test]
fn all_digests_are_compared() {
    let digests = answers("digests.txt");
    let lines = digests.lines().filter(|line| !line.starts_with('#'));
    let mut runs: Vec<_> = lines
        .map(|line| line.splitn(3, ' ').take(2).collect::<Vec<_>>().join(" "))
        .collect();
    assert_eq!(runs.len(), 161);
    runs.sort();
    runs.dedup();
    assert_eq!(runs.len(), 16);
}

/// The rule makes the calls that were recorded, and the model answers them as recorded, line by line.
#[test]
fn recorded_calls() {
    for (name, calls) in [
        ("P1", 2_000),
        ("N2", 12_000),
        ("N3", 8_000),
        ("N4", 2_000),
        ("P2", 12_000),
        ("P3", 8_000),
        ("P4", 2_000),
    ] {
        let lines = answers(&format!("{name}-seed1.txt"));
        assert_eq!(lines.lines().count(), calls);
        let mut run = Run::new(modelled(name), Profile::named(name).unwrap(), 1);
        for line in lines.lines() {
            assert_eq!(run.step().unwrap().to_string(), line, "{name}, line {}", run.made());
        }
    }
}
