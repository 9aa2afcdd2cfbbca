//! What the command line asks for, and doing it. The program says which candidates there are.

use crate::beside::Beside;
use crate::candidate::{Candidate, Replay};
use crate::instructions;
use crate::measure::measure;
use crate::picture::picture;
use crate::record::{Kind, Record};
use crate::table::table;
use runs::rule::Profile;
use std::process::exit;
use std::{env, fs};

const USAGE: &str = "usage: PROGRAM [OPTION ..]
  --profile NAME    the profile of data/answers/RULE.md whose calls are made: P5 if none is named
  --seed N          the rule's seed: 1 if none is named
  --calls N         how many calls of the rule are recorded: 10,000,000; with --instructions 200,000
  --runs N          how many times each candidate makes them, in turn: 5
  --candidate NAME  this candidate alone, and no heap at all
  --beside FILE     the heap of another build, too, as a shared library; may be given several times
  --svg FILE        a picture of the times, too
  --record FILE     the recorded calls with their answers go to FILE, and nothing is measured: tests/c/recorded.c makes them
                    on another machine's library
  --instructions    instructions per call in place of times, by valgrind
  --count KIND      one replay of --candidate in which calls of KIND (take, return, resize) go through the function
                    `observed`; it prints nothing. So that this can be looked at under another program:
                      valgrind --tool=callgrind --collect-atstart=no '--toggle-collect=*observed*' PROGRAM --candidate firmheap --count take --calls 200000
                      perf record PROGRAM --candidate firmheap --count take";

/// What the command line asks for.
struct Wanted {
    profile: &'static Profile,
    seed: u64,
    calls: u64,
    runs: usize,
    candidate: Option<String>,
    beside: Vec<String>,
    svg: Option<String>,
    record: Option<String>,
    instructions: bool,
    count: Option<Kind>,
}

/// Does what the command line asks for with the candidates, made for an arena of so many bytes; the first is no heap at all.
pub fn run(candidates: impl Fn(usize) -> Vec<Box<dyn Replay>>) {
    let words: Vec<String> = env::args().skip(1).collect();
    let wanted = wanted(&words).unwrap_or_else(|why| {
        eprintln!("{why}\n{USAGE}");
        exit(2)
    });
    if let Err(why) = work(&wanted, candidates) {
        eprintln!("FAILED: {why}");
        exit(1);
    }
}

fn wanted(words: &[String]) -> Result<Wanted, String> {
    let instructions = words.iter().any(|word| word == "--instructions");
    let mut wanted = Wanted {
        profile: Profile::named("P5").expect("P5 is a profile"),
        seed: 1,
        calls: if instructions { 200_000 } else { 10_000_000 },
        runs: 5,
        candidate: None,
        beside: Vec::new(),
        svg: None,
        record: None,
        instructions,
        count: None,
    };
    let mut words = words.iter().filter(|word| *word != "--instructions");
    while let Some(option) = words.next() {
        let mut value = || words.next().ok_or_else(|| format!("{option} needs a value"));
        match option.as_str() {
            "--profile" => {
                let name = value()?;
                wanted.profile = Profile::named(name).ok_or_else(|| format!("no profile {name}"))?;
            }
            "--seed" => wanted.seed = number(value()?)?,
            "--calls" => wanted.calls = number(value()?)?.max(1),
            "--runs" => wanted.runs = number(value()?)?.max(1) as usize,
            "--candidate" => wanted.candidate = Some(value()?.clone()),
            "--beside" => wanted.beside.push(value()?.clone()),
            "--svg" => wanted.svg = Some(value()?.clone()),
            "--record" => wanted.record = Some(value()?.clone()),
            "--count" => {
                let name = value()?;
                let kind = Kind::ALL.into_iter().find(|kind| kind.name() == name);
                wanted.count = Some(kind.ok_or_else(|| format!("no kind of call is {name}"))?);
            }
            _ => return Err(format!("unknown option {option}")),
        }
    }
    Ok(wanted)
}

fn number(word: &str) -> Result<u64, String> {
    word.parse().map_err(|_| format!("{word} is no number"))
}

fn work(wanted: &Wanted, candidates: impl Fn(usize) -> Vec<Box<dyn Replay>>) -> Result<(), String> {
    let profile = wanted.profile;
    eprintln!("bench: recording {} calls of {}", wanted.calls, profile.name);
    let record = Record::of(profile, wanted.seed, wanted.calls)?;
    if let Some(file) = &wanted.record {
        return fs::write(file, record.bytes()).map_err(|why| format!("{file}: {why}"));
    }
    let mut candidates = candidates(record.arena);
    for file in &wanted.beside {
        candidates.push(Box::new(Candidate::new(Beside::open(file, record.arena)?)));
    }
    if let Some(name) = &wanted.candidate {
        let all: Vec<_> = candidates.iter().map(|candidate| candidate.name()).collect();
        if !all.contains(&name.as_str()) {
            return Err(format!("no candidate is {name}; there are: {}", all.join("; ")));
        }
        candidates.retain(|candidate| candidate.name() == name || wanted.count.is_none() && candidate.name() == all[0]);
    }
    if let Some(kind) = wanted.count {
        for candidate in &mut candidates {
            candidate.empty();
            candidate.replay_counted(&record, kind);
        }
        return Ok(());
    }
    println!(
        "{}, seed {}: {} calls of the rule, {} refused and left out; digest {:016x}",
        profile.name, wanted.seed, wanted.calls, record.refused, record.digest
    );
    if wanted.instructions {
        let (seed, calls) = (wanted.seed.to_string(), wanted.calls.to_string());
        let mut arguments = vec!["--profile", profile.name, "--seed", &seed, "--calls", &calls];
        arguments.extend(wanted.beside.iter().flat_map(|file| ["--beside", file]));
        print!("{}", instructions::count(&record, &candidates, &arguments)?);
        return Ok(());
    }
    let times = measure(&record, &mut candidates, wanted.runs)?;
    print!("{}", table(&times));
    if let Some(file) = &wanted.svg {
        let title = format!("{}, {} calls", profile.name, record.calls.len());
        fs::write(file, picture(&title, &times)).map_err(|why| format!("{file}: {why}"))?;
    }
    Ok(())
}
