//! Makes the calls of the rule in `data/answers/RULE.md`, and prints their digests, to compare with `digests.txt` beside it.

use model::Lent;
use runs::calls::{empty_model, Calls};
use runs::compiled::Compiled;
use runs::digest::{follow, line};
use runs::rule::{Profile, Run, PROFILES};
use std::io::{self, BufWriter, Write};
use std::process::exit;

const USAGE: &str = "usage: digest PROFILE SEED CALLS [--state] [--model] [--full]
  PROFILE  P1 to P6, N2, N3 or N4: data/answers/RULE.md
  SEED     a number below 2^64
  CALLS    how many calls are made; a line after every 100,000, and after the last
  --state  with the digest of all blocks, and the number of live payloads
  --model  the calls are made on the model, and not on the compiled heap
  --full   the calls in place of digests, one to a line, as tools/replay reads them";

struct Wanted {
    profile: &'static Profile,
    seed: u64,
    calls: u64,
    state: bool,
    model: bool,
    full: bool,
}

fn main() {
    let words: Vec<String> = std::env::args().skip(1).collect();
    let wanted = wanted(&words).unwrap_or_else(|why| {
        eprintln!("digest: {why}\n{USAGE}");
        exit(2)
    });
    let lent = Lent::for_arena(wanted.profile.arena, wanted.profile.regions());
    let done = if wanted.model {
        print(&wanted, empty_model(lent.arena, wanted.profile.regions()))
    } else {
        print(&wanted, Compiled::new(lent).expect("the tables are long enough"))
    };
    if let Err(why) = done {
        eprintln!("digest: {why}");
        exit(1);
    }
}

fn wanted(words: &[String]) -> Result<Wanted, String> {
    let (flags, words): (Vec<&String>, Vec<&String>) = words.iter().partition(|word| word.starts_with("--"));
    if let Some(flag) = flags
        .iter()
        .find(|flag| !["--state", "--model", "--full"].contains(&flag.as_str()))
    {
        return Err(format!("unknown option {flag}"));
    }
    let [profile, seed, calls] = words[..] else {
        return Err(format!("three words are expected, and there are {}", words.len()));
    };
    let number = |word: &String| {
        word.parse::<u64>()
            .map_err(|_| format!("{word} is no number below 2^64"))
    };
    let names = || PROFILES.map(|profile| profile.name).join(", ");
    Ok(Wanted {
        profile: Profile::named(profile).ok_or_else(|| format!("no profile {profile}; there are {}", names()))?,
        seed: number(seed)?,
        calls: number(calls)?,
        state: flags.iter().any(|flag| *flag == "--state"),
        model: flags.iter().any(|flag| *flag == "--model"),
        full: flags.iter().any(|flag| *flag == "--full"),
    })
}

fn print(wanted: &Wanted, heap: impl Calls) -> Result<(), String> {
    let mut out = BufWriter::new(io::stdout().lock());
    let mut run = Run::new(heap, wanted.profile, wanted.seed);
    if wanted.full {
        while run.made() < wanted.calls {
            writeln!(out, "{}", run.step()?).map_err(|why| why.to_string())?;
        }
    } else {
        follow(&mut run, wanted.calls, |run, digest| {
            let line = line(run, digest, wanted.state)?;
            writeln!(out, "{line}")
                .and_then(|()| out.flush())
                .map_err(|why| why.to_string())
        })?;
    }
    out.flush().map_err(|why| why.to_string())
}
