//! damage SEED ROUNDS [--own] [--alone]: so many rounds of damage, and what they were answered.
//! damage SEED --round NUMBER [--own]: one of them again, with its calls and its damage.
//!
//! With --own each slice is an allocation of its own, in place of red zones around it: for valgrind. With --alone the rounds
//! are made in this process; else in another, so that this one can tell which round killed it.

use std::process::{Command, ExitCode};
use std::sync::atomic::{AtomicU64, Ordering};

use damage::calls::{make, make_and_tell};
use damage::round::{Rounds, Tally};
use damage::show::{grouped, tables};
use damage::slices::Rooms;
use damage::watch::{begins, end_where_stuck, watch};

const USAGE: &str = "usage: damage SEED ROUNDS [--own] [--alone] | damage SEED --round NUMBER [--own]";

struct Wanted {
    seed: u64,
    first: u64,
    rounds: u64,
    rooms: Rooms,
    /// One round is told call by call.
    one: bool,
    alone: bool,
    /// Another process waits for the number of each round.
    watched: bool,
}

fn main() -> ExitCode {
    let words: Vec<String> = std::env::args().skip(1).collect();
    let Some(wanted) = read(&words) else {
        eprintln!("{USAGE}");
        return ExitCode::from(2);
    };
    match wanted.alone {
        true => alone(&wanted),
        false => watched(&wanted),
    }
}

fn read(words: &[String]) -> Option<Wanted> {
    let mut wanted = Wanted {
        seed: 0,
        first: 0,
        rounds: 0,
        rooms: Rooms::Zoned,
        alone: false,
        one: false,
        watched: false,
    };
    let mut numbers = Vec::new();
    for word in words {
        match word.as_str() {
            "--own" => wanted.rooms = Rooms::Own,
            "--alone" => wanted.alone = true,
            "--watched" => wanted.watched = true,
            "--round" => wanted.one = true,
            number => numbers.push(number.replace(',', "").parse().ok()?),
        }
    }
    let [seed, number] = numbers[..] else {
        return None;
    };
    wanted.seed = seed;
    (wanted.first, wanted.rounds) = if wanted.one { (number, 1) } else { (0, number) };
    Some(wanted)
}

/// The rounds in a process of their own.
fn watched(wanted: &Wanted) -> ExitCode {
    let Ok(this) = std::env::current_exe() else {
        eprintln!("damage: the program does not know where it is; use --alone");
        return ExitCode::FAILURE;
    };
    let words = std::env::args().skip(1).chain(["--alone".into(), "--watched".into()]);
    match watch(Command::new(this).args(words), wanted.rounds) {
        (_, Ok(())) => ExitCode::SUCCESS,
        (Some(number), Err(why)) => {
            println!("FAILED: seed {}, round {number}: {why}", wanted.seed);
            again(wanted, number);
            ExitCode::FAILURE
        }
        (None, Err(why)) => {
            println!("FAILED: {why}");
            ExitCode::FAILURE
        }
    }
}

/// The rounds in this process.
fn alone(wanted: &Wanted) -> ExitCode {
    static ROUNDS: AtomicU64 = AtomicU64::new(0);
    end_where_stuck(&ROUNDS);
    let rounds = Rounds {
        seed: wanted.seed,
        rooms: wanted.rooms,
        make: if wanted.one { make_and_tell } else { make },
        told: wanted.one,
    };
    let mut tally = Tally::default();
    for number in wanted.first..wanted.first + wanted.rounds {
        if wanted.watched {
            begins(number);
        }
        ROUNDS.store(number, Ordering::Relaxed);
        if let Err(what) = rounds.round(number, &mut tally) {
            println!("FAILED: seed {}, round {number}: {what}", wanted.seed);
            if !wanted.watched {
                again(wanted, number);
            }
            return ExitCode::FAILURE;
        }
    }
    println!("{}", tables(&tally));
    println!(
        "seed {}, {} rounds: {} calls on damaged heaps and their sound twins, all as they must be",
        wanted.seed,
        grouped(wanted.rounds),
        grouped(tally.calls)
    );
    ExitCode::SUCCESS
}

fn again(wanted: &Wanted, number: u64) {
    let own = if wanted.rooms == Rooms::Own { " --own" } else { "" };
    println!(
        "again: cargo run --release -p damage -- {} --round {number}{own}",
        wanted.seed
    );
}
