//! Rounds in a process of their own. It says which round it begins, so that where it is killed, as by a write far outside the
//! slices, it is known in which; and where a round does not end, it ends itself.

use std::io::{BufRead, BufReader, Write};
use std::os::unix::process::ExitStatusExt;
use std::process::{Command, Stdio};
use std::sync::atomic::{AtomicU64, Ordering};
use std::time::{Duration, Instant};

use crate::show::grouped;

/// What the process writes before the number of a round that it begins.
const AT: &str = "at ";

/// How long a round may take, under valgrind too, and how often this is looked at.
const TOO_LONG: Duration = Duration::from_secs(120);
const LOOKED: Duration = Duration::from_secs(5);

/// Says that a round begins.
pub fn begins(round: u64) {
    let _ = std::io::stdout().write_all(format!("{AT}{round}\n").as_bytes());
}

/// Ends the process where the round that it is at stays the same for too long.
pub fn end_where_stuck(rounds: &'static AtomicU64) {
    std::thread::spawn(move || {
        let (mut last, mut since) = (rounds.load(Ordering::Relaxed), Instant::now());
        loop {
            std::thread::sleep(LOOKED);
            let now = rounds.load(Ordering::Relaxed);
            if now != last {
                (last, since) = (now, Instant::now());
            } else if since.elapsed() > TOO_LONG {
                println!("FAILED: round {now} did not end in {} seconds", TOO_LONG.as_secs());
                std::process::exit(1);
            }
        }
    });
}

/// Runs the process, passes on what it writes, and says how far it is. Answers the round that it began last, and how it ended:
/// well, or not, and why.
pub fn watch(process: &mut Command, rounds: u64) -> (Option<u64>, Result<(), String>) {
    let mut child = match process.stdin(Stdio::null()).stdout(Stdio::piped()).spawn() {
        Ok(child) => child,
        Err(why) => return (None, Err(format!("the rounds can't be begun: {why}"))),
    };
    let (mut round, start, mut shown) = (None, Instant::now(), Instant::now());
    for line in child
        .stdout
        .take()
        .map(BufReader::new)
        .into_iter()
        .flat_map(BufRead::lines)
        .map_while(Result::ok)
    {
        match line.strip_prefix(AT).and_then(|number| number.parse().ok()) {
            Some(number) => round = Some(number),
            None => println!("{line}"),
        }
        if shown.elapsed() > Duration::from_secs(10) {
            shown = Instant::now();
            let done = round.unwrap_or(0);
            eprintln!(
                "damage: {} of {} rounds, {} s",
                grouped(done),
                grouped(rounds),
                start.elapsed().as_secs()
            );
        }
    }
    let ended = match child.wait() {
        Err(why) => Err(format!("nobody knows how it ended: {why}")),
        Ok(status) if status.success() => Ok(()),
        Ok(status) => Err(match status.signal() {
            Some(signal) => format!("it was killed by signal {signal}"),
            None => format!("{status}"),
        }),
    };
    (round, ended)
}

#[cfg(test)]
mod tests {
    use super::*;

    fn shell(words: &str) -> (Option<u64>, Result<(), String>) {
        watch(Command::new("sh").args(["-c", words]), 10)
    }

    #[test]
    fn a_process_that_ends_well() {
        assert_eq!(shell("echo at 1; echo at 9"), (Some(9), Ok(())));
    }

    #[test]
    fn a_process_that_is_killed() {
        assert_eq!(
            shell("echo at 7; kill -11 $$"),
            (Some(7), Err("it was killed by signal 11".into()))
        );
    }

    #[test]
    fn a_process_that_fails() {
        assert_eq!(shell("echo at 3; exit 4"), (Some(3), Err("exit status: 4".into())));
    }
}
