//! Instructions per call, counted by callgrind. For each candidate and kind this program is run again under it, and only calls
//! of that kind are counted; those of no heap at all, which are the replay's, are subtracted.

use crate::candidate::Replay;
use crate::record::{Kind, Record};
use crate::table::lined_up;
use std::process::{Command, Stdio};
use std::{env, fs, process};

pub fn count(record: &Record, candidates: &[Box<dyn Replay>], arguments: &[&str]) -> Result<String, String> {
    let mut head = vec!["instructions per call".to_string()];
    head.extend(Kind::ALL.map(|kind| kind.name().to_string()));
    head.push("all".into());
    let mut rows = vec![head];
    let mut loops = [0.0; 3];
    for (number, candidate) in candidates.iter().enumerate() {
        let mut row = vec![candidate.name().to_string()];
        let mut sum = 0.0;
        for kind in Kind::ALL {
            eprintln!("bench: {}: counting {}", candidate.name(), kind.name());
            let calls = record.count(kind) as f64;
            let each = counted(candidate.name(), kind, arguments)? as f64 / calls.max(1.0);
            if number == 0 {
                loops[kind as usize] = each;
            }
            let own = each - loops[kind as usize];
            sum += own * calls;
            row.push(format!("{own:.1}"));
        }
        row.push(format!("{:.1}", sum / record.calls.len().max(1) as f64));
        rows.push(row);
    }
    Ok(lined_up(&rows))
}

/// The instructions of all calls of a kind.
fn counted(candidate: &str, kind: Kind, arguments: &[&str]) -> Result<u64, String> {
    let own = env::current_exe().map_err(|why| why.to_string())?;
    let file = env::temp_dir().join(format!("bench-callgrind-{}", process::id()));
    let status = Command::new("valgrind")
        .args([
            "--tool=callgrind",
            "--collect-atstart=no",
            "--toggle-collect=*observed*",
        ])
        .arg(format!("--callgrind-out-file={}", file.display()))
        .arg(own)
        .args(["--candidate", candidate, "--count", kind.name()])
        .args(arguments)
        .stdout(Stdio::null())
        .stderr(Stdio::null())
        .status();
    let status = status.map_err(|why| format!("valgrind can't be run: {why}"))?;
    let profile = fs::read_to_string(&file).map_err(|why| format!("{}: {why}", file.display()))?;
    let _ = fs::remove_file(&file);
    if !status.success() {
        return Err(format!("valgrind ended with {status}"));
    }
    let total = profile.lines().find_map(|line| line.strip_prefix("totals: "));
    let total = total.ok_or("callgrind wrote no totals")?;
    total
        .trim()
        .parse()
        .map_err(|_| format!("callgrind's totals are {total}"))
}
