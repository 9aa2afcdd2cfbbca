//! The times as a table.

use crate::measure::{median, ratio, Measured, Times};
use crate::record::Kind;

/// The candidates that others are compared with, where they were measured.
const COMPARED: [&str; 4] = ["rlsf", "glibc", "mimalloc", "trusting twin"];

const SHARES: [(f64, &str); 3] = [(0.5, "half"), (0.99, "99 %"), (0.999, "99.9 %")];

pub fn table(times: &Times) -> String {
    let measured = &times.measured;
    let compared: Vec<_> = COMPARED.iter().filter_map(|name| named(measured, name)).collect();
    let mut rows = vec![head(&compared)];
    for one in measured {
        let mut row = vec![one.name.to_string(), number(median(&one.all)), number(least(&one.all))];
        row.extend(compared.iter().map(|other| share(&one.all, &other.all)));
        for kind in Kind::ALL {
            row.push(number(median(&one.kinds[kind as usize])));
        }
        let spread = one.spread();
        row.extend(SHARES.map(|(share, _)| format!("{:.0}", spread.at_most(share) * times.tick)));
        rows.push(row);
    }
    let mut out = lined_up(&rows);
    out.push_str("\nratios by kind\n");
    let mut rows = vec![vec![String::new()]];
    for other in &compared {
        rows[0].extend(Kind::ALL.map(|kind| format!("{} / {}", kind.name(), other.name)));
    }
    for one in &measured[1.min(measured.len())..] {
        let mut row = vec![one.name.to_string()];
        for other in &compared {
            row.extend(Kind::ALL.map(|kind| share(&one.kinds[kind as usize], &other.kinds[kind as usize])));
        }
        rows.push(row);
    }
    out.push_str(&lined_up(&rows));
    out
}

fn head(compared: &[&Measured]) -> Vec<String> {
    let mut head = vec!["ns per call".to_string(), "median".into(), "least".into()];
    head.extend(compared.iter().map(|other| format!("/ {}", other.name)));
    head.extend(Kind::ALL.map(|kind| kind.name().to_string()));
    head.extend(SHARES.map(|(_, name)| name.to_string()));
    head
}

fn named<'a>(measured: &'a [Measured], name: &str) -> Option<&'a Measured> {
    measured.iter().find(|one| one.name == name)
}

fn number(number: f64) -> String {
    format!("{number:.1}")
}

fn least(numbers: &[f64]) -> f64 {
    numbers.iter().copied().fold(f64::INFINITY, f64::min)
}

fn share(one: &[f64], other: &[f64]) -> String {
    format!("{:.2}", ratio(one, other))
}

/// Columns under each other, the first to the left and the others to the right.
pub fn lined_up(rows: &[Vec<String>]) -> String {
    let columns = rows.iter().map(Vec::len).max().unwrap_or(0);
    let width = |column: usize| rows.iter().filter_map(|row| row.get(column)).map(String::len).max();
    let widths: Vec<_> = (0..columns).map(|column| width(column).unwrap_or(0)).collect();
    let mut out = String::new();
    for row in rows {
        let cells = row.iter().zip(&widths).enumerate();
        let cells: Vec<_> = cells
            .map(|(column, (cell, &width))| match column {
                0 => format!("{cell:<width$}"),
                _ => format!("{cell:>width$}"),
            })
            .collect();
        out.push_str(cells.join("  ").trim_end());
        out.push('\n');
    }
    out
}
