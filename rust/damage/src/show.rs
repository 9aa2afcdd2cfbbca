//! What was counted, as tables.

use std::fmt::Write;

use crate::calls::NAMES;
use crate::round::{Answers, Tally};
use crate::strike::{TARGETS, WAYS};

/// A table for each call, by what was overwritten; and one for all calls, by how.
pub fn tables(tally: &Tally) -> String {
    let mut text = String::new();
    for (call, name) in NAMES.iter().enumerate() {
        let rows = TARGETS
            .iter()
            .zip(&tally.by_target)
            .map(|((_, target), answers)| (*target, answers[call]));
        table(&mut text, name, "by what was overwritten", &rows.collect::<Vec<_>>());
    }
    let rows = WAYS
        .iter()
        .zip(&tally.by_way)
        .map(|((_, way), answers)| (*way, *answers));
    table(
        &mut text,
        "all calls",
        "by what one word became",
        &rows.collect::<Vec<_>>(),
    );
    text
}

fn table(text: &mut String, name: &str, by: &str, rows: &[(&str, Answers)]) {
    let calls = rows.iter().map(|(_, answers)| answers.calls()).sum::<u64>();
    if calls == rows.iter().map(|(_, answers)| answers.same).sum::<u64>() {
        let _ = writeln!(
            text,
            "{name}: {} calls, all answered as on the sound heap",
            grouped(calls)
        );
        return;
    }
    let title = format!("{name}, {by}");
    let _ = writeln!(
        text,
        "\n{title:<36}{:>11}{:>11}{:>9}{:>9}{:>9}{:>9}{:>10}{:>9}{:>9}",
        "calls", "as sound", "1", "2", "3", "4", "5", "6", "other"
    );
    for (name, answers) in rows {
        let _ = write!(
            text,
            "  {name:<34}{:>11}{:>11}",
            grouped(answers.calls()),
            grouped(answers.same)
        );
        for (number, refused) in answers.refused.iter().enumerate() {
            let width = if number == 4 { 10 } else { 9 };
            let _ = write!(text, "{:>width$}", grouped(*refused));
        }
        let _ = writeln!(text, "{:>9}", grouped(answers.other));
    }
}

/// A number with a comma before every third digit.
pub fn grouped(number: u64) -> String {
    let digits = number.to_string();
    let mut text = String::new();
    for (place, digit) in digits.chars().enumerate() {
        if place > 0 && (digits.len() - place) % 3 == 0 {
            text.push(',');
        }
        text.push(digit);
    }
    text
}

#[cfg(test)]
mod tests {
    use super::*;

    #[test]
    fn numbers_in_groups() {
        let shown = [
            (0, "0"),
            (999, "999"),
            (1000, "1,000"),
            (65_536, "65,536"),
            (1_000_000, "1,000,000"),
        ];
        for (number, text) in shown {
            assert_eq!(grouped(number), text);
        }
    }

    #[test]
    fn every_count_has_its_column() {
        let mut tally = Tally::default();
        tally.by_target[1][3] = Answers {
            same: 1,
            other: 2,
            refused: [3, 4, 5, 6, 7, 8],
        };
        let text = tables(&tally);
        let row = text
            .lines()
            .skip_while(|line| !line.starts_with("take"))
            .nth(2)
            .unwrap();
        let words: Vec<&str> = row.split_whitespace().collect();
        assert_eq!(
            words,
            "size of a free block 36 1 3 4 5 6 7 8 2".split(' ').collect::<Vec<_>>()
        );
    }
}
