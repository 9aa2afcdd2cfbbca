//! The times as a picture: a bar for each candidate's median, and how many single calls took how long.

use crate::measure::{median, Measured, Times};
use std::fmt::Write;

const WIDTH: f64 = 900.0;
const BAR: f64 = 26.0;
const LEFT: f64 = 160.0;
const RIGHT: f64 = 60.0;
const CURVES: f64 = 320.0;

/// The range of single calls that is shown, in nanoseconds.
const SHOWN: (f64, f64) = (4.0, 20_000.0);

const COLOURS: [&str; 8] = [
    "#888888", "#1f5fa8", "#6fa8dc", "#2e8b57", "#c0392b", "#e08a1e", "#8e5aa8", "#444444",
];

pub fn picture(title: &str, times: &Times) -> String {
    let bars = times.measured.len() as f64 * BAR;
    let height = 60.0 + bars + 70.0 + CURVES + 60.0;
    let mut out = format!(
        "<svg xmlns=\"http://www.w3.org/2000/svg\" width=\"{WIDTH}\" height=\"{height}\" font-family=\"sans-serif\" \
         font-size=\"12\">\n<rect width=\"{WIDTH}\" height=\"{height}\" fill=\"white\"/>\n"
    );
    text(
        &mut out,
        20.0,
        26.0,
        "start",
        &format!("{title}: ns per call, median; least and largest run"),
    );
    draw_bars(&mut out, 44.0, &times.measured);
    let top = 44.0 + bars + 50.0;
    text(
        &mut out,
        20.0,
        top - 16.0,
        "start",
        "Single calls: share of the calls that took so many ns, clock included (log scale)",
    );
    draw_curves(&mut out, top, times);
    out.push_str("</svg>\n");
    out
}

fn colour(number: usize) -> &'static str {
    COLOURS[number % COLOURS.len()]
}

fn text(out: &mut String, x: f64, y: f64, anchor: &str, words: &str) {
    let words = words.replace('&', "&amp;").replace('<', "&lt;");
    let _ = writeln!(
        out,
        "<text x=\"{x:.1}\" y=\"{y:.1}\" text-anchor=\"{anchor}\">{words}</text>"
    );
}

fn draw_bars(out: &mut String, top: f64, measured: &[Measured]) {
    let all = measured.iter().flat_map(|one| one.all.iter().copied());
    let most = all.fold(1.0, f64::max);
    let scale = (WIDTH - LEFT - RIGHT) / most;
    for (number, one) in measured.iter().enumerate() {
        let y = top + number as f64 * BAR;
        let middle = median(&one.all);
        let least = one.all.iter().copied().fold(f64::INFINITY, f64::min);
        let largest = one.all.iter().copied().fold(0.0, f64::max);
        text(out, LEFT - 10.0, y + 15.0, "end", one.name);
        let _ = writeln!(
            out,
            "<rect x=\"{LEFT}\" y=\"{y:.1}\" width=\"{:.1}\" height=\"20\" fill=\"{}\"/>\n\
             <path d=\"M {:.1} {:.1} H {:.1}\" stroke=\"black\"/>",
            middle * scale,
            colour(number),
            LEFT + least * scale,
            y + 10.0,
            LEFT + largest * scale,
        );
        text(
            out,
            LEFT + largest * scale + 6.0,
            y + 15.0,
            "start",
            &format!("{middle:.1}"),
        );
    }
}

fn draw_curves(out: &mut String, top: f64, times: &Times) {
    let (from, to) = SHOWN;
    let x_of = |ns: f64| LEFT + (ns / from).log2() / (to / from).log2() * (WIDTH - LEFT - RIGHT);
    let curves: Vec<Vec<(f64, f64)>> = times.measured.iter().map(|one| curve(one, times.tick)).collect();
    let most = curves.iter().flatten().map(|point| point.1).fold(0.0, f64::max);
    let y_of = |density: f64| top + CURVES * (1.0 - density / most.max(f64::MIN_POSITIVE));

    let _ = writeln!(
        out,
        "<path d=\"M {LEFT} {:.1} H {:.1}\" stroke=\"black\"/>",
        top + CURVES,
        WIDTH - RIGHT
    );
    for mark in [
        5.0, 10.0, 20.0, 50.0, 100.0, 200.0, 500.0, 1000.0, 2000.0, 5000.0, 10_000.0, 20_000.0,
    ] {
        let x = x_of(mark);
        let _ = writeln!(
            out,
            "<path d=\"M {x:.1} {top:.1} V {:.1}\" stroke=\"#dddddd\"/>",
            top + CURVES
        );
        text(out, x, top + CURVES + 16.0, "middle", &format!("{mark}"));
    }
    for (number, (one, curve)) in times.measured.iter().zip(&curves).enumerate() {
        let points = curve.iter().filter(|point| from <= point.0 && point.0 <= to);
        let points: Vec<_> = points
            .map(|&(ns, density)| format!("{:.1},{:.1}", x_of(ns), y_of(density)))
            .collect();
        let _ = writeln!(
            out,
            "<polyline points=\"{}\" fill=\"none\" stroke=\"{}\" stroke-width=\"1.6\"/>",
            points.join(" "),
            colour(number)
        );
        let y = top + 14.0 + number as f64 * 16.0;
        let _ = writeln!(
            out,
            "<rect x=\"{:.1}\" y=\"{:.1}\" width=\"10\" height=\"10\" fill=\"{}\"/>",
            WIDTH - RIGHT - 140.0,
            y - 9.0,
            colour(number)
        );
        text(out, WIDTH - RIGHT - 124.0, y, "start", one.name);
    }
}

/// For each bucket its middle in nanoseconds, and the share of the calls in it for each doubling of the time.
fn curve(one: &Measured, tick: f64) -> Vec<(f64, f64)> {
    let spread = one.spread();
    let buckets = spread.shares().filter(|&(start, ..)| start > 0);
    buckets
        .map(|(start, end, share)| {
            let (start, end) = (start as f64, end as f64);
            ((start * end).sqrt() * tick, share / (end / start).log2())
        })
        .collect()
}
