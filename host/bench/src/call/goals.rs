//! The goals for the call's speed, and whether the rows that were measured meet them.

use super::measure::Times;
use super::memory::Memory;
use super::rows::{EDGE, Row, Shape};
use differential::codes;
use differential::codes::interpolation::{BILINEAR, CATROM, INTEGER, NEAREST, SPLINE};

/// What another library's perspective takes a pixel, and how much more may be taken here.
pub const OPENCV: f64 = 12.0;
const WITHIN: f64 = 1.5;

/// A band may take this much more than its share and the test, for the clock's sake.
const SLACK: f64 = 1.05;

type Measured = [(Row, Times)];

/// Whether a row is `Perspective` by one of some interpolations on a large picture under `Edge`.
fn named(row: &Row, interpolations: &[u64]) -> bool {
    let plain = row.shape.large() && row.policy == EDGE && row.method == codes::PERSPECTIVE;
    plain && interpolations.contains(&row.interpolation)
}

/// What most people ask for.
fn common(row: &Row) -> bool {
    named(row, &[BILINEAR]) && row.shape.channels == 3
}

/// Prints every goal with `met`, `not met` or `not measured`.
pub fn print(rows: &Measured, memories: &[(Shape, Memory)], opencv: f64) {
    println!("\nGoals, times as fast as the reference where nothing else is said:\n");
    least("Perspective, Bilinear, 3 channels: 4", 4.0, rows, &common);
    let near = |row: &Row| named(row, &[INTEGER, NEAREST]);
    least("Perspective, Integer and Nearest: 4", 4.0, rows, &near);
    let cubic = |row: &Row| named(row, &[CATROM, SPLINE]);
    least("Perspective, Catrom and Spline: 5", 5.0, rows, &cubic);
    least("every row: 1", 1.0, rows, &|_| true);
    samples(memories);
    bands(rows);
    let limit = WITHIN * opencv;
    let found = rows.iter().find(|(row, _)| common(row));
    let found = found.map(|(_, t)| (t.whole <= limit, format!("{:.1} ns", t.whole)));
    let goal = format!(
        "Perspective, Bilinear, 3 channels: {limit:.1} ns a pixel, {WITHIN} times {opencv:.1}"
    );
    say(&goal, found);
}

fn say(goal: &str, found: Option<(bool, String)>) {
    match found {
        None => println!("- not measured: {goal}"),
        Some((true, words)) => println!("- met: {goal}: {words}"),
        Some((false, words)) => println!("- not met: {goal}: {words}"),
    }
}

/// The goal that every row of some has at least a ratio; the lowest is told.
fn least(goal: &str, wanted: f64, rows: &Measured, of: &dyn Fn(&Row) -> bool) {
    let some = rows.iter().filter(|(row, _)| of(row));
    let lowest = some.min_by(|a, b| a.1.ratio().total_cmp(&b.1.ratio()));
    let words = |row: &Row, t: &Times| format!("{:.2} ({})", t.ratio(), row.words().join(" "));
    say(
        goal,
        lowest.map(|(row, t)| (t.ratio() >= wanted, words(row, t))),
    );
}

fn samples(memories: &[(Shape, Memory)]) {
    let share = |m: &Memory| m.copy / m.test;
    let large = memories.iter().filter(|(shape, _)| shape.large());
    let lowest = large.min_by(|a, b| share(&a.1).total_cmp(&share(&b.1)));
    let words =
        |shape: &Shape, m: &Memory| format!("{:.2} ({} {})", share(m), shape.size(), shape.kind());
    let found = lowest.map(|(shape, m)| (share(m) >= 0.5, words(shape, m)));
    say("the test of all samples: half of a copy's speed", found);
}

/// A row's bands against their share of the whole and one test of all samples for each.
fn bands(rows: &Measured) {
    let highest = rows.iter().max_by(|a, b| a.1.more().total_cmp(&b.1.more()));
    let words =
        |row: &Row, t: &Times| format!("{:.2} of that ({})", t.more(), row.words().join(" "));
    say(
        "a band of 16 rows: its share and the test of all samples",
        highest.map(|(row, t)| (t.more() <= SLACK, words(row, t))),
    );
}
