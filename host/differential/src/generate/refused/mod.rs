//! Jobs at the limits of each row of the refusal table, on both sides of them; often of two rows at once, so that
//! the order of the rows shows.

mod after;
mod before;

use super::{Finder, with_method};
use crate::Job;
use crate::codes::{self, *};
use crate::random::Random;

/// The rows of the table.
pub const ROWS: u64 = 11;

pub fn job(r: &mut Random, window: Finder) -> Job {
    let row = 1 + r.below(ROWS);
    let other = 1 + r.below(ROWS);
    let method = match row {
        6 => POLYNOMIAL,
        7 => r.pick(&[PERSPECTIVE, BILINEAR_FORWARD, BILINEAR_REVERSE, POLYNOMIAL]),
        _ => r.pick(&codes::PRESENT),
    };
    let wild = r.once_in(2);
    let mut job = with_method(r, wild, method, window);
    // The later row first: its edit reads the job as it was.
    if r.once_in(2) {
        edit(r, row.max(other), &mut job, window);
        edit(r, row.min(other), &mut job, window);
    } else {
        edit(r, row, &mut job, window);
    }
    job
}

fn edit(r: &mut Random, row: u64, job: &mut Job, window: Finder) {
    match row {
        1 => before::size(r, job),
        2 => before::length(r, job),
        3 => before::code(r, job),
        4 => before::count(r, job),
        5 => before::number(r, job),
        6 => before::order(r, job),
        7 => before::few(r, job),
        8 => after::degenerate(r, job),
        9 => after::viewport(r, job),
        10 => after::rows(r, job, window),
        _ => after::band(r, job),
    }
}
