//! The output's window and the rows of it that are asked for.

use super::LIGHT;
use crate::random::Random;
use crate::refusal::{OFFSET, SIDE};
use crate::{Job, Window};

/// A viewport, bestfit, both or neither.
pub fn choose(r: &mut Random, wild: bool, job: &mut Job) {
    job.bestfit = r.once_in(3);
    if r.once_in(2) {
        return;
    }
    let (width, height) = match r.below(if wild { 24 } else { 12 }) {
        12 => (SIDE - r.below(2), 1 + r.below(2)),
        13 => (1 + r.below(2), SIDE - r.below(2)),
        _ => (1 + r.below(12), 1 + r.below(12)),
    };
    let far = wild && r.once_in(4);
    let mut offset = |side: u64| match far {
        true => r.pick(&[OFFSET, -OFFSET, OFFSET - 7, 40_000, -1_000]),
        false => r.between(-(side as i64) - 4, side as i64 + 4),
    };
    job.viewport = Some(Window {
        width,
        height,
        x: offset(job.width),
        y: offset(job.height),
    });
}

/// All rows, some of them, one, or none; and the band for them. A window that is too large for a quick run is given
/// up for the picture's own.
pub fn choose_rows(r: &mut Random, mut job: Job, window: &dyn Fn(&Job) -> Option<Window>) -> Job {
    let mut w = window(&job).unwrap_or(job.own_window());
    let fits = |side: u64| (1..=SIDE).contains(&side);
    if fits(w.width) && fits(w.height) && w.width * w.height > LIGHT {
        job.bestfit = false;
        w = job.own_window();
    }
    let height = w.height.min(SIDE);
    w.width = w.width.min(SIDE);
    let (first, rows) = match r.below(5) {
        0 => {
            let first = r.below(height + 1);
            (first, r.below(height - first + 1))
        }
        1 => {
            let first = r.below(height);
            (first, 1)
        }
        2 if r.once_in(4) => (r.below(height + 1), 0),
        _ => (0, height),
    };
    // Where bestfit's window is refused, a band of its size could not be lent.
    let rows = if w.width * rows > LIGHT { 1 } else { rows };
    job.with_rows(w, first, rows)
}
