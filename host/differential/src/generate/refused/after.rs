//! Refusals 8 to 11: the fit, the window, the rows and the band.

use super::Finder;
use crate::codes::*;
use crate::random::Random;
use crate::refusal::{OFFSET, SIDE};
use crate::{Job, Window};

/// A fit that has no solution, or hardly one.
pub(super) fn degenerate(r: &mut Random, job: &mut Job) {
    let hair = r.pick(&[0.0, 0.0, 1e-13, 1e-7]);
    match job.method {
        AFFINE_PROJECTION => job.args = vec![1.0, 2.0, 2.0, 4.0 + hair, 0.0, 0.0],
        PERSPECTIVE_PROJECTION => job.args = vec![1.0, 0.0, 0.0, 1.0, 0.0, hair, 0.0, 0.0],
        BARREL | BARREL_INVERSE => (),
        _ => {
            let order = usize::from(job.method == POLYNOMIAL);
            let line = r.once_in(2);
            for (k, pair) in job.args[order..].chunks_exact_mut(4).enumerate() {
                let t = if line { k as f64 } else { 0.0 };
                pair.copy_from_slice(&[t, t, t, t]);
                pair[k % 4] += hair;
            }
        }
    }
}

pub(super) fn viewport(r: &mut Random, job: &mut Job) {
    if r.once_in(3) && [AFFINE, AFFINE_PROJECTION].contains(&job.method) {
        // Bestfit's window is the picture's, larger by a factor: about the limit, far beyond it, and far away.
        (job.bestfit, job.viewport) = (true, None);
        let limit = SIDE as f64 / job.width as f64;
        let factor = r.pick(&[1.0, limit, limit - 2.0, 1e-5, 1e6]);
        let away = r.pick(&[0.0, OFFSET as f64, -OFFSET as f64]);
        job.method = AFFINE_PROJECTION;
        job.args = vec![factor, 0.0, 0.0, 1.0, away, 0.0];
        return;
    }
    let mut w = Window {
        width: 3,
        height: 2,
        x: 0,
        y: 0,
    };
    let side = r.pick(&[0, SIDE, SIDE + 1, u64::MAX, 1 << 32]);
    let limits = [OFFSET, OFFSET + 1, -OFFSET, -OFFSET - 1, i64::MAX, i64::MIN];
    match r.below(4) {
        0 => w.width = side,
        1 => w.height = side,
        2 => w.x = r.pick(&limits),
        _ => w.y = r.pick(&limits),
    }
    job.viewport = Some(w);
    if w.width <= SIDE && w.height <= SIDE {
        job.first_row = 0;
        job.rows = w.height;
        job.band = (w.width * w.height * job.out_channels() * 4) as usize;
    }
}

pub(super) fn rows(r: &mut Random, job: &mut Job, window: Finder) {
    let height = window(job).unwrap_or(job.own_window()).height;
    (job.first_row, job.rows) = r.pick(&[
        (height, 0),
        (height.saturating_add(1), 0),
        (0, height.saturating_add(1)),
        (1, height),
        (height, 1),
        (u64::MAX, 1),
        (1, u64::MAX),
        (u64::MAX, u64::MAX),
        (1 << 32, 0),
    ]);
    if job.rows == 0 {
        job.band = 0;
    }
}

pub(super) fn band(r: &mut Random, job: &mut Job) {
    job.band = match r.below(5) {
        0 => 0,
        1 => job.band + r.pick(&[1, 2, 3, 4]),
        2 => job.band.saturating_sub(r.pick(&[1, 2, 3, 4])),
        3 => job.band * 4,
        _ => job.band / 4,
    };
}
