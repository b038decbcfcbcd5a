//! Pairs u, v, x, y: the picture's corners moved a little; and the shapes that fits break on.

use super::numbers::{argument, every_exponent};
use crate::Job;
use crate::random::Random;
use crate::refusal::ARGUMENT;

pub type Pair = [f64; 4];

/// `count` pairs spread over the picture and moved by up to a few pixels.
pub fn tame(r: &mut Random, job: &Job, count: usize) -> Vec<Pair> {
    let (w, h) = (job.width as f64, job.height as f64);
    let corners = [(0.0, 0.0), (w, 0.0), (w, h), (0.0, h)];
    let step = r.pick(&[1.0, 4.0, 64.0, 1e6]);
    let mut moved = |x: f64, by: f64| ((x + r.real(-by, by)) * step).round() / step;
    let mut pairs = Vec::new();
    for k in 0..count {
        let (u, v) = match corners.get(k) {
            Some(&corner) => corner,
            None => (moved(w / 2.0, w), moved(h / 2.0, h)),
        };
        pairs.push([u, v, moved(u, w / 4.0), moved(v, h / 4.0)]);
    }
    pairs
}

/// `count` pairs of one wild shape.
pub fn wild(r: &mut Random, job: &Job, count: usize) -> Vec<Pair> {
    let shape = r.below(11);
    let scale = r.pick(&[1e-300, 1e-12, 1e-6, 1e-3, 1.0, 1e3, 1e5]);
    let noise = r.pick(&[0.0, 1e-15, 1e-12, 1e-9, 1e-7, 1e-6, 1e-4]);
    let (dx, dy) = (r.between(-3, 3) as f64, r.between(-3, 3) as f64);
    let mut pairs: Vec<Pair> = (0..count)
        .map(|k| match shape {
            0 => [(); 4].map(|()| r.between(-4, 4) as f64),
            1 => tame(r, job, 5)[4],
            // On one line, all but some noise.
            2 | 3 => {
                let t = r.between(-6, 6) as f64;
                let off = noise * r.real(-1.0, 1.0);
                [r.real(-9.0, 9.0), t, 1.0 + dx * t, 2.0 + dy * t + off]
            }
            4 => [(); 4].map(|()| argument(r)),
            5 => [(); 4].map(|()| scale * r.between(-9, 9) as f64),
            6 => [(); 4].map(|()| r.real(-ARGUMENT, ARGUMENT)),
            7 => [(); 4].map(|()| every_exponent(r, -1074, 20)),
            // Columns 0 and 1 alone: two sums of the normal equations are equal, so pivots tie. The fit is exact but
            // for its roundings, so source points fall on the borders of cells.
            8 => {
                let (x, y) = (r.below(2) as f64, r.between(-10, 10) as f64 / 10.0);
                [x + dx, y + dy, x, y]
            }
            // A grid, at pixel centres: what a polynomial needs, and where Shepards meets its pairs.
            _ => {
                let (x, y) = ((k % 8) as f64 + 0.5, (k / 8) as f64 + 0.5);
                [x + r.real(-1.0, 1.0), y + r.real(-1.0, 1.0), x, y]
            }
        })
        .collect();
    spoil(r, &mut pairs);
    pairs
}

/// Repeats pairs, moves them a hair, or shares their output points; or leaves them.
fn spoil(r: &mut Random, pairs: &mut [Pair]) {
    let n = pairs.len() as u64;
    match r.below(8) {
        0 => {
            let (from, to) = (r.below(n) as usize, r.below(n) as usize);
            pairs[to] = pairs[from];
        }
        1 => {
            let first = pairs[0];
            pairs.iter_mut().for_each(|p| *p = first);
        }
        2 => {
            let first = pairs[0];
            for p in pairs.iter_mut().filter(|_| r.once_in(2)) {
                (p[2], p[3]) = (first[2], first[3]);
            }
        }
        3 => {
            let hair = r.pick(&[1e-7, 9e-7, 1e-6, 1.1e-6, 1e-5]);
            let k = r.below(n) as usize;
            pairs[k][2] = (pairs[k][2] + hair).clamp(-ARGUMENT, ARGUMENT);
        }
        _ => (),
    }
}
