//! Pictures: sizes from 1 by 1 up to the limit of one side, 1, 3 or 4 channels, tame and wild samples, and the two
//! colours beside them.

use super::numbers::{alpha, colour, sample};
use crate::Job;
use crate::random::Random;
use crate::refusal::SIDE;

pub fn fill(r: &mut Random, wild: bool, job: &mut Job) {
    (job.width, job.height) = size(r, wild);
    job.channels = r.pick(&[1, 3, 4]);
    job.samples = samples(r, wild, job);
    job.background = colour(r, wild);
    if r.once_in(4) {
        job.background[3] = r.pick(&[0.0, 0.5, 1.0f32.next_down()]);
    }
    job.matte = colour(r, wild);
}

fn size(r: &mut Random, wild: bool) -> (u64, u64) {
    match r.below(if wild { 24 } else { 8 }) {
        0 => (1 + r.below(64), 1 + r.below(64)),
        1 => (1, 1),
        2 => (1 + r.below(3), 1 + r.below(3)),
        // The two limits; few, since they are slow.
        8 => (SIDE - r.below(2), 1 + r.below(2)),
        9 => (1 + r.below(2), SIDE - r.below(2)),
        _ => (1 + r.below(12), 1 + r.below(12)),
    }
}

fn samples(r: &mut Random, wild: bool, job: &Job) -> Vec<f32> {
    let pixels = job.width * job.height;
    let flat = wild && r.once_in(12);
    let clear = wild && r.once_in(8);
    let constant = sample(r);
    let mut samples = Vec::new();
    for _ in 0..pixels {
        for c in 0..job.channels {
            samples.push(match (c, wild) {
                (3, true) if clear => 0.0,
                (3, true) => alpha(r),
                (3, false) => tame_alpha(r),
                (_, true) if flat => constant,
                (_, true) => sample(r),
                (_, false) => r.below(65_536) as f32 / 65_535.0,
            });
        }
    }
    samples
}

fn tame_alpha(r: &mut Random) -> f32 {
    r.pick(&[1.0, 1.0, 1.0, 0.0, 0.5])
}
