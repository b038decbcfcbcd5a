//! Pictures and jobs for lists of warps: small, mostly within the chain conditions, often near a limit of them.

use super::{arguments, numbers};
use crate::Job;
use crate::Window;
use crate::chain::Lent;
use crate::codes::*;
use crate::random::Random;
use crate::refusal::OFFSET;

/// The longest side of a picture or window made here.
const LONGEST: u64 = 6;

const METHODS: [u64; 6] = [
    AFFINE,
    AFFINE_PROJECTION,
    PERSPECTIVE,
    PERSPECTIVE_PROJECTION,
    BILINEAR_REVERSE,
    POLYNOMIAL,
];

/// A sample from 0 to 1.
fn sample(r: &mut Random) -> f32 {
    match r.below(6) {
        0 => r.pick(&[0.0, 1.0]),
        1 => r.below(256) as f32 / 255.0,
        2 => r.pick(&[
            -0.0,
            f32::from_bits(1),
            f32::MIN_POSITIVE,
            1.0f32.next_down(),
            0.5f32.next_up(),
            1.0 / 3.0,
        ]),
        _ => r.unit() as f32,
    }
}

/// A first picture: 3 channels, or 4 with alpha 1.
pub fn first(r: &mut Random) -> Lent {
    let (width, height) = (1 + r.below(LONGEST), 1 + r.below(LONGEST));
    let channels = r.pick(&[3, 4]);
    // Black and white alone have the steepest edges.
    let steep = r.once_in(4);
    let mut samples = Vec::new();
    for _ in 0..width * height {
        for channel in 0..channels {
            samples.push(match channel {
                3 => 1.0,
                _ if steep => r.pick(&[0.0, 1.0]),
                _ => sample(r),
            });
        }
    }
    Lent {
        width,
        height,
        channels,
        samples,
    }
}

/// A job that is lent a picture, by one of the six methods, `Bilinear`; its sums are not tested here.
pub fn warp(r: &mut Random, lent: &Lent) -> Job {
    let mut job = lent.lend(Job::plain());
    job.method = r.pick(&METHODS);
    job.interpolation = interpolation::BILINEAR;
    let others = (0..POLICIES.len() as u64).filter(|p| *p != policy::TRANSPARENT);
    job.policy = r.pick(&others.collect::<Vec<_>>());
    job.background = [sample(r), sample(r), sample(r), 1.0];
    job.matte = numbers::colour(r, true);
    job.bestfit = r.once_in(4);
    if r.once_in(2) {
        job.viewport = Some(view(r, (0, 0)));
    }
    match r.below(6) {
        0 => far(r, &mut job),
        1 => horizon(r, &mut job),
        2 => arguments::fill(r, true, &mut job),
        _ => arguments::fill(r, false, &mut job),
    }
    job
}

fn view(r: &mut Random, about: (i64, i64)) -> Window {
    let mut near = |at: i64| (at + r.between(-8, 8)).clamp(-OFFSET, OFFSET);
    let (x, y) = (near(about.0), near(about.1));
    Window {
        width: 1 + r.below(LONGEST),
        height: 1 + r.below(LONGEST),
        x,
        y,
    }
}

/// Read far from the picture, or enlarged so much that the window is far away.
fn far(r: &mut Random, job: &mut Job) {
    if r.once_in(2) {
        job.method = AFFINE;
        let mut away = || r.real(-16_384.0, 16_384.0);
        job.args = vec![away(), away(), 0.0, 0.0];
        return;
    }
    job.method = AFFINE_PROJECTION;
    let scale = r.pick(&[64.0, 1e4, 65_536.0, 3e5]) * r.real(0.5, 1.5);
    let turn = r.real(-0.5, 0.5) * scale;
    job.args = vec![
        scale,
        turn,
        -turn,
        scale,
        r.real(-9.0, 9.0),
        r.real(-9.0, 9.0),
    ];
    let (u, v) = (
        r.real(-1.0, job.width as f64 + 1.0),
        r.real(-1.0, job.height as f64 + 1.0),
    );
    let about = ((scale * u - turn * v) as i64, (turn * u + scale * v) as i64);
    job.viewport = Some(view(r, about));
}

/// A perspective whose denominator comes close to 1/1,024 at a corner of the window.
fn horizon(r: &mut Random, job: &mut Job) {
    job.method = PERSPECTIVE_PROJECTION;
    let w = job.own_window();
    let (x, y) = (
        (w.x + w.width as i64) as f64 - 0.5,
        (w.y + w.height as i64) as f64 - 0.5,
    );
    let least = r.pick(&[1.0, 1.01, 2.0, 16.0, 200.0]) / 1_024.0;
    // 1 - g x - h y is `least` at that pixel.
    let share = r.pick(&[1.0, 0.0, 0.5]);
    let (g, h) = ((1.0 - least) * share / x, (1.0 - least) * (1.0 - share) / y);
    job.args = vec![1.0, 0.0, 0.0, 0.0, 1.0, 0.0, g, h];
    if r.once_in(2) {
        job.args[2] = r.real(-2.0, 2.0);
        job.args[5] = r.real(-2.0, 2.0);
    }
}
