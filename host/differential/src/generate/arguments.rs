//! The arguments of each method, counted as refusals 4, 6 and 7 ask for.

use super::numbers::argument;
use super::pairs;
use crate::Job;
use crate::codes::*;
use crate::random::Random;
use crate::refusal::{ARGUMENTS, PAIRS, terms};

/// The orders of a polynomial that there are.
pub const ORDERS: [f64; 6] = [1.0, 1.5, 2.0, 3.0, 4.0, 5.0];

pub fn fill(r: &mut Random, wild: bool, job: &mut Job) {
    job.args = match job.method {
        AFFINE_PROJECTION => affine_projection(r, wild),
        PERSPECTIVE_PROJECTION => perspective_projection(r, wild),
        BARREL | BARREL_INVERSE => barrel(r, wild, job),
        POLYNOMIAL => polynomial(r, wild, job),
        PERSPECTIVE | BILINEAR_FORWARD | BILINEAR_REVERSE => points(r, wild, job, 4),
        _ => points(r, wild, job, 1),
    };
}

/// At least `least` pairs: often just that many, or one more, or as many as there may be.
fn points(r: &mut Random, wild: bool, job: &Job, least: usize) -> Vec<f64> {
    let count = match r.below(6) {
        0 | 1 => least,
        2 => least + 1,
        3 => least + r.below(4) as usize,
        4 => PAIRS,
        _ => least + r.below((PAIRS + 1 - least) as u64) as usize,
    };
    let count = count.min(PAIRS);
    let pairs = if wild {
        pairs::wild(r, job, count)
    } else {
        pairs::tame(r, job, count)
    };
    pairs.concat()
}

fn polynomial(r: &mut Random, wild: bool, job: &Job) -> Vec<f64> {
    let order = r.pick(&ORDERS);
    let mut args = vec![order];
    args.extend(points(r, wild, job, terms(order)));
    args
}

fn affine_projection(r: &mut Random, wild: bool) -> Vec<f64> {
    if !wild {
        let (a, b) = (r.real(0.5, 2.0), r.real(-0.5, 0.5));
        return vec![a, b, -b, a, r.real(-4.0, 4.0), r.real(-4.0, 4.0)];
    }
    let mut args: Vec<f64> = (0..6).map(|_| argument(r)).collect();
    if r.once_in(3) {
        // Singular, all but a hair about the limit.
        let k = r.between(-3, 3) as f64;
        let hair = r.pick(&[0.0, 9e-13, 1e-12, 1.1e-12, 1e-9]);
        (args[0], args[1]) = (r.between(1, 3) as f64, r.between(-3, 3) as f64);
        (args[2], args[3]) = (k * args[0], k * args[1] + hair / args[0]);
    }
    args
}

fn perspective_projection(r: &mut Random, wild: bool) -> Vec<f64> {
    if wild && r.once_in(3) {
        return (0..8).map(|_| argument(r)).collect();
    }
    let tilt = if wild { 0.2 } else { 0.02 };
    let mut args = vec![
        r.real(0.5, 2.0),
        r.real(-0.5, 0.5),
        r.real(-4.0, 4.0),
        r.real(-0.5, 0.5),
        r.real(0.5, 2.0),
        r.real(-4.0, 4.0),
        r.real(-tilt, tilt),
        r.real(-tilt, tilt),
    ];
    if wild && r.once_in(4) {
        // Two rows alike, all but a hair about the limit.
        let hair = r.pick(&[0.0, 1e-16, 1e-15, 2e-15, 1e-9]);
        (args[3], args[4], args[5]) = (args[0], args[1] + hair, args[2]);
    }
    if r.once_in(6) {
        (args[6], args[7]) = (0.0, r.pick(&[0.0, -0.125, -0.25]));
    }
    args
}

fn barrel(r: &mut Random, wild: bool, job: &Job) -> Vec<f64> {
    let count = match r.below(8) {
        0 => 6 + r.below((ARGUMENTS - 5) as u64) as usize,
        n => [3, 4, 5, 6, 3, 4, 6][n as usize - 1],
    };
    let (w, h) = (job.width as f64, job.height as f64);
    let mut args = vec![
        r.real(-0.2, 0.2),
        r.real(-0.2, 0.2),
        r.real(-0.2, 0.2),
        r.real(0.5, 1.5),
        r.real(0.0, w),
        r.real(0.0, h),
    ];
    if wild {
        let all = r.once_in(2);
        for arg in &mut args {
            if all || r.once_in(4) {
                *arg = argument(r);
            }
        }
        if r.once_in(3) {
            // The factor is 0 or near it somewhere, the centre may be a pixel's.
            args[3] = r.pick(&[0.0, 1e-12, -1e-12, 9e-13]);
            args[4] = r.between(0, 8) as f64 + 0.5;
            args[5] = r.between(0, 8) as f64 + 0.5;
        }
    }
    while args.len() < count {
        args.push(argument(r));
    }
    args.truncate(count);
    args
}
