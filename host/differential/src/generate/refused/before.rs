//! Refusals 1 to 7: what is wrong before the fit.

use crate::Job;
use crate::codes::*;
use crate::generate::arguments::ORDERS;
use crate::random::Random;
use crate::refusal::{ARGUMENT, PAIRS, SAMPLE, SIDE, terms};

/// A number that looks like `small` when cut to 8 or 32 bits.
fn disguised(r: &mut Random, small: u64) -> u64 {
    small.wrapping_add(r.pick(&[1 << 8, 1 << 16, 1 << 32, 1 << 63]))
}

pub(super) fn size(r: &mut Random, job: &mut Job) {
    let small = r.pick(&[job.width, job.height]);
    let (alike, channels) = (disguised(r, small), disguised(r, job.channels));
    let side = r.pick(&[0, SIDE, SIDE + 1, u64::MAX, alike]);
    match r.below(3) {
        0 => (job.width, job.height) = (side, 1),
        1 => (job.width, job.height) = (1, side),
        _ => job.channels = r.pick(&[0, 2, 5, 255, channels]),
    }
    if job.width <= SIDE + 1 && job.height <= SIDE + 1 && job.channels < 8 {
        let needed = job.width * job.height * job.channels;
        job.samples.resize(needed as usize, 0.25);
    }
}

pub(super) fn length(r: &mut Random, job: &mut Job) {
    match r.below(4) {
        0 => job.samples.clear(),
        1 => job.samples.push(0.5),
        2 => {
            job.samples.pop();
        }
        _ => job.samples_rest = 1 + r.below(3) as usize,
    }
}

pub(super) fn code(r: &mut Random, job: &mut Job) {
    let field = match r.below(3) {
        0 => &mut job.method,
        1 => &mut job.policy,
        _ => &mut job.interpolation,
    };
    let alike = disguised(r, *field);
    *field = r.pick(&[2, 8, 9, 10, 13, 14, u64::MAX, alike]);
}

pub(super) fn count(r: &mut Random, job: &mut Job) {
    let order = usize::from(job.method == POLYNOMIAL);
    let least: usize = match job.method {
        AFFINE_PROJECTION => 6,
        PERSPECTIVE_PROJECTION => 8,
        BARREL | BARREL_INVERSE => 3,
        _ => 4 + order,
    };
    let most = 4 * PAIRS + order;
    let counts = [
        0,
        order,
        least - 1,
        least,
        least + 1,
        least + 2,
        most - 1,
        most,
        most + 1,
        most + 4,
        257,
        258,
    ];
    if r.once_in(8) {
        job.args_rest = 1 + r.below(7) as usize;
    } else {
        // Nothing else is to be wrong with what is added.
        let count = r.pick(&counts);
        let mut k = 0;
        job.args.resize_with(count, || {
            k += 1;
            (k * k % 61) as f64
        });
    }
}

pub(super) fn number(r: &mut Random, job: &mut Job) {
    let bad = r.pick(&[f64::NAN, f64::INFINITY, f64::NEG_INFINITY, f64::MAX]);
    let signed = r.pick(&[1.0, -1.0]);
    if r.once_in(2) && !job.args.is_empty() {
        let first = usize::from(job.method == POLYNOMIAL && job.args.len() > 1);
        let k = first + r.below((job.args.len() - first) as u64) as usize;
        job.args[k] = signed * r.pick(&[ARGUMENT, ARGUMENT.next_up(), bad]);
        return;
    }
    let x = signed as f32 * r.pick(&[SAMPLE, SAMPLE.next_up(), bad as f32]);
    let k = r.below(4) as usize;
    match r.below(3) {
        0 => job.background[k] = x,
        1 => job.matte[k] = x,
        _ => {
            let places = [
                0,
                job.samples.len() / 2,
                job.samples.len().saturating_sub(1),
            ];
            if let Some(sample) = job.samples.get_mut(r.pick(&places)) {
                *sample = x;
            }
        }
    }
}

/// Orders that there are not: between two that there are, beyond them, and no number or too large a one.
const NO_ORDERS: [f64; 17] = [
    2.5,
    0.5,
    0.0,
    -0.0,
    5.5,
    6.0,
    1.25,
    1.5 - 1e-10,
    1.5 + 1e-10,
    3.5,
    4.5,
    -1.0,
    -1.5,
    ARGUMENT,
    2.0 * ARGUMENT,
    f64::INFINITY,
    f64::NAN,
];

pub(super) fn order(r: &mut Random, job: &mut Job) {
    if job.method != POLYNOMIAL || job.args.is_empty() {
        return;
    }
    let good = r.pick(&ORDERS);
    job.args[0] = match r.below(8) {
        0 => good,
        1 | 2 => good.next_down(),
        3 | 4 => good.next_up(),
        5 => r.real(0.0, 6.0),
        _ => r.pick(&NO_ORDERS),
    };
}

pub(super) fn few(r: &mut Random, job: &mut Job) {
    let (order, least) = match job.method {
        PERSPECTIVE | BILINEAR_FORWARD | BILINEAR_REVERSE => (0, 4),
        POLYNOMIAL if job.args.first().is_some_and(|n| ORDERS.contains(n)) => {
            (1, terms(job.args[0]))
        }
        _ => return,
    };
    let count = r.pick(&[1, least - 1, least - 1, least]);
    job.args.resize(order + 4 * count, 1.0);
}
