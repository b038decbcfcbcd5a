//! Numbers within the limits of refusal 5: the plain, the special, and those of every exponent.

use crate::random::Random;
use crate::refusal::{ARGUMENT, SAMPLE};

/// An argument up to 1,048,576 in magnitude.
pub fn argument(r: &mut Random) -> f64 {
    let x = match r.below(8) {
        0 => r.between(-8, 8) as f64,
        1 => r.between(-64, 64) as f64 / 4.0,
        2 => r.real(-32.0, 32.0),
        3 => r.pick(&[
            0.0,
            -0.0,
            0.5,
            -0.5,
            1.0,
            1e-12,
            1e-6,
            5e-324,
            f64::MIN_POSITIVE,
            ARGUMENT,
            -ARGUMENT,
            ARGUMENT.next_down(),
        ]),
        4 => r.real(-ARGUMENT, ARGUMENT),
        5 => every_exponent(r, -1074, 20),
        6 => every_exponent(r, -60, 20),
        _ => r.between(-4096, 4096) as f64 + 0.5,
    };
    debug_assert!(x.abs() <= ARGUMENT);
    x
}

/// Any significand at an exponent from `low` up to `high`, which is left out.
pub fn every_exponent(r: &mut Random, low: i64, high: i64) -> f64 {
    let e = r.between(low, high - 1);
    let significand = match r.below(4) {
        0 => 0,
        1 => (1 << 52) - 1,
        _ => r.bits() >> 12,
    };
    let sign = r.below(2) << 63;
    let bits = if e < -1022 {
        let width = e + 1074;
        1 << width | significand >> (52 - width)
    } else {
        ((e + 1023) as u64) << 52 | significand
    };
    f64::from_bits(sign | bits)
}

/// A colour sample up to 65,536 in magnitude.
pub fn sample(r: &mut Random) -> f32 {
    let x = match r.below(6) {
        0 | 1 => r.unit() as f32,
        2 => r.below(256) as f32 / 255.0,
        3 => r.pick(&[
            0.0,
            -0.0,
            1.0,
            -1.0,
            0.5,
            f32::from_bits(1),
            -f32::from_bits(1),
            f32::MIN_POSITIVE,
            f32::MIN_POSITIVE.next_down(),
            1e-9,
            SAMPLE,
            -SAMPLE,
        ]),
        4 => every_exponent(r, -149, 16) as f32,
        _ => r.real(-2.0, 2.0) as f32,
    };
    debug_assert!(x.abs() <= SAMPLE);
    x
}

/// An alpha: opaque, clear, about the limit 1e-9 of `weighted`, negative, above 1.
pub fn alpha(r: &mut Random) -> f32 {
    match r.below(8) {
        0 | 1 => 1.0,
        2 => r.pick(&[0.0, -0.0]),
        3 => r.unit() as f32,
        4 => {
            let near = r.pick(&[1e-9f32, 2e-9, 4e-9, 1e-8, 1e-10, 1e-30, f32::from_bits(1)]);
            near * r.pick(&[1.0, -1.0, 0.5])
        }
        5 => -r.unit() as f32,
        6 => r.pick(&[
            1.5,
            2.0,
            1.0f32.next_up(),
            1.0f32.next_down(),
            SAMPLE,
            -SAMPLE,
        ]),
        _ => sample(r),
    }
}

/// A colour of any kind.
pub fn colour(r: &mut Random, wild: bool) -> [f32; 4] {
    if wild {
        return [sample(r), sample(r), sample(r), alpha(r)];
    }
    let mut part = || r.below(256) as f32 / 255.0;
    [part(), part(), part(), 1.0]
}
