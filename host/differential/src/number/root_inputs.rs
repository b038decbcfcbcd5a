//! Inputs of the root: squares of floats and of the midpoints between them with their neighbours, whole squares,
//! subnormals.

use super::counted;
use super::inputs::{about, every_exponent};
use crate::random::Random;

/// The square of a significand of 53 bits and a half, cut to 53 bits, with the neighbours: no float's root is a
/// midpoint, and these come closest to one. `odd` takes the exponent's other parity.
fn near_midpoint(significand: u64, odd: bool, exponent: i32) -> [u64; 6] {
    let twice = (significand as u128) * 2 + 1;
    let square = (twice * twice) << u32::from(odd);
    about(square as f64 * 2f64.powi(exponent))
}

/// The square of a float, rounded, with the neighbours.
fn near_square(x: f64) -> [u64; 6] {
    about(x * x)
}

pub fn root_inputs(seed: u64, count: usize) -> impl Iterator<Item = u64> {
    let mut fixed = every_exponent();
    fixed.extend((0..1024).flat_map(|k| near_square(k as f64)));
    for k in 0..53 {
        fixed.extend(near_square((1u64 << k) as f64 + 1.0));
        fixed.extend(about(f64::from_bits(1 << k)));
        fixed.extend(near_midpoint(1 << 52 | 1 << k, k % 2 == 1, -60));
    }
    let mut r = Random::new(seed);
    counted(fixed, count, move || match r.below(6) {
        0 => r.bits(),
        1 => r.bits() >> 1,
        // Subnormals of every length.
        2 => r.bits() >> (12 + r.below(52)),
        3 => {
            let k = r.below(1 << 26);
            r.pick(&near_square(k as f64))
        }
        4 => {
            let exponent = 1023 - 500 + r.below(1000);
            let x = f64::from_bits(exponent << 52 | r.bits() >> 12);
            r.pick(&near_square(x))
        }
        _ => {
            let significand = 1 << 52 | r.bits() >> 12;
            let (odd, exponent) = (r.once_in(2), r.between(-1000, 800) as i32);
            r.pick(&near_midpoint(significand, odd, exponent))
        }
    })
}
