//! Inputs of the narrowing: values exactly between two f32 and their f64 neighbours, at every exponent, subnormal
//! results and the border of overflow among them.

use super::counted;
use super::inputs::{about, every_exponent};
use crate::random::Random;

/// Exactly between an f32 by its bits, sign left off, and the next one; at the top, the border of overflow.
fn tie(bits: u32) -> f64 {
    if bits >= f32::MAX.to_bits() {
        return f32::MAX as f64 + 2f64.powi(103);
    }
    (f32::from_bits(bits) as f64 + f32::from_bits(bits + 1) as f64) / 2.0
}

pub fn narrow_inputs(seed: u64, count: usize) -> impl Iterator<Item = u64> {
    let mut fixed = every_exponent();
    for exponent in 0..255u32 {
        for low in [0, 1, 2, 0x3f_ffff, 0x40_0000, 0x7f_fffe, 0x7f_ffff] {
            let bits = exponent << 23 | low;
            fixed.extend(about(tie(bits)));
            fixed.extend(about(f32::from_bits(bits) as f64));
        }
    }
    // Subnormal results: every power of two, and small ones one by one.
    for bits in (0..64).chain((0..23).map(|k| 1 << k)) {
        fixed.extend(about(tie(bits)));
    }
    let mut r = Random::new(seed);
    counted(fixed, count, move || match r.below(4) {
        0 => r.bits(),
        1 => {
            let bits = r.below(0x7f80_0000) as u32;
            r.pick(&about(tie(bits)))
        }
        2 => {
            let exponent = 1023 - 152 + r.below(282);
            r.below(2) << 63 | exponent << 52 | r.bits() >> 12
        }
        // Subnormal results, and their ties.
        _ => {
            let bits = r.below(0x0090_0000) as u32;
            r.pick(&about(tie(bits)))
        }
    })
}

#[cfg(test)]
mod tests {
    use super::*;

    /// The neighbours of a tie go to its two sides, the tie itself to the even one.
    #[test]
    fn ties_are_ties() {
        for bits in [0, 1, 2, 0x7f_ffff, 0x80_0000, 0x3f80_0001, 0x7f7f_fffe] {
            let t = tie(bits);
            assert_eq!((t.next_down() as f32).to_bits(), bits);
            assert_eq!((t.next_up() as f32).to_bits(), bits + 1);
            assert_eq!((t as f32).to_bits(), bits + bits % 2);
        }
        let border = tie(f32::MAX.to_bits());
        assert_eq!(border.next_down() as f32, f32::MAX);
        assert_eq!(border as f32, f32::INFINITY);
    }
}
