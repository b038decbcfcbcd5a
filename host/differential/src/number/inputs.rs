//! Inputs of every exponent, and those of floor, powers and the product.

use super::counted;
use crate::random::Random;

/// Both signs of every exponent with the significands at its ends, in its middle, and some in between.
pub fn every_exponent() -> Vec<u64> {
    let ones = (1u64 << 52) - 1;
    let significands = [
        0,
        1,
        ones,
        ones - 1,
        1 << 51,
        (1 << 51) - 1,
        0x5_5555_5555_5555,
    ];
    let signed = (0..4096u64).flat_map(|top| significands.map(|low| top << 52 | low));
    signed.collect()
}

/// A float and its nearest neighbours, both signs.
pub fn about(x: f64) -> [u64; 6] {
    [
        x,
        x.next_up(),
        x.next_down(),
        -x,
        -x.next_up(),
        -x.next_down(),
    ]
    .map(f64::to_bits)
}

/// Whole numbers and halves and their neighbours up to the limit, then random ones, most of them inside.
pub fn floor_inputs(seed: u64, count: usize) -> impl Iterator<Item = u64> {
    let mut fixed = every_exponent();
    for k in 0..34 {
        let power = (1u64 << k) as f64;
        for x in [power, power - 1.0, power + 1.0, power - 0.5, power + 0.5] {
            fixed.extend(about(x));
        }
    }
    fixed.extend((0..2048).flat_map(|k| about(k as f64 / 4.0)));
    let mut r = Random::new(seed);
    counted(fixed, count, move || match r.below(4) {
        0 => r.bits(),
        1 => {
            let whole = r.between(0, 1 << 31);
            r.pick(&about(whole as f64))
        }
        2 => r.real(-2147483648.0, 2147483648.0).to_bits(),
        _ => {
            let exponent = 1023 - 60 + r.below(92);
            r.below(2) << 63 | exponent << 52 | r.bits() >> 12
        }
    })
}

/// A float and an exponent from 0 to 7.
pub fn power_inputs(seed: u64, count: usize) -> impl Iterator<Item = (u64, u64)> {
    let some = every_exponent().into_iter().step_by(3);
    let mut fixed: Vec<(u64, u64)> = some.zip((0..8).cycle()).collect();
    let ends = [0, 1, 5, 6, 7, u64::MAX, 1 << 32];
    fixed.extend(ends.map(|n| (1.5f64.to_bits(), n)));
    let mut r = Random::new(seed);
    counted(fixed, count, move || {
        let n = r.below(8);
        let x = match r.below(3) {
            0 => r.bits(),
            1 => r.real(-64.0, 64.0).to_bits(),
            // Results about the least and the largest float.
            _ => {
                let edge = r.pick(&[-1074, -1022, 1023]) / n.clamp(1, 5) as i64;
                let exponent = (1023 + edge + r.between(-2, 2)).clamp(0, 2046) as u64;
                r.below(2) << 63 | exponent << 52 | r.bits() >> 12
            }
        };
        (x, n)
    })
}

/// Factors: the mix of the `Random` policy with small and negative indices, powers of two, and any bits.
pub fn factors(seed: u64, count: usize) -> impl Iterator<Item = (u64, u64)> {
    let mix = [
        0x9e37_79b9_7f4a_7c15,
        0xbf58_476d_1ce4_e5b9,
        0x94d0_49bb_1331_11eb,
    ];
    let mut fixed = Vec::new();
    for m in mix {
        fixed.extend((-4096i64..4096).map(|x| (x as u64, m)));
    }
    for a in 0..64 {
        for b in 0..64 {
            fixed.push((1 << a, 1 << b));
            fixed.push(((1 << a) - 1, u64::MAX << b));
        }
    }
    let mut r = Random::new(seed);
    counted(fixed, count, move || {
        let (a, b) = (r.bits() >> r.below(64), r.bits() >> r.below(64));
        if r.once_in(4) {
            (a, r.pick(&mix))
        } else {
            (a, b)
        }
    })
}
