//! Floats as whole numbers of any size, and two kinds of quotients of such numbers.

use num_bigint::{BigInt, BigUint};
use num_integer::Integer;

/// A finite f64 as a whole number times a power of two, by its bits.
pub fn parts(x: f64) -> (BigInt, i64) {
    assert!(x.is_finite(), "{x} is no fraction");
    let bits = x.to_bits();
    let exponent = (bits >> 52 & 0x7ff) as i64;
    let digits = bits & ((1 << 52) - 1);
    let digits = if exponent == 0 {
        digits
    } else {
        digits | 1 << 52
    };
    let size = BigInt::from(digits);
    let signed = if x.is_sign_negative() { -size } else { size };
    (signed, exponent.max(1) - 1075)
}

/// The largest whole number that is at most `n / by`, and the rest, which is at least 0 and below `by`. For quotients
/// below 2^40 in magnitude.
pub fn floor(n: &BigInt, by: &BigUint) -> (i64, BigUint) {
    let (quotient, rest) = n.div_mod_floor(&by.clone().into());
    let quotient = i64::try_from(quotient).ok();
    let quotient = quotient.filter(|q| (-(1 << 40)..1 << 40).contains(q));
    let (_, rest) = rest.into_parts();
    (quotient.expect("a quotient below 2^40"), rest)
}

/// The quotient by a number above 0, good to 50 binary digits or so; for show alone.
pub fn quotient(n: &BigUint, by: &BigUint) -> f64 {
    let (a, b) = (leading(n), leading(by));
    a.0 / b.0 * 2f64.powi((a.1 - b.1).clamp(-1_000, 1_000) as i32)
}

/// The leading 128 digits and the power of two that they are to be multiplied by.
fn leading(n: &BigUint) -> (f64, i64) {
    let below = n.bits().saturating_sub(128);
    let digits = u128::try_from(n >> below).expect("128 digits");
    (digits as f64, below as i64)
}

#[cfg(test)]
mod tests {
    use super::*;
    use crate::random::Random;
    use num_bigint::Sign;

    /// A number of up to `digits` digits to the base 2^64; 0 and all ones among them.
    fn any(r: &mut Random, digits: u64) -> BigUint {
        let count = r.below(digits + 1);
        let digit = |r: &mut Random| match r.below(4) {
            0 => 0,
            1 => u64::MAX,
            _ => r.bits(),
        };
        (0..count).fold(BigUint::default(), |n, _| (n << 64u8) + digit(r))
    }

    #[test]
    fn naturals_are_as_the_machine_has_them() {
        let of = |n: u128| BigUint::from(n);
        let mut r = Random::new(41);
        for _ in 0..20_000 {
            let [a, b] = [(); 2].map(|()| (r.bits() >> r.below(64)) as u128);
            assert_eq!(of(a) + of(b), of(a + b));
            assert_eq!(of(a) * of(b), of(a * b));
            assert_eq!(of(a.max(b)) - of(a.min(b)), of(a.abs_diff(b)));
            assert_eq!(of(a).cmp(&of(b)), a.cmp(&b));
            let by = r.below(64) as usize;
            assert_eq!(of(a) << by, of(a << by));
            assert_eq!(of(a).bits(), 128 - u64::from(a.leading_zeros()));
        }
    }

    #[test]
    fn laws_of_large_numbers() {
        let one = BigUint::from(1u8);
        let mut r = Random::new(43);
        for _ in 0..2_000 {
            let (a, b, c) = (any(&mut r, 9), any(&mut r, 7), any(&mut r, 5));
            assert_eq!(&a + &b, &b + &a);
            assert_eq!(&a + &b - &b, a);
            assert_eq!(&a * &b, &b * &a);
            assert_eq!(&a * &b * &c, &a * (&b * &c));
            assert_eq!((&a + &b) * &c, &a * &c + &b * &c);
            let by = r.below(200) as usize;
            assert_eq!(&a << by, &a * (&one << by));
            assert!(&a + &one > a);
            assert_eq!(a.cmp(&b), b.cmp(&a).reverse());
            if a != BigUint::default() {
                let twice = quotient(&(&a + &a), &a);
                assert!((twice - 2.0).abs() < 1e-14, "{twice}");
            }
        }
    }

    #[test]
    #[should_panic(expected = "subtract")]
    fn no_difference_below_0() {
        let _ = BigUint::from(1u8) - BigUint::from(2u8);
    }

    #[test]
    fn integers_are_as_the_machine_has_them() {
        let of = |n: i128| BigInt::from(n);
        let mut r = Random::new(47);
        for _ in 0..20_000 {
            let [a, b] = [(); 2].map(|()| (r.bits() as i64 >> r.below(64)) as i128);
            assert_eq!(of(a) + of(b), of(a + b));
            assert_eq!(of(a) - of(b), of(a - b));
            assert_eq!(of(a) * of(b), of(a * b));
            assert_eq!(of(a).cmp(&of(b)), a.cmp(&b));
            let (a, by) = (a >> 24, 1 + (r.bits() >> 44) as i128);
            let (n, rest) = floor(&of(a), of(by).magnitude());
            assert_eq!(n as i128, a.div_euclid(by));
            assert_eq!(BigInt::from(rest), of(a.rem_euclid(by)));
        }
        assert_eq!(-of(0), of(0));
    }

    #[test]
    fn floors_go_down() {
        let four = BigUint::from(4u8);
        let at = |n: i64| {
            let (quotient, rest) = floor(&n.into(), &four);
            (quotient, u64::try_from(rest).expect("a small rest"))
        };
        assert_eq!(at(-1), (-1, 3));
        assert_eq!(at(-4), (-1, 0));
        assert_eq!(at(7), (1, 3));
        assert_eq!(at(0), (0, 0));
    }

    #[test]
    fn floats_by_their_bits() {
        let tiny = (BigInt::from(1), -1074);
        assert_eq!(parts(5e-324), tiny);
        assert_eq!(parts(-0.0).0, BigInt::from(0));
        let mut r = Random::new(53);
        for _ in 0..10_000 {
            let x = f64::from_bits(r.bits());
            if x.is_finite() {
                let (digits, exponent) = parts(x);
                let back = quotient(digits.magnitude(), &BigUint::from(1u8));
                // Powers of two in two steps, so that none is lost below 2^-1022.
                let half = exponent / 2;
                let back = back * 2f64.powi(half as i32) * 2f64.powi((exponent - half) as i32);
                let back = if digits.sign() == Sign::Minus {
                    -back
                } else {
                    back
                };
                assert_eq!(back, x);
            }
        }
    }
}
