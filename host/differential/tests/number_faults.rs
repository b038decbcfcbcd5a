//! The inputs of the gate are sharp enough: each of these wrong tools is found by them.

use differential::number::{self as rust, count};

const SEED: u64 = 3;

fn floor_finds(wrong: impl Fn(f64) -> i64) -> bool {
    let mut inputs = rust::floor_inputs(SEED, count());
    inputs.any(|x| {
        let right = rust::floor(x);
        right != i64::MIN && right != wrong(f64::from_bits(x))
    })
}

fn narrow_finds(wrong: impl Fn(u64) -> u32) -> bool {
    let mut inputs = rust::narrow_inputs(SEED, count());
    inputs.any(|x| {
        let finite = f64::from_bits(x).is_finite();
        finite && rust::narrow(x) != wrong(x)
    })
}

fn root_finds(wrong: impl Fn(f64) -> f64) -> bool {
    let mut inputs = rust::root_inputs(SEED, count());
    inputs.any(|x| {
        let x = f64::from_bits(x);
        x >= 0.0 && x.is_finite() && rust::root(x.to_bits()) != wrong(x).to_bits()
    })
}

#[test]
fn the_checks_themselves_find_nothing_in_a_right_tool() {
    assert!(!floor_finds(|x| x.floor() as i64));
    assert!(!narrow_finds(|x| (f64::from_bits(x) as f32).to_bits()));
    assert!(!root_finds(f64::sqrt));
}

#[test]
fn floors() {
    assert!(floor_finds(|x| x as i64), "truncation");
    assert!(floor_finds(|x| (x - 0.5).round() as i64), "rounding halves");
    assert!(floor_finds(|x| (x as f32).floor() as i64), "through f32");
    let nearest = |x: f64| (x + 6755399441055744.0 - 6755399441055744.0) as i64;
    assert!(floor_finds(nearest), "the nearest, not corrected");
}

#[test]
fn narrowings() {
    let cut = |x: u64, bits: u32| x >> bits << bits;
    let plain = |x: u64| (f64::from_bits(x) as f32).to_bits();
    assert!(narrow_finds(|x| plain(cut(x, 29))), "truncation");
    assert!(narrow_finds(|x| plain(cut(x, 1))), "the last bit is lost");
    let away = |x: u64| plain(x | u64::from(x % (1 << 29) == 1 << 28));
    assert!(narrow_finds(away), "ties away from zero");
    // Right for normal results, and rounded twice below them.
    let twice = |x: u64| {
        let y = f64::from_bits(x);
        let once = (y * 2f64.powi(100)) as f32 as f64 * 2f64.powi(-100);
        if y.abs() < f32::MIN_POSITIVE as f64 {
            plain(once.to_bits())
        } else {
            plain(x)
        }
    };
    assert!(narrow_finds(twice), "subnormals rounded twice");
    let flush = |x: u64| {
        let y = f64::from_bits(x) as f32;
        if y.is_subnormal() { 0 } else { y.to_bits() }
    };
    assert!(narrow_finds(flush), "subnormals flushed");
    let saturated = |x: u64| {
        let y = f64::from_bits(x) as f32;
        let border = f64::from_bits(x).abs() == f32::MAX as f64 + 2f64.powi(103);
        let kept = if border { f32::MAX.copysign(y) } else { y };
        kept.to_bits()
    };
    assert!(narrow_finds(saturated), "the border of overflow");
}

#[test]
fn roots() {
    assert!(root_finds(|x| x.powf(0.5)), "by a power");
    assert!(root_finds(|x| (x as f32).sqrt() as f64), "through f32");
    let newton = |x: f64| {
        let y = x.sqrt().next_up();
        (y + x / y) / 2.0
    };
    assert!(root_finds(newton), "Newton's step, not corrected");
    let cut = |x: f64| f64::from_bits(x.to_bits() >> 1 << 1).sqrt();
    assert!(root_finds(cut), "the last bit is lost");
    // Right but for one in some thousands: cut off just above a midpoint.
    let close = |x: f64| {
        let y = x.sqrt();
        let half = y.next_down() + (y - y.next_down()) / 2.0;
        let exact = half == y && y.mul_add(y, -x) > 0.999 * y * (y - y.next_down());
        if exact { y.next_down() } else { y }
    };
    assert!(root_finds(close), "roots just above a midpoint");
    let subnormal = |x: f64| {
        if x.is_subnormal() {
            x.sqrt().next_up()
        } else {
            x.sqrt()
        }
    };
    assert!(root_finds(subnormal), "subnormals");
}

#[test]
fn powers() {
    let finds = |wrong: fn(f64, u64) -> f64| {
        let mut inputs = rust::power_inputs(SEED, count());
        inputs.any(|(x, n)| {
            let y = wrong(f64::from_bits(x), n.min(5));
            !y.is_nan() && rust::powi(x, n) != y.to_bits()
        })
    };
    assert!(finds(|x, n| (0..n).fold(1.0, |p, _| p * x)), "one by one");
    assert!(finds(|x, n| x.powf(n as f64)), "powf");
}
