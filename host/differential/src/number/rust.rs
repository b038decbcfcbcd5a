//! The number tools by Rust's own floats. A NaN is told by its bits: an optimised `is_nan` on a square root was seen
//! to vanish.

pub const NAN_64: u64 = 0x7ff8_0000_0000_0000;
pub const NAN_32: u32 = 0x7fc0_0000;

fn tidy(bits: u64) -> u64 {
    let nan = bits & (u64::MAX >> 1) > f64::INFINITY.to_bits();
    if nan { NAN_64 } else { bits }
}

pub fn floor(x: u64) -> i64 {
    // A NaN lies above infinity, so the one comparison refuses it as well.
    if x & (u64::MAX >> 1) > 2147483648f64.to_bits() {
        return i64::MIN;
    }
    f64::from_bits(x).floor() as i64
}

pub fn narrow(x: u64) -> u32 {
    let bits = (f64::from_bits(x) as f32).to_bits();
    let nan = bits & (u32::MAX >> 1) > f32::INFINITY.to_bits();
    if nan { NAN_32 } else { bits }
}

pub fn root(x: u64) -> u64 {
    tidy(f64::from_bits(x).sqrt().to_bits())
}

/// Repeated squaring as specification 4 has it: x to the fifth is x times the square of the square.
pub fn powi(x: u64, n: u64) -> u64 {
    let x = f64::from_bits(x);
    let square = x * x;
    let power = match n {
        0 => 1.0,
        1 => x,
        2 => square,
        3 => x * square,
        4 => square * square,
        _ => x * (square * square),
    };
    tidy(power.to_bits())
}

/// What `f64::powi` gives here; Rust leaves its precision open.
pub fn powi_of_rust(x: u64, n: u64) -> u64 {
    let n = std::hint::black_box(n.min(5) as i32);
    tidy(f64::from_bits(x).powi(n).to_bits())
}

pub fn wrapping_mul(a: u64, b: u64) -> u64 {
    a.wrapping_mul(b)
}
