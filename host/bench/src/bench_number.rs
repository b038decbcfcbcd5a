//! Nanoseconds a call of floor, narrow and root: the product's through its archive, Rust's own behind a call, and
//! Rust's own in line. Dependent calls wait for each other's answers, independent ones need not. Best of many rounds.

use differential::random::Random;
use std::hint::black_box;
use std::time::Instant;

const INPUTS: usize = 4_096;
const ROUNDS: usize = 400;

fn main() {
    println!("ns a call          product    Rust, called   Rust, in line");
    let floors = inputs(|r| r.real(-4096.0, 4096.0));
    report("floor", &floors, probes::floor, called_floor, own_floor);
    let fractions = inputs(Random::unit);
    report(
        "narrow",
        &fractions,
        probes::narrow,
        called_narrow,
        own_narrow,
    );
    let sums = inputs(|r| r.real(0.0, 1e6));
    report("root", &sums, probes::root, called_root, own_root);
}

fn inputs(draw: impl Fn(&mut Random) -> f64) -> Vec<u64> {
    let mut r = Random::new(4);
    (0..INPUTS).map(|_| draw(&mut r).to_bits()).collect()
}

#[inline(always)]
fn own_floor(x: u64) -> i64 {
    f64::from_bits(x).floor() as i64
}

#[inline(always)]
fn own_narrow(x: u64) -> u32 {
    (f64::from_bits(x) as f32).to_bits()
}

#[inline(always)]
fn own_root(x: u64) -> u64 {
    f64::from_bits(x).sqrt().to_bits()
}

#[inline(never)]
fn called_floor(x: u64) -> i64 {
    own_floor(x)
}

#[inline(never)]
fn called_narrow(x: u64) -> u32 {
    own_narrow(x)
}

#[inline(never)]
fn called_root(x: u64) -> u64 {
    own_root(x)
}

/// An answer as bits that a next call can be made to wait for.
trait Bits {
    fn bits(self) -> u64;
}

impl Bits for u64 {
    #[inline(always)]
    fn bits(self) -> u64 {
        self
    }
}

impl Bits for i64 {
    #[inline(always)]
    fn bits(self) -> u64 {
        self as u64
    }
}

impl Bits for u32 {
    #[inline(always)]
    fn bits(self) -> u64 {
        self as u64
    }
}

fn report<A: Bits>(
    name: &str,
    inputs: &[u64],
    product: impl Fn(u64) -> A,
    called: impl Fn(u64) -> A,
    own: impl Fn(u64) -> A,
) {
    for dependent in [true, false] {
        let times = [
            best(inputs, dependent, &product),
            best(inputs, dependent, &called),
            best(inputs, dependent, &own),
        ];
        let way = if dependent {
            "dependent"
        } else {
            "independent"
        };
        let [a, b, c] = times;
        println!("{name:7}{way:12}{a:8.2}{b:16.2}{c:16.2}");
    }
}

/// The least time of a call over all rounds.
fn best<A: Bits>(inputs: &[u64], dependent: bool, f: &impl Fn(u64) -> A) -> f64 {
    let mut best = f64::INFINITY;
    for _ in 0..ROUNDS {
        let start = Instant::now();
        if dependent {
            // Nothing is taken of the answer, but the processor cannot know.
            let nothing = black_box(0);
            let last = inputs.iter().fold(0, |y, x| f(x | y & nothing).bits());
            black_box(last);
        } else {
            let sum = inputs.iter().fold(0, |sum, x| sum ^ f(*x).bits());
            black_box(sum);
        }
        best = best.min(start.elapsed().as_nanos() as f64 / inputs.len() as f64);
    }
    best
}
