//! The number tools of the product against Rust's own: 100,000 inputs each, ten million with DIHYRAVO_FULL=1.

use differential::number as rust;
use std::fmt::{Debug, LowerHex};

const SEED: u64 = 3;

/// The first input at which the two differ stops the test.
fn same<T: Copy + Debug, A: PartialEq + LowerHex>(
    inputs: impl Iterator<Item = T>,
    product: impl Fn(T) -> A,
    own: impl Fn(T) -> A,
    show: impl Fn(T) -> String,
) {
    let mut number = 0;
    for input in inputs {
        let (ours, rusts) = (product(input), own(input));
        assert!(
            ours == rusts,
            "input {number}, {}: {ours:#x} against Rust's {rusts:#x}",
            show(input)
        );
        number += 1;
    }
    println!("{number} inputs");
    assert!(number >= rust::count());
}

fn float(x: u64) -> String {
    format!("{x:#018x} ({:?})", f64::from_bits(x))
}

fn powered((x, n): (u64, u64)) -> String {
    format!("{} to the power {n}", float(x))
}

#[test]
fn floor() {
    let inputs = rust::floor_inputs(SEED, rust::count());
    same(inputs, probes::floor, rust::floor, float);
}

#[test]
fn narrow() {
    let inputs = rust::narrow_inputs(SEED, rust::count());
    same(inputs, probes::narrow, rust::narrow, float);
}

#[test]
fn root() {
    let inputs = rust::root_inputs(SEED, rust::count());
    same(inputs, probes::root, rust::root, float);
}

#[test]
fn powi() {
    let inputs = rust::power_inputs(SEED, rust::count());
    let product = |(x, n)| probes::powi(x, n);
    same(inputs, product, |(x, n)| rust::powi(x, n), powered);
}

/// Repeated squaring is what `f64::powi` does here, so the reference and specification 4 agree.
#[test]
fn powi_of_rust_is_repeated_squaring() {
    let inputs = rust::power_inputs(SEED, rust::count());
    let squared = |(x, n)| rust::powi(x, n);
    same(inputs, squared, |(x, n)| rust::powi_of_rust(x, n), powered);
}

#[test]
fn wrapping_mul() {
    let inputs = rust::factors(SEED, rust::count());
    let product = |(a, b)| probes::wrapping_mul(a, b);
    let own = |(a, b)| rust::wrapping_mul(a, b);
    same(inputs, product, own, |(a, b)| {
        format!("{a:#x} times {b:#x}")
    });
}
