//! The three name readers of the product against the original's: every name and alias in random case, damaged copies,
//! random bytes. 100,000 inputs for each reader, ten million with DIHYRAVO_FULL=1.

use differential::codes::{INTERPOLATIONS, METHODS, POLICIES};
use differential::random::Random;
use reference::reference_or_skip;

const SEED: u64 = 5;
const ALIASES: [&str; 8] = [
    "srt",
    "Bilinear",
    "Undefined",
    "Grey",
    "None",
    "NearestNeighbor",
    "Average4",
    "Bicubic",
];

fn count() -> u64 {
    if differential::full() {
        10_000_000
    } else {
        100_000
    }
}

/// A name in random case, whole or with a byte changed, added or taken away, or a few random bytes.
fn input(index: u64) -> Vec<u8> {
    let mut random = Random::nth(SEED, index);
    let all = [
        &METHODS[..],
        &POLICIES[..],
        &INTERPOLATIONS[..],
        &ALIASES[..],
    ]
    .concat();
    if random.once_in(16) {
        return (0..random.below(20)).map(|_| random.bits() as u8).collect();
    }
    let mut name: Vec<u8> = random.pick(&all).bytes().collect();
    for byte in &mut name {
        if random.once_in(2) && byte.is_ascii_alphabetic() {
            *byte ^= 0x20;
        }
    }
    let at = random.below(name.len() as u64) as usize;
    match random.below(8) {
        0 => name[at] = random.bits() as u8,
        1 => name.insert(at, random.bits() as u8),
        2 => {
            name.remove(at);
        }
        3 => name[at] ^= 0x20,
        _ => {}
    }
    name
}

/// The original takes text, so bytes that are none have no code there.
fn same(ours: impl Fn(&[u8]) -> Option<u8>, originals: impl Fn(&str) -> Option<u8>) {
    let mut coded = 0;
    for index in 0..count() {
        let name = input(index);
        let expected = std::str::from_utf8(&name).ok().and_then(&originals);
        coded += u64::from(expected.is_some());
        assert_eq!(
            ours(&name),
            expected,
            "name {:?}",
            String::from_utf8_lossy(&name)
        );
    }
    println!("{} names, {coded} of them with a code", count());
    assert!(coded > count() / 20);
}

#[test]
fn methods() {
    let reference = reference_or_skip!();
    same(dihyravo::method, |name| reference.method_from_name(name));
}

#[test]
fn policies() {
    let reference = reference_or_skip!();
    same(dihyravo::policy, |name| reference.policy_from_name(name));
}

#[test]
fn interpolations() {
    let reference = reference_or_skip!();
    same(dihyravo::interpolation, |name| {
        reference.interpolation_from_name(name)
    });
}

#[test]
fn empty_and_long_names_have_no_code() {
    let long = vec![b'a'; 1_000_000];
    for name in [&b""[..], &long, b"affine\0", b"affine,", b"edge|undefined"] {
        assert_eq!(dihyravo::method(name), None);
        assert_eq!(dihyravo::policy(name), None);
        assert_eq!(dihyravo::interpolation(name), None);
    }
}
