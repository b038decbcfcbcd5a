//! Nanoseconds a point of every interpolation: the product's through its archive and the original's, each over many
//! points in one call, in turns in one run. Inside the picture, and outside under five policies. Best of many rounds.

use differential::random::Random;
use reference::Picture;
use std::hint::black_box;
use std::time::Instant;

const SIDE: u64 = 64;
const POINTS: usize = 16_384;
const ROUNDS: usize = 40;
const BACKGROUND: [f32; 4] = [0.25, 0.5, 0.75, 1.0];
const KINDS: [&str; 9] = [
    "Integer",
    "Nearest",
    "Average",
    "Average9",
    "Average16",
    "Bilinear",
    "Catrom",
    "Spline",
    "Background",
];
const POLICIES: [(&str, u8); 5] = [
    ("Edge", 0),
    ("Tile", 6),
    ("Mirror", 7),
    ("Random", 13),
    ("Background", 1),
];

fn main() {
    let Some(original) = reference::open() else {
        println!("skipped: bench_sampler: the reference is not there");
        return;
    };
    println!("ns a point: product / Rust = ratio");
    for channels in [1, 3, 4] {
        table(original, channels);
    }
}

fn table(original: reference::Reference, channels: usize) {
    print!("\n{:<16}{:<22}", format!("{channels} channels"), "inside");
    for (name, _) in POLICIES {
        print!("{:<22}", format!("outside, {name}"));
    }
    println!();
    let samples = samples(channels);
    let picture = Picture {
        width: SIDE as u32,
        height: SIDE as u32,
        channels,
        samples: &samples,
    };
    // Whole squares of taps lie inside, or outside: each coordinate is up to a width away from the picture.
    let inside = points(|r| r.real(1.0, SIDE as f64 - 3.0));
    let outside = points(|r| {
        let far = r.real(4.0, SIDE as f64);
        if r.once_in(2) {
            -far
        } else {
            SIDE as f64 + far
        }
    });
    for (kind, name) in KINDS.iter().enumerate() {
        print!("{name:<16}");
        print!("{:<22}", pair(original, picture, 0, kind as u8, &inside));
        for (_, policy) in POLICIES {
            print!(
                "{:<22}",
                pair(original, picture, policy, kind as u8, &outside)
            );
        }
        println!();
    }
}

fn samples(channels: usize) -> Vec<f32> {
    let mut r = Random::new(5);
    let count = (SIDE * SIDE) as usize * channels;
    (0..count).map(|_| r.unit() as f32).collect()
}

fn points(draw: impl Fn(&mut Random) -> f64) -> Vec<[f64; 2]> {
    let mut r = Random::new(6);
    (0..POINTS).map(|_| [draw(&mut r), draw(&mut r)]).collect()
}

/// Both times and their ratio; the colours are seen to be the same.
fn pair(
    original: reference::Reference,
    picture: Picture,
    policy: u8,
    kind: u8,
    points: &[[f64; 2]],
) -> String {
    let sampler = original.sampler(picture, policy, BACKGROUND).unwrap();
    let bytes = picture.samples.iter().flat_map(|x| x.to_le_bytes());
    let bytes: Vec<u8> = bytes.collect();
    let ours = probes::Picture {
        bytes: &bytes,
        width: SIDE,
        height: SIDE,
        channels: picture.channels as u64,
    };
    let lent: Vec<u8> = points
        .iter()
        .flatten()
        .flat_map(|x| x.to_le_bytes())
        .collect();
    let mut out = vec![0u8; lent.len()];
    let mut colours = vec![[0f32; 4]; points.len()];
    let (mut product, mut rust) = (f64::INFINITY, f64::INFINITY);
    for _ in 0..ROUNDS {
        product = product.min(nanoseconds(|| {
            let (policy, kind) = (policy.into(), kind.into());
            assert!(probes::samples(
                &ours, policy, kind, BACKGROUND, &lent, &mut out
            ));
        }));
        rust = rust.min(nanoseconds(|| {
            sampler.interpolate_all(points, kind, &mut colours).unwrap();
        }));
        black_box((&out, &colours));
    }
    let expected: Vec<u8> = colours
        .iter()
        .flatten()
        .flat_map(|x| x.to_le_bytes())
        .collect();
    assert!(
        out == expected,
        "kind {kind}, policy {policy}: another colour"
    );
    format!("{product:5.1} /{rust:6.1} = {:.2}", product / rust)
}

fn nanoseconds(work: impl FnOnce()) -> f64 {
    let start = Instant::now();
    work();
    start.elapsed().as_nanos() as f64 / POINTS as f64
}
