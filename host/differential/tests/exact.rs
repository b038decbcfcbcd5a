//! The exact chain's own pieces against the original's, and lists of calls that the original answers: what the third
//! demand says is true of the original too. 300 lists, 30,000 with DIHYRAVO_FULL=1.

use differential::exact::{Tap, tap};
use differential::lists::{self, Summary};
use differential::random::Random;
use differential::{Job, codes, expected};
use reference::{Picture, reference_or_skip};

const SEED: u64 = 19;

#[test]
fn taps_are_the_originals() {
    let r = reference_or_skip!();
    let mut random = Random::new(SEED);
    let background = [0.25, 0.5, 0.75, 0.125];
    for _ in 0..2_000 {
        let (width, height) = (1 + random.below(7), 1 + random.below(7));
        let policy = random.below(codes::POLICIES.len() as u64);
        // Each pixel's red and green are its column and row.
        let pixels = (0..width * height).map(|k| [k % width, k / width, 9, 9]);
        let samples: Vec<f32> = pixels.flatten().map(|x| x as f32).collect();
        let picture = Picture {
            width: width as u32,
            height: height as u32,
            channels: 4,
            samples: &samples,
        };
        let sampler = r.sampler(picture, policy as u8, background).unwrap();
        for _ in 0..50 {
            let far = random.pick(&[8, 40, 16_400]);
            let (x, y) = (random.between(-far, far), random.between(-far, far));
            let named = match tap(policy, width, height, x, y) {
                Tap::Pixel(x, y) => [x as f32, y as f32, 9.0, 9.0],
                Tap::Background => background,
                Tap::Black => [0.0, 0.0, 0.0, 1.0],
                Tap::White => [1.0; 4],
                Tap::Gray => [0.5, 0.5, 0.5, 1.0],
                Tap::Clear => [0.0; 4],
            };
            assert_eq!(sampler.at(x, y), named, "policy {policy} at {x}, {y}");
        }
    }
}

#[test]
fn lists_by_the_original() {
    let r = reference_or_skip!();
    let call = |job: &Job| expected::expected(r, job);
    let fit = |job: &Job| expected::fit(r, job).map(|mapping| mapping.coefficients());
    let mut met = Summary::default();
    let count = if differential::full() { 30_000 } else { 300 };
    for index in 0..count {
        match lists::run(SEED, index, &call, &fit) {
            Ok(summary) => met.add(&summary),
            Err(words) => panic!("{words}"),
        }
    }
    println!("{count} lists: {met:?}");
}
