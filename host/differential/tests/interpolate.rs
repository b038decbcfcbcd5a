//! The sampler against the original's `Sampler::interpolate` and `cubic_weights`: every policy, interpolation and
//! channel count. 100,000 points, ten million with DIHYRAVO_FULL=1; every 997th f32 from 0 to 1, all of them with the
//! flag.

use differential::random::Random;
use differential::{Job, generate};
use reference::{Picture, reference_or_skip};

const SEED: u64 = 11;
const POINTS: u64 = 20;

fn full() -> bool {
    differential::full()
}

/// In index space: inside, on borders, at fractions that round to 1, and far outside.
fn coordinate(random: &mut Random, side: u64) -> f64 {
    let side = side as f64;
    match random.below(8) {
        0 => random.between(-3, side as i64 + 3) as f64,
        1 => random.between(-3, side as i64 + 3) as f64 - 1e-9 * random.unit(),
        2 => random.between(-3, side as i64 + 3) as f64 + 0.5,
        3 => random.real(-1.0, 1.0) * 1_073_741_825.0,
        4 => random.real(-3.0 * side, 4.0 * side),
        _ => random.real(-1.0, side),
    }
}

fn same(a: [f32; 4], b: [f32; 4]) -> bool {
    let like = |(x, y): (f32, f32)| x.to_bits() == y.to_bits() || (x.is_nan() && y.is_nan());
    a.into_iter().zip(b).all(like)
}

#[test]
fn points() {
    let r = reference_or_skip!();
    let jobs = if full() { 500_000 } else { 5_000 };
    let mut done = 0u64;
    let mut seen = [[0u64; 9]; 14];
    for index in (0..).filter(|&index| generate::kind(index) != generate::Kind::Refused) {
        if done == jobs * POINTS {
            break;
        }
        let job: Job = generate::job(SEED, index, &|_| None);
        let mut random = Random::nth(SEED + 1, index);
        let bytes: Vec<u8> = job.samples.iter().flat_map(|x| x.to_le_bytes()).collect();
        let ours = probes::Picture {
            bytes: &bytes,
            width: job.width,
            height: job.height,
            channels: job.channels,
        };
        let picture = Picture {
            width: job.width as u32,
            height: job.height as u32,
            channels: job.channels as usize,
            samples: &job.samples,
        };
        let sampler = r
            .sampler(picture, job.policy as u8, job.background)
            .unwrap();
        for _ in 0..POINTS {
            let x = coordinate(&mut random, job.width);
            let y = coordinate(&mut random, job.height);
            let expected = sampler.interpolate(x, y, job.interpolation as u8).unwrap();
            let found =
                probes::interpolate(&ours, job.policy, job.interpolation, job.background, x, y);
            assert!(
                found.is_some_and(|found| same(found, expected)),
                "job {index} at {x:?}, {y:?}: {job}: {found:?} against {expected:?}"
            );
            seen[job.policy as usize][job.interpolation as usize] += 1;
            done += 1;
        }
    }
    println!("{done} points");
    assert!(seen.iter().flatten().all(|&count| count > 0), "{seen:?}");
}

#[test]
fn cubic_weights() {
    let r = reference_or_skip!();
    let (stride, one) = (if full() { 1 } else { 997 }, 1.0f32.to_bits());
    let mut count = 0;
    for (interpolation, b, c) in [(6, 0.0, 0.5), (7, 1.0, 0.0)] {
        for bits in (0..=one).step_by(stride).chain([one]) {
            let t = f32::from_bits(bits);
            let (ours, expected) = (probes::cubic(interpolation, t), r.cubic_weights(t, b, c));
            assert!(
                ours.is_some_and(|ours| same(ours, expected)),
                "{interpolation} at {t:?}: {ours:?} against {expected:?}"
            );
            count += 1;
        }
    }
    println!("{count} fractions");
}

/// Inputs outside the domain are answered so, and write nothing.
#[test]
fn outside_the_domain() {
    let bytes = [0u8; 12];
    let picture = |width, height, channels| probes::Picture {
        bytes: &bytes,
        width,
        height,
        channels,
    };
    let at = |picture: &probes::Picture, policy, interpolation, x| {
        probes::interpolate(picture, policy, interpolation, [1.0; 4], x, 0.0)
    };
    assert!(at(&picture(1, 1, 3), 0, 5, 0.0).is_some());
    for (width, height, channels) in [(0, 1, 3), (1, 0, 3), (1, 1, 2), (2, 1, 3), (4097, 1, 3)] {
        assert!(at(&picture(width, height, channels), 0, 5, 0.0).is_none());
    }
    assert!(at(&picture(1, 1, 3), 14, 5, 0.0).is_none());
    assert!(at(&picture(1, 1, 3), 0, 9, 0.0).is_none());
    for x in [f64::NAN, f64::INFINITY, 1_073_741_826.0, -1_073_741_826.0] {
        assert!(at(&picture(1, 1, 3), 0, 5, x).is_none());
    }
    assert!(at(&picture(1, 1, 3), 0, 5, 1_073_741_825.0).is_some());
    assert!(probes::cubic(5, 0.5).is_none());
    assert!(probes::cubic(6, 1.5).is_none());
    assert!(probes::cubic(6, f32::NAN).is_none());
}
