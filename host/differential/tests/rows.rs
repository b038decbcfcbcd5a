//! Whole rows of source points against the original's `inverse`, bit for bit, where the product works several at a
//! time: both barrels with wild arguments, centres on a pixel and a hair beside it, radii next to powers of two,
//! factors about 0; the other methods as the jobs have them. 2,000 jobs, 200,000 with DIHYRAVO_FULL=1.

use differential::random::Random;
use differential::refusal::{OFFSET, SIDE};
use differential::{Job, codes, expected, generate, refusal};
use probes::Rows;
use reference::{Mapping, Reference, reference_or_skip};

const SEED: u64 = 23;

fn jobs() -> u64 {
    if differential::full() { 200_000 } else { 2_000 }
}

/// A number of any size that an argument may have, zeros and subnormal numbers among them.
fn wild(r: &mut Random) -> f64 {
    let sign = r.pick(&[1.0, -1.0]);
    let size = match r.below(6) {
        0 => 0.0,
        1 => f64::from_bits(r.bits() >> 12),
        2 => 1_048_576.0 * r.unit(),
        3 => 2f64.powi(-(r.below(1_070) as i32)),
        _ => r.unit() * 2f64.powi(r.below(40) as i32 - 20),
    };
    sign * size
}

/// A place along one side: on a pixel, a hair beside one, a power of two away from one or a hair less or more, or
/// anywhere.
fn place(r: &mut Random, first: i64, side: u64) -> f64 {
    let pixel = (first + r.below(side) as i64) as f64 + 0.5;
    match r.below(6) {
        0 => pixel,
        1 => pixel.next_up(),
        2 => pixel + r.pick(&[1e-9, -1e-9, 7.450580596923828e-9, 1.1175870895385742e-8]),
        3 => pixel - 2f64.powi(r.below(24) as i32 - 12),
        4 => (pixel - 2f64.powi(r.below(24) as i32 - 12)).next_up(),
        _ => r.real(-2e6, 2e6),
    }
}

/// A barrel over a small picture, sides that are powers of two among them, so that dividing by the radius is exact.
fn barrel(r: &mut Random, rows: Rows) -> Job {
    let mut job = generate::job(SEED, r.below(1_000), &|_| None);
    job.method = r.pick(&[codes::BARREL, codes::BARREL_INVERSE]);
    job.width = r.pick(&[1, 2, 63, 64, 65, 127, 128, 130, 200]);
    job.height = r.pick(&[1, 2, 64, 128, 256, 131]);
    let mut factors = || match r.below(3) {
        0 => wild(r),
        1 => r.real(-0.2, 0.2),
        _ => r.pick(&[0.0, 1.0, -1.0, 1e-12, -1e-12, 5e-13]),
    };
    job.args = vec![factors(), factors(), factors(), factors()];
    job.args.push(place(r, rows.x, job.width));
    job.args
        .push(place(r, rows.y + rows.first as i64, rows.rows.max(1)));
    job.args.truncate(r.pick(&[6, 6, 6, 4, 3]));
    job
}

/// Rows in the middle of a window, near to its limits or at the origin.
fn rows(r: &mut Random) -> Rows {
    let mut offset = || match r.below(3) {
        0 => 0,
        1 => r.between(-300, 300),
        _ => r.pick(&[-1_048_576, 1_048_576, 1_000_000, -1]),
    };
    let (x, y) = (offset(), offset());
    let first = r.pick(&[0, 1, 77, 4_000]);
    Rows {
        x,
        y,
        first,
        rows: r.below(4),
    }
}

/// The mapping of a job, or the refusal of its fit.
fn mapping(r: Reference, job: &Job) -> Result<Mapping, u64> {
    match refusal::of_the_fit(job) {
        0 => expected::fit(r, job).ok_or(8),
        number => Err(u64::from(number)),
    }
}

/// What the original asks for: 24 bytes a point, two NaNs and a zero where it has none. Every NaN is the same one.
fn originals(mapping: &Mapping, job: &Job, rows: Rows) -> Vec<u8> {
    let asked = |i: u64, offset: i64| i as f64 + offset as f64 + 0.5;
    let lines = rows.first..rows.first + rows.rows;
    let all = lines.flat_map(|j| (0..job.width).map(move |i| (i, j)));
    all.flat_map(|(i, j)| {
        let found = mapping.inverse(asked(i, rows.x), asked(j, rows.y));
        let (u, v) = found.unwrap_or((f64::NAN, f64::NAN));
        let usable = u64::from(found.is_some_and(expected::usable));
        [one_nan(u), one_nan(v), f64::from_bits(usable)]
    })
    .flat_map(f64::to_le_bytes)
    .collect()
}

fn one_nan(x: f64) -> f64 {
    if x.is_nan() { f64::NAN } else { x }
}

/// The same bytes with no sign at a zero: the original's sums start at -0.
fn unsigned_zeros(bytes: Vec<u8>) -> Vec<u8> {
    let (words, _) = bytes.as_chunks::<8>();
    let plain = |word: &[u8; 8]| match f64::from_le_bytes(*word) {
        0.0 => [0; 8],
        _ => *word,
    };
    words.iter().flat_map(plain).collect()
}

/// How many points of a job were usable, or its refusal.
fn compare(
    index: u64,
    job: &Job,
    mapping: &Result<Mapping, u64>,
    rows: Rows,
    alike: fn(Vec<u8>) -> Vec<u8>,
) -> Result<u64, u64> {
    let length = 24 * (job.width * rows.rows) as usize;
    let mut out = vec![probes::UNTOUCHED; length];
    let args = job.args_bytes();
    let answer = probes::rows(job.method, &args, job.width, job.height, rows, &mut out);
    let (number, bytes) = match mapping {
        Ok(mapping) => (0, originals(mapping, job, rows)),
        Err(number) => (*number, vec![probes::UNTOUCHED; length]),
    };
    let (out, bytes) = (alike(out), alike(bytes));
    let difference = out
        .chunks(24)
        .zip(bytes.chunks(24))
        .position(|(a, b)| a != b);
    assert!(
        answer == number && difference.is_none(),
        "job {index}: {job}: {answer} against {number}, rows {rows:?}, first difference at point {difference:?}"
    );
    match number {
        0 => Ok(out.chunks(24).filter(|point| point[16] == 1).count() as u64),
        number => Err(number),
    }
}

#[test]
fn barrels() {
    let r = reference_or_skip!();
    let (mut usable, mut all, mut refused) = (0, 0, 0);
    for index in 0..jobs() {
        let mut random = Random::nth(SEED + 1, index);
        let rows = rows(&mut random);
        let job = barrel(&mut random, rows);
        match compare(index, &job, &mapping(r, &job), rows, |bytes| bytes) {
            Ok(count) => {
                usable += count;
                all += job.width * rows.rows;
            }
            Err(_) => refused += 1,
        }
    }
    println!(
        "{all} points of {} jobs, {usable} usable; {refused} refused",
        jobs()
    );
    assert!(usable > 0 && usable < all, "points are usable and unusable");
}

#[test]
fn every_method() {
    let r = reference_or_skip!();
    let mut methods = [0; 14];
    for index in 0..jobs() / 4 {
        let job = generate::job(SEED + 2, index, &|_| None);
        let mut random = Random::nth(SEED + 3, index);
        let rows = rows(&mut random);
        if job.width > 300 || job.width == 0 {
            continue;
        }
        if compare(index, &job, &mapping(r, &job), rows, unsigned_zeros).is_ok() {
            methods[job.method as usize] += 1;
        }
    }
    println!("jobs by method: {methods:?}");
    for method in codes::PRESENT {
        assert!(methods[method as usize] > 0, "no rows by method {method}");
    }
}

/// Rows that fit a picture of 4 by 4.
const INSIDE: Rows = Rows {
    x: 0,
    y: 0,
    first: 0,
    rows: 2,
};

/// Rows that are beyond a window's limits, or more than their bytes.
fn outside() -> Vec<Rows> {
    let at = |x, y| Rows { x, y, ..INSIDE };
    let from = |first, rows| Rows {
        first,
        rows,
        ..INSIDE
    };
    vec![
        at(OFFSET + 1, 0),
        at(-OFFSET - 1, 0),
        at(0, i64::MAX),
        at(0, i64::MIN),
        from(SIDE - 1, 2),
        from(u64::MAX, 2),
        from(0, u64::MAX),
        from(0, 3),
    ]
}

/// Rows beyond a window's limits and lengths that do not fit are refused by 12, and nothing is written.
#[test]
fn beyond_the_limits() {
    let args: Vec<u8> = [0.0f64, 0.0, 0.0]
        .iter()
        .flat_map(|x| x.to_le_bytes())
        .collect();
    let fresh = vec![probes::UNTOUCHED; 24 * 8];
    for rows in outside() {
        let mut out = fresh.clone();
        let answer = probes::rows(codes::BARREL, &args, 4, 4, rows, &mut out);
        assert_eq!((answer, &out), (12, &fresh), "{rows:?}");
    }
    let mut out = fresh;
    assert_eq!(
        probes::rows(codes::BARREL, &args, 4, 4, INSIDE, &mut out),
        0
    );
}
