//! The source point against the original's `Mapping::inverse`: every method, tame and wild, at pixel centres, on pairs,
//! far away and beyond 2^30, with the refusals of the fit by the model of the table. 100,000 points, ten million with
//! DIHYRAVO_FULL=1.

use differential::random::Random;
use differential::{Job, codes, expected, generate, refusal};
use probes::Point;
use reference::{Mapping, Reference, reference_or_skip};

const SEED: u64 = 11;

/// Points of a job: these many of each sort.
const OF_A_SORT: u64 = 5;

fn jobs() -> u64 {
    let points = if differential::full() {
        10_000_000
    } else {
        100_000
    };
    points / (SORTS.len() as u64 * OF_A_SORT)
}

type Sort = fn(&mut Random, &Job) -> (f64, f64);

const SORTS: [Sort; 4] = [centre, on_a_pair, far, beyond];

/// The centre of a pixel of the picture.
fn centre(r: &mut Random, job: &Job) -> (f64, f64) {
    let mut of = |side: u64| r.below(side.max(1)) as f64 + 0.5;
    (of(job.width), of(job.height))
}

/// The x, y of one of the pairs, or very close to it; a pixel centre where there is none.
fn on_a_pair(r: &mut Random, job: &Job) -> (f64, f64) {
    let first = usize::from(job.method == codes::POLYNOMIAL);
    let pairs = job.args.get(first..).map_or(0, |values| values.len() / 4);
    if pairs == 0 {
        return centre(r, job);
    }
    let at = first + 4 * r.below(pairs as u64) as usize;
    let mut near = |x: f64| match r.below(3) {
        0 => x + r.pick(&[1e-7, 1e-6, 7e-7, -1e-6]),
        _ => x,
    };
    (near(job.args[at + 2]), near(job.args[at + 3]))
}

/// As far as the limits let an output pixel be, and on the borders of pixels.
fn far(r: &mut Random, _: &Job) -> (f64, f64) {
    let mut one = || match r.below(3) {
        0 => r.between(-1_048_576, 1_052_672) as f64 + 0.5,
        1 => r.between(-40, 40) as f64 / 2.0,
        _ => r.real(-1_048_576.0, 1_052_672.0),
    };
    (one(), one())
}

/// About and beyond 2^30, infinities and NaNs among them, and sometimes an ordinary coordinate.
fn beyond(r: &mut Random, job: &Job) -> (f64, f64) {
    let (x, y) = centre(r, job);
    let mut one = |ordinary: f64| {
        let sign = r.pick(&[1.0, -1.0]);
        let size = match r.below(8) {
            0 => expected::USABLE,
            1 => expected::USABLE.next_up(),
            2 => f64::INFINITY,
            3 => f64::NAN,
            4 => ordinary,
            _ => expected::USABLE * 2f64.powi(r.below(994) as i32) * r.real(1.0, 2.0),
        };
        sign * size
    };
    (one(x), one(y))
}

/// The mapping of a job, or the refusal of its fit.
fn mapping(r: Reference, job: &Job) -> Result<Mapping, u64> {
    match refusal::of_the_fit(job) {
        0 => expected::fit(r, job).ok_or(8),
        number => Err(u64::from(number)),
    }
}

/// Zeros of either sign count as equal, and so do NaNs. Where the original has no point, usable is all that counts.
fn same(ours: &Point, originals: Option<(f64, f64)>) -> bool {
    let like = |x: f64, y: f64| x == y || (x.is_nan() && y.is_nan());
    match originals {
        None => !ours.usable,
        Some((u, v)) => {
            like(ours.u, u) && like(ours.v, v) && ours.usable == expected::usable((u, v))
        }
    }
}

/// What was met, so that no sort of answer is missing.
#[derive(Default)]
struct Met {
    points: u64,
    none: u64,
    unusable: u64,
    usable: u64,
    refused: [u64; 9],
    methods: [u64; 14],
}

impl Met {
    fn take(&mut self, originals: Option<(f64, f64)>) {
        match originals {
            None => self.none += 1,
            Some(point) if expected::usable(point) => self.usable += 1,
            Some(_) => self.unusable += 1,
        }
    }
}

fn compare(met: &mut Met, index: u64, job: &Job, mapping: &Result<Mapping, u64>, at: (f64, f64)) {
    let ours = probes::inverse(job.method, &job.args_bytes(), job.width, job.height, at);
    met.points += 1;
    match (&ours, mapping) {
        (Ok(point), Ok(mapping)) => {
            let originals = mapping.inverse(at.0, at.1);
            assert!(
                same(point, originals),
                "job {index} at {at:?}: {job}: {point:?} against {originals:?}"
            );
            met.methods[job.method as usize] += 1;
            met.take(originals);
        }
        (Err(ours), Err(number)) if ours == number => met.refused[*number as usize] += 1,
        _ => panic!(
            "job {index}: {job}: {ours:?} against {:?}",
            mapping.as_ref().map(|_| "a fit")
        ),
    }
}

#[test]
fn source_points() {
    let r = reference_or_skip!();
    let mut met = Met::default();
    for index in 0..jobs() {
        let job = generate::job(SEED, index, &|_| None);
        let mapping = mapping(r, &job);
        let mut random = Random::nth(SEED + 1, index);
        for sort in SORTS {
            for _ in 0..OF_A_SORT {
                let at = sort(&mut random, &job);
                compare(&mut met, index, &job, &mapping, at);
            }
        }
    }
    println!(
        "{} points; usable {}, unusable {}, none {}; by refusal: {:?}; by method: {:?}",
        met.points, met.usable, met.unusable, met.none, met.refused, met.methods
    );
    for (count, what) in [
        (met.usable, "usable"),
        (met.unusable, "unusable"),
        (met.none, "none"),
    ] {
        assert!(count > 0, "no point is {what}");
    }
    for number in [1, 3, 4, 5, 6, 7, 8] {
        assert!(met.refused[number] > 0, "no point was refused by {number}");
    }
    for method in codes::PRESENT {
        assert!(
            met.methods[method as usize] > 0,
            "no point by method {method}"
        );
    }
}

/// Many points by one fit are the points one by one; lengths that do not fit are refused by 12, and nothing is written.
#[test]
fn many_points() {
    for index in 0..2_000 {
        let job = generate::job(SEED + 2, index, &|_| None);
        let mut random = Random::nth(SEED + 3, index);
        let asked: Vec<_> = SORTS.iter().map(|sort| sort(&mut random, &job)).collect();
        let points: Vec<u8> = asked
            .iter()
            .flat_map(|(x, y)| [x.to_le_bytes(), y.to_le_bytes()].concat())
            .collect();
        let args = job.args_bytes();
        for (from, to) in [(0, 0), (1, 0), (0, 1), (8, 0), (0, 24)] {
            let mut out = vec![probes::UNTOUCHED; 24 * asked.len() - to];
            let lent = &points[..points.len() - from];
            let answer = probes::points(job.method, &args, job.width, job.height, lent, &mut out);
            let mut expected = vec![probes::UNTOUCHED; 24 * asked.len() - to];
            let ones: Result<Vec<_>, u64> = asked
                .iter()
                .map(|at| probes::inverse(job.method, &args, job.width, job.height, *at))
                .collect();
            let number = match ones {
                Err(number) => number,
                Ok(_) if from + to > 0 => 12,
                Ok(ones) => {
                    let parts = ones
                        .iter()
                        .map(|p| [p.u, p.v, f64::from_bits(p.usable.into())]);
                    expected = parts.flatten().flat_map(f64::to_le_bytes).collect();
                    0
                }
            };
            assert_eq!((answer, out), (number, expected), "job {index}: {job}");
        }
    }
}
