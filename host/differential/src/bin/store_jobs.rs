//! Writes jobs with the reference's answers to standard output: the file `tests/replay-cases/jobs`, which is replayed
//! where the reference is not there. `differential::stored` says what the file is made of. With the argument `few` it
//! writes every 100th of them: the file `crates/replay/stdin`.
//!
//! The jobs are the limits and trial cards below, and then those of one seed that are small enough, so many of each
//! refusal and of each policy with each interpolation. Left out are jobs with a source point that is beyond 2^30 or no
//! number, which the comparison with the reference does not cover.

use differential::random::Random;
use differential::stored::{self, Stored};
use differential::{Answer, Job, Verdict, codes, expected, generate};
use reference::Reference;
use std::collections::BTreeMap;
use std::io::{Write, stdout};
use std::process::ExitCode;

const SEED: u64 = 29;

/// The jobs of each refusal, of no rows, and of each policy with each interpolation.
const REFUSED: u64 = 45;
const EMPTY: u64 = 45;
const ACCEPTED: u64 = 11;

const TEXT: &str = "Jobs with the answers of DistortImage::distort, OxideAV/oxideav-image-filter commit 3c7faed292.\n\
    Made in the folder host: cargo run --release --bin store_jobs > ../tests/replay-cases/jobs\n";

const FEW: usize = 100;

const TEXT_OF_FEW: &str = "Every 100th job of tests/replay-cases/jobs, from the first on.\n";

/// Limits of specification 2 and the trial cards, each followed by what lies just beyond where there is such a thing.
const BY_HAND: [&str; 47] = [
    "",
    "size=4096x1x1",
    "size=4097x1x1",
    "size=1x4097x1",
    "size=0x1x1 samples=",
    "size=1x1x2 samples=0*2",
    "size=18446744073709551615x18446744073709551615x4 samples=",
    "size=4294967297x1x1",
    "samples=0~1",
    "samples=0*2",
    "policy=14",
    "interpolation=9",
    "method=Polar",
    "method=4294967296",
    "args=1048576*4",
    "args=1048576.0000000002*4",
    "method=Shepards args=1*256",
    "method=Shepards args=1*260",
    "method=Barrel args=0*3,1,0.5*2,1048576*251",
    "method=Barrel args=0*3,1,0.5*2,1048576*250,1048576.0000000002",
    "method=Barrel args=0*3,1,0.5*2,1048576*250,#7ff8000000000000",
    "method=Barrel args=0*258",
    "args=0*4~1",
    "samples=65536",
    "samples=65536.008",
    "background=1*3,0.99999994 band=16",
    "matte=0,0,0,-65536.008",
    "method=Polynomial args=5.000000000000001,0*84",
    "method=Polynomial args=2.5,0*36",
    "method=Polynomial args=3,0*36",
    "method=Polynomial args=1.4999999999999998,0*16",
    "method=Polynomial args=-0,0*12",
    "method=Polynomial args=5.5,0*84",
    "method=Polynomial args=6,0*84",
    "method=AffineProjection args=1,2,2,4,0,0",
    "viewport=1024x4096@0,0 rows=4095+1 band=4096",
    "viewport=4096x4096@0,0 rows=4096+0 band=0",
    "viewport=4097x1@0,0",
    "viewport=1x1@1048576,-1048576",
    "viewport=1x1@1048577,0",
    "viewport=1x0@0,0",
    "method=AffineProjection args=1,0,0,1,0,0 bestfit=yes size=4x3x1 samples=0.5*12 rows=0+5 band=120",
    "method=AffineProjection args=1048576,0,0,1048576,0,0 bestfit=yes",
    "rows=1+0 band=0",
    "rows=2+0 band=0",
    "rows=18446744073709551615+1",
    "band=3",
];

/// Whether every pixel of the band has a source point within 2^30, or none.
fn in_the_domain(r: Reference, job: &Job) -> bool {
    let Some(mapping) = expected::fit(r, job) else {
        return true;
    };
    let w = expected::window(job, &mapping);
    let good = |i: u64, j: u64| {
        let point = expected::source_point(&mapping, w, i, job.first_row + j);
        point.is_none_or(expected::usable)
    };
    (0..job.rows).all(|j| (0..w.width).all(|i| good(i, j)))
}

/// What a job is stored for.
#[derive(PartialEq, Eq, PartialOrd, Ord)]
enum Sort {
    Refused(u8),
    Empty,
    Accepted(u64, u64),
}

impl Sort {
    fn of(job: &Job, answer: &Answer) -> Self {
        match answer.verdict {
            Verdict::Refused(number) => Self::Refused(number),
            _ if job.rows == 0 => Self::Empty,
            _ => Self::Accepted(job.policy, job.interpolation),
        }
    }

    /// How many jobs are stored for it.
    fn most(&self) -> u64 {
        match self {
            Self::Refused(_) => REFUSED,
            Self::Empty => EMPTY,
            Self::Accepted(..) => ACCEPTED,
        }
    }
}

/// How long a job may be: most are short, a few as long as they can be. A polynomial needs many pairs.
fn room(r: &mut Random, job: &Job) -> usize {
    match r.below(64) {
        0 => 12_000,
        1..4 => 1_500,
        _ if job.method == codes::POLYNOMIAL => 1_000,
        4..20 => 800,
        _ => 480,
    }
}

fn of_the_seed(r: Reference, jobs: &mut Vec<Stored>) {
    let window = |job: &Job| expected::window_of(r, job);
    let sorts = codes::POLICIES.len() * codes::INTERPOLATIONS.len();
    let wanted = ACCEPTED * sorts as u64 + EMPTY + REFUSED * generate::ROWS;
    let mut counts: BTreeMap<Sort, u64> = BTreeMap::new();
    let mut taken = 0;
    for index in 0.. {
        if taken == wanted {
            return;
        }
        let job = generate::call(SEED, index, &window);
        if job.band > stored::MOST || job.samples.len() > stored::MOST {
            continue;
        }
        let answer = expected::expected(r, &job);
        let sort = Sort::of(&job, &answer);
        let most = sort.most();
        let accepted = !matches!(sort, Sort::Refused(_));
        let count = counts.entry(sort).or_default();
        let mut random = Random::nth(SEED + 1, index);
        let one = Stored::new(&mut random, &job, &answer);
        let mut bytes = Vec::new();
        one.write(&mut bytes);
        let short = one.fits() && bytes.len() <= room(&mut random, &job);
        if *count < most && short && (!accepted || in_the_domain(r, &job)) {
            *count += 1;
            taken += 1;
            jobs.push(one);
        }
    }
}

fn main() -> ExitCode {
    let Some(r) = reference::open() else {
        eprintln!("the reference is not there");
        return ExitCode::FAILURE;
    };
    let mut jobs = Vec::new();
    for (k, words) in BY_HAND.iter().enumerate() {
        let job: Job = words.parse().expect("a job by hand is read");
        let answer = expected::expected(r, &job);
        let mut random = Random::nth(SEED + 2, k as u64);
        jobs.push(Stored::new(&mut random, &job, &answer));
    }
    of_the_seed(r, &mut jobs);
    let text = match std::env::args().nth(1).as_deref() {
        None => TEXT,
        Some("few") => {
            jobs = jobs.into_iter().step_by(FEW).collect();
            TEXT_OF_FEW
        }
        Some(word) => {
            eprintln!("'{word}' is not 'few'");
            return ExitCode::FAILURE;
        }
    };
    let file = stored::write(text, &jobs);
    eprintln!("{} jobs, {} bytes", jobs.len(), file.len());
    match stdout().write_all(&file) {
        Ok(()) => ExitCode::SUCCESS,
        Err(_) => ExitCode::FAILURE,
    }
}
