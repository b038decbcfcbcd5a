//! The whole call against `DistortImage::distort` over the domain of specification 1.3, bit for bit: every method,
//! policy, interpolation and channel count, viewport and bestfit, as asked, whole, and put together out of bands; the
//! matte where the source point is unusable, and its count; refused jobs by the model of the table, with nothing
//! written.
//!
//! 50,000 jobs: piece 0. With DIHYRAVO_FULL=1 pieces 0 to 99, five million jobs; DIHYRAVO_PIECES=7..20 runs those from
//! 7 up to 20 of them. A piece has a seed of its own.

use crate::compiled;
use differential::answer::parting;
use differential::generate::{self, LIGHT};
use differential::runner::{Difference, first_parting};
use differential::{Answer, Job, Verdict, codes, expected, refusal};
use reference::{Reference, reference_or_skip};
use std::cell::RefCell;
use std::ops::Range;
use std::thread;

const SEED: u64 = 1_700;

/// The jobs of a piece.
const JOBS: u64 = 50_000;

/// Output pixels of a small window.
const SMALL: u64 = 1_024;

/// The pieces that are asked for.
fn pieces() -> Range<u64> {
    let asked = std::env::var("DIHYRAVO_PIECES").ok();
    match asked.as_deref().and_then(|text| text.split_once("..")) {
        Some((first, end)) => {
            let number = |text: &str| text.parse().expect("DIHYRAVO_PIECES is two numbers");
            number(first)..number(end)
        }
        None if differential::full() => 0..100,
        None => 0..1,
    }
}

/// What was met, so that nothing of the domain is missing.
#[derive(Clone, Default)]
struct Met {
    answers: [u64; 12],
    methods: [u64; 14],
    policies: [u64; 14],
    interpolations: [u64; 9],
    channels: [u64; 5],
    whole: u64,
    pixels: u64,
    matte_pixels: u64,
}

impl Met {
    fn take(&mut self, job: &Job, answer: &Answer) {
        match answer.verdict {
            Verdict::Stray(place) => panic!("the reference has no {place}"),
            Verdict::Refused(number) => self.answers[number as usize] += 1,
            Verdict::Accepted {
                width,
                matte_pixels,
                ..
            } => {
                self.answers[0] += 1;
                self.methods[job.method as usize] += 1;
                self.policies[job.policy as usize] += 1;
                self.interpolations[job.interpolation as usize] += 1;
                self.channels[job.channels as usize] += 1;
                self.pixels += width * job.rows;
                self.matte_pixels += matte_pixels;
            }
        }
    }

    fn take_whole(&mut self, answer: &Answer) {
        if let Verdict::Accepted {
            width,
            height,
            matte_pixels,
            ..
        } = answer.verdict
        {
            self.whole += 1;
            self.pixels += 2 * width * height;
            self.matte_pixels += 2 * matte_pixels;
        }
    }

    fn add(&mut self, other: &Met) {
        let sums = [
            (&mut self.answers[..], &other.answers[..]),
            (&mut self.methods[..], &other.methods[..]),
            (&mut self.policies[..], &other.policies[..]),
            (&mut self.interpolations[..], &other.interpolations[..]),
            (&mut self.channels[..], &other.channels[..]),
        ];
        for (mine, theirs) in sums {
            mine.iter_mut().zip(theirs).for_each(|(a, b)| *a += b);
        }
        self.whole += other.whole;
        self.pixels += other.pixels;
        self.matte_pixels += other.matte_pixels;
    }
}

/// The same job for all rows, where its window is known and light: always a small one, now and then a larger one.
fn whole(r: Reference, job: &Job) -> Option<Job> {
    let w = expected::window_of(r, job)?;
    let fits = |side: u64| (1..=refusal::SIDE).contains(&side);
    let light = fits(w.width) && fits(w.height) && w.width * w.height <= LIGHT;
    let chosen = light && (w.width * w.height <= SMALL || compiled::stream(job).once_in(4));
    let whole = chosen.then(|| job.clone().with_rows(w, 0, w.height))?;
    (refusal::after_the_fit(&whole, w) == 0).then_some(whole)
}

/// Where the compiled call parts from the reference: as asked, whole, in bands.
fn parts(r: Reference, met: &RefCell<Met>, job: &Job) -> Option<String> {
    let asked = expected::expected(r, job);
    met.borrow_mut().take(job, &asked);
    if let Some(words) = parting(&asked, &compiled::answer(job)) {
        return Some(format!("as asked: {words}"));
    }
    let whole = whole(r, job)?;
    let asked = expected::expected(r, &whole);
    met.borrow_mut().take_whole(&asked);
    if let Some(words) = parting(&asked, &compiled::answer(&whole)) {
        return Some(format!("whole: {words}"));
    }
    let words = parting(&asked, &compiled::in_bands(&whole))?;
    Some(format!("in bands: {words}"))
}

/// Every `of`th job of a piece from `part` on.
fn run(r: Reference, piece: u64, part: u64, of: u64) -> (Met, Option<Difference>) {
    let met = RefCell::default();
    let window = |job: &Job| expected::window_of(r, job);
    let found = first_parting(
        SEED + piece,
        (part..JOBS).step_by(of as usize),
        &|seed, index, window| generate::call(seed, index, window),
        &|job| parts(r, &met, job),
        &window,
    );
    (met.into_inner(), found)
}

fn run_piece(r: Reference, piece: u64) -> Met {
    let threads = thread::available_parallelism().map_or(1, |n| n.get() as u64);
    let parts: Vec<_> = thread::scope(|scope| {
        let start = |part| scope.spawn(move || run(r, piece, part, threads));
        let started: Vec<_> = (0..threads).map(start).collect();
        let end = |part: thread::ScopedJoinHandle<'_, _>| part.join().expect("a part ends");
        started.into_iter().map(end).collect()
    });
    let differences = parts.iter().filter_map(|(_, found)| found.as_ref());
    if let Some(first) = differences.min_by_key(|found| found.index) {
        panic!("{first}");
    }
    let mut met = Met::default();
    parts.iter().for_each(|(part, _)| met.add(part));
    met
}

#[test]
fn pictures_offsets_counts_and_refusals() {
    let r = reference_or_skip!();
    let mut met = Met::default();
    let pieces = pieces();
    for piece in pieces.clone() {
        met.add(&run_piece(r, piece));
        if pieces.end - pieces.start > 1 {
            println!("piece {piece}: no difference");
        }
    }
    println!(
        "{} jobs, pieces {pieces:?}; accepted and by refusal: {:?}; {} again whole and in bands; {} pixels compared, \
         {} of them matte; by method: {:?}; by policy: {:?}; by interpolation: {:?}; by channels: {:?}",
        met.answers.iter().sum::<u64>(),
        met.answers,
        met.whole,
        met.pixels,
        met.matte_pixels,
        met.methods,
        met.policies,
        met.interpolations,
        met.channels
    );
    assert!(met.answers.iter().all(|&n| n > 0), "an answer is missing");
    assert!(codes::PRESENT.iter().all(|&m| met.methods[m as usize] > 0));
    assert!(met.policies.iter().all(|&n| n > 0));
    assert!(met.interpolations.iter().all(|&n| n > 0));
    assert!([1, 3, 4].iter().all(|&c| met.channels[c] > 0));
    assert!(met.whole > 0 && met.matte_pixels > 0);
}
