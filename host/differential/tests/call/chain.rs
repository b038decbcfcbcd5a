//! The third demand, run: lists of calls through the compiled call and through the exact chain, warps whole and in
//! bands, refused calls and calls that stay alone between them. 2,000 lists, 200,000 with DIHYRAVO_FULL=1. The
//! reference is not asked: the coefficients are those of the product's own fit, which other tests compare with it.

use crate::compiled;
use differential::Job;
use differential::lists::{self, Summary};
use std::thread;

const SEED: u64 = 23;

fn count() -> u64 {
    if differential::full() { 200_000 } else { 2_000 }
}

fn fit(job: &Job) -> Option<Vec<f64>> {
    probes::fit(job.method, &job.args_bytes(), job.width, job.height).ok()
}

/// Every `of`th list from `part` on.
fn run(part: u64, of: u64) -> Summary {
    let mut met = Summary::default();
    for index in (part..count()).step_by(of as usize) {
        match lists::run(SEED, index, &compiled::plain, &fit) {
            Ok(summary) => met.add(&summary),
            Err(words) => panic!("{words}"),
        }
    }
    met
}

#[test]
fn lists_of_calls() {
    let threads = thread::available_parallelism().map_or(1, |n| n.get() as u64);
    let mut met = Summary::default();
    thread::scope(|scope| {
        let start = |part| scope.spawn(move || run(part, threads));
        let started: Vec<_> = (0..threads).map(start).collect();
        for part in started {
            met.add(&part.join().expect("no list fails"));
        }
    });
    println!(
        "{} lists: {} warps, {} of them in bands, {} refused calls, {} calls that stay alone; by method: {:?}; by \
         policy: {:?}; the worst error is {} of n/524,288",
        count(),
        met.warps,
        met.joined,
        met.refused,
        met.alone,
        met.methods,
        met.policies,
        met.worst
    );
    assert!(met.joined > 0 && met.refused > 0 && met.alone > 0);
    assert!([0, 1, 3, 4, 5, 7].iter().all(|&m| met.methods[m] > 0));
    assert!((0..14).all(|p| p == 5 || met.policies[p] > 0));
    // An error of nothing would be no comparison.
    assert!(met.worst > 1.0 / 32.0 && met.worst <= 1.0);
}
