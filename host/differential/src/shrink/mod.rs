//! From a job that shows a difference to a smallest one: a fixed list of simplifications, the first that is smaller
//! and still shows it is taken, again and again until none is left. Nothing is drawn at random.

mod simpler;

use crate::text::Float;
use crate::{Job, Window};
use simpler::simpler;

/// The most jobs that are tried.
const TRIES: usize = 20_000;

/// The smallest job found that still `differs`. `window` knows the output's window, so that rows and band follow a
/// change of size.
pub fn shrink(
    job: &Job,
    differs: &dyn Fn(&Job) -> bool,
    window: &dyn Fn(&Job) -> Option<Window>,
) -> Job {
    let mut best = job.clone();
    let mut weight = weigh(&best, window);
    let mut tries = TRIES;
    'again: loop {
        for next in simpler(&best) {
            for candidate in [whole(&next, window), next] {
                let lighter = weigh(&candidate, window);
                if lighter >= weight {
                    continue;
                }
                if tries == 0 {
                    return best;
                }
                tries -= 1;
                if differs(&candidate) {
                    (best, weight) = (candidate, lighter);
                    continue 'again;
                }
            }
        }
        return best;
    }
}

/// How large a job is: numbers in and out, then their letters, then how plain they are, then the codes. Each step
/// makes this smaller, so shrinking ends.
fn weigh(job: &Job, window: &dyn Fn(&Job) -> Option<Window>) -> (u128, usize, usize, u64) {
    let w = window(job).unwrap_or(job.own_window());
    let area = w.width as u128 * w.height as u128;
    let extras = u128::from(job.bestfit) + u128::from(job.viewport.is_some());
    let rest = (job.args_rest + job.samples_rest + job.band) as u128;
    let numbers = area + rest + extras + (job.args.len() + job.samples.len()) as u128;

    let frame = format!("{:?} {}+{}", job.viewport, job.first_row, job.rows).len();
    let floats = job.args.iter().map(|x| x.write());
    let colours = job.background.iter().chain(&job.matte);
    let floats = floats.chain(job.samples.iter().chain(colours).map(|x| x.write()));
    let (letters, plain) = floats.fold((frame, 0), |(letters, plain), text| {
        let odd = ["0", "1"].iter().position(|t| *t == text).unwrap_or(2);
        (letters + text.len(), plain + odd)
    });

    let codes = [job.method, job.policy, job.interpolation, job.channels];
    let codes = codes.iter().fold(0, |a: u64, b| a.saturating_add(*b));
    (numbers, letters, plain, codes)
}

/// The same job for all rows of its output.
fn whole(job: &Job, window: &dyn Fn(&Job) -> Option<Window>) -> Job {
    let w = window(job).unwrap_or(job.own_window());
    let area = w.width.saturating_mul(w.height);
    if area > 1 << 24 {
        return job.clone();
    }
    job.clone().with_rows(w, 0, w.height)
}
