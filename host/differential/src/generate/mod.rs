//! Jobs from a seed: tame ones, as photographs of cards give them; wild ones, over the whole domain; refused ones,
//! at the limits of each row of the refusal table. The same seed and index give the same job everywhere.

mod arguments;
mod edges;
mod numbers;
mod pairs;
mod picture;
mod refused;
pub mod warps;
mod window;

use crate::codes;
use crate::random::Random;
use crate::{Job, Window};

pub use refused::ROWS;

/// The most output pixels of a job made here, so that a run of many jobs ends soon.
pub const LIGHT: u64 = 16_384;

#[derive(Clone, Copy, Debug, PartialEq, Eq)]
pub enum Kind {
    Tame,
    Wild,
    Refused,
}

/// The kind of the `index`th job.
pub fn kind(index: u64) -> Kind {
    match index % 5 {
        0 => Kind::Tame,
        4 => Kind::Refused,
        _ => Kind::Wild,
    }
}

/// The `index`th job under `seed`. `window` knows the output's window of a job that is not refused before its fit.
pub fn job(seed: u64, index: u64, window: &dyn Fn(&Job) -> Option<Window>) -> Job {
    let mut random = Random::nth(seed, index);
    let job = match kind(index) {
        Kind::Tame => any(&mut random, false, window),
        Kind::Wild => any(&mut random, true, window),
        Kind::Refused => return refused::job(&mut random, window),
    };
    debug_assert_eq!(crate::refusal::before_the_fit(&job), 0, "{job}");
    job
}

/// The `index`th job of the whole call under `seed`: of four, three are those of `job` and one is at an edge.
pub fn call(seed: u64, index: u64, window: Finder) -> Job {
    match index % 4 {
        3 => edges::job(&mut Random::nth(seed, index), window),
        k => job(seed, index / 4 * 3 + k, window),
    }
}

/// What the output's window of a job is, as far as it is known.
type Finder<'a> = &'a dyn Fn(&Job) -> Option<Window>;

/// A job that no refusal before the fit applies to.
fn any(r: &mut Random, wild: bool, window: &dyn Fn(&Job) -> Option<Window>) -> Job {
    let method = r.pick(&codes::PRESENT);
    with_method(r, wild, method, window)
}

fn with_method(
    r: &mut Random,
    wild: bool,
    method: u64,
    window: &dyn Fn(&Job) -> Option<Window>,
) -> Job {
    let mut job = Job::plain();
    job.method = method;
    job.policy = r.below(codes::POLICIES.len() as u64);
    job.interpolation = r.below(codes::INTERPOLATIONS.len() as u64);
    picture::fill(r, wild, &mut job);
    arguments::fill(r, wild, &mut job);
    window::choose(r, wild, &mut job);
    window::choose_rows(r, job, window)
}
