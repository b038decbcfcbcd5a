//! Runs two answers over many jobs and tells the first difference as a smallest job.

use crate::answer::parting;
use crate::shrink::shrink;
use crate::{Answer, Job, Window, generate};
use std::fmt;

/// A way to answer a job.
pub type Answering<'a> = &'a dyn Fn(&Job) -> Answer;

/// What the output's window of a job is, as far as it is known.
pub type Windowing<'a> = &'a dyn Fn(&Job) -> Option<Window>;

/// A generator: the job of a seed and an index.
pub type Making<'a> = &'a dyn Fn(u64, u64, Windowing) -> Job;

/// Where the answers to a job part, in words; none where they are the same.
pub type Parting<'a> = &'a dyn Fn(&Job) -> Option<String>;

/// The first difference of a run.
#[derive(Clone, Debug)]
pub struct Difference {
    pub seed: u64,
    pub index: u64,
    pub found: Job,
    pub smallest: Job,
    /// Where the two answers to the smallest job part.
    pub parting: String,
}

/// Compares two answers over the jobs of `seed` with the given indices.
pub fn first_difference(
    seed: u64,
    indices: impl IntoIterator<Item = u64>,
    left: Answering,
    right: Answering,
    window: Windowing,
) -> Option<Difference> {
    let parts = |job: &Job| parting(&left(job), &right(job));
    first_parting(seed, indices, &generate::job, &parts, window)
}

/// Makes the jobs of `seed` with the given indices and tells the first whose answers part, and where.
pub fn first_parting(
    seed: u64,
    indices: impl IntoIterator<Item = u64>,
    make: Making,
    parts: Parting,
    window: Windowing,
) -> Option<Difference> {
    for index in indices {
        let found = make(seed, index, window);
        if parts(&found).is_some() {
            let smallest = shrink(&found, &|job| parts(job).is_some(), window);
            let parting = parts(&smallest).expect("a shrunk job shows the difference");
            return Some(Difference {
                seed,
                index,
                found,
                smallest,
                parting,
            });
        }
    }
    None
}

impl fmt::Display for Difference {
    fn fmt(&self, f: &mut fmt::Formatter) -> fmt::Result {
        writeln!(
            f,
            "job {} of seed {} differs; smallest:",
            self.index, self.seed
        )?;
        writeln!(f, "  {}", self.smallest)?;
        write!(f, "  {}", self.parting)
    }
}
