//! The differential runs: jobs made from a seed, two answers to each, the first difference as a smallest job.

pub mod answer;
pub mod call_numbers;
pub mod chain;
pub mod codes;
pub mod exact;
pub mod expected;
pub mod generate;
pub mod job;
pub mod lists;
pub mod number;
pub mod random;
pub mod refusal;
pub mod runner;
pub mod shrink;
pub mod stored;
pub mod text;

pub use answer::{Answer, Verdict};
pub use call_numbers::CallNumbers;
pub use job::{Job, Window};

/// Whether the full counts are asked for: DIHYRAVO_FULL=1.
pub fn full() -> bool {
    std::env::var_os("DIHYRAVO_FULL").is_some_and(|value| value == "1")
}
