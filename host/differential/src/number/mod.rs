//! The number tools: what Rust's own floats answer, and inputs that a wrong tool trips over.

mod inputs;
mod narrow_inputs;
mod root_inputs;
mod rust;

pub use inputs::{factors, floor_inputs, power_inputs};
pub use narrow_inputs::narrow_inputs;
pub use root_inputs::root_inputs;
pub use rust::{floor, narrow, powi, powi_of_rust, root, wrapping_mul};

/// The inputs of one tool: a fixed part, then as many random ones as make `count`.
pub fn counted<T>(
    fixed: Vec<T>,
    count: usize,
    random: impl FnMut() -> T,
) -> impl Iterator<Item = T> {
    let more = count.saturating_sub(fixed.len());
    fixed
        .into_iter()
        .chain(std::iter::repeat_with(random).take(more))
}

/// How many inputs a run takes: DIHYRAVO_FULL=1 asks for the full count.
pub fn count() -> usize {
    if crate::full() { 10_000_000 } else { 100_000 }
}
