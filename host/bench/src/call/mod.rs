//! The parts of `bench_call`: what is measured, how, and what is asked of it.

pub mod clock;
pub mod goals;
pub mod measure;
pub mod memory;
pub mod rows;
