//! The compiled library, beaten on: no proof covers the compiler, the linker and the C interface. Every buffer that a
//! call is lent lies against an unmapped page, once with its start and once with its end; what a call may only read
//! can't be written; all other bytes are looked at after the call.
//!
//! What is assumed: Linux, a stack that grows downwards, and that the process may map memory.

pub mod arena;
pub mod callee;
pub mod cases;
pub mod check;
pub mod damage;
pub mod fault;
pub mod heap;
pub mod lent;
pub mod model;
pub mod names;
pub mod plants;
pub mod run;
pub mod stack;
pub mod sweep;
mod sys;

/// The seed of the first piece; piece `k` has the seed `SEED + k`.
pub const SEED: u64 = 9_000;

/// Calls of a piece.
pub const CALLS: u64 = 100_000;
