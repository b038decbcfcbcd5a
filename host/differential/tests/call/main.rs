//! The exported distort call: against the original, on turned pictures too, against the stored answers, and lists of
//! calls against the exact chain.

mod chain;
mod compiled;
mod distort;
mod replay;
mod slanted;
