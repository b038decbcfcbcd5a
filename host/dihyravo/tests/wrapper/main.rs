//! The wrapper: that it hands the call what it was given and hands back what the call answered, whatever the threads
//! and bands.

mod bands;
mod header;
mod jobs;
mod names;
mod pictures;
mod readme;
mod refusals;
mod windows;
