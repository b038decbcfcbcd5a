//! The original Rust, unchanged, as the oracle: its private functions by public names, and what they answer.
//!
//! `open` gives the original where it was there at build time. Without it `Reference` has no values, so code that
//! asks it compiles and is never run. Codes count from 0 in the order of the original's enums.

#[cfg(reference_present)]
extern crate self as oxideav_core;

#[cfg(reference_present)]
include!(concat!(env!("OUT_DIR"), "/modules.rs"));

#[cfg(not(reference_present))]
mod absent;
#[cfg(reference_present)]
mod present;
#[cfg(reference_present)]
mod shims;
mod skip;
mod types;

#[cfg(not(reference_present))]
pub use absent::{Mapping, ORIGINALS, Prepared, Reference, Sampler, open};
#[cfg(reference_present)]
pub use present::{Mapping, Prepared, Reference, Sampler, open};
pub use skip::name_of;
pub use types::{Call, Output, Picture, Window};

/// Whether the original was there when this crate was built.
pub const PRESENT: bool = cfg!(reference_present);

// The original's `crate::` paths.
#[cfg(reference_present)]
pub(crate) use resize::{FilterOptions, ResampleFilter};
#[cfg(reference_present)]
pub(crate) use shims::{
    Error, PixelFilter, PixelFormat, VideoFrame, VideoPlane, VideoStreamParams, exec, kernel,
    layout,
};
