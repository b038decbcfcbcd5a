//! The exact chain (specification 11.3): pictures in fractions, warped without rounding after the fit. It shares no
//! code with the product, and takes nothing of it but coefficients and windows.

mod number;
mod picture;
mod point;
mod tap;

pub use picture::Picture;
pub use point::{Mapping, Point};
pub use tap::{Tap, tap};
