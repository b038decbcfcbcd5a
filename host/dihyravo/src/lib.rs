//! Squares up photographs: fits a mapping to picked points and warps the picture, whole or in bands of rows.
//!
//! The work is done by `libdihyravo.a`, in which every function is proved to meet its contract. This crate puts the
//! original's builder over its call, reads its refusals, and spreads bands over threads.
//!
//! ```
//! use dihyravo::{Distort, Interpolate, Method, Picture, Refusal, VirtualPixel};
//!
//! let picture = Picture::new(2, 2, 1, vec![0.0, 1.0, 1.0, 0.0])?;
//! // Twice as large: the corner 2,2 goes to 4,4.
//! let larger = Distort::new(Method::Affine, [0.0, 0.0, 0.0, 0.0, 2.0, 2.0, 4.0, 4.0])
//!     .with_bestfit(true)
//!     .with_interpolate(Interpolate::Nearest)
//!     .with_virtual_pixel(VirtualPixel::Black)
//!     .distort(&picture)?;
//! assert_eq!((larger.x, larger.y), (-1, -1));
//! assert_eq!(larger.picture.row(1), Some(&[0.0, 0.0, 0.0, 1.0, 1.0, 0.0][..]));
//!
//! // A call that can't be done is refused, and the refusal says what to mend.
//! let refusal = Distort::new(Method::Perspective, [0.0; 12]).distort(&picture).unwrap_err();
//! assert_eq!(refusal, Refusal::Few);
//! # Ok::<(), Refusal>(())
//! ```
//!
//! Coordinates are those of the original and of ImageMagick: pixel (i, j) covers i to i + 1 and j to j + 1, and its
//! centre is at (i + 0.5, j + 0.5). A pair is u, v on the picture and x, y on the output.
#![warn(missing_docs)]
#![deny(unsafe_code)]

mod bands;
mod distort;
#[allow(unsafe_code)]
mod ffi;
mod names;
mod picture;
pub mod raw;
mod refusal;

pub use distort::{Distort, Distorted, Viewport, Window};
pub use names::{Interpolate, Method, NameError, VirtualPixel};
pub use picture::{LARGEST_SIDE, Picture};
pub use raw::Answer;
pub use refusal::Refusal;

// The raw layer's names stand here too.
#[doc(hidden)]
pub use raw::{Job, distort, distort_into, interpolation, method, policy};
