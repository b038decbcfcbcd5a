//! What people write after the options: numbers, geometries, colours. Each reader says what it could not read.

mod colour;
mod geometry;
mod nearest;
mod numbers;

pub use colour::colour;
pub use geometry::{geometry, shown, size};
pub use nearest::nearest;
pub use numbers::{corners, numbers};
