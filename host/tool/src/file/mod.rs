//! Picture files: which formats there are, how they are read into floats and written from them, and how a file is put
//! in place.

mod format;
mod orientation;
mod pfm;
mod pnm;
mod read;
mod save;
mod tiff_file;
mod write;

pub use format::{Depth, Format};
pub use read::{Loaded, read};
pub use save::{check, save};
pub use write::{Target, channels_in, encode};
