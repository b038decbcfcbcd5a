//! PNM: the crate `image` reads its samples but leaves the header's largest sample to the caller; what is written is
//! binary.

use image::codecs::pnm::{PnmDecoder, PnmSubtype};
use std::io::Cursor;

/// The sample that stands for 1. Bitmaps are read as 0 and 255.
pub fn largest_sample(bytes: &[u8]) -> Option<u16> {
    let decoder = PnmDecoder::new(Cursor::new(bytes)).ok()?;
    if matches!(decoder.subtype(), PnmSubtype::Bitmap(_)) {
        return None;
    }
    let (_, header) = decoder.into_inner();
    u16::try_from(header.maximal_sample()).ok()
}

/// The header of a file of one or three channels.
pub fn header(width: u64, height: u64, channels: u64, largest: u16) -> String {
    let kind = if channels == 3 { "P6" } else { "P5" };
    format!("{kind}\n{width} {height}\n{largest}\n")
}
