//! The archive's calls as they are: numbers and bytes in, numbers and bytes out. For programs that hold their pictures
//! as bytes, and for the tests. A refusal changes no byte that is lent.

use crate::ffi;

/// All that the call is given except the band. Floats are their bits, little-endian. Of `bestfit` and `viewport` 0 is
/// no and anything else yes.
#[derive(Clone, Copy, Debug, PartialEq, Eq)]
pub struct Job<'a> {
    /// The samples, 4 bytes each, row after row from the top.
    pub picture: &'a [u8],
    /// The picture's width.
    pub width: u64,
    /// The picture's height.
    pub height: u64,
    /// The picture's channels: 1, 3 or 4.
    pub channels: u64,
    /// The method's code.
    pub method: u64,
    /// The method's arguments, 8 bytes each.
    pub arguments: &'a [u8],
    /// The virtual pixel policy's code.
    pub policy: u64,
    /// The interpolation's code.
    pub interpolation: u64,
    /// The background's red, green, blue and alpha.
    pub background: [u8; 16],
    /// The matte's red, green, blue and alpha.
    pub matte: [u8; 16],
    /// Whether the output is sized to the distorted picture.
    pub bestfit: u64,
    /// Whether the output's window is given, by the next four numbers.
    pub viewport: u64,
    /// The window's width.
    pub view_width: u64,
    /// The window's height.
    pub view_height: u64,
    /// The window's left edge.
    pub view_x: i64,
    /// The window's upper edge.
    pub view_y: i64,
    /// The first row of the band.
    pub first_row: u64,
    /// How many rows the band has.
    pub rows: u64,
}

/// What an accepted call answers: the output's size, offset and channels, and the matte pixels of the band.
#[derive(Clone, Copy, Debug, PartialEq, Eq)]
#[non_exhaustive]
pub struct Answer {
    /// The output's width.
    pub width: u64,
    /// The output's height.
    pub height: u64,
    /// Where the output's left edge lies.
    pub x: i64,
    /// Where the output's upper edge lies.
    pub y: i64,
    /// The output's channels.
    pub channels: u64,
    /// How many pixels of the band have no source point that can be used, and so show the matte.
    pub matte_pixels: u64,
}

impl Answer {
    /// Reads the 48 bytes that the call writes.
    pub fn read(bytes: &[u8; 48]) -> Self {
        let (words, _) = bytes.as_chunks::<8>();
        let number = |k: usize| u64::from_le_bytes(words[k]);
        let offset = |k: usize| i64::from_le_bytes(words[k]);
        Self {
            width: number(0),
            height: number(1),
            x: offset(2),
            y: offset(3),
            channels: number(4),
            matte_pixels: number(5),
        }
    }
}

/// The call as it is: the rows go into `band`, the answer into its 48 bytes. 0 for accepted, else the refusal's number.
#[inline]
pub fn distort_into(job: &Job, band: &mut [u8], answer: &mut [u8; 48]) -> u64 {
    ffi::distort(job, band, answer)
}

/// The answer and a band of `length` bytes, or the refusal's number. No rows and no band is the way to ask for the
/// size.
#[inline]
pub fn distort(job: &Job, length: usize) -> Result<(Answer, Vec<u8>), u64> {
    let mut band = vec![0; length];
    let mut answer = [0; 48];
    match distort_into(job, &mut band, &mut answer) {
        0 => Ok((Answer::read(&answer), band)),
        number => Err(number),
    }
}

/// A code, or none where the library answers with minus the refusal's number.
fn code(answer: i64) -> Option<u8> {
    u8::try_from(answer).ok()
}

/// The code of a method's name, ASCII case ignored. The methods that are absent have codes too.
pub fn method(name: &[u8]) -> Option<u8> {
    code(ffi::method(name))
}

/// The code of a virtual pixel policy's name.
pub fn policy(name: &[u8]) -> Option<u8> {
    code(ffi::policy(name))
}

/// The code of an interpolation's name.
pub fn interpolation(name: &[u8]) -> Option<u8> {
    code(ffi::interpolation(name))
}
