//! A picture of floats.

use crate::Refusal;
use crate::ffi;
use std::borrow::Cow;
use std::fmt;

/// The largest width and height.
pub const LARGEST_SIDE: u64 = 4_096;

/// A picture: 1 to 4,096 pixels wide and high, with 1 channel (grey), 3 (red, green, blue) or 4 (and alpha). Its
/// samples lie row after row from the top, pixel after pixel from the left, the channels of a pixel together; 0 is
/// black, 1 white or opaque.
///
/// ```
/// use dihyravo::{Picture, Refusal};
///
/// let picture = Picture::new(2, 1, 3, vec![1.0, 0.0, 0.0, 0.0, 0.0, 1.0])?;
/// assert_eq!(picture.pixel(1, 0), Some(&[0.0, 0.0, 1.0][..]));
/// assert_eq!(Picture::new(2, 1, 3, vec![1.0; 5]), Err(Refusal::Stock));
/// # Ok::<(), Refusal>(())
/// ```
#[derive(Clone, PartialEq)]
pub struct Picture {
    width: u64,
    height: u64,
    channels: u64,
    samples: Vec<f32>,
}

impl Picture {
    /// A picture of these samples; refused by [`Refusal::Size`] or [`Refusal::Stock`]. The numbers themselves are
    /// looked at by the distort call.
    pub fn new(width: u64, height: u64, channels: u64, samples: Vec<f32>) -> Result<Self, Refusal> {
        let length = length(width, height, channels)?;
        if samples.len() != length {
            return Err(Refusal::Stock);
        }
        Ok(Self {
            width,
            height,
            channels,
            samples,
        })
    }

    /// A picture that is one colour all over: as many components as it has channels.
    pub fn filled(width: u64, height: u64, colour: &[f32]) -> Result<Self, Refusal> {
        let channels = colour.len() as u64;
        let length = length(width, height, channels)?;
        let samples = colour.iter().copied().cycle().take(length).collect();
        Ok(Self {
            width,
            height,
            channels,
            samples,
        })
    }

    /// A picture out of samples of 4 bytes each, little-endian.
    pub fn from_le_bytes(
        width: u64,
        height: u64,
        channels: u64,
        bytes: &[u8],
    ) -> Result<Self, Refusal> {
        let length = length(width, height, channels)?;
        let (samples, rest) = bytes.as_chunks::<4>();
        if samples.len() != length || !rest.is_empty() {
            return Err(Refusal::Stock);
        }
        let samples = samples.iter().map(|s| f32::from_le_bytes(*s)).collect();
        Ok(Self {
            width,
            height,
            channels,
            samples,
        })
    }

    /// The width in pixels.
    pub fn width(&self) -> u64 {
        self.width
    }

    /// The height in pixels.
    pub fn height(&self) -> u64 {
        self.height
    }

    /// The channels: 1, 3 or 4.
    pub fn channels(&self) -> u64 {
        self.channels
    }

    /// All samples.
    pub fn samples(&self) -> &[f32] {
        &self.samples
    }

    /// All samples, to be changed.
    pub fn samples_mut(&mut self) -> &mut [f32] {
        &mut self.samples
    }

    /// All samples, out of the picture.
    pub fn into_samples(self) -> Vec<f32> {
        self.samples
    }

    /// The samples of one row, if there is such a row.
    pub fn row(&self, y: u64) -> Option<&[f32]> {
        let row = (self.width * self.channels) as usize;
        self.samples.chunks_exact(row).nth(usize::try_from(y).ok()?)
    }

    /// The samples of one pixel, if there is such a pixel.
    pub fn pixel(&self, x: u64, y: u64) -> Option<&[f32]> {
        let row = self.row(y)?;
        row.chunks_exact(self.channels as usize)
            .nth(usize::try_from(x).ok()?)
    }

    /// The samples as bytes, 4 each, little-endian. Nothing is copied where the machine is little-endian itself.
    pub fn to_le_bytes(&self) -> Cow<'_, [u8]> {
        if cfg!(target_endian = "little") {
            return Cow::Borrowed(ffi::bytes(&self.samples));
        }
        self.samples.iter().flat_map(|s| s.to_le_bytes()).collect()
    }
}

/// A picture's samples are too many to print.
impl fmt::Debug for Picture {
    fn fmt(&self, f: &mut fmt::Formatter) -> fmt::Result {
        let Self {
            width,
            height,
            channels,
            ..
        } = self;
        write!(f, "Picture {{ {width} by {height}, {channels} channels }}")
    }
}

/// How many samples a picture of this size has.
fn length(width: u64, height: u64, channels: u64) -> Result<usize, Refusal> {
    let fit = |side: u64| (1..=LARGEST_SIDE).contains(&side);
    if !fit(width) || !fit(height) || ![1, 3, 4].contains(&channels) {
        return Err(Refusal::Size);
    }
    Ok((width * height * channels) as usize)
}
