//! What the reference is asked with and what it answers, in plain numbers.

/// Width, height and the offset of the top left corner.
pub type Window = (u32, u32, i64, i64);

/// Samples of a picture, row by row, `channels` for each pixel.
#[derive(Clone, Copy, Debug)]
pub struct Picture<'a> {
    pub width: u32,
    pub height: u32,
    pub channels: usize,
    pub samples: &'a [f32],
}

/// A call of `DistortImage::distort` with point interpolation.
#[derive(Clone, Copy, Debug)]
pub struct Call<'a> {
    pub method: u8,
    pub args: &'a [f64],
    pub bestfit: bool,
    pub viewport: Option<Window>,
    pub policy: u8,
    pub interpolation: u8,
    pub background: [f32; 4],
    /// The original's `matte`: the colour where the mapping is undefined.
    pub undefined: [f32; 4],
    pub picture: Picture<'a>,
}

/// The picture that `distort` makes, and its offset.
#[derive(Clone, Debug, PartialEq)]
pub struct Output {
    pub width: u32,
    pub height: u32,
    pub x: i64,
    pub y: i64,
    pub channels: usize,
    pub samples: Vec<f32>,
}
