//! A job: all that a distort call is given.

use crate::codes;

/// Width, height and the offset of the top left corner.
#[derive(Clone, Copy, Debug, PartialEq, Eq)]
pub struct Window {
    pub width: u64,
    pub height: u64,
    pub x: i64,
    pub y: i64,
}

/// All that a distort call is given. Numbers are wider than any job that is accepted needs, so that every limit can
/// be passed. `Display` and `FromStr` (see `text`) write and read a job as one line; jobs are equal when these are.
#[derive(Clone, Debug)]
pub struct Job {
    pub method: u64,
    pub policy: u64,
    pub interpolation: u64,
    pub args: Vec<f64>,
    /// Bytes of a broken float after the arguments, 0 to 7.
    pub args_rest: usize,
    pub bestfit: bool,
    pub viewport: Option<Window>,
    pub background: [f32; 4],
    /// The colour of a pixel without a usable source point.
    pub matte: [f32; 4],
    pub width: u64,
    pub height: u64,
    pub channels: u64,
    pub samples: Vec<f32>,
    /// Bytes of a broken float after the samples, 0 to 3.
    pub samples_rest: usize,
    pub first_row: u64,
    pub rows: u64,
    /// The band's length in bytes.
    pub band: usize,
}

impl Job {
    /// A grey pixel that stays where it is: where shrinking ends, and a start for jobs written by hand.
    pub fn plain() -> Self {
        Self {
            method: codes::AFFINE,
            policy: codes::policy::EDGE,
            interpolation: codes::interpolation::BILINEAR,
            args: vec![0.0; 4],
            args_rest: 0,
            bestfit: false,
            viewport: None,
            background: [1.0; 4],
            matte: [0.0, 0.0, 0.0, 1.0],
            width: 1,
            height: 1,
            channels: 1,
            samples: vec![0.0],
            samples_rest: 0,
            first_row: 0,
            rows: 1,
            band: 4,
        }
    }

    /// The band as it is lent, before the call: no byte of it is likely to be written by chance.
    pub fn fresh_band(&self) -> Vec<u8> {
        (0..self.band).map(|k| 0xa5 ^ (k * 29) as u8).collect()
    }

    /// The arguments as bytes, the rest included.
    pub fn args_bytes(&self) -> Vec<u8> {
        let mut bytes: Vec<u8> = self.args.iter().flat_map(|x| x.to_le_bytes()).collect();
        bytes.extend(std::iter::repeat_n(0x3f, self.args_rest));
        bytes
    }

    /// The picture as bytes, the rest included.
    pub fn samples_bytes(&self) -> Vec<u8> {
        let mut bytes: Vec<u8> = self.samples.iter().flat_map(|x| x.to_le_bytes()).collect();
        bytes.extend(std::iter::repeat_n(0x3f, self.samples_rest));
        bytes
    }

    /// Four channels if the picture has four, the policy is `Transparent`, or background alpha is below 1.
    pub fn out_channels(&self) -> u64 {
        let alpha = self.policy == codes::policy::TRANSPARENT || self.background[3] < 1.0;
        if alpha { 4 } else { self.channels }
    }

    /// The window where no bestfit is asked for or found: the viewport, or the picture's own.
    pub fn own_window(&self) -> Window {
        self.viewport.unwrap_or(Window {
            width: self.width,
            height: self.height,
            x: 0,
            y: 0,
        })
    }

    /// The rows from `first_row` of an output `window`, and a band that holds them.
    pub fn with_rows(mut self, window: Window, first_row: u64, rows: u64) -> Self {
        self.first_row = first_row;
        self.rows = rows;
        let samples = rows
            .saturating_mul(window.width)
            .saturating_mul(self.out_channels());
        self.band = samples.saturating_mul(4) as usize;
        self
    }
}

impl PartialEq for Job {
    fn eq(&self, other: &Self) -> bool {
        self.to_string() == other.to_string()
    }
}
