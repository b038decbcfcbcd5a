//! What the original's three files import from elsewhere, as far as they need it to compile. `distort` reaches none
//! of it but `Error`; whatever else is reached says so and stops.
#![allow(dead_code)]

#[derive(Clone, Debug)]
pub struct Error(pub String);

impl Error {
    pub fn invalid(what: impl Into<String>) -> Self {
        Self(what.into())
    }

    pub fn unsupported(what: impl Into<String>) -> Self {
        Self(what.into())
    }
}

#[derive(Clone, Copy, Debug, PartialEq, Eq)]
pub enum PixelFormat {
    Abgr,
    Argb,
    Bgra,
    Gray8,
    GrayF32Le,
    Pal8,
    Rgb24,
    RgbF32Le,
    Rgba,
    Rgba64Le,
    RgbaF32Le,
    Ya16Le,
    Ya8,
}

#[derive(Clone, Debug)]
pub struct VideoPlane {
    pub stride: usize,
    pub data: Vec<u8>,
}

#[derive(Clone, Debug)]
pub struct VideoFrame {
    pub pts: Option<i64>,
    pub planes: Vec<VideoPlane>,
}

#[derive(Clone, Copy, Debug)]
pub struct VideoStreamParams {
    pub format: PixelFormat,
    pub width: u32,
    pub height: u32,
}

pub trait PixelFilter {
    fn accepted_formats(&self) -> &'static [PixelFormat];

    fn apply_pixels(
        &self,
        input: &VideoFrame,
        params: VideoStreamParams,
    ) -> Result<VideoFrame, Error>;
}

pub mod layout {
    use super::{Error, PixelFormat, VideoFrame, VideoStreamParams};

    pub const PACKED_8BIT_DEEP: &[PixelFormat] = &[];
    pub const BYTE_ADDRESSABLE: &[PixelFormat] = &[];
    pub const BYTE_ADDRESSABLE_SAMPLED: &[PixelFormat] = &[];

    #[derive(Clone, Copy, Debug)]
    pub struct PlaneGeometry {
        pub width: u32,
        pub height: u32,
        pub position_bytes: usize,
        pub row_bytes: usize,
    }

    #[derive(Clone, Copy, Debug)]
    pub enum SampleKind {
        U8,
        U16 { bits: u32 },
        F32,
    }

    impl SampleKind {
        pub fn bytes(self) -> usize {
            unreachable!("a shim of the reference")
        }

        pub fn max_code(self) -> Option<u32> {
            unreachable!("a shim of the reference")
        }
    }

    pub fn sample_kind(_: PixelFormat) -> Option<SampleKind> {
        unreachable!("a shim of the reference")
    }

    pub fn plane_geometry(_: PixelFormat, _: usize, _: u32, _: u32) -> Option<PlaneGeometry> {
        unreachable!("a shim of the reference")
    }

    pub fn validate_frame(_: &VideoFrame, _: VideoStreamParams, _: &str) -> Result<(), Error> {
        unreachable!("a shim of the reference")
    }
}

pub mod exec {
    pub fn par_rows<T>(_: &mut [T], _: usize, _: impl Fn(usize, &mut [T])) {
        unreachable!("a shim of the reference")
    }
}

pub mod kernel {
    pub enum Alpha {
        Independent,
        Keep,
        Premultiplied,
    }

    #[allow(clippy::too_many_arguments)]
    pub fn convolve_separable(
        _: &[f32],
        _: usize,
        _: usize,
        _: usize,
        _: usize,
        _: &[f32],
        _: &[f32],
        _: Alpha,
    ) -> Vec<f32> {
        unreachable!("a shim of the reference")
    }
}
