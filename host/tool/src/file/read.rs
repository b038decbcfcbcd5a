//! Reading: the format is found by the file's first bytes, the size is looked at before anything is unpacked, and
//! samples become floats from 0 to 1 by one division. Colours are taken as they are stored; no profile, gamma or
//! orientation is applied.

use super::orientation::orientation;
use super::{Depth, pfm, pnm, tiff_file};
use crate::failure::Failure;
use dihyravo::{LARGEST_SIDE, Picture, Refusal};
use image::{DynamicImage, ImageError, ImageFormat};
use std::fs::File;
use std::io::{Cursor, Read};
use std::panic::{AssertUnwindSafe, catch_unwind};
use std::path::Path;

/// More than the largest picture takes in any of the formats.
const LONGEST_FILE: u64 = 1 << 30;

/// A picture, how finely its file had it, and the orientation that is not applied.
pub struct Loaded {
    pub picture: Picture,
    pub depth: Depth,
    pub orientation: Option<u16>,
}

struct Decoded {
    picture: Picture,
    depth: Depth,
}

#[derive(Clone, Copy, Debug)]
pub struct Sizes {
    pub width: u64,
    pub height: u64,
    pub channels: u64,
}

/// How many samples a picture has, or refusal 1 with its size.
pub fn sized(sizes: Sizes) -> Result<usize, Failure> {
    let Sizes {
        width,
        height,
        channels,
    } = sizes;
    let fits = |side| (1..=LARGEST_SIDE).contains(&side);
    if !fits(width) || !fits(height) {
        return Err(Failure::refused(
            Refusal::Size,
            format!("the picture is {width} by {height}"),
        ));
    }
    Ok((width * height * channels) as usize)
}

pub fn read(path: &Path) -> Result<Loaded, Failure> {
    let told =
        |why: String| Failure::unusable(format!("'{}' can't be read: {why}", path.display()));
    let bytes = bytes(path).map_err(told)?;
    let decoded = decode_any(&bytes).map_err(|failure| match failure {
        Failure::Unusable(why) => told(why),
        refused => refused,
    })?;
    Ok(Loaded {
        picture: decoded.picture,
        depth: decoded.depth,
        orientation: orientation(&bytes),
    })
}

/// The decoders are others' code and the file may be anything, so a panic of theirs is a broken file.
fn decode_any(bytes: &[u8]) -> Result<Decoded, Failure> {
    let decoded = catch_unwind(AssertUnwindSafe(|| decode(bytes)));
    decoded.unwrap_or_else(|_| Err(Failure::unusable("it is broken: its decoder gave up")))
}

fn bytes(path: &Path) -> Result<Vec<u8>, String> {
    let file = File::open(path).map_err(|e| e.to_string())?;
    if file.metadata().is_ok_and(|m| m.is_dir()) {
        return Err("it is a folder".to_owned());
    }
    let mut bytes = Vec::new();
    file.take(LONGEST_FILE + 1)
        .read_to_end(&mut bytes)
        .map_err(|e| e.to_string())?;
    match bytes.len() as u64 {
        0 => Err("it is empty".to_owned()),
        1..=LONGEST_FILE => Ok(bytes),
        _ => Err(format!("it is longer than {LONGEST_FILE} bytes")),
    }
}

fn decode(bytes: &[u8]) -> Result<Decoded, Failure> {
    if pfm::is_pfm(bytes) {
        return Ok(Decoded {
            picture: pfm::decode(bytes)?,
            depth: Depth::Float,
        });
    }
    match image::guess_format(bytes) {
        Ok(ImageFormat::Tiff) => by_tiff(bytes),
        Ok(format @ (ImageFormat::Png | ImageFormat::Jpeg)) => by_image(bytes, format, None),
        Ok(ImageFormat::Pnm) => match pnm::largest_sample(bytes) {
            Some(0) => Err(Failure::unusable(
                "the largest sample that its header names is 0",
            )),
            largest => by_image(bytes, ImageFormat::Pnm, largest),
        },
        _ => Err(Failure::unusable(
            "it is no PNG, JPEG, TIFF, PNM or PFM file",
        )),
    }
}

fn by_tiff(bytes: &[u8]) -> Result<Decoded, Failure> {
    if let Some(why) = tiff_file::misread(bytes) {
        return Err(Failure::unusable(why));
    }
    if !tiff_file::is_float(bytes) {
        return by_image(bytes, ImageFormat::Tiff, None);
    }
    let picture = tiff_file::decode(bytes)?;
    let depth = Depth::Float;
    Ok(Decoded { picture, depth })
}

/// Through the crate `image`. `largest` is the sample that stands for 1 where it is not the type's largest.
fn by_image(bytes: &[u8], format: ImageFormat, largest: Option<u16>) -> Result<Decoded, Failure> {
    let reader = || image::io::Reader::with_format(Cursor::new(bytes), format);
    let (width, height) = reader().into_dimensions().map_err(undecoded)?;
    sized(Sizes {
        width: width.into(),
        height: height.into(),
        channels: 1,
    })?;
    let image = reader().decode().map_err(undecoded)?;
    let (channels, depth, samples) = match image {
        DynamicImage::ImageLuma8(i) => (1, Depth::Eight, floats(&i, largest)),
        DynamicImage::ImageLumaA8(i) => (2, Depth::Eight, floats(&i, largest)),
        DynamicImage::ImageRgb8(i) => (3, Depth::Eight, floats(&i, largest)),
        DynamicImage::ImageRgba8(i) => (4, Depth::Eight, floats(&i, largest)),
        DynamicImage::ImageLuma16(i) => (1, Depth::Sixteen, floats(&i, largest)),
        DynamicImage::ImageLumaA16(i) => (2, Depth::Sixteen, floats(&i, largest)),
        DynamicImage::ImageRgb16(i) => (3, Depth::Sixteen, floats(&i, largest)),
        DynamicImage::ImageRgba16(i) => (4, Depth::Sixteen, floats(&i, largest)),
        _ => return Err(Failure::unusable("its kind of samples is not supported")),
    };
    let samples = samples
        .ok_or_else(|| Failure::unusable("a sample is above the largest that its header names"))?;
    let picture = picture(width.into(), height.into(), channels, samples)?;
    Ok(Decoded { picture, depth })
}

/// Samples over the largest one, in one division each; none where a sample is above it.
fn floats<T: Copy + Into<u16> + Largest>(samples: &[T], largest: Option<u16>) -> Option<Vec<f32>> {
    let largest = largest.unwrap_or(T::LARGEST);
    let one = |sample: &T| {
        let sample: u16 = (*sample).into();
        (sample <= largest).then(|| f32::from(sample) / f32::from(largest))
    };
    samples.iter().map(one).collect()
}

trait Largest {
    const LARGEST: u16;
}

impl Largest for u8 {
    const LARGEST: u16 = 255;
}

impl Largest for u16 {
    const LARGEST: u16 = 65_535;
}

/// A picture of 1, 2, 3 or 4 channels; grey with alpha is widened to four.
pub fn picture(
    width: u64,
    height: u64,
    channels: u64,
    samples: Vec<f32>,
) -> Result<Picture, Failure> {
    if channels != 2 {
        return Ok(Picture::new(width, height, channels, samples)?);
    }
    let (pixels, _) = samples.as_chunks::<2>();
    let wide = pixels
        .iter()
        .flat_map(|&[grey, alpha]| [grey, grey, grey, alpha])
        .collect();
    Ok(Picture::new(width, height, 4, wide)?)
}

pub fn undecoded(error: ImageError) -> Failure {
    Failure::unusable(match error {
        ImageError::IoError(e) if e.kind() == std::io::ErrorKind::UnexpectedEof => {
            "it is cut off".to_owned()
        }
        other => other.to_string(),
    })
}

#[cfg(test)]
mod tests {
    use super::super::{Format, Target, encode};
    use super::*;

    /// A small file of each format, depth and number of channels.
    fn files() -> Vec<Vec<u8>> {
        let mut files = Vec::new();
        for format in [
            Format::Png,
            Format::Jpeg,
            Format::Tiff,
            Format::Pnm,
            Format::Pfm,
        ] {
            for (channels, &depth) in [1, 3, 4]
                .iter()
                .flat_map(|c| format.depths().iter().map(move |d| (*c, d)))
            {
                let samples = (0..9 * 5 * channels)
                    .map(|k| (k % 13) as f32 / 12.0)
                    .collect();
                let picture = Picture::new(9, 5, channels, samples).unwrap();
                let target = Target {
                    format,
                    depth,
                    quality: 90,
                };
                files.extend(encode(&picture, target).ok());
            }
        }
        files
    }

    #[test]
    fn every_file_is_read_back() {
        let files = files();
        assert_eq!(files.len(), 2 * 3 + 2 + 3 * 3 + 2 * 2 + 2);
        for file in files {
            let loaded = decode_any(&file).unwrap();
            assert_eq!((loaded.picture.width(), loaded.picture.height()), (9, 5));
        }
    }

    #[test]
    fn files_that_are_cut_off_are_told() {
        for file in files() {
            for length in 1..file.len() {
                let cut = decode_any(&file[..length]);
                // What follows the last sample may be missing: PNG's end chunk, TIFF's and JPEG's padding.
                assert!(
                    cut.is_err() || length + 16 > file.len(),
                    "{length} of {} bytes: {:?}",
                    file.len(),
                    &file[..4]
                );
            }
        }
    }

    #[test]
    fn broken_bytes_end_in_a_picture_or_a_failure() {
        let mut state = 1u64;
        let mut draw = |below: usize| {
            state = state
                .wrapping_mul(6_364_136_223_846_793_005)
                .wrapping_add(1_442_695_040_888_963_407);
            (state >> 33) as usize % below
        };
        let (mut read, mut told) = (0, 0);
        for file in files() {
            for _ in 0..200 {
                let mut broken = file.clone();
                for _ in 0..1 + draw(4) {
                    let place = draw(broken.len().min(400));
                    broken[place] = draw(256) as u8;
                }
                match decode_any(&broken) {
                    Ok(_) => read += 1,
                    Err(_) => told += 1,
                }
            }
        }
        assert!(read > 0 && told > 0, "{read} read, {told} told");
    }

    #[test]
    fn pnm_samples_are_over_the_headers_largest() {
        let samples = |file: &[u8]| decode_any(file).map(|l| l.picture.into_samples());
        assert_eq!(
            samples(b"P5\n3 1\n100\n\x00\x32\x64"),
            Ok(vec![0.0, 0.5, 1.0])
        );
        assert_eq!(
            samples(b"P5\n2 1\n1000\n\x01\xf4\x03\xe8"),
            Ok(vec![0.5, 1.0])
        );
        assert_eq!(
            samples(b"P2\n# a remark\n2 1\n4\n1 4\n"),
            Ok(vec![0.25, 1.0])
        );
        assert_eq!(
            samples(b"P3\n1 1\n255\n255 0 51\n"),
            Ok(vec![1.0, 0.0, 0.2])
        );
        assert_eq!(samples(b"P1\n2 1\n1 0\n"), Ok(vec![0.0, 1.0]));
        assert_eq!(samples(b"P4\n2 1\n\x80"), Ok(vec![0.0, 1.0]));
        assert_eq!(
            samples(
                b"P7\nWIDTH 2\nHEIGHT 1\nDEPTH 1\nMAXVAL 1\n\
                  TUPLTYPE BLACKANDWHITE\nENDHDR\n\x00\x01"
            ),
            Ok(vec![0.0, 1.0])
        );
        assert!(samples(b"P5\n1 1\n0\n\x00").is_err());
        assert!(
            samples(b"P5\n1 1\n100\n\x65")
                .unwrap_err()
                .to_string()
                .contains("above the largest")
        );
    }
}
