//! Writing, into memory first: samples are clamped to 0 to 1 and rounded to the nearest whole step, floats stay as they
//! are.

use super::tiff_file::{self, Samples};
use super::{Depth, Format, pfm, pnm};
use crate::failure::Failure;
use dihyravo::Picture;
use image::codecs::jpeg::JpegEncoder;
use image::codecs::png::{CompressionType, FilterType, PngEncoder};
use image::{ColorType, ImageEncoder, ImageError};
use std::borrow::Cow;

/// What kind of file to make. The quality is JPEG's alone, 1 to 100.
#[derive(Clone, Copy, Debug)]
pub struct Target {
    pub format: Format,
    pub depth: Depth,
    pub quality: u8,
}

/// The bytes of the file.
pub fn encode(picture: &Picture, target: Target) -> Result<Vec<u8>, Failure> {
    let Target {
        format,
        depth,
        quality,
    } = target;
    let (channels, samples) = channels_for(picture, format, depth)?;
    let (width, height) = (picture.width(), picture.height());
    let wide = |side: u64| u32::try_from(side).map_err(Failure::unusable);
    match format {
        Format::Png => png(wide(width)?, wide(height)?, channels, depth, &samples),
        Format::Jpeg => jpeg(wide(width)?, wide(height)?, channels, quality, &samples),
        Format::Tiff => tiff(wide(width)?, wide(height)?, channels, depth, &samples),
        Format::Pnm | Format::Pgm | Format::Ppm => {
            let largest = if depth == Depth::Eight { 255 } else { 65_535 };
            let mut bytes = pnm::header(width, height, channels, largest).into_bytes();
            bytes.extend(big_endian(depth, &samples));
            Ok(bytes)
        }
        Format::Pfm => Ok(pfm::encode(width, height, channels, &samples)),
    }
}

/// The channels that the picture has in a file of this format, where it can be written so at all.
pub fn channels_in(picture: &Picture, format: Format) -> u64 {
    match (picture.channels(), format) {
        (4, _) if !format.has_alpha() => 3,
        (1, Format::Ppm) => 3,
        (channels, _) => channels,
    }
}

/// The samples in the channels that the format has. Alpha is left out only where every pixel is opaque.
fn channels_for(
    picture: &Picture,
    format: Format,
    depth: Depth,
) -> Result<(u64, Cow<'_, [f32]>), Failure> {
    let samples = picture.samples();
    match (picture.channels(), format) {
        (4, _) if !format.has_alpha() => {
            let (pixels, _) = samples.as_chunks::<4>();
            if !pixels.iter().all(|p| opaque(p[3], depth)) {
                let what = "the picture is transparent in places";
                return Err(Failure::unusable(format!(
                    "{what} and {format} has no alpha: write PNG or TIFF"
                )));
            }
            if format == Format::Pgm {
                return Err(coloured());
            }
            Ok((
                3,
                pixels.iter().flat_map(|&[r, g, b, _]| [r, g, b]).collect(),
            ))
        }
        (3, Format::Pgm) => Err(coloured()),
        (1, Format::Ppm) => Ok((3, samples.iter().flat_map(|&grey| [grey; 3]).collect())),
        (channels, _) => Ok((channels, Cow::Borrowed(samples))),
    }
}

fn coloured() -> Failure {
    let what = "the picture has three colour channels and PGM has one";
    Failure::unusable(format!("{what}: write PPM or another format"))
}

fn opaque(alpha: f32, depth: Depth) -> bool {
    match depth {
        Depth::Eight => step(alpha, 255.0) >= 255.0,
        Depth::Sixteen => step(alpha, 65_535.0) >= 65_535.0,
        Depth::Float => alpha == 1.0,
    }
}

/// The nearest whole step, halves away from 0. In f64, so that the product is not rounded to a half first.
fn step(sample: f32, largest: f64) -> f64 {
    (f64::from(sample).clamp(0.0, 1.0) * largest).round()
}

fn eights(samples: &[f32]) -> Vec<u8> {
    samples.iter().map(|s| step(*s, 255.0) as u8).collect()
}

fn sixteens(samples: &[f32]) -> Vec<u16> {
    samples.iter().map(|s| step(*s, 65_535.0) as u16).collect()
}

fn big_endian(depth: Depth, samples: &[f32]) -> Vec<u8> {
    match depth {
        Depth::Eight => eights(samples),
        _ => sixteens(samples)
            .into_iter()
            .flat_map(u16::to_be_bytes)
            .collect(),
    }
}

fn png(
    width: u32,
    height: u32,
    channels: u64,
    depth: Depth,
    samples: &[f32],
) -> Result<Vec<u8>, Failure> {
    let mut bytes = Vec::new();
    // On photographs the default takes six times as long and saves a quarter.
    let encoder =
        PngEncoder::new_with_quality(&mut bytes, CompressionType::Fast, FilterType::Adaptive);
    let (data, kind) = match depth {
        Depth::Eight => {
            let kinds = [ColorType::L8, ColorType::Rgb8, ColorType::Rgba8];
            (eights(samples), kinds[place(channels)])
        }
        _ => {
            let kinds = [ColorType::L16, ColorType::Rgb16, ColorType::Rgba16];
            // The encoder takes the machine's own order.
            let data = sixteens(samples)
                .into_iter()
                .flat_map(u16::to_ne_bytes)
                .collect();
            (data, kinds[place(channels)])
        }
    };
    encoder
        .write_image(&data, width, height, kind)
        .map_err(unencoded)?;
    Ok(bytes)
}

/// Where 1, 3 and 4 channels stand in a list.
fn place(channels: u64) -> usize {
    match channels {
        1 => 0,
        3 => 1,
        _ => 2,
    }
}

fn jpeg(
    width: u32,
    height: u32,
    channels: u64,
    quality: u8,
    samples: &[f32],
) -> Result<Vec<u8>, Failure> {
    let mut bytes = Vec::new();
    let kind = if channels == 1 {
        ColorType::L8
    } else {
        ColorType::Rgb8
    };
    let mut encoder = JpegEncoder::new_with_quality(&mut bytes, quality);
    encoder
        .encode(&eights(samples), width, height, kind)
        .map_err(unencoded)?;
    Ok(bytes)
}

fn tiff(
    width: u32,
    height: u32,
    channels: u64,
    depth: Depth,
    samples: &[f32],
) -> Result<Vec<u8>, Failure> {
    match depth {
        Depth::Eight => {
            tiff_file::encode(width, height, channels, Samples::Eight(&eights(samples)))
        }
        Depth::Sixteen => tiff_file::encode(
            width,
            height,
            channels,
            Samples::Sixteen(&sixteens(samples)),
        ),
        Depth::Float => tiff_file::encode(width, height, channels, Samples::Float(samples)),
    }
}

fn unencoded(error: ImageError) -> Failure {
    Failure::unusable(format!("the picture can't be written: {error}"))
}

#[cfg(test)]
mod tests {
    use super::*;

    #[test]
    fn steps_are_clamped_and_nearest() {
        assert_eq!(
            eights(&[-1.0, 0.0, 0.4999 / 255.0, 0.5001 / 255.0, 1.0, 65536.0]),
            [0, 0, 0, 1, 255, 255]
        );
        let all: Vec<f32> = (0..=65_535u16).map(|s| f32::from(s) / 65_535.0).collect();
        assert!(sixteens(&all).into_iter().eq(0..=65_535));
        let all: Vec<f32> = (0..=255u8).map(|s| f32::from(s) / 255.0).collect();
        assert!(eights(&all).into_iter().eq(0..=255));
    }

    #[test]
    fn alpha_is_left_out_only_where_nothing_is_lost() {
        let target = |format, depth| Target {
            format,
            depth,
            quality: 90,
        };
        let clear = Picture::new(1, 1, 4, vec![1.0, 0.5, 0.0, 0.5]).unwrap();
        for format in [Format::Jpeg, Format::Ppm, Format::Pfm] {
            let why = encode(&clear, target(format, Depth::Eight))
                .unwrap_err()
                .to_string();
            assert!(why.contains("has no alpha"), "{why}");
        }
        let opaque = Picture::new(1, 1, 4, vec![1.0, 0.5, 0.0, 1.0]).unwrap();
        let written = encode(&opaque, target(Format::Ppm, Depth::Eight)).unwrap();
        assert_eq!(written, b"P6\n1 1\n255\n\xff\x80\0");
        assert!(encode(&opaque, target(Format::Pgm, Depth::Eight)).is_err());
        assert!(encode(&opaque, target(Format::Jpeg, Depth::Eight)).is_ok());
    }
}
