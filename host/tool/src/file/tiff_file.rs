//! TIFF: what the crate `image` does not read of it, and the writing of it in every depth, uncompressed. A fourth
//! channel is tagged as alpha that the colours are not multiplied by, which readers ask for.

use super::read::{Sizes, picture, sized};
use crate::failure::Failure;
use dihyravo::Picture;
use std::io::Cursor;
use tiff::decoder::{Decoder, DecodingResult};
use tiff::encoder::{TiffEncoder, TiffValue, colortype};
use tiff::tags::{SampleFormat, Tag};
use tiff::{ColorType, TiffError};

/// The numbers of a tag of the first picture, none where it has no such tag.
fn numbers(bytes: &[u8], tag: Tag) -> Vec<u16> {
    let found = Decoder::new(Cursor::new(bytes)).and_then(|mut d| d.find_tag_unsigned_vec(tag));
    found.ok().flatten().unwrap_or_default()
}

/// Whether the first picture's samples are floats.
pub fn is_float(bytes: &[u8]) -> bool {
    numbers(bytes, Tag::SampleFormat).first() == Some(&SampleFormat::IEEEFP.to_u16())
}

/// Why the first picture's samples are not what the decoder takes them for, if they are not: it does not look at these
/// tags.
pub fn misread(bytes: &[u8]) -> Option<&'static str> {
    const PLANAR: u16 = 2;
    const ASSOCIATED: u16 = 1;
    if numbers(bytes, Tag::PlanarConfiguration).contains(&PLANAR) {
        return Some(
            "its channels lie in planes, which is not supported: store them pixel by pixel",
        );
    }
    let multiplied = numbers(bytes, Tag::ExtraSamples).contains(&ASSOCIATED);
    multiplied.then_some(
        "its colours are multiplied by alpha, which is not supported: store them as they are",
    )
}

pub fn decode(bytes: &[u8]) -> Result<Picture, Failure> {
    let mut decoder = Decoder::new(Cursor::new(bytes)).map_err(broken)?;
    let (width, height) = decoder.dimensions().map_err(broken)?;
    let (width, height) = (width.into(), height.into());
    let channels = match decoder.colortype().map_err(broken)? {
        ColorType::Gray(32) => 1,
        ColorType::GrayA(32) => 2,
        ColorType::RGB(32) => 3,
        ColorType::RGBA(32) => 4,
        other => {
            return Err(Failure::unusable(format!(
                "its samples, {other:?}, are not 32-bit floats"
            )));
        }
    };
    sized(Sizes {
        width,
        height,
        channels,
    })?;
    match decoder.read_image().map_err(broken)? {
        DecodingResult::F32(samples) => picture(width, height, channels, samples),
        _ => Err(Failure::unusable("its samples are not 32-bit floats")),
    }
}

/// What is written: samples of one depth.
pub enum Samples<'a> {
    Eight(&'a [u8]),
    Sixteen(&'a [u16]),
    Float(&'a [f32]),
}

pub fn encode(
    width: u32,
    height: u32,
    channels: u64,
    samples: Samples,
) -> Result<Vec<u8>, Failure> {
    use colortype::*;
    match (samples, channels) {
        (Samples::Eight(s), 1) => write::<Gray8>(width, height, s, false),
        (Samples::Eight(s), 3) => write::<RGB8>(width, height, s, false),
        (Samples::Eight(s), _) => write::<RGBA8>(width, height, s, true),
        (Samples::Sixteen(s), 1) => write::<Gray16>(width, height, s, false),
        (Samples::Sixteen(s), 3) => write::<RGB16>(width, height, s, false),
        (Samples::Sixteen(s), _) => write::<RGBA16>(width, height, s, true),
        (Samples::Float(s), 1) => write::<Gray32Float>(width, height, s, false),
        (Samples::Float(s), 3) => write::<RGB32Float>(width, height, s, false),
        (Samples::Float(s), _) => write::<RGBA32Float>(width, height, s, true),
    }
    .map_err(broken)
}

fn write<C: colortype::ColorType>(
    width: u32,
    height: u32,
    samples: &[C::Inner],
    alpha: bool,
) -> Result<Vec<u8>, TiffError>
where
    [C::Inner]: TiffValue,
{
    /// TIFF's word for alpha that the colours are not multiplied by.
    const UNASSOCIATED: u16 = 2;
    let mut bytes = Cursor::new(Vec::new());
    let mut encoder = TiffEncoder::new(&mut bytes)?;
    let mut image = encoder.new_image::<C>(width, height)?;
    if alpha {
        image
            .encoder()
            .write_tag(Tag::ExtraSamples, &[UNASSOCIATED][..])?;
    }
    image.write_data(samples)?;
    Ok(bytes.into_inner())
}

fn broken(error: TiffError) -> Failure {
    Failure::unusable(match error {
        TiffError::IoError(e) if e.kind() == std::io::ErrorKind::UnexpectedEof => {
            "it is cut off".to_owned()
        }
        other => other.to_string(),
    })
}

#[cfg(test)]
mod tests {
    use super::*;

    #[test]
    fn floats_come_back_bit_for_bit() {
        let kinds = [
            0.0,
            -0.0,
            1.5,
            f32::MIN_POSITIVE / 3.0,
            -65536.0,
            f32::from_bits(0x7fc1_2345),
        ];
        for channels in [1, 3, 4] {
            let samples: Vec<f32> = kinds
                .iter()
                .copied()
                .cycle()
                .take(35 * channels as usize)
                .collect();
            let written = encode(7, 5, channels, Samples::Float(&samples)).unwrap();
            assert!(is_float(&written));
            let back = decode(&written).unwrap();
            assert_eq!(
                (back.width(), back.height(), back.channels()),
                (7, 5, channels)
            );
            assert!(
                back.samples()
                    .iter()
                    .zip(&samples)
                    .all(|(a, b)| a.to_bits() == b.to_bits())
            );
        }
    }

    #[test]
    fn planes_and_multiplied_colours_are_told() {
        for (tag, bad) in [(Tag::PlanarConfiguration, 2u16), (Tag::ExtraSamples, 1)] {
            for value in [1, 2] {
                let mut bytes = Cursor::new(Vec::new());
                let mut encoder = TiffEncoder::new(&mut bytes).unwrap();
                let mut image = encoder.new_image::<colortype::RGBA8>(2, 1).unwrap();
                image.encoder().write_tag(tag, value).unwrap();
                image.write_data(&[0; 8]).unwrap();
                assert_eq!(
                    misread(bytes.get_ref()).is_some(),
                    value == bad,
                    "{tag:?} {value}"
                );
            }
        }
        assert_eq!(
            misread(&encode(2, 1, 4, Samples::Eight(&[0; 8])).unwrap()),
            None
        );
    }

    #[test]
    fn whole_numbers_are_not_floats() {
        let written = encode(2, 1, 1, Samples::Sixteen(&[1, 65535])).unwrap();
        assert!(!is_float(&written));
        assert!(!is_float(b"II*\0"));
    }
}
