//! PFM: a picture of 32-bit floats, grey (`Pf`) or colour (`PF`), rows from the bottom up. The sign of the third header
//! number says the byte order; its size is a remark about brightness, which changes no sample here. Every bit of a
//! sample is kept.

use super::read::{Sizes, sized};
use crate::failure::Failure;
use dihyravo::Picture;

/// Whether the bytes are a PFM file's.
pub fn is_pfm(bytes: &[u8]) -> bool {
    matches!(bytes, [b'P', b'F' | b'f', c, ..] if c.is_ascii_whitespace())
}

struct Header {
    sizes: Sizes,
    little: bool,
    /// Where the samples begin.
    end: usize,
}

pub fn decode(bytes: &[u8]) -> Result<Picture, Failure> {
    let header = header(bytes).ok_or_else(|| Failure::unusable("its PFM header is broken"))?;
    let Sizes {
        width,
        height,
        channels,
    } = header.sizes;
    let length = sized(header.sizes)?;
    let (floats, rest) = bytes[header.end..].as_chunks::<4>();
    if floats.len() != length || !rest.is_empty() {
        let wanted = 4 * length;
        let found = bytes.len() - header.end;
        return Err(Failure::unusable(format!(
            "its header asks for {wanted} bytes of samples, and it has {found}"
        )));
    }
    let read = if header.little {
        f32::from_le_bytes
    } else {
        f32::from_be_bytes
    };
    let row = (width * channels) as usize;
    let samples = floats
        .chunks_exact(row)
        .rev()
        .flatten()
        .map(|float| read(*float))
        .collect();
    Ok(Picture::new(width, height, channels, samples)?)
}

/// Three words after the first, each ended by one blank or line end; after the last exactly one, then the samples.
fn header(bytes: &[u8]) -> Option<Header> {
    let channels = if bytes[1] == b'F' { 3 } else { 1 };
    let mut end = 2;
    let (width, height, scale) = (
        word(bytes, &mut end)?,
        word(bytes, &mut end)?,
        word(bytes, &mut end)?,
    );
    let scale: f64 = scale.parse().ok()?;
    if scale == 0.0 || !scale.is_finite() {
        return None;
    }
    let sizes = Sizes {
        width: width.parse().ok()?,
        height: height.parse().ok()?,
        channels,
    };
    Some(Header {
        sizes,
        little: scale < 0.0,
        end: end + 1,
    })
}

/// The next word, and `end` after it: there is a blank at `end`.
fn word<'a>(bytes: &'a [u8], end: &mut usize) -> Option<&'a str> {
    let blank = |b: &u8| b.is_ascii_whitespace();
    let start = *end + bytes[*end..].iter().position(|b| !blank(b))?;
    *end = start + bytes[start..].iter().take(64).position(blank)?;
    std::str::from_utf8(&bytes[start..*end]).ok()
}

/// Little-endian, of one or three channels.
pub fn encode(width: u64, height: u64, channels: u64, samples: &[f32]) -> Vec<u8> {
    let kind = if channels == 3 { "PF" } else { "Pf" };
    let mut bytes = format!("{kind}\n{width} {height}\n-1.0\n").into_bytes();
    bytes.reserve(4 * samples.len());
    for row in samples.chunks_exact((width * channels) as usize).rev() {
        row.iter()
            .for_each(|sample| bytes.extend(sample.to_le_bytes()));
    }
    bytes
}

#[cfg(test)]
mod tests {
    use super::*;

    fn bits(picture: &Picture) -> Vec<u32> {
        picture.samples().iter().map(|s| s.to_bits()).collect()
    }

    /// Numbers of every kind: both zeros, subnormals, infinities, a NaN with a payload.
    fn odd(count: usize) -> Vec<f32> {
        let kinds = [
            0,
            0x8000_0000,
            1,
            0x8000_0001,
            0x3f80_0001,
            0x7f80_0000,
            0xff80_0000,
            0x7fc1_2345,
            0x0080_0000,
            0x7f7f_ffff,
        ];
        (0..count)
            .map(|k| f32::from_bits(kinds[k % kinds.len()]))
            .collect()
    }

    #[test]
    fn every_bit_survives_both_orders_and_both_kinds() {
        for channels in [1, 3] {
            let picture = Picture::new(7, 5, channels, odd(35 * channels as usize)).unwrap();
            let written = encode(7, 5, channels, picture.samples());
            assert!(is_pfm(&written));
            assert_eq!(bits(&decode(&written).unwrap()), bits(&picture));
            let start = written.len() - 4 * 35 * channels as usize;
            let kind = if channels == 3 { "PF" } else { "Pf" };
            let mut big = format!("{kind} 7\t5 2.5\n").into_bytes();
            big.extend(written[start..].chunks(4).flat_map(|f| f.iter().rev()));
            assert_eq!(bits(&decode(&big).unwrap()), bits(&picture));
        }
    }

    #[test]
    fn rows_go_from_the_bottom_up() {
        let written = encode(1, 2, 1, &[1.0, 2.0]);
        assert_eq!(written, b"Pf\n1 2\n-1.0\n\0\0\0\x40\0\0\x80\x3f");
    }

    #[test]
    fn broken_files_are_told() {
        let whole = encode(3, 2, 3, &[0.5; 18]);
        for length in 3..whole.len() {
            assert!(
                matches!(decode(&whole[..length]), Err(Failure::Unusable(_))),
                "{length}"
            );
        }
        let longer = [&whole[..], b"\n"].concat();
        let words = decode(&longer).unwrap_err().to_string();
        assert_eq!(
            words,
            "its header asks for 72 bytes of samples, and it has 73"
        );
        for header in [
            "PF\n3 x\n-1\n",
            "PF\n3 2\n0\n",
            "PF\n3 2\nnan\n",
            "PF\n-3 2\n-1\n",
            "PF\n3 2 -1",
            "PF\n\n\n",
        ] {
            assert!(
                matches!(decode(header.as_bytes()), Err(Failure::Unusable(_))),
                "{header}"
            );
        }
        for header in [
            "PF\n0 2\n-1\n",
            "PF\n4097 2\n-1\n",
            "PF\n3 99999999999\n-1\n",
        ] {
            assert!(
                matches!(decode(header.as_bytes()), Err(Failure::Refused { .. })),
                "{header}"
            );
        }
    }
}
