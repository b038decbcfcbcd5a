//! The orientation that a camera leaves in a file, which viewers apply: tag 274 of a TIFF's first directory, and in a
//! JPEG of the Exif part, which is a TIFF in small. Anything broken has none.

const ORIENTATION: u16 = 274;
const SHORT: u16 = 3;

/// The number from 1 to 8 as it is stored, whatever it is.
pub fn orientation(bytes: &[u8]) -> Option<u16> {
    match bytes {
        [0xff, 0xd8, parts @ ..] => in_tiff(exif(parts)?),
        [b'I', b'I', ..] | [b'M', b'M', ..] => in_tiff(bytes),
        _ => None,
    }
}

/// The Exif part of a JPEG, among the parts before its samples.
fn exif(mut parts: &[u8]) -> Option<&[u8]> {
    while let [0xff, marker, high, low, ..] = *parts {
        let length = usize::from(u16::from_be_bytes([high, low]));
        let part = parts.get(4..2 + length)?;
        if marker == 0xe1 && part.starts_with(b"Exif\0\0") {
            return part.get(6..);
        }
        // The scan: what follows is no part.
        if marker == 0xda {
            return None;
        }
        parts = parts.get(2 + length..)?;
    }
    None
}

fn in_tiff(tiff: &[u8]) -> Option<u16> {
    let little = tiff.starts_with(b"II");
    let two = |at: usize| {
        let bytes = tiff.get(at..at.checked_add(2)?)?.try_into().ok()?;
        Some(if little {
            u16::from_le_bytes(bytes)
        } else {
            u16::from_be_bytes(bytes)
        })
    };
    let four = |at: usize| {
        let bytes = tiff.get(at..at.checked_add(4)?)?.try_into().ok()?;
        Some(if little {
            u32::from_le_bytes(bytes)
        } else {
            u32::from_be_bytes(bytes)
        })
    };
    if two(2)? != 42 {
        return None;
    }
    let directory = four(4)? as usize;
    let entries = usize::from(two(directory)?);
    let entry = (0..entries)
        .map(|k| directory + 2 + 12 * k)
        .find(|at| two(*at) == Some(ORIENTATION))?;
    (two(entry + 2)? == SHORT).then(|| two(entry + 8))?
}

#[cfg(test)]
mod tests {
    use super::*;

    /// A directory with a width and the orientation 6, in either order of bytes.
    fn tiff(little: bool) -> Vec<u8> {
        let two = |n: u16| {
            if little {
                n.to_le_bytes()
            } else {
                n.to_be_bytes()
            }
        };
        let four = |n: u32| {
            if little {
                n.to_le_bytes()
            } else {
                n.to_be_bytes()
            }
        };
        let mut bytes = if little {
            b"II".to_vec()
        } else {
            b"MM".to_vec()
        };
        bytes.extend(two(42));
        bytes.extend(four(8));
        bytes.extend(two(2));
        for (tag, value) in [(256, 40), (ORIENTATION, 6)] {
            bytes.extend(two(tag));
            bytes.extend(two(SHORT));
            bytes.extend(four(1));
            bytes.extend(two(value));
            bytes.extend(two(0));
        }
        bytes.extend(four(0));
        bytes
    }

    fn jpeg(part: &[u8]) -> Vec<u8> {
        let mut bytes = vec![0xff, 0xd8, 0xff, 0xe0, 0, 4, 1, 2, 0xff, 0xe1];
        bytes.extend((part.len() as u16 + 2).to_be_bytes());
        bytes.extend(part);
        bytes.extend([0xff, 0xda, 0, 2]);
        bytes
    }

    #[test]
    fn it_is_found_in_a_jpeg_and_in_a_tiff() {
        for little in [true, false] {
            let tiff = tiff(little);
            assert_eq!(orientation(&tiff), Some(6));
            let exif = [b"Exif\0\0".as_slice(), &tiff].concat();
            assert_eq!(orientation(&jpeg(&exif)), Some(6));
        }
    }

    #[test]
    fn what_is_broken_has_none() {
        let whole = jpeg(&[b"Exif\0\0".as_slice(), &tiff(true)].concat());
        for length in 0..whole.len() - 9 {
            assert_eq!(orientation(&whole[..length]), None, "{length}");
        }
        assert_eq!(orientation(&jpeg(b"http://ns")), None);
        assert_eq!(orientation(b"II*\0\xff\xff\xff\xff"), None);
        assert_eq!(orientation(b"\x89PNG\r\n"), None);
    }
}
