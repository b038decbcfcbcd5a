//! The formats and depths of picture files.

use std::fmt;
use std::path::Path;

#[derive(Clone, Copy, Debug, PartialEq, Eq)]
pub enum Format {
    Png,
    Jpeg,
    Tiff,
    /// PNM of either kind.
    Pnm,
    /// PNM that is grey.
    Pgm,
    /// PNM that has three channels.
    Ppm,
    Pfm,
}

/// Bits of a sample. 32 are a float's.
#[derive(Clone, Copy, Debug, PartialEq, Eq, PartialOrd, Ord)]
pub enum Depth {
    Eight,
    Sixteen,
    Float,
}

impl Depth {
    pub fn bits(self) -> u32 {
        match self {
            Self::Eight => 8,
            Self::Sixteen => 16,
            Self::Float => 32,
        }
    }

    pub fn from_bits(bits: u32) -> Option<Self> {
        [Self::Eight, Self::Sixteen, Self::Float]
            .into_iter()
            .find(|d| d.bits() == bits)
    }
}

/// What stands in messages where an ending is wanted.
const ENDINGS: &str = ".png, .jpg, .jpeg, .tif, .tiff, .pnm, .pgm, .ppm or .pfm";

impl Format {
    /// The format that a file's ending names.
    pub fn of(path: &Path) -> Result<Self, String> {
        let ending = path
            .extension()
            .and_then(|e| e.to_str())
            .map(str::to_ascii_lowercase);
        match ending.as_deref() {
            Some("png") => Ok(Self::Png),
            Some("jpg" | "jpeg") => Ok(Self::Jpeg),
            Some("tif" | "tiff") => Ok(Self::Tiff),
            Some("pnm") => Ok(Self::Pnm),
            Some("pgm") => Ok(Self::Pgm),
            Some("ppm") => Ok(Self::Ppm),
            Some("pfm") => Ok(Self::Pfm),
            _ => Err(format!(
                "'{}' names no format: let it end in {ENDINGS}",
                path.display()
            )),
        }
    }

    pub fn has_alpha(self) -> bool {
        matches!(self, Self::Png | Self::Tiff)
    }

    /// The depths that the format has, the least first.
    pub fn depths(self) -> &'static [Depth] {
        match self {
            Self::Png | Self::Pnm | Self::Pgm | Self::Ppm => &[Depth::Eight, Depth::Sixteen],
            Self::Jpeg => &[Depth::Eight],
            Self::Tiff => &[Depth::Eight, Depth::Sixteen, Depth::Float],
            Self::Pfm => &[Depth::Float],
        }
    }

    /// The depth to write: the one asked for, or the input's as near as the format has it.
    pub fn depth(self, asked: Option<Depth>, input: Depth) -> Result<Depth, String> {
        let has = self.depths();
        match asked {
            Some(depth) if has.contains(&depth) => Ok(depth),
            Some(depth) => {
                let bits: Vec<String> = has.iter().map(|d| d.bits().to_string()).collect();
                Err(format!(
                    "{self} has no depth of {} bits: it has {}",
                    depth.bits(),
                    bits.join(", ")
                ))
            }
            None => Ok(*has.iter().rev().find(|d| **d <= input).unwrap_or(&has[0])),
        }
    }
}

impl fmt::Display for Format {
    fn fmt(&self, f: &mut fmt::Formatter) -> fmt::Result {
        f.write_str(match self {
            Self::Png => "PNG",
            Self::Jpeg => "JPEG",
            Self::Tiff => "TIFF",
            Self::Pnm => "PNM",
            Self::Pgm => "PGM",
            Self::Ppm => "PPM",
            Self::Pfm => "PFM",
        })
    }
}

#[cfg(test)]
mod tests {
    use super::*;

    #[test]
    fn endings_ignore_case() {
        assert_eq!(Format::of(Path::new("a/b.PNG")), Ok(Format::Png));
        assert_eq!(Format::of(Path::new("b.jpeg")), Ok(Format::Jpeg));
        for path in ["png", ".png", "b.gif", "b.png.", "b"] {
            assert!(
                Format::of(Path::new(path))
                    .unwrap_err()
                    .contains("names no format"),
                "{path}"
            );
        }
    }

    #[test]
    fn the_depth_follows_the_input_as_far_as_the_format_goes() {
        use Depth::{Eight, Float, Sixteen};
        let depth = |format: Format, input| format.depth(None, input).unwrap();
        assert_eq!(
            [Eight, Sixteen, Float].map(|d| depth(Format::Png, d)),
            [Eight, Sixteen, Sixteen]
        );
        assert_eq!(
            [Eight, Sixteen, Float].map(|d| depth(Format::Jpeg, d)),
            [Eight; 3]
        );
        assert_eq!(
            [Eight, Sixteen, Float].map(|d| depth(Format::Tiff, d)),
            [Eight, Sixteen, Float]
        );
        assert_eq!(
            [Eight, Sixteen, Float].map(|d| depth(Format::Pfm, d)),
            [Float; 3]
        );
        assert_eq!(Format::Png.depth(Some(Sixteen), Eight), Ok(Sixteen));
        assert_eq!(
            Format::Jpeg.depth(Some(Sixteen), Eight),
            Err("JPEG has no depth of 16 bits: it has 8".to_owned())
        );
    }
}
