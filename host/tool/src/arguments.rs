//! The command line: its commands, options and their help.

use clap::{Args, Parser, Subcommand};
use std::path::PathBuf;

#[derive(Debug, Parser)]
#[command(
    name = "dihyravo",
    version,
    about = "Squares up photographs and warps pictures, by a proved library",
    after_help = FILES
)]
pub struct Arguments {
    #[command(subcommand)]
    pub command: Command,
}

#[derive(Debug, Subcommand)]
pub enum Command {
    /// Squares up a card or a page that was photographed askew, from its four corners
    #[command(after_help = SQUARE)]
    Square(Square),
    /// Warps a picture by any of the methods, as ImageMagick's -distort does
    #[command(after_help = DISTORT)]
    Distort(Distort),
    /// Lists the methods with their arguments, the virtual pixel policies and the interpolations
    Names(Names),
}

const FILES: &str = "\
Files: PNG, TIFF and PNM of 8 and 16 bits, JPEG of 8, PFM and TIFF of 32-bit floats, of 1 to 4,096 pixels a side. What
IN is, its first bytes say; what OUT is, its ending says. Of several pictures in a file the first is read. 8 and 16 bits
hold samples from 0 to 1: what is beyond is cut off. A grey picture stays grey, background and matte too. Samples are
taken as they are stored: no colour profile, no gamma, and NO EXIF ORIENTATION is applied, and none is carried over;
corners count on the picture as it is stored.

Exit status: 0 done; 1 refused, with the number, the word and what to mend; 2 bad usage, or a file that can't be read or
written. Where a run fails, OUT is as it was before; only where the picture is made and standard output can't be written
is it new. IN and OUT may be the same file.";

const SQUARE: &str = "\
A corner u,v is a point of the photograph in pixels from its top-left corner, u to the right, v down: 0,0 is the very
corner of the first pixel and 0.5,0.5 that pixel's middle; fractions are welcome. The four corners go to the four
corners of OUT. EXIF orientation is not applied: corners count on the picture as it is stored.

A colour is a name such as white or none, #rgb, #rrggbb, #rrggbbaa, rgb(r,g,b), rgba(r,g,b,a) or r,g,b,a with 1 as full.

Example: dihyravo square photograph.jpg card.png --corners \"212,148 1011,95 1090,741 131,803\" --size 800x600";

const DISTORT: &str = "\
Coordinates: pixel i,j covers i to i+1 and j to j+1, so its middle is i+0.5,j+0.5. A pair u,v,x,y is a point u,v of IN
and the place x,y where it belongs. Names ignore case; 'dihyravo names' lists them with their numbers. It is the job of
ImageMagick's 'convert -filter point -interpolate bilinear -distort'; elliptical averaging, its default, is not here.
EXIF orientation is not applied.

A colour is a name such as white or none, #rgb, #rrggbb, #rrggbbaa, rgb(r,g,b), rgba(r,g,b,a) or r,g,b,a with 1 as full.

Example: dihyravo distort in.png out.png --method Affine --args \"0,0 5,5\" --viewport 800x600-10+20";

#[derive(Debug, Args)]
pub struct Square {
    /// The photograph
    #[arg(value_name = "IN")]
    pub input: PathBuf,
    /// The squared picture
    #[arg(value_name = "OUT")]
    pub output: PathBuf,
    /// The corners on the photograph: top-left, top-right, bottom-right, bottom-left
    #[arg(long, allow_hyphen_values = true, value_name = "u,v u,v u,v u,v")]
    pub corners: String,
    /// How large the squared picture is to be, in pixels
    #[arg(long, allow_hyphen_values = true, value_name = "WxH")]
    pub size: String,
    #[command(flatten)]
    pub options: Options,
}

#[derive(Debug, Args)]
pub struct Distort {
    /// The picture to warp
    #[arg(value_name = "IN")]
    pub input: PathBuf,
    /// The warped picture
    #[arg(value_name = "OUT")]
    pub output: PathBuf,
    /// The method, such as Perspective or Affine
    #[arg(long, value_name = "NAME")]
    pub method: String,
    /// The method's numbers, with blanks or commas between
    #[arg(long, allow_hyphen_values = true, value_name = "NUMBERS")]
    pub args: String,
    /// The part of the warped plane to make [default: 0,0 and the size of IN]
    #[arg(long, allow_hyphen_values = true, value_name = "WxH+X+Y")]
    pub viewport: Option<String>,
    /// Make OUT as large as the warped picture, by the affine and perspective methods; a viewport wins
    #[arg(long)]
    pub best_fit: bool,
    #[command(flatten)]
    pub options: Options,
}

/// What both commands take. The defaults are those of the original's builder; its elliptical averaging is absent here,
/// so the interpolation is its enum's default.
#[derive(Debug, Args)]
pub struct Options {
    /// What is seen outside of IN
    #[arg(long, value_name = "NAME", default_value = "Edge")]
    pub virtual_pixel: String,
    /// How IN is read between its pixels
    #[arg(long, value_name = "NAME", default_value = "Bilinear")]
    pub interpolate: String,
    /// The colour of the virtual pixels that are background
    #[arg(
        long,
        allow_hyphen_values = true,
        value_name = "COLOUR",
        default_value = "white"
    )]
    pub background: String,
    /// The colour of pixels that come from nowhere, such as beyond a horizon
    #[arg(
        long,
        allow_hyphen_values = true,
        value_name = "COLOUR",
        default_value = "#bdbdbd"
    )]
    pub matte: String,
    /// Bits of a sample in OUT, 32 for floats [default: as in IN, if the format can]
    #[arg(long, value_name = "BITS", value_parser = ["8", "16", "32"])]
    pub depth: Option<String>,
    /// JPEG's quality, 1 to 100
    #[arg(
        long,
        allow_hyphen_values = true,
        value_name = "N",
        default_value_t = 95,
        value_parser = clap::value_parser!(u8).range(1..=100)
    )]
    pub quality: u8,
    /// Rows that are worked at once; changes no sample [default: two bands a thread]
    #[arg(long, allow_hyphen_values = true, value_name = "N", value_parser = clap::value_parser!(u64).range(1..))]
    pub rows: Option<u64>,
    /// Threads to work on; changes no sample [default: one for each core]
    #[arg(long, allow_hyphen_values = true, value_name = "N", value_parser = clap::value_parser!(u16).range(1..=256))]
    pub threads: Option<u16>,
    /// Print one JSON object instead of a line, for refusals and errors too
    #[arg(long)]
    pub json: bool,
}

#[derive(Debug, Args)]
pub struct Names {
    /// Print one JSON object
    #[arg(long)]
    pub json: bool,
}

#[cfg(test)]
mod tests {
    use super::*;
    use clap::CommandFactory;

    #[test]
    fn the_commands_are_well_formed() {
        Arguments::command().debug_assert();
    }

    #[test]
    fn the_defaults_are_the_builders() {
        let colour = |text| crate::text::colour(text).unwrap();
        let parsed = Arguments::try_parse_from([
            "dihyravo", "distort", "a", "b", "--method", "m", "--args", "-1",
        ])
        .unwrap();
        let Command::Distort(given) = parsed.command else {
            panic!("another command")
        };
        let options = given.options;
        let written = dihyravo::Distort::new(dihyravo::Method::Affine, [])
            .with_virtual_pixel(options.virtual_pixel.parse().unwrap())
            .with_interpolate(options.interpolate.parse().unwrap())
            .with_background(colour(&options.background))
            .with_matte(colour(&options.matte))
            .with_bestfit(given.best_fit);
        assert_eq!(
            written,
            dihyravo::Distort::new(dihyravo::Method::Affine, [])
        );
    }
}
