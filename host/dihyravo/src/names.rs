//! Methods, virtual pixel policies and interpolations, in the original's names and order. Names are read by the proved
//! readers, which ignore ASCII case and know the original's second names.

use crate::{Refusal, raw};
use std::error::Error;
use std::fmt;
use std::str::FromStr;

/// An enum with a code and a name for each case, read by one of the proved readers.
macro_rules! named {
    (
        $(#[$about:meta])*
        $kind:ident, $reader:path, $one:literal, $many:literal;
        $($(#[$case_about:meta])* $case:ident = $code:literal,)*
    ) => {
        $(#[$about])*
        #[non_exhaustive]
        #[derive(Clone, Copy, Debug, PartialEq, Eq, Hash)]
        pub enum $kind {
            $($(#[$case_about])* $case = $code,)*
        }

        impl $kind {
            /// All of them, in the original's order.
            pub const ALL: &[Self] = &[$(Self::$case,)*];

            /// Their names, in the same order.
            pub const NAMES: &[&str] = &[$(stringify!($case),)*];

            /// The code that the call takes.
            pub fn code(self) -> u64 {
                self as u64
            }

            /// The name, as the original writes it.
            pub fn name(self) -> &'static str {
                match self {
                    $(Self::$case => stringify!($case),)*
                }
            }

            /// The case that has this code, if there is one here.
            pub fn from_code(code: u64) -> Option<Self> {
                Self::ALL.iter().copied().find(|case| case.code() == code)
            }
        }

        impl fmt::Display for $kind {
            fn fmt(&self, f: &mut fmt::Formatter) -> fmt::Result {
                f.pad(self.name())
            }
        }

        impl FromStr for $kind {
            type Err = NameError;

            fn from_str(name: &str) -> Result<Self, NameError> {
                let code = $reader(name.as_bytes());
                code.and_then(|code| Self::from_code(code.into())).ok_or_else(|| NameError {
                    given: name.to_owned(),
                    absent: code.is_some(),
                    one: $one,
                    many: $many,
                    names: Self::NAMES,
                })
            }
        }
    };
}

named! {
    /// A distortion method. Its arguments come in ImageMagick's order.
    ///
    /// The original's `ScaleRotateTranslate`, `Arc`, `Polar` and `DePolar` are absent: they need sines. Their names are
    /// read and refused.
    ///
    /// ```
    /// use dihyravo::Method;
    ///
    /// assert_eq!("perspective".parse(), Ok(Method::Perspective));
    /// let error = "Arc".parse::<Method>().unwrap_err();
    /// assert!(error.to_string().starts_with("the method \"Arc\" is absent: the methods are Affine, "));
    /// ```
    Method, raw::method, "method", "methods";
    /// Pairs `u,v,x,y`, a picture's point and where it belongs: one pair shifts, two fit a similarity, three or more
    /// the nearest affine mapping by least squares.
    Affine = 0,
    /// `sx, ry, rx, sy, tx, ty`: `x = sx·u + rx·v + tx`, `y = ry·u + sy·v + ty`.
    AffineProjection = 1,
    /// Four pairs `u,v,x,y` or more; a homography by least squares.
    Perspective = 3,
    /// `a … h`: `x = (a·u + b·v + c) / (g·u + h·v + 1)`, `y = (d·u + e·v + f) / (g·u + h·v + 1)`.
    PerspectiveProjection = 4,
    /// Four pairs `u,v,x,y` or more; u and v are bilinear in x and y.
    BilinearReverse = 5,
    /// Four pairs `u,v,x,y` or more; x and y are bilinear in u and v.
    BilinearForward = 6,
    /// The order, which is 1, 1.5, 2, 3, 4 or 5, then pairs `u,v,x,y`; u and v are polynomials in x and y by least
    /// squares.
    Polynomial = 7,
    /// `A, B, C [, D [, X, Y]]`: the radius times `A·r³ + B·r² + C·r + D`, around `X, Y`; `r` is the output's radius, 1
    /// at half the picture's shorter side. Left out, `D` is `1 - (A + B + C)` and `X, Y` the picture's middle. More
    /// arguments are not used.
    Barrel = 11,
    /// `A, B, C [, D [, X, Y]]` as of `Barrel`: the radius over `A·r³ + B·r² + C·r + D`.
    BarrelInverse = 12,
    /// Pairs `u,v,x,y`; each pulls by the inverse of its squared distance.
    Shepards = 13,
}

named! {
    /// What is read outside the picture.
    ///
    /// ```
    /// use dihyravo::VirtualPixel;
    ///
    /// assert_eq!("grey".parse(), Ok(VirtualPixel::Gray));
    /// assert_eq!(VirtualPixel::default(), VirtualPixel::Edge);
    /// ```
    #[derive(Default)]
    VirtualPixel, raw::policy, "virtual pixel policy", "virtual pixel policies";
    /// The nearest edge pixel.
    #[default]
    Edge = 0,
    /// The background colour.
    Background = 1,
    /// Opaque black.
    Black = 2,
    /// Opaque white.
    White = 3,
    /// Opaque grey, halfway.
    Gray = 4,
    /// Transparent black; the output has four channels.
    Transparent = 5,
    /// The picture, tiled.
    Tile = 6,
    /// The picture, tiled with every other copy mirrored.
    Mirror = 7,
    /// Tiled sideways; background above and below.
    HorizontalTile = 8,
    /// Tiled up and down; background left and right.
    VerticalTile = 9,
    /// Tiled sideways; the nearest edge pixel above and below.
    HorizontalTileEdge = 10,
    /// Tiled up and down; the nearest edge pixel left and right.
    VerticalTileEdge = 11,
    /// A checkerboard of picture and background.
    CheckerTile = 12,
    /// A pixel of the picture that depends on the place alone.
    Random = 13,
}

named! {
    /// How the picture is read at a point between its pixels.
    ///
    /// ```
    /// use dihyravo::Interpolate;
    ///
    /// assert_eq!("BICUBIC".parse(), Ok(Interpolate::Catrom));
    /// assert_eq!(Interpolate::default().to_string(), "Bilinear");
    /// ```
    #[derive(Default)]
    Interpolate, raw::interpolation, "interpolation", "interpolations";
    /// The pixel that holds the point.
    Integer = 0,
    /// The pixel whose centre is nearest.
    Nearest = 1,
    /// The mean of 2 × 2 pixels.
    Average = 2,
    /// The mean of 3 × 3 pixels.
    Average9 = 3,
    /// The mean of 4 × 4 pixels.
    Average16 = 4,
    /// 2 × 2 pixels, weighted by nearness.
    #[default]
    Bilinear = 5,
    /// Catmull and Rom's cubic over 4 × 4 pixels.
    Catrom = 6,
    /// The cubic B-spline over 4 × 4 pixels.
    Spline = 7,
    /// The background colour.
    Background = 8,
}

impl Method {
    /// Its arguments in a few words.
    pub fn arguments(self) -> &'static str {
        match self {
            Self::Affine => "u,v,x,y for each of 1 to 64 pairs",
            Self::AffineProjection => "sx,ry,rx,sy,tx,ty",
            Self::Perspective | Self::BilinearReverse | Self::BilinearForward => {
                "u,v,x,y for each of 4 to 64 pairs"
            }
            Self::PerspectiveProjection => "a,b,c,d,e,f,g,h",
            Self::Polynomial => {
                "order (1, 1.5, 2, 3, 4 or 5), then u,v,x,y for each pair: at least 3, 4, 6, 10, 15 or 21"
            }
            Self::Barrel | Self::BarrelInverse => "A,B,C[,D[,X,Y]]",
            Self::Shepards => "u,v,x,y for each of 1 to 64 pairs",
        }
    }
}

/// A name that is none of a method, policy or interpolation here. It prints the names that there are.
#[derive(Clone, Debug, PartialEq, Eq)]
pub struct NameError {
    given: String,
    absent: bool,
    one: &'static str,
    many: &'static str,
    names: &'static [&'static str],
}

impl NameError {
    /// The name that was given.
    pub fn given(&self) -> &str {
        &self.given
    }

    /// Whether it is a name of the original that is absent here.
    pub fn is_absent(&self) -> bool {
        self.absent
    }

    /// The names that there are.
    pub fn names(&self) -> &'static [&'static str] {
        self.names
    }

    /// The refusal that it is: [`Refusal::Code`].
    pub fn refusal(&self) -> Refusal {
        Refusal::Code
    }
}

impl fmt::Display for NameError {
    fn fmt(&self, f: &mut fmt::Formatter) -> fmt::Result {
        let Self {
            given, one, many, ..
        } = self;
        match self.absent {
            true => write!(f, "the {one} {given:?} is absent")?,
            false => write!(f, "no {one} is named {given:?}")?,
        }
        write!(f, ": the {many} are {}", self.names.join(", "))
    }
}

impl Error for NameError {}

impl From<NameError> for Refusal {
    fn from(error: NameError) -> Self {
        error.refusal()
    }
}
