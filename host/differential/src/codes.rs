//! Methods, policies and interpolations by name, in the order of the original's enums.

pub const METHODS: [&str; 14] = [
    "Affine",
    "AffineProjection",
    "ScaleRotateTranslate",
    "Perspective",
    "PerspectiveProjection",
    "BilinearReverse",
    "BilinearForward",
    "Polynomial",
    "Arc",
    "Polar",
    "DePolar",
    "Barrel",
    "BarrelInverse",
    "Shepards",
];

pub const POLICIES: [&str; 14] = [
    "Edge",
    "Background",
    "Black",
    "White",
    "Gray",
    "Transparent",
    "Tile",
    "Mirror",
    "HorizontalTile",
    "VerticalTile",
    "HorizontalTileEdge",
    "VerticalTileEdge",
    "CheckerTile",
    "Random",
];

pub const INTERPOLATIONS: [&str; 9] = [
    "Integer",
    "Nearest",
    "Average",
    "Average9",
    "Average16",
    "Bilinear",
    "Catrom",
    "Spline",
    "Background",
];

pub const AFFINE: u64 = 0;
pub const AFFINE_PROJECTION: u64 = 1;
pub const PERSPECTIVE: u64 = 3;
pub const PERSPECTIVE_PROJECTION: u64 = 4;
pub const BILINEAR_REVERSE: u64 = 5;
pub const BILINEAR_FORWARD: u64 = 6;
pub const POLYNOMIAL: u64 = 7;
pub const BARREL: u64 = 11;
pub const BARREL_INVERSE: u64 = 12;
pub const SHEPARDS: u64 = 13;

/// The ten methods that are present.
pub const PRESENT: [u64; 10] = [
    AFFINE,
    AFFINE_PROJECTION,
    PERSPECTIVE,
    PERSPECTIVE_PROJECTION,
    BILINEAR_REVERSE,
    BILINEAR_FORWARD,
    POLYNOMIAL,
    BARREL,
    BARREL_INVERSE,
    SHEPARDS,
];

/// The policies, by name.
pub mod policy {
    pub const EDGE: u64 = 0;
    pub const BACKGROUND: u64 = 1;
    pub const BLACK: u64 = 2;
    pub const WHITE: u64 = 3;
    pub const GRAY: u64 = 4;
    /// It makes a picture of four channels.
    pub const TRANSPARENT: u64 = 5;
    pub const TILE: u64 = 6;
    pub const MIRROR: u64 = 7;
    pub const HORIZONTAL_TILE: u64 = 8;
    pub const VERTICAL_TILE: u64 = 9;
    pub const HORIZONTAL_TILE_EDGE: u64 = 10;
    pub const VERTICAL_TILE_EDGE: u64 = 11;
    pub const CHECKER_TILE: u64 = 12;
    pub const RANDOM: u64 = 13;
}

/// The interpolations, by name.
pub mod interpolation {
    pub const INTEGER: u64 = 0;
    pub const NEAREST: u64 = 1;
    pub const AVERAGE: u64 = 2;
    pub const AVERAGE9: u64 = 3;
    pub const AVERAGE16: u64 = 4;
    pub const BILINEAR: u64 = 5;
    pub const CATROM: u64 = 6;
    pub const SPLINE: u64 = 7;
    pub const BACKGROUND: u64 = 8;
}
