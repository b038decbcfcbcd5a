
// Appended by the build script: what the comparisons ask of the private items above.
pub(crate) mod access {
    use super::*;

    /// The enums in the order of their declarations: a code is an index.
    pub const METHODS: [DistortMethod; 14] = [
        DistortMethod::Affine,
        DistortMethod::AffineProjection,
        DistortMethod::ScaleRotateTranslate,
        DistortMethod::Perspective,
        DistortMethod::PerspectiveProjection,
        DistortMethod::BilinearReverse,
        DistortMethod::BilinearForward,
        DistortMethod::Polynomial,
        DistortMethod::Arc,
        DistortMethod::Polar,
        DistortMethod::DePolar,
        DistortMethod::Barrel,
        DistortMethod::BarrelInverse,
        DistortMethod::Shepards,
    ];
    pub const POLICIES: [VirtualPixel; 14] = [
        VirtualPixel::Edge,
        VirtualPixel::Background,
        VirtualPixel::Black,
        VirtualPixel::White,
        VirtualPixel::Gray,
        VirtualPixel::Transparent,
        VirtualPixel::Tile,
        VirtualPixel::Mirror,
        VirtualPixel::HorizontalTile,
        VirtualPixel::VerticalTile,
        VirtualPixel::HorizontalTileEdge,
        VirtualPixel::VerticalTileEdge,
        VirtualPixel::CheckerTile,
        VirtualPixel::Random,
    ];
    pub const INTERPOLATIONS: [PixelInterpolate; 9] = [
        PixelInterpolate::Integer,
        PixelInterpolate::Nearest,
        PixelInterpolate::Average,
        PixelInterpolate::Average9,
        PixelInterpolate::Average16,
        PixelInterpolate::Bilinear,
        PixelInterpolate::Catrom,
        PixelInterpolate::Spline,
        PixelInterpolate::Background,
    ];

    #[derive(Clone, Debug)]
    pub struct Fitted(Mapping);

    impl Fitted {
        pub fn build(method: DistortMethod, args: &[f64], w: f64, h: f64) -> Result<Self, Error> {
            Mapping::build(method, args, w, h).map(Self)
        }

        /// The fields of the mapping in their order, without order, power and flags.
        pub fn coefficients(&self) -> Vec<f64> {
            match &self.0 {
                Mapping::Affine(m) => m.to_vec(),
                Mapping::Perspective(m) => m.to_vec(),
                Mapping::Poly { cu, cv, .. } => [&cu[..], &cv[..]].concat(),
                Mapping::BilinearForward { cx, cy } => [&cx[..], &cy[..]].concat(),
                Mapping::Barrel {
                    coef, cx, cy, norm, ..
                } => [&coef[..], &[*cx, *cy, *norm]].concat(),
                Mapping::Shepards { pts, .. } => {
                    pts.iter().flat_map(|&(u, v, x, y)| [u, v, x, y]).collect()
                }
                Mapping::Arc { .. } | Mapping::Polar { .. } => Vec::new(),
            }
        }

        pub fn inverse(&self, x: f64, y: f64) -> Option<(f64, f64)> {
            self.0.inverse(x, y)
        }

        /// `inverse` over many points, where the compiler sees it as it does in `distort`: `points` holds x and y, 16
        /// bytes each, and `out` gets u and v, a NaN by one pattern, and whether both are at most `limit` in magnitude,
        /// 24 bytes each.
        pub fn inverses(&self, points: &[u8], out: &mut [u8], limit: f64) {
            let (points, _) = points.as_chunks::<16>();
            let (out, _) = out.as_chunks_mut::<24>();
            let half = |point: &[u8; 16], from: usize| {
                f64::from_le_bytes(std::array::from_fn(|k| point[from + k]))
            };
            let pattern = |x: f64| if x.is_nan() { f64::NAN } else { x }.to_le_bytes();
            for (point, answer) in points.iter().zip(out) {
                let found = self.0.inverse(half(point, 0), half(point, 8));
                let (u, v) = found.unwrap_or((f64::NAN, f64::NAN));
                let usable = found.is_some() && u.abs() <= limit && v.abs() <= limit;
                answer[..8].copy_from_slice(&pattern(u));
                answer[8..16].copy_from_slice(&pattern(v));
                answer[16..].copy_from_slice(&u64::from(usable).to_le_bytes());
            }
        }

        pub fn bestfit(&self, w: f64, h: f64) -> Option<(u32, u32, i64, i64)> {
            self.0.bestfit(w, h)
        }
    }

    /// A sampler that owns its picture, widened to RGBA as `distort` widens it.
    #[derive(Clone, Debug)]
    pub struct Widened {
        img: FloatImage,
        vp: VirtualPixel,
        bg: [f32; 4],
    }

    impl Widened {
        pub fn new(img: &FloatImage, vp: VirtualPixel, bg: [f32; 4]) -> Self {
            let img = img.to_rgba();
            Self { img, vp, bg }
        }

        fn sampler(&self) -> Sampler<'_> {
            Sampler {
                img: &self.img,
                vp: self.vp,
                bg: self.bg,
            }
        }

        pub fn at(&self, x: i64, y: i64) -> [f32; 4] {
            self.sampler().at(x, y)
        }

        pub fn interpolate(&self, x: f64, y: f64, interp: PixelInterpolate) -> [f32; 4] {
            self.sampler().interpolate(x, y, interp)
        }

        pub fn interpolate_all(
            &self,
            points: &[[f64; 2]],
            interp: PixelInterpolate,
            out: &mut [[f32; 4]],
        ) {
            let sampler = self.sampler();
            for (&[x, y], colour) in points.iter().zip(out) {
                *colour = sampler.interpolate(x, y, interp);
            }
        }
    }

    pub fn weighted(taps: &[([f32; 4], f32)]) -> [f32; 4] {
        super::weighted(taps)
    }

    pub fn cubic_weights(t: f32, b: f32, c: f32) -> [f32; 4] {
        super::cubic_weights(t, b, c)
    }

    pub fn solve(a: Vec<Vec<f64>>, b: Vec<f64>) -> Option<Vec<f64>> {
        super::solve(a, b)
    }

    pub fn lstsq(rows: &[Vec<f64>], ys: &[f64]) -> Option<Vec<f64>> {
        super::lstsq(rows, ys)
    }
}
