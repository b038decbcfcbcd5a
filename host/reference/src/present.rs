//! The reference where it is there.

use crate::deep::FloatImage;
use crate::distort_image::access::{self, Fitted, INTERPOLATIONS, METHODS, POLICIES, Widened};
use crate::distort_image::{
    DistortImage, DistortMethod, PixelInterpolate, Resampling, VirtualPixel,
};
use crate::{Call, Error, Output, Picture, Window};

/// Leave to ask the original.
#[derive(Clone, Copy, Debug)]
pub struct Reference(());

/// A fitted mapping of the original.
#[derive(Clone, Debug)]
pub struct Mapping(Fitted);

/// A picture with its policy and background.
#[derive(Clone, Debug)]
pub struct Sampler(Widened);

/// A call with its own copy of the picture.
#[derive(Clone, Debug)]
pub struct Prepared {
    job: DistortImage,
    image: FloatImage,
}

/// The reference, if it was there when this crate was built.
pub fn open() -> Option<Reference> {
    Some(Reference(()))
}

impl Reference {
    /// `Mapping::build`; its error is the original's words.
    pub fn build(self, method: u8, args: &[f64], w: f64, h: f64) -> Result<Mapping, String> {
        let method = named("method", &METHODS, method)?;
        Fitted::build(method, args, w, h).map(Mapping).map_err(said)
    }

    /// The sampler that `distort` makes of these.
    pub fn sampler(
        self,
        picture: Picture,
        policy: u8,
        background: [f32; 4],
    ) -> Result<Sampler, String> {
        let policy = named("policy", &POLICIES, policy)?;
        Ok(Sampler(Widened::new(&image(picture)?, policy, background)))
    }

    pub fn weighted(self, taps: &[([f32; 4], f32)]) -> [f32; 4] {
        access::weighted(taps)
    }

    pub fn cubic_weights(self, t: f32, b: f32, c: f32) -> [f32; 4] {
        access::cubic_weights(t, b, c)
    }

    pub fn solve(self, a: Vec<Vec<f64>>, b: Vec<f64>) -> Option<Vec<f64>> {
        access::solve(a, b)
    }

    pub fn lstsq(self, rows: &[Vec<f64>], ys: &[f64]) -> Option<Vec<f64>> {
        access::lstsq(rows, ys)
    }

    /// `DistortImage::distort`. It has no limit of its own on the window: ask `Mapping::bestfit` first.
    pub fn distort(self, call: &Call) -> Result<Output, String> {
        self.prepare(call)?.distort()
    }

    /// All that `distort` is given, so that it can be timed alone.
    pub fn prepare(self, call: &Call) -> Result<Prepared, String> {
        let mut job = DistortImage::new(named("method", &METHODS, call.method)?, call.args);
        job.bestfit = call.bestfit;
        job.viewport = call.viewport;
        job.virtual_pixel = named("policy", &POLICIES, call.policy)?;
        let interpolation = named("interpolation", &INTERPOLATIONS, call.interpolation)?;
        job.resampling = Resampling::Point(interpolation);
        job.background = call.background;
        job.matte = call.undefined;
        let image = image(call.picture)?;
        Ok(Prepared { job, image })
    }

    /// The code of a method's name.
    pub fn method_from_name(self, name: &str) -> Option<u8> {
        DistortMethod::from_name(name).map(|method| method as u8)
    }

    /// The code of a virtual pixel policy's name.
    pub fn policy_from_name(self, name: &str) -> Option<u8> {
        VirtualPixel::from_name(name).map(|policy| policy as u8)
    }

    /// The code of an interpolation's name.
    pub fn interpolation_from_name(self, name: &str) -> Option<u8> {
        PixelInterpolate::from_name(name).map(|interpolation| interpolation as u8)
    }
}

impl Prepared {
    /// `DistortImage::distort`.
    pub fn distort(&self) -> Result<Output, String> {
        let made = self.job.distort(&self.image).map_err(said)?;
        Ok(Output {
            width: made.image.width(),
            height: made.image.height(),
            x: made.offset.0,
            y: made.offset.1,
            channels: made.image.channels(),
            samples: made.image.into_samples(),
        })
    }
}

impl Mapping {
    /// The fields in their order, without order, power and flags: Affine 6; Perspective 9; Poly cu then cv;
    /// BilinearForward cx then cy; Barrel coef, cx, cy, norm; Shepards the pairs u, v, x, y.
    pub fn coefficients(&self) -> Vec<f64> {
        self.0.coefficients()
    }

    /// The source point of an output point.
    pub fn inverse(&self, x: f64, y: f64) -> Option<(f64, f64)> {
        self.0.inverse(x, y)
    }

    /// The source points of many output points: x and y in 16 bytes; u, v and whether both are at most `limit` in
    /// magnitude out in 24.
    pub fn inverses(&self, points: &[u8], out: &mut [u8], limit: f64) {
        self.0.inverses(points, out, limit)
    }

    /// The window of the distorted picture. It has no limit of its own.
    pub fn bestfit(&self, w: f64, h: f64) -> Option<Window> {
        self.0.bestfit(w, h)
    }
}

impl Sampler {
    /// The pixel at an index, the policy's outside.
    pub fn at(&self, x: i64, y: i64) -> [f32; 4] {
        self.0.at(x, y)
    }

    /// The picture read at a continuous index.
    pub fn interpolate(&self, x: f64, y: f64, interpolation: u8) -> Result<[f32; 4], String> {
        let interpolation = named("interpolation", &INTERPOLATIONS, interpolation)?;
        Ok(self.0.interpolate(x, y, interpolation))
    }

    /// The picture read at many points, as `distort` does: one colour for each, as far as both slices go.
    pub fn interpolate_all(
        &self,
        points: &[[f64; 2]],
        interpolation: u8,
        out: &mut [[f32; 4]],
    ) -> Result<(), String> {
        let interpolation = named("interpolation", &INTERPOLATIONS, interpolation)?;
        self.0.interpolate_all(points, interpolation, out);
        Ok(())
    }
}

fn named<T: Copy>(what: &str, all: &[T], code: u8) -> Result<T, String> {
    let known = all.get(code as usize).copied();
    known.ok_or_else(|| format!("{what} {code} is unknown"))
}

fn image(picture: Picture) -> Result<FloatImage, String> {
    let Picture {
        width,
        height,
        channels,
        samples,
    } = picture;
    FloatImage::from_samples(width, height, channels, samples.to_vec()).map_err(said)
}

fn said(error: Error) -> String {
    error.0
}

#[cfg(test)]
mod tests {
    use super::*;

    #[test]
    fn codes_are_the_order_of_declaration() {
        assert!(METHODS.iter().enumerate().all(|(i, m)| *m as usize == i));
        assert!(POLICIES.iter().enumerate().all(|(i, p)| *p as usize == i));
        let mut all = INTERPOLATIONS.iter().enumerate();
        assert!(all.all(|(i, n)| *n as usize == i));
    }
}
