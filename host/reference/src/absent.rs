//! The reference where it is not there: types without values, so that nothing asked of them is ever run.

use crate::{Call, Output, Picture, Window};

/// No file of the original was there.
pub const ORIGINALS: &[(&str, &str, usize, &str)] = &[];

/// No value; private, so that callers are compiled as if there were one.
#[derive(Clone, Copy, Debug)]
enum Never {}

#[derive(Clone, Copy, Debug)]
pub struct Reference(Never);

#[derive(Clone, Debug)]
pub struct Mapping(Never);

#[derive(Clone, Debug)]
pub struct Sampler(Never);

#[derive(Clone, Debug)]
pub struct Prepared(Never);

/// The reference was not there when this crate was built.
pub fn open() -> Option<Reference> {
    None
}

impl Reference {
    pub fn build(self, _: u8, _: &[f64], _: f64, _: f64) -> Result<Mapping, String> {
        match self.0 {}
    }

    pub fn sampler(self, _: Picture, _: u8, _: [f32; 4]) -> Result<Sampler, String> {
        match self.0 {}
    }

    pub fn weighted(self, _: &[([f32; 4], f32)]) -> [f32; 4] {
        match self.0 {}
    }

    pub fn cubic_weights(self, _: f32, _: f32, _: f32) -> [f32; 4] {
        match self.0 {}
    }

    pub fn solve(self, _: Vec<Vec<f64>>, _: Vec<f64>) -> Option<Vec<f64>> {
        match self.0 {}
    }

    pub fn lstsq(self, _: &[Vec<f64>], _: &[f64]) -> Option<Vec<f64>> {
        match self.0 {}
    }

    pub fn distort(self, _: &Call) -> Result<Output, String> {
        match self.0 {}
    }

    pub fn prepare(self, _: &Call) -> Result<Prepared, String> {
        match self.0 {}
    }

    pub fn method_from_name(self, _: &str) -> Option<u8> {
        match self.0 {}
    }

    pub fn policy_from_name(self, _: &str) -> Option<u8> {
        match self.0 {}
    }

    pub fn interpolation_from_name(self, _: &str) -> Option<u8> {
        match self.0 {}
    }
}

impl Prepared {
    pub fn distort(&self) -> Result<Output, String> {
        match self.0 {}
    }
}

impl Mapping {
    pub fn coefficients(&self) -> Vec<f64> {
        match self.0 {}
    }

    pub fn inverse(&self, _: f64, _: f64) -> Option<(f64, f64)> {
        match self.0 {}
    }

    pub fn inverses(&self, _: &[u8], _: &mut [u8], _: f64) {
        match self.0 {}
    }

    pub fn bestfit(&self, _: f64, _: f64) -> Option<Window> {
        match self.0 {}
    }
}

impl Sampler {
    pub fn at(&self, _: i64, _: i64) -> [f32; 4] {
        match self.0 {}
    }

    pub fn interpolate(&self, _: f64, _: f64, _: u8) -> Result<[f32; 4], String> {
        match self.0 {}
    }

    pub fn interpolate_all(&self, _: &[[f64; 2]], _: u8, _: &mut [[f32; 4]]) -> Result<(), String> {
        match self.0 {}
    }
}
