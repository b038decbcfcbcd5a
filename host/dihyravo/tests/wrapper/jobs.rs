//! Jobs for the tests, and the same job put by hand for the raw call.

use dihyravo::raw::{Answer, Job, distort};
use dihyravo::{Distort, Interpolate, Method, Picture, Viewport, VirtualPixel};

/// Everything that a distortion is given, once.
#[derive(Clone)]
pub struct Given {
    pub method: Method,
    pub args: Vec<f64>,
    pub bestfit: bool,
    pub viewport: Option<Viewport>,
    pub virtual_pixel: VirtualPixel,
    pub interpolate: Interpolate,
    pub background: [f32; 4],
    pub matte: [f32; 4],
}

/// Each method with arguments that it takes, each with another policy, interpolation and window.
pub fn all() -> Vec<Given> {
    Method::ALL
        .iter()
        .enumerate()
        .map(|(k, &method)| Given {
            method,
            args: arguments(method),
            bestfit: k % 2 == 1,
            viewport: (k % 3 == 0).then_some(Viewport {
                width: 17 + k as u64,
                height: 23,
                x: -3,
                y: k as i64 - 2,
            }),
            virtual_pixel: VirtualPixel::ALL[(5 * k + 1) % VirtualPixel::ALL.len()],
            interpolate: Interpolate::ALL[(4 * k + 5) % Interpolate::ALL.len()],
            background: [0.25, 0.5, 0.75, if k % 4 == 2 { 0.5 } else { 1.0 }],
            matte: [0.125, 0.0625, 0.875, 1.0],
        })
        .collect()
}

/// Arguments for a picture of 19 by 13.
pub fn arguments(method: Method) -> Vec<f64> {
    let corners = [
        1.0, 2.0, 0.0, 0.0, 18.0, 0.5, 19.0, 0.0, 17.0, 12.0, 19.0, 13.0, 0.0, 11.0, 0.0, 13.0,
    ];
    match method {
        Method::AffineProjection => vec![1.25, 0.25, -0.5, 0.75, 2.0, 1.0],
        Method::PerspectiveProjection => vec![1.0, 0.125, 0.5, -0.125, 1.0, 1.0, 0.0, 0.125],
        Method::Polynomial => [&[1.5][..], &corners].concat(),
        Method::Barrel | Method::BarrelInverse => vec![0.0, 0.125, -0.25],
        _ => corners.to_vec(),
    }
}

/// A picture in which no two samples are alike.
pub fn picture(width: u64, height: u64, channels: u64) -> Picture {
    let samples = (0..width * height * channels).map(|k| ((k * 7_919) % 65_521) as f32 / 65_521.0);
    Picture::new(width, height, channels, samples.collect()).expect("a picture")
}

impl Given {
    pub fn distort(&self) -> Distort {
        let distort = Distort::new(self.method, self.args.clone())
            .with_bestfit(self.bestfit)
            .with_virtual_pixel(self.virtual_pixel)
            .with_interpolate(self.interpolate)
            .with_background(self.background)
            .with_matte(self.matte);
        match self.viewport {
            Some(viewport) => distort.with_viewport(viewport),
            None => distort,
        }
    }

    /// The whole output by one raw call, put together from bytes: its answer and its samples' bits.
    pub fn raw(&self, picture: &Picture) -> (Answer, Vec<u32>) {
        let bytes: Vec<u8> = picture
            .samples()
            .iter()
            .flat_map(|x| x.to_le_bytes())
            .collect();
        let arguments: Vec<u8> = self.args.iter().flat_map(|x| x.to_le_bytes()).collect();
        let colour = |rgba: [f32; 4]| {
            let bytes: Vec<u8> = rgba.iter().flat_map(|x| x.to_le_bytes()).collect();
            bytes.try_into().expect("16 bytes")
        };
        let mut job = Job {
            picture: &bytes,
            width: picture.width(),
            height: picture.height(),
            channels: picture.channels(),
            method: self.method.code(),
            arguments: &arguments,
            policy: self.virtual_pixel.code(),
            interpolation: self.interpolate.code(),
            background: colour(self.background),
            matte: colour(self.matte),
            bestfit: self.bestfit as u64,
            viewport: self.viewport.is_some() as u64,
            view_width: self.viewport.map_or(0, |v| v.width),
            view_height: self.viewport.map_or(0, |v| v.height),
            view_x: self.viewport.map_or(0, |v| v.x),
            view_y: self.viewport.map_or(0, |v| v.y),
            first_row: 0,
            rows: 0,
        };
        let (size, _) = distort(&job, 0).expect("the size");
        job.rows = size.height;
        let length = (size.width * size.height * size.channels * 4) as usize;
        let (answer, band) = distort(&job, length).expect("the whole");
        let (samples, _) = band.as_chunks::<4>();
        (
            answer,
            samples.iter().map(|s| u32::from_le_bytes(*s)).collect(),
        )
    }
}

pub fn bits(samples: &[f32]) -> Vec<u32> {
    samples.iter().map(|x| x.to_bits()).collect()
}
