//! Pictures wide enough for whole spans, turned by small angles, whole and in bands, against the original, bit for bit.
//! A span that goes over several rows is read ahead; the other jobs' pictures seldom have one.

use crate::compiled;
use differential::answer::parting;
use differential::random::Random;
use differential::{Job, Window, codes, expected};
use reference::reference_or_skip;

const WINDOW: Window = Window {
    width: 130,
    height: 24,
    x: 0,
    y: 0,
};

/// The middle of a picture of 160 by 100, turned and enlarged to 1 / `scale`.
fn turned(r: &mut Random, degrees: f64, scale: f64, channels: u64, interpolation: u64) -> Job {
    let (width, height) = (160, 100);
    let (sine, cosine) = degrees.to_radians().sin_cos();
    let (w, h) = (WINDOW.width as f64, WINDOW.height as f64);
    let pair = |(x, y): (f64, f64)| {
        let (dx, dy) = (scale * (x - w / 2.0), scale * (y - h / 2.0));
        let u = width as f64 / 2.0 + cosine * dx - sine * dy;
        [u, height as f64 / 2.0 + sine * dx + cosine * dy, x, y]
    };
    let pairs = [(0.0, 0.0), (w, 0.0), (w, h), (0.0, h)].map(pair);
    let job = Job {
        method: codes::PERSPECTIVE,
        interpolation,
        args: pairs.concat(),
        viewport: Some(WINDOW),
        width,
        height,
        channels,
        samples: (0..width * height * channels)
            .map(|_| r.real(-0.5, 1.5) as f32)
            .collect(),
        ..Job::plain()
    };
    job.with_rows(WINDOW, 0, WINDOW.height)
}

#[test]
fn turned_pictures() {
    let reference = reference_or_skip!();
    let mut r = Random::new(31);
    for interpolation in 0..codes::INTERPOLATIONS.len() as u64 {
        // Only `Bilinear` reads ahead.
        let step = if interpolation == codes::interpolation::BILINEAR {
            1
        } else {
            10
        };
        for channels in [1, 3, 4] {
            for degrees in (-20..=20).step_by(step) {
                let scale = r.real(0.3, 1.0);
                let job = turned(&mut r, degrees.into(), scale, channels, interpolation);
                let asked = expected::expected(reference, &job);
                let words = [compiled::answer(&job), compiled::in_bands(&job)]
                    .iter()
                    .find_map(|answer| parting(&asked, answer));
                assert_eq!(
                    words, None,
                    "{degrees} degrees, scale {scale}, {channels} channels, interpolation {interpolation}"
                );
            }
        }
    }
}
