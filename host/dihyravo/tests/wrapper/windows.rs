//! What the output will be: the picture's own window, viewports, best fit, channels; and what the coordinates mean.

use crate::jobs::picture;
use dihyravo::{Distort, Interpolate, Method, Picture, Refusal, Viewport, VirtualPixel, Window};

const SAME: [f64; 6] = [1.0, 0.0, 0.0, 1.0, 0.0, 0.0];

fn window(width: u64, height: u64, x: i64, y: i64, channels: u64) -> Result<Window, Refusal> {
    Ok(Window {
        width,
        height,
        x,
        y,
        channels,
    })
}

#[test]
fn sizes() {
    let picture = picture(4, 3, 1);
    let plain = Distort::new(Method::AffineProjection, SAME);
    assert_eq!(plain.size(&picture), window(4, 3, 0, 0, 1));
    let fit = plain.clone().with_bestfit(true);
    assert_eq!(fit.size(&picture), window(6, 5, -1, -1, 1));
    assert_eq!(
        fit.clone().with_bestfit(false).size(&picture),
        window(4, 3, 0, 0, 1)
    );
    let view = Viewport {
        width: 9,
        height: 8,
        x: -7,
        y: 6,
    };
    assert_eq!(
        plain.clone().with_viewport(view).size(&picture),
        window(9, 8, -7, 6, 1)
    );
    assert_eq!(
        fit.with_viewport(view).size(&picture),
        window(9, 8, -7, 6, 1)
    );
    let clear = plain.clone().with_background([0.0, 0.0, 0.0, 0.5]);
    assert_eq!(clear.size(&picture), window(4, 3, 0, 0, 4));
    let transparent = plain.with_virtual_pixel(VirtualPixel::Transparent);
    assert_eq!(transparent.size(&picture), window(4, 3, 0, 0, 4));
}

#[test]
fn limits_of_a_viewport() {
    let picture = picture(4, 3, 1);
    let size = |width, height, x, y| {
        let viewport = Viewport {
            width,
            height,
            x,
            y,
        };
        Distort::new(Method::AffineProjection, SAME)
            .with_viewport(viewport)
            .size(&picture)
    };
    assert_eq!(
        size(4096, 4096, 1 << 20, -(1 << 20)),
        window(4096, 4096, 1 << 20, -(1 << 20), 1)
    );
    assert_eq!(size(4097, 1, 0, 0), Err(Refusal::Window));
    assert_eq!(size(1, 0, 0, 0), Err(Refusal::Window));
    assert_eq!(size(1, 1, (1 << 20) + 1, 0), Err(Refusal::Window));
    assert_eq!(size(1, 1, 0, i64::MIN), Err(Refusal::Window));
}

#[test]
fn band_lengths() {
    let window = Window {
        width: 7,
        height: 5,
        x: 0,
        y: 0,
        channels: 3,
    };
    assert_eq!([0, 1, 5].map(|rows| window.band_length(rows)), [0, 21, 105]);
    assert_eq!(window.band_length(u64::MAX), usize::MAX);
}

/// The offset is where the distorted picture begins: a shift by whole pixels, and best fit finds it with a pixel
/// around.
#[test]
fn an_offset() {
    let picture = picture(4, 3, 1);
    let shifted = Distort::new(Method::Affine, [0.0, 0.0, 10.0, -20.0])
        .with_bestfit(true)
        .with_interpolate(Interpolate::Nearest)
        .distort(&picture)
        .expect("an accepted job");
    assert_eq!((shifted.x, shifted.y), (9, -21));
    let (inside, original) = (shifted.picture.pixel(1, 1), picture.pixel(0, 0));
    let difference = inside.expect("a pixel")[0] - original.expect("a pixel")[0];
    assert!(difference.abs() < 1e-6);
}

/// `sx, ry, rx, sy, tx, ty`: x = sx·u + rx·v + tx, y = ry·u + sy·v + ty. Here x = u + 2·v and y = v; then x = u and y =
/// 3·u + v.
#[test]
fn the_order_of_a_projection() {
    let picture = picture(4, 3, 3);
    let at = |args: [f64; 6], x: i64, y: i64| {
        let viewport = Viewport {
            width: 1,
            height: 1,
            x,
            y,
        };
        let distort =
            Distort::new(Method::AffineProjection, args).with_interpolate(Interpolate::Nearest);
        let distorted = distort.with_viewport(viewport).distort(&picture);
        distorted.expect("an accepted job").picture.into_samples()
    };
    let original = |x, y| picture.pixel(x, y).expect("a pixel");
    // The centre (1.5, 2.5) goes to (6.5, 2.5).
    assert_eq!(at([1.0, 0.0, 2.0, 1.0, 0.0, 0.0], 6, 2), original(1, 2));
    // The centre (2.5, 0.5) goes to (2.5, 8).
    assert_eq!(at([1.0, 3.0, 0.0, 1.0, 0.0, 0.0], 2, 8), original(2, 1));
    assert_eq!(at([1.0, 0.0, 0.0, 1.0, 5.0, -6.0], 7, -5), original(2, 1));
}

#[test]
fn defaults_are_the_originals() {
    let picture = Picture::new(2, 1, 1, vec![0.0, 1.0]).expect("a picture");
    let shift = [0.25, 0.0, 0.0, 0.0];
    let plain = Distort::new(Method::Affine, shift);
    let spelled = Distort::new(Method::Affine, shift)
        .with_bestfit(false)
        .with_virtual_pixel(VirtualPixel::Edge)
        .with_interpolate(Interpolate::Bilinear)
        .with_background([1.0, 1.0, 1.0, 1.0])
        .with_matte([189.0 / 255.0, 189.0 / 255.0, 189.0 / 255.0, 1.0])
        .with_threads(0)
        .with_rows(0);
    assert_eq!(plain, spelled);
    let samples = plain
        .distort(&picture)
        .expect("an accepted job")
        .picture
        .into_samples();
    assert!((samples[0] - 0.25).abs() < 1e-6 && (samples[1] - 1.0).abs() < 1e-6);
}
