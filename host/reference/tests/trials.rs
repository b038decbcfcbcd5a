//! The trial cards that touch the original, asked through the access functions.

use reference::{Call, Picture, Sampler, reference_or_skip};

const AFFINE: u8 = 0;
const AFFINE_PROJECTION: u8 = 1;
const POLYNOMIAL: u8 = 7;
const BARREL: u8 = 11;
const EDGE: u8 = 0;
const TILE: u8 = 6;
const MIRROR: u8 = 7;
const CHECKER_TILE: u8 = 12;
const BILINEAR: u8 = 5;

/// A grey picture whose samples count from 0.
fn counted(width: u32, height: u32) -> Vec<f32> {
    (0..width * height).map(|k| k as f32).collect()
}

fn grey(samples: &[f32], width: u32, height: u32) -> Picture<'_> {
    Picture {
        width,
        height,
        channels: 1,
        samples,
    }
}

#[test]
fn mirror_and_tile_of_width_four() {
    let r = reference_or_skip!();
    let row = counted(4, 1);
    let policy = |code| r.sampler(grey(&row, 4, 1), code, [0.0; 4]).unwrap();
    let column = |sampler: &Sampler, x| sampler.at(x, 0)[0];
    let mirror = policy(MIRROR);
    assert_eq!(
        [-1, -5, 4, 8].map(|x| column(&mirror, x)),
        [0.0, 3.0, 3.0, 0.0]
    );
    let tile = policy(TILE);
    assert_eq!([-1, 4].map(|x| column(&tile, x)), [3.0, 0.0]);
}

#[test]
fn checker_tile_of_two_by_two() {
    let r = reference_or_skip!();
    let samples = counted(2, 2);
    let background = [0.25, 0.5, 0.75, 1.0];
    let sampler = r
        .sampler(grey(&samples, 2, 2), CHECKER_TILE, background)
        .unwrap();
    assert_eq!(sampler.at(2, 0), background);
    assert_eq!(sampler.at(-1, 0), background);
    assert_eq!(sampler.at(2, 2), [0.0, 0.0, 0.0, 1.0]);
}

/// With overflow checks the sum of the two tile numbers would stop here.
#[test]
fn sums_wrap_beyond_the_domain() {
    let r = reference_or_skip!();
    let sampler = r
        .sampler(grey(&[0.5], 1, 1), CHECKER_TILE, [0.0; 4])
        .unwrap();
    assert_eq!(sampler.at(i64::MAX, i64::MAX), [0.5, 0.5, 0.5, 1.0]);
}

#[test]
fn cubic_weights_of_catrom() {
    let r = reference_or_skip!();
    assert_eq!(r.cubic_weights(0.0, 0.0, 0.5), [0.0, 1.0, 0.0, 0.0]);
    let half = [-0.0625, 0.5625, 0.5625, -0.0625];
    assert_eq!(r.cubic_weights(0.5, 0.0, 0.5), half);
}

#[test]
fn halfway_between_opaque_and_clear() {
    let r = reference_or_skip!();
    let taps = [([1.0; 4], 0.5), ([0.0; 4], 0.5)];
    assert_eq!(r.weighted(&taps), [1.0, 1.0, 1.0, 0.5]);
}

#[test]
fn singular_fits_and_few_pairs_are_refused() {
    let r = reference_or_skip!();
    let singular = [1.0, 2.0, 2.0, 4.0, 0.0, 0.0];
    assert!(r.build(AFFINE_PROJECTION, &singular, 4.0, 4.0).is_err());
    let nine: Vec<f64> = [3.0]
        .into_iter()
        .chain((0..36).map(|k| (k * k % 17) as f64))
        .collect();
    assert!(r.build(POLYNOMIAL, &nine, 4.0, 4.0).is_err());
    assert!(r.build(14, &[], 4.0, 4.0).is_err());
}

#[test]
fn coefficients_and_window_of_a_shift() {
    let r = reference_or_skip!();
    let shift = r.build(AFFINE, &[1.0, 2.0, 0.0, 0.0], 4.0, 3.0).unwrap();
    assert_eq!(shift.coefficients(), [1.0, 0.0, 1.0, 0.0, 1.0, 2.0]);
    let identity = r.build(AFFINE, &[0.0; 4], 4.0, 3.0).unwrap();
    assert_eq!(identity.bestfit(4.0, 3.0), Some((6, 5, -1, -1)));
}

#[test]
fn a_plain_barrel_is_the_identity() {
    let r = reference_or_skip!();
    let barrel = r.build(BARREL, &[0.0; 3], 4.0, 4.0).unwrap();
    assert_eq!(barrel.coefficients(), [0.0, 0.0, 0.0, 1.0, 2.0, 2.0, 2.0]);
    assert_eq!(barrel.inverse(0.5, 0.5), Some((0.5, 0.5)));
}

#[test]
fn solve_and_lstsq_of_a_line() {
    let r = reference_or_skip!();
    let rows = [vec![0.0, 1.0], vec![1.0, 1.0], vec![2.0, 1.0]];
    assert_eq!(r.lstsq(&rows, &[1.0, 3.0, 5.0]), Some(vec![2.0, 1.0]));
    let singular = vec![vec![1.0, 2.0], vec![2.0, 4.0]];
    assert_eq!(r.solve(singular, vec![1.0, 1.0]), None);
}

#[test]
fn distort_by_nothing_gives_the_picture_in_its_window() {
    let r = reference_or_skip!();
    let samples: Vec<f32> = (0..12).map(|k| k as f32 / 8.0).collect();
    let picture = Picture {
        width: 2,
        height: 2,
        channels: 3,
        samples: &samples,
    };
    let mut call = Call {
        method: AFFINE,
        args: &[0.0; 4],
        bestfit: false,
        viewport: None,
        policy: EDGE,
        interpolation: BILINEAR,
        background: [1.0; 4],
        undefined: [0.5; 4],
        picture,
    };
    let same = r.distort(&call).unwrap();
    assert_eq!((same.width, same.height, same.x, same.y), (2, 2, 0, 0));
    assert_eq!((same.channels, &same.samples[..]), (3, &samples[..]));

    call.viewport = Some((1, 1, 1, 1));
    let corner = r.distort(&call).unwrap();
    assert_eq!((corner.x, corner.y), (1, 1));
    assert_eq!(corner.samples, samples[9..]);
}

#[test]
fn names_give_codes() {
    let r = reference_or_skip!();
    assert_eq!(r.method_from_name("SRT"), Some(2));
    assert_eq!(r.policy_from_name("None"), Some(5));
    assert_eq!(r.interpolation_from_name("bicubic"), Some(6));
    assert_eq!(r.method_from_name("affine "), None);
}
