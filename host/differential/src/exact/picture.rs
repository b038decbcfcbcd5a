//! A picture whose samples are fractions from 0 to 1, and one exact warp of it.
//!
//! All samples are over one denominator, a whole number times 2^149, so that every f32 from 0 to 1 is a whole number
//! over it. A warp multiplies it by what the weights are over: once where that is a power of two, and by each distinct
//! one of a perspective's pixels.

use super::number::{floor, parts, quotient};
use super::{Mapping, Tap, tap};
use crate::{Job, Window};
use num_bigint::{BigInt, BigUint};

/// Every finite f32 is a whole number over 2 to this.
const FINEST: usize = 149;

#[derive(Clone, Debug)]
pub struct Picture {
    pub width: u64,
    pub height: u64,
    pub channels: u64,
    /// Samples row by row, over `scale` times 2^149.
    samples: Vec<BigUint>,
    scale: BigUint,
}

/// A sample from 0 to 1 as a whole number over 2^149.
fn whole(x: f32) -> BigUint {
    assert!((0.0..=1.0).contains(&x), "{x} is not from 0 to 1");
    let (digits, exponent) = parts(x as f64);
    let size = digits.magnitude();
    let shift = exponent + FINEST as i64;
    match usize::try_from(shift) {
        Ok(bits) => size << bits,
        // The lowest digits of a widened f32 are 0.
        Err(_) => BigUint::from((x as f64 * 2f64.powi(FINEST as i32)) as u64),
    }
}

/// Where an output pixel is read: a cell, and how far into it, over `under`.
struct Cell {
    x: i64,
    y: i64,
    across: BigUint,
    down: BigUint,
    under: BigUint,
}

impl Picture {
    /// A picture of f32 samples from 0 to 1.
    pub fn new(width: u64, height: u64, channels: u64, samples: &[f32]) -> Self {
        assert_eq!(samples.len() as u64, width * height * channels);
        Self {
            width,
            height,
            channels,
            samples: samples.iter().map(|&x| whole(x)).collect(),
            scale: BigUint::from(1u8),
        }
    }

    /// The picture after a warp, of the size in the call's answer; none where a chain condition fails at a pixel.
    pub fn warp(&self, job: &Job, mapping: &Mapping, answer: Window) -> Option<Self> {
        let mut cells = Vec::new();
        for j in 0..answer.height {
            for i in 0..answer.width {
                cells.push(cell(mapping, answer, i, j)?);
            }
        }
        let unders = Unders::new(&cells);
        let mut samples = Vec::new();
        for cell in &cells {
            let others = unders.others(&cell.under);
            for channel in 0..self.channels {
                samples.push(self.blend(job, cell, channel) * others);
            }
        }
        Some(Self {
            width: answer.width,
            height: answer.height,
            channels: self.channels,
            samples,
            scale: &self.scale * &unders.all,
        })
    }

    /// The four taps times their weights, over the denominator times the square of the cell's.
    fn blend(&self, job: &Job, cell: &Cell, channel: u64) -> BigUint {
        let (right, low) = (&cell.across, &cell.down);
        let (left, high) = (&cell.under - right, &cell.under - low);
        let tap = |x: i64, y: i64| self.tapped(job, cell.x + x, cell.y + y, channel);
        let weighted = [
            (tap(0, 0), &left * &high),
            (tap(1, 0), right * &high),
            (tap(0, 1), &left * low),
            (tap(1, 1), right * low),
        ];
        weighted
            .into_iter()
            .map(|(sample, weight)| sample * weight)
            .sum()
    }

    fn tapped(&self, job: &Job, x: i64, y: i64, channel: u64) -> BigUint {
        let grey = |x: f32| if channel == 3 { 1.0 } else { x };
        let component = match tap(job.policy, self.width, self.height, x, y) {
            Tap::Pixel(x, y) => return self.sample(x, y, channel).clone(),
            Tap::Background => job.background[channel as usize],
            Tap::Black => grey(0.0),
            Tap::White => grey(1.0),
            Tap::Gray => grey(0.5),
            Tap::Clear => panic!("`Transparent` is outside the chain conditions"),
        };
        whole(component) * &self.scale
    }

    fn sample(&self, x: u64, y: u64, channel: u64) -> &BigUint {
        &self.samples[((y * self.width + x) * self.channels + channel) as usize]
    }

    /// How far f32 samples in 0 to 1 are from the exact ones at most: whether by no more than n/524,288, and the most
    /// in units of that; where n is 0, in units of 1/524,288.
    pub fn error(&self, samples: &[f32], n: u64) -> (bool, f64) {
        assert_eq!(samples.len(), self.samples.len());
        let mut most = BigUint::default();
        for (&float, exact) in samples.iter().zip(&self.samples) {
            let float = whole(float) * &self.scale;
            let off = match float >= *exact {
                true => float - exact,
                false => exact - float,
            };
            most = most.max(off);
        }
        let under = &self.scale << FINEST;
        let (most, allowed) = (most << 19u8, &under * n);
        let unit = under * n.max(1);
        (most <= allowed, quotient(&most, &unit))
    }
}

/// The cell of an output pixel by `Bilinear`'s steps: half a pixel back, floor, fraction.
fn cell(mapping: &Mapping, answer: Window, i: u64, j: u64) -> Option<Cell> {
    let point = mapping.point(i, j, (answer.x, answer.y))?;
    let under = point.under.magnitude() << 1u8;
    let back = |x: &BigInt| (x << 1u8) - &point.under;
    let (x, across) = floor(&back(&point.u), &under);
    let (y, down) = floor(&back(&point.v), &under);
    Some(Cell {
        x,
        y,
        across,
        down,
        under,
    })
}

/// The distinct denominators of a picture's cells, squared, and their product.
struct Unders {
    /// Each, and the product of the others' squares.
    each: Vec<(BigUint, BigUint)>,
    all: BigUint,
}

impl Unders {
    fn new(cells: &[Cell]) -> Self {
        let mut distinct: Vec<BigUint> = cells.iter().map(|cell| cell.under.clone()).collect();
        distinct.sort();
        distinct.dedup();
        let squares: Vec<BigUint> = distinct.iter().map(|n| n * n).collect();
        // The products of all before each, and of all after it.
        let running = |product: &mut BigUint, square: &BigUint| {
            let before = product.clone();
            *product *= square;
            Some(before)
        };
        let one = || BigUint::from(1u8);
        let before: Vec<_> = squares.iter().scan(one(), running).collect();
        let mut after: Vec<_> = squares.iter().rev().scan(one(), running).collect();
        after.reverse();
        let others = before.iter().zip(&after).map(|(a, b)| a * b);
        Self {
            each: distinct.iter().cloned().zip(others).collect(),
            all: squares.iter().product(),
        }
    }

    fn others(&self, under: &BigUint) -> &BigUint {
        let place = self.each.binary_search_by(|(n, _)| n.cmp(under));
        &self.each[place.expect("each cell's is among them")].1
    }
}

#[cfg(test)]
mod tests {
    use super::*;
    use crate::codes::*;

    const GREY: [f32; 4] = [0.25, 0.5, 0.75, 1.0];

    fn warped(
        method: u64,
        coefficients: &[f64],
        policy: u64,
        picture: &Picture,
        w: Window,
    ) -> Picture {
        let job = Job {
            method,
            policy,
            background: GREY,
            ..Job::plain()
        };
        let mapping = Mapping::new(&job, coefficients).unwrap();
        picture.warp(&job, &mapping, w).unwrap()
    }

    /// A picture three channels deep whose pixels are grey.
    fn greys(width: u64, values: &[f32]) -> Picture {
        let samples: Vec<f32> = values.iter().flat_map(|&x| [x; 3]).collect();
        let height = values.len() as u64 / width;
        Picture::new(width, height, 3, &samples)
    }

    fn equal(picture: &Picture, values: &[f32]) {
        let samples: Vec<f32> = values.iter().flat_map(|&x| [x; 3]).collect();
        assert!(picture.error(&samples, 0).0, "{picture:?}");
    }

    fn view(width: u64, height: u64, x: i64, y: i64) -> Window {
        Window {
            width,
            height,
            x,
            y,
        }
    }

    #[test]
    fn floats_are_their_fractions() {
        let of = |n: u32| BigUint::from(n);
        let one = of(1) << FINEST;
        assert_eq!(whole(1.0), one);
        assert_eq!(whole(f32::from_bits(1)), of(1));
        assert_eq!(whole(-0.0), of(0));
        assert_eq!(whole(f32::from_bits(0x7f_ffff)), of(0x7f_ffff));
        assert_eq!(
            whole(1.0f32.next_down()) + &one,
            (&one << 1u8) - (of(1) << (FINEST - 24))
        );
        let third = quotient(&whole(1.0 / 3.0), &one);
        assert_eq!(third as f32, 1.0 / 3.0);
    }

    #[test]
    fn the_identity_changes_nothing() {
        let values = [0.0, 0.1, 0.2, 0.3, 0.9, 1.0];
        let picture = greys(3, &values);
        let line = [1.0, 0.0, 0.0, 0.0, 1.0, 0.0];
        let once = warped(AFFINE, &line, 2, &picture, view(3, 2, 0, 0));
        equal(&once, &values);
        let depth = [1.0, 0.0, 0.0, 0.0, 1.0, 0.0, 0.0, 0.0, 1.0];
        let twice = warped(PERSPECTIVE, &depth, 2, &once, view(3, 2, 0, 0));
        equal(&twice, &values);
    }

    #[test]
    fn halves_and_surroundings() {
        let picture = greys(2, &[0.0, 1.0]);
        let half = [1.0, 0.0, 0.5, 0.0, 1.0, 0.0];
        let at = |policy| warped(AFFINE, &half, policy, &picture, view(3, 1, -1, 0));
        equal(&at(0), &[0.0, 0.5, 1.0]);
        equal(&at(3), &[0.5, 0.5, 1.0]);
        equal(&at(4), &[0.25, 0.5, 0.75]);
        equal(&at(6), &[0.5, 0.5, 0.5]);
        let coloured = at(1);
        let samples = [0.125, 0.25, 0.375, 0.5, 0.5, 0.5, 0.625, 0.75, 0.875];
        assert!(coloured.error(&samples, 0).0);
    }

    #[test]
    fn quarters_in_two_directions() {
        let picture = greys(2, &[0.0, 1.0, 0.5, 0.25]);
        let quarter = [1.0, 0.0, 0.25, 0.0, 1.0, 0.75];
        let made = warped(AFFINE, &quarter, 0, &picture, view(1, 1, 0, 0));
        // 1/4 of 1 at weight 1/4; 3/4 of the lower row.
        equal(&made, &[0.25 * 0.25 + 0.75 * (0.75 * 0.5 + 0.25 * 0.25)]);
    }

    /// u is x / (1 + x/4): at 1/2 it is 4/9 and at 3/2 it is 12/11, so the samples are over 9 and 11.
    #[test]
    fn a_perspective_is_no_binary_fraction() {
        let picture = greys(2, &[0.0, 1.0]);
        let depth = [1.0, 0.0, 0.0, 0.0, 0.0, 0.5, 0.25, 0.0, 1.0];
        let made = warped(PERSPECTIVE, &depth, 2, &picture, view(2, 1, 0, 0));
        let value = |k: usize| quotient(&made.samples[k], &(&made.scale << FINEST));
        // v is 1/2 over the denominator: 4/9 and 4/11, so the row above, black, has 1/18 and 3/22.
        assert!((value(0) - 0.0).abs() < 1e-15, "{}", value(0));
        let second = (12.0 / 11.0 - 0.5) * (1.0 - 3.0 / 22.0);
        assert!((value(3) - second).abs() < 1e-15, "{}", value(3));
        assert!(!made.error(&[0.0, 0.0, 0.0, 0.5, 0.5, 0.5], 4_000).0);
    }

    #[test]
    fn errors_are_told_in_their_unit() {
        let picture = greys(1, &[0.5]);
        let off = 0.5 + 2f32.powi(-19);
        let samples = [off, 0.5, 0.5];
        assert_eq!(picture.error(&samples, 1), (true, 1.0));
        assert_eq!(picture.error(&samples, 2), (true, 0.5));
        assert_eq!(picture.error(&samples, 0), (false, 1.0));
        assert!(!picture.error(&[off.next_up(), 0.5, 0.5], 1).0);
        let under = [0.5, 0.5 - 2f32.powi(-19), 0.5];
        assert_eq!(picture.error(&under, 1), (true, 1.0));
    }
}
