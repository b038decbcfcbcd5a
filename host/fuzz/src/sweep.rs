//! Every length one short and one long, and every huge number in every field, of one good job for each method.

use crate::cases::Kind;
use crate::damage::HUGE;
use crate::lent::{Lent, colour};
use differential::Window;
use differential::call_numbers::{COUNT, CallNumbers};
use differential::codes::{self, PRESENT, interpolation, policy};

/// The seed whose cases are these.
pub const SEED: u64 = 0;

/// The good job itself, six lengths, each number in turn as each huge one.
const PER_METHOD: u64 = 1 + 6 + (COUNT * HUGE.len()) as u64;

/// How many cases there are.
pub const CASES: u64 = PER_METHOD * PRESENT.len() as u64;

const WIDTH: u64 = 7;
const HEIGHT: u64 = 5;
const CHANNELS: u64 = 3;

/// Corner picks of a card, or what the method takes instead.
pub fn arguments(method: u64) -> Vec<f64> {
    let pairs = vec![
        0.25, 0.5, 0.0, 0.0, 6.5, 0.25, 7.0, 0.0, 6.75, 4.5, 7.0, 5.0, 0.5, 4.75, 0.0, 5.0, 3.5,
        2.25, 3.25, 2.5, 1.75, 2.5, 1.5, 2.75,
    ];
    match method {
        codes::AFFINE_PROJECTION => vec![1.1, 0.05, -0.04, 1.2, -0.25, 0.5],
        codes::PERSPECTIVE_PROJECTION => vec![1.1, 0.05, -0.25, -0.04, 1.2, 0.5, 0.02, -0.01],
        codes::POLYNOMIAL => [vec![2.0], pairs].concat(),
        codes::BARREL | codes::BARREL_INVERSE => vec![0.02, -0.03, 0.01],
        _ => pairs,
    }
}

/// A job that is accepted.
fn good(method: u64) -> Lent {
    let sample = |k: u64| ((k * 7_919 % 10_007) as f32 / 10_006.0).to_le_bytes();
    let arguments = arguments(method).into_iter();
    let black = colour([0.0, 0.0, 0.0, 1.0]);
    let view = Window {
        width: WIDTH,
        height: HEIGHT,
        x: 0,
        y: 0,
    };
    let numbers = CallNumbers {
        width: WIDTH,
        height: HEIGHT,
        channels: CHANNELS,
        method,
        policy: policy::EDGE,
        interpolation: interpolation::BILINEAR,
        bestfit: 0,
        viewport: 1,
        view,
        first_row: 0,
        rows: HEIGHT,
    };
    Lent {
        numbers,
        picture: (0..WIDTH * HEIGHT * CHANNELS).flat_map(sample).collect(),
        arguments: arguments.flat_map(f64::to_le_bytes).collect(),
        background: black,
        matte: black,
        band: (WIDTH * HEIGHT * CHANNELS * 4) as usize,
    }
}

pub fn case(index: u64) -> (Kind, Lent) {
    let mut lent = good(PRESENT[(index / PER_METHOD) as usize % PRESENT.len()]);
    let change = (index % PER_METHOD) as usize;
    match change {
        0 => return (Kind::Plain, lent),
        1..=6 => length(change - 1, &mut lent),
        _ => {
            let (field, which) = ((change - 7) / HUGE.len(), (change - 7) % HUGE.len());
            lent.numbers.change(|n| n[field] = HUGE[which]);
            return (Kind::Huge, lent);
        }
    }
    (Kind::Length, lent)
}

fn length(which: usize, lent: &mut Lent) {
    match which {
        0 => lent.picture.push(0x3f),
        1 => lent.picture.truncate(lent.picture.len() - 1),
        2 => lent.arguments.push(0x3f),
        3 => lent.arguments.truncate(lent.arguments.len() - 1),
        4 => lent.band += 1,
        _ => lent.band -= 1,
    }
}
