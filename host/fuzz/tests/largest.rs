//! The largest picture and the largest band, 4,096 by 4,096 with four channels and 256 MiB each, against unmapped
//! pages: an unmoved picture comes back byte for byte; the last row and the corners outside are read by every
//! interpolation.

use differential::codes::interpolation::NEAREST;
use differential::codes::{AFFINE_PROJECTION, INTERPOLATIONS, policy};
use differential::{CallNumbers, Window};
use fuzz::arena::{Arenas, Lending, Place, Side};
use fuzz::callee::{self, Pointers, dihyravo_distort};
use fuzz::fault;
use fuzz::lent::colour;

const SIDE: u64 = 4_096;
const CHANNELS: u64 = 4;
const ROW: usize = (SIDE * CHANNELS * 4) as usize;
const BYTES: usize = ROW * SIDE as usize;

fn place(side: Side) -> Place {
    Place {
        side,
        shift: 0,
        around: 0xff,
        nowhere: None,
    }
}

/// Samples from 0 to 1 without a pattern.
fn fill(room: &mut [u8]) {
    for (k, four) in room.as_chunks_mut::<4>().0.iter_mut().enumerate() {
        let mixed = (k as u32).wrapping_mul(2_654_435_761) >> 8;
        *four = (mixed as f32 / 16_777_216.0).to_le_bytes();
    }
}

/// One call by the identity: the picture, a window that is the largest and lies at `offset`, and some rows of it.
fn call(
    picture: &Lending,
    band: &Lending,
    interpolation: u64,
    offset: i64,
    (first, rows): (u64, u64),
) -> u64 {
    let arguments: Vec<u8> = [1.0f64, 0.0, 0.0, 1.0, 0.0, 0.0]
        .into_iter()
        .flat_map(f64::to_le_bytes)
        .collect();
    let black = colour([0.0, 0.0, 0.0, 1.0]);
    let mut answer = [0; 48];
    let numbers = CallNumbers {
        width: SIDE,
        height: SIDE,
        channels: CHANNELS,
        method: AFFINE_PROJECTION,
        policy: policy::EDGE,
        interpolation,
        bestfit: 0,
        viewport: 1,
        view: Window {
            width: SIDE,
            height: SIDE,
            x: offset,
            y: offset,
        },
        first_row: first,
        rows,
    };
    let pointers = Pointers {
        picture: (picture.pointer, picture.length),
        arguments: (arguments.as_ptr(), arguments.len()),
        background: black.as_ptr(),
        matte: black.as_ptr(),
        band: (band.pointer, band.length),
        answer: answer.as_mut_ptr(),
    };
    // SAFETY: each buffer is of the length that is said, and band and answer are lent alone.
    unsafe { callee::call(dihyravo_distort, &numbers, &pointers) }
}

#[test]
fn the_largest_picture_comes_back() {
    fault::install();
    let (mut pictures, mut bands) = (Arenas::of(BYTES, true), Arenas::of(BYTES, false));
    let mut rows = Arenas::new(false);
    for side in [Side::End, Side::Start] {
        let picture = pictures.lend_filled(BYTES, place(side), fill);
        let band = bands.lend_filled(BYTES, place(side), |room| room.fill(0xa5));
        assert_eq!(call(&picture, &band, NEAREST, 0, (0, SIDE)), 0);
        assert!(bands.after(&band) == pictures.after(&picture));
        // One row, first and last, inside and beyond the corners.
        for interpolation in 0..INTERPOLATIONS.len() as u64 {
            for (offset, first) in [(0, 0), (0, SIDE - 1), (-2, 0), (2, SIDE - 1)] {
                let band = rows.lend(&[0xa5; ROW], place(side));
                let number = call(&picture, &band, interpolation, offset, (first, 1));
                assert_eq!(number, 0, "interpolation {interpolation}");
                assert!(rows.clean(&band) && rows.after(&band) != [0xa5; ROW]);
            }
        }
    }
    println!("a picture and a band of {BYTES} bytes against unmapped pages");
}
