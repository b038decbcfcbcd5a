//! Damaged copies of good calls: bits, floats, lengths and numbers; and calls of noise alone.

use crate::lent::Lent;
use differential::call_numbers::COUNT;
use differential::random::Random;

/// Numbers that no field may hold, or that look like a small one when they are cut.
pub const HUGE: [u64; 9] = [
    u64::MAX,
    u64::MAX - 1,
    1 << 63,
    (1 << 63) - 1,
    (1 << 63) + 3,
    1 << 62,
    1 << 32,
    (1 << 32) + 3,
    0x5555_5555_5555_5556,
];

/// One change of any kind.
pub fn any(r: &mut Random, lent: &mut Lent) {
    match r.below(10) {
        0 => flip(r, &mut lent.picture),
        1 => flip(r, &mut lent.arguments),
        2 => flip(r, &mut lent.background),
        3 => flip(r, &mut lent.matte),
        4 => argument(r, lent),
        5 => sample(r, lent),
        6 => length(r, lent),
        7 => number(r, lent),
        8 => swap(r, lent),
        _ => repeat(r, &mut lent.arguments),
    }
}

fn flip(r: &mut Random, bytes: &mut [u8]) {
    if !bytes.is_empty() {
        let k = r.below(bytes.len() as u64) as usize;
        bytes[k] ^= 1 << r.below(8);
    }
}

/// A float that is none, infinite, at a limit or beside it, tiny, or a zero with a sign.
fn argument(r: &mut Random, lent: &mut Lent) {
    let limit = 1_048_576.0f64;
    let x = r.pick(&[
        f64::NAN,
        f64::INFINITY,
        f64::MAX,
        limit,
        limit.next_up(),
        f64::from_bits(1),
        0.0,
        1e-12,
    ]);
    let (floats, _) = lent.arguments.as_chunks_mut::<8>();
    if !floats.is_empty() {
        let k = r.below(floats.len() as u64) as usize;
        floats[k] = (x * r.pick(&[1.0, -1.0])).to_le_bytes();
    }
}

fn sample(r: &mut Random, lent: &mut Lent) {
    let limit = 65_536.0f32;
    let x = r.pick(&[
        f32::NAN,
        f32::NEG_INFINITY,
        f32::MAX,
        limit,
        limit.next_up(),
        f32::from_bits(1),
        -0.0,
        1e-9,
    ]);
    let place = match r.below(3) {
        0 => &mut lent.background[..],
        1 => &mut lent.matte[..],
        _ => &mut lent.picture[..],
    };
    let (floats, _) = place.as_chunks_mut::<4>();
    if !floats.is_empty() {
        let k = r.below(floats.len() as u64) as usize;
        floats[k] = (x * r.pick(&[1.0, -1.0])).to_le_bytes();
    }
}

/// A length one short or one long, mostly; or a float's, none at all, twice as long.
pub fn length(r: &mut Random, lent: &mut Lent) {
    let which = r.below(3);
    let old = match which {
        0 => lent.picture.len(),
        1 => lent.arguments.len(),
        _ => lent.band,
    };
    let new = match r.below(12) {
        0..4 => old + 1,
        4..8 => old.saturating_sub(1),
        8 => old + r.pick(&[4, 8, 12, 16]),
        9 => old.saturating_sub(r.pick(&[4, 8, 12, 16])),
        10 => 0,
        _ => (2 * old).min(1 << 20),
    };
    match which {
        0 => lent.picture.resize(new, 0x3f),
        1 => lent.arguments.resize(new, 0x3f),
        _ => lent.band = new,
    }
}

/// The place of one number.
fn place(r: &mut Random) -> usize {
    r.below(COUNT as u64) as usize
}

/// One number a little larger or smaller, or another small one.
fn number(r: &mut Random, lent: &mut Lent) {
    let k = place(r);
    lent.numbers.change(|n| {
        n[k] = match r.below(4) {
            0 => n[k].wrapping_add(1),
            1 => n[k].wrapping_sub(1),
            2 => r.below(16),
            _ => r.below(4_098),
        }
    });
}

/// A huge number in one field.
pub fn huge(r: &mut Random, lent: &mut Lent) {
    let k = place(r);
    lent.numbers.change(|n| {
        n[k] = match r.below(3) {
            0 => r.bits(),
            1 => n[k].wrapping_add(r.pick(&HUGE)),
            _ => r.pick(&HUGE),
        }
    });
}

fn swap(r: &mut Random, lent: &mut Lent) {
    let (a, b) = (place(r), place(r));
    lent.numbers.change(|n| n.swap(a, b));
}

/// One float again in another's place: pairs that are alike.
fn repeat(r: &mut Random, bytes: &mut [u8]) {
    let (floats, _) = bytes.as_chunks_mut::<8>();
    if !floats.is_empty() {
        let n = floats.len() as u64;
        let (from, to) = (r.below(n) as usize, r.below(n) as usize);
        floats[to] = floats[from];
    }
}

/// Some of the slices empty; no rows with an empty band is a call that can be accepted.
pub fn empty(r: &mut Random, lent: &mut Lent) {
    match r.below(5) {
        0 => lent.picture.clear(),
        1 => lent.arguments.clear(),
        2 => lent.band = 0,
        3 => {
            lent.picture.clear();
            lent.arguments.clear();
            lent.band = 0;
        }
        _ => {
            lent.numbers.rows = 0;
            lent.band = 0;
        }
    }
}

/// Numbers and bytes of chance alone; small ones now and then, so that more than the first row of the table is met.
pub fn noise(r: &mut Random) -> Lent {
    let mut numbers = [0; COUNT];
    let likely: [u64; COUNT] = [6, 6, 5, 14, 14, 9, 2, 2, 6, 6, 8, 8, 4, 6];
    let tame = r.once_in(2);
    for (n, limit) in numbers.iter_mut().zip(likely) {
        *n = match r.below(8) {
            0 => r.bits(),
            1 => r.pick(&HUGE),
            _ if tame => r.below(limit + 1),
            2 => r.below(5_000),
            _ => r.below(limit + 1),
        };
    }
    let needed = numbers[..3].iter().fold(4u64, |a, b| a.saturating_mul(*b));
    let picture = if needed < 4_096 && !r.once_in(4) {
        needed
    } else {
        r.below(300)
    };
    let mut bytes = |count: u64| (0..count).map(|_| r.bits() as u8).collect::<Vec<u8>>();
    let (picture, mut arguments) = (bytes(picture), bytes(8 * 16));
    arguments.truncate(r.pick(&[0, 24, 32, 48, 64, 72, 127, 128]));
    let mut sixteen = || [(); 16].map(|()| r.bits() as u8);
    let (background, matte) = (sixteen(), sixteen());
    Lent {
        numbers: numbers.into(),
        picture,
        arguments,
        background,
        matte,
        band: r.below(200) as usize,
    }
}
