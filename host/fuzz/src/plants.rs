//! Planted faults: callees that do as the product does and one thing wrong. Each has to be found.

use crate::callee::{Distort, Parameters, dihyravo_distort};
use differential::refusal::{COUNT, NUMBER, TRAY};
use dihyravo_sys::stand_in;
use std::hint::black_box;
use std::sync::atomic::{AtomicU64, Ordering::Relaxed};

/// A plant: its name, the callee, and what the run says when it finds it, in one of these words.
pub type Plant = (&'static str, Distort, &'static [&'static str]);

const FAULT: &[&str] = &["fault:"];
// The byte beside it is in an unmapped page, or it is looked at afterwards.
const BESIDE_BAND: &[&str] = &["fault:", "a byte beside the band is changed"];
const BESIDE_ANSWER: &[&str] = &["fault:", "a byte beside the answer is changed"];

pub const PLANTS: [Plant; 17] = [
    ("writes beyond the band", planted::<0>, BESIDE_BAND),
    ("writes before the band", planted::<1>, BESIDE_BAND),
    ("writes beyond the answer", planted::<2>, BESIDE_ANSWER),
    ("writes before the answer", planted::<3>, BESIDE_ANSWER),
    ("reads beyond the picture", planted::<4>, FAULT),
    ("reads before the picture", planted::<5>, FAULT),
    ("reads beyond the arguments", planted::<6>, FAULT),
    ("reads before the arguments", planted::<7>, FAULT),
    ("reads beyond the background", planted::<8>, FAULT),
    ("reads before the matte", planted::<9>, FAULT),
    ("writes the picture", planted::<10>, FAULT),
    (
        "writes the band of a refused call",
        planted::<11>,
        &["the band is changed"],
    ),
    (
        "writes the answer of a refused call",
        planted::<12>,
        &["the answer is changed"],
    ),
    (
        "answers another refusal",
        planted::<13>,
        &["and not refusal"],
    ),
    (
        "leaves the band's last byte",
        planted::<14>,
        &["the band is not the same twice"],
    ),
    (
        "counts its calls",
        planted::<15>,
        &["the answer's bytes are not the same twice"],
    ),
    ("does not end", planted::<16>, &["no end:"]),
];

/// A callee that looks at the band's bytes before it writes them: found where these are not initialised.
pub const READS_THE_BAND: Distort = planted::<17>;

/// The callee of a plant.
pub fn named(name: &str) -> Option<Distort> {
    let plant = PLANTS.iter().find(|plant| plant.0 == name);
    plant.map(|plant| plant.1)
}

/// Calls that a plant does nothing wrong in, so that it is not the first case that finds it.
const STILL: u64 = 200;

static CALLS: AtomicU64 = AtomicU64::new(0);

/// The one thing wrong, after the call.
///
/// # Safety
/// The pointers are those of a call; what is done beyond them is the fault that is planted.
unsafe fn wrong(which: usize, number: u64, last: u8, p: &Parameters) -> u64 {
    let accepted = number == 0;
    let rows = p.band_length > 0;
    let read = |from: *const u8| {
        // SAFETY: none: this is the fault.
        black_box(unsafe { from.read_volatile() });
    };
    let write = |to: *mut u8, byte: u8| {
        // SAFETY: none: this is the fault.
        unsafe { to.write_volatile(byte) }
    };
    match which {
        0 if accepted && rows => write(p.band.wrapping_add(p.band_length), 0x77),
        1 if accepted && rows => write(p.band.wrapping_sub(1), 0x77),
        2 if accepted => write(p.answer.wrapping_add(48), 0x77),
        3 => write(p.answer.wrapping_sub(1), 0x77),
        4 if accepted => read(p.picture.wrapping_add(p.picture_length)),
        5 if accepted => read(p.picture.wrapping_sub(1)),
        6 if accepted => read(p.arguments.wrapping_add(p.arguments_length)),
        7 if accepted => read(p.arguments.wrapping_sub(1)),
        8 => read(p.background.wrapping_add(16)),
        9 => read(p.matte.wrapping_sub(1)),
        10 if accepted => write(p.picture.cast_mut(), 0),
        11 if !accepted && rows => write(p.band, 0x77),
        12 if number == u64::from(TRAY) => write(p.answer.wrapping_add(47), 0x77),
        13 if number == u64::from(COUNT) => return u64::from(NUMBER),
        14 if accepted && rows => write(p.band.wrapping_add(p.band_length - 1), last),
        15 if accepted && rows => write(p.answer.wrapping_add(40), CALLS.load(Relaxed) as u8 & 1),
        16 if accepted => loop {
            black_box(());
        },
        _ => (),
    }
    number
}

stand_in! {
    /// The product's call, and one thing wrong after it.
    fn planted<const WHICH: usize>(lent) {
        let last = last(WHICH, &lent);
        // SAFETY: the product is called as this is; what is wrong on purpose is done afterwards.
        unsafe {
            let number = lent.call(dihyravo_distort);
            match CALLS.fetch_add(1, Relaxed) >= STILL {
                true => wrong(WHICH, number, last, &lent),
                false => number,
            }
        }
    }
}

/// The band's last byte before the call, for the plants that look at it.
fn last(which: usize, p: &Parameters) -> u8 {
    if which < 14 || p.band_length == 0 {
        return 0;
    }
    // SAFETY: a byte of the band.
    let byte = unsafe { p.band.add(p.band_length - 1).read_volatile() };
    if which == 17 && byte == 0x33 {
        CALLS.fetch_add(1, Relaxed);
    }
    byte
}
