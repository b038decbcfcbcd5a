//! The same cases over blocks of the heap, each just as long as is said, for memcheck: it sees every read and write
//! beyond one, and every decision by a byte that was never written. The band is lent as the heap gives it.

use crate::callee::{self, Distort, Pointers};
use crate::cases::case;
use crate::lent::Lent;
use crate::model::asked;
use crate::run::told;
use std::hint::black_box;
use std::mem::MaybeUninit;
use std::ops::Range;

/// A block of its own for some bytes.
fn block(bytes: &[u8]) -> Box<[u8]> {
    bytes.into()
}

/// Makes the call. The number, and what is in the answer and, after an accepted call, in the band.
fn call(callee: Distort, lent: &Lent) -> (u64, [u8; 48], Vec<u8>) {
    let (picture, arguments) = (block(&lent.picture), block(&lent.arguments));
    let (background, matte) = (block(&lent.background), block(&lent.matte));
    let mut answer = block(&[0xa5; 48]);
    let mut band: Box<[MaybeUninit<u8>]> = Box::new_uninit_slice(lent.band);
    let pointers = Pointers {
        picture: (picture.as_ptr(), picture.len()),
        arguments: (arguments.as_ptr(), arguments.len()),
        background: background.as_ptr(),
        matte: matte.as_ptr(),
        band: (band.as_mut_ptr().cast(), band.len()),
        answer: answer.as_mut_ptr(),
    };
    // SAFETY: each block is as long as is said; the callee reads no byte of the band.
    let number = unsafe { callee::call(callee, &lent.numbers, &pointers) };
    let mut said = [0; 48];
    said.copy_from_slice(&answer);
    let written = match number {
        // SAFETY: an accepted call writes every byte of the band. Where it did not, memcheck says so when they are
        // compared.
        0 => unsafe { band.assume_init() }.into_vec(),
        _ => Vec::new(),
    };
    (number, said, written)
}

/// Runs the cases of a seed; how many were accepted.
pub fn run(callee: Distort, seed: u64, indices: Range<u64>) -> Result<u64, String> {
    let reference = reference::open();
    let mut accepted = 0;
    for index in indices {
        let lent = case(reference, seed, index).lent;
        let asked = asked(reference, &lent.job());
        let (first, second) = (call(callee, &lent), call(callee, &lent));
        if let Some(words) = asked.parting(first.0, &first.1) {
            return Err(told(seed, index, &words));
        }
        if first.0 != 0 && first.1 != [0xa5; 48] {
            return Err(told(seed, index, "the answer of a refused call is changed"));
        }
        // Every byte is looked at one by one: memcheck tells of one that was not written.
        let differ = |(a, b): (&u8, &u8)| black_box(*a) != black_box(*b);
        if first.0 != second.0 || first.1 != second.1 || first.2.iter().zip(&second.2).any(differ) {
            return Err(told(seed, index, "the answer is not the same twice"));
        }
        accepted += u64::from(first.0 == 0);
    }
    Ok(accepted)
}
