//! All that is unsafe: the archive's four calls, and floats seen as bytes.

use crate::raw::Job;
use dihyravo_sys::{dihyravo_distort, dihyravo_interpolation, dihyravo_method, dihyravo_policy};

/// The code of a method's name, or -3.
pub fn method(name: &[u8]) -> i64 {
    // SAFETY: the pointer and the length are one slice's, and the callee only reads it.
    unsafe { dihyravo_method(name.as_ptr(), name.len()) }
}

/// The code of a policy's name, or -3.
pub fn policy(name: &[u8]) -> i64 {
    // SAFETY: as above.
    unsafe { dihyravo_policy(name.as_ptr(), name.len()) }
}

/// The code of an interpolation's name, or -3.
pub fn interpolation(name: &[u8]) -> i64 {
    // SAFETY: as above.
    unsafe { dihyravo_interpolation(name.as_ptr(), name.len()) }
}

/// 0 for accepted, else the refusal's number.
#[inline]
pub fn distort(job: &Job, band: &mut [u8], answer: &mut [u8; 48]) -> u64 {
    // SAFETY: each pointer is to a slice or an array of the length that the callee is told or knows, and the two that
    // it writes are lent to it alone.
    unsafe {
        dihyravo_distort(
            job.picture.as_ptr(),
            job.picture.len(),
            job.width,
            job.height,
            job.channels,
            job.method,
            job.arguments.as_ptr(),
            job.arguments.len(),
            job.policy,
            job.interpolation,
            job.background.as_ptr(),
            job.matte.as_ptr(),
            job.bestfit,
            job.viewport,
            job.view_width,
            job.view_height,
            job.view_x,
            job.view_y,
            job.first_row,
            job.rows,
            band.as_mut_ptr(),
            band.len(),
            answer.as_mut_ptr(),
        )
    }
}

/// The floats' bytes as they lie in memory.
pub fn bytes(floats: &[f32]) -> &[u8] {
    // SAFETY: the same memory, lent for the same time; a byte has no alignment and a float no padding.
    unsafe { std::slice::from_raw_parts(floats.as_ptr().cast(), size_of_val(floats)) }
}

/// The floats' bytes as they lie in memory, to be written: whatever is written is some float.
pub fn bytes_mut(floats: &mut [f32]) -> &mut [u8] {
    // SAFETY: as above, and lent alone.
    unsafe { std::slice::from_raw_parts_mut(floats.as_mut_ptr().cast(), size_of_val(floats)) }
}
