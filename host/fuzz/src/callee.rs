//! The exported functions as they are: pointers and numbers.

use differential::CallNumbers;

pub use dihyravo_sys::{
    Distort, Parameters, Reader, dihyravo_distort, dihyravo_interpolation, dihyravo_method,
    dihyravo_policy,
};

/// The pointers of a call. Lengths come with those that are slices.
#[derive(Clone, Copy, Debug)]
pub struct Pointers {
    pub picture: (*const u8, usize),
    pub arguments: (*const u8, usize),
    pub background: *const u8,
    pub matte: *const u8,
    pub band: (*mut u8, usize),
    pub answer: *mut u8,
}

/// Calls `callee` with the numbers of a lent call.
///
/// # Safety
/// Each pointer is to as many bytes as are said, or 16, or 48; band and answer are written and overlap nothing else.
pub unsafe fn call(callee: Distort, n: &CallNumbers, p: &Pointers) -> u64 {
    let parameters = Parameters {
        picture: p.picture.0,
        picture_length: p.picture.1,
        width: n.width,
        height: n.height,
        channels: n.channels,
        method: n.method,
        arguments: p.arguments.0,
        arguments_length: p.arguments.1,
        policy: n.policy,
        interpolation: n.interpolation,
        background: p.background,
        matte: p.matte,
        bestfit: n.bestfit,
        viewport: n.viewport,
        view_width: n.view.width,
        view_height: n.view.height,
        view_x: n.view.x,
        view_y: n.view.y,
        first_row: n.first_row,
        rows: n.rows,
        band: p.band.0,
        band_length: p.band.1,
        answer: p.answer,
    };
    // SAFETY: the caller's promise.
    unsafe { parameters.call(callee) }
}
