//! Safe names for the functions of the archives of probes: single leaves of the product, handed out for comparison.
//! Floats go in and come out as their bits; a NaN that comes out is 0x7fc00000 or 0x7ff8000000000000.

mod ffi {
    unsafe extern "C" {
        pub safe fn probe_floor(x: u64) -> i64;
        pub safe fn probe_narrow(x: u64) -> u32;
        pub safe fn probe_root(x: u64) -> u64;
        pub safe fn probe_powi(x: u64, n: u64) -> u64;
        pub safe fn probe_wrapping_mul(a: u64, b: u64) -> u64;
        pub unsafe fn probe_fit(
            method: u64,
            arguments: *const u8,
            length: usize,
            width: u64,
            height: u64,
            out: *mut [u8; 2064],
        ) -> u64;
        pub unsafe fn probe_interpolate(
            picture: *const u8,
            length: usize,
            width: u64,
            height: u64,
            channels: u64,
            policy: u64,
            interpolation: u64,
            background: *const [u8; 16],
            x: u64,
            y: u64,
            out: *mut [u8; 16],
        ) -> u64;
        pub unsafe fn probe_samples(
            picture: *const u8,
            length: usize,
            width: u64,
            height: u64,
            channels: u64,
            policy: u64,
            interpolation: u64,
            background: *const [u8; 16],
            points: *const u8,
            points_length: usize,
            out: *mut u8,
            out_length: usize,
        ) -> u64;
        pub unsafe fn probe_cubic(interpolation: u64, t: u32, out: *mut [u8; 16]) -> u64;
        pub unsafe fn probe_inverse(
            method: u64,
            arguments: *const u8,
            length: usize,
            width: u64,
            height: u64,
            x: u64,
            y: u64,
            out: *mut [u8; 24],
        ) -> u64;
        pub unsafe fn probe_points(
            method: u64,
            arguments: *const u8,
            length: usize,
            width: u64,
            height: u64,
            points: *const u8,
            points_length: usize,
            out: *mut u8,
            out_length: usize,
        ) -> u64;
        pub unsafe fn probe_rows(
            method: u64,
            arguments: *const u8,
            length: usize,
            width: u64,
            height: u64,
            x: i64,
            y: i64,
            first: u64,
            rows: u64,
            out: *mut u8,
            out_length: usize,
        ) -> u64;
        pub unsafe fn probe_window(
            method: u64,
            arguments: *const u8,
            length: usize,
            width: u64,
            height: u64,
            bestfit: u64,
            viewport: u64,
            view_width: u64,
            view_height: u64,
            view_x: i64,
            view_y: i64,
            out: *mut [u8; 32],
        ) -> u64;
    }
}

/// The floor of an f64; `i64::MIN` for a NaN or a magnitude above 2^31.
#[inline]
pub fn floor(x: u64) -> i64 {
    ffi::probe_floor(x)
}

/// The nearest f32 of an f64, ties to even.
#[inline]
pub fn narrow(x: u64) -> u32 {
    ffi::probe_narrow(x)
}

/// The nearest f64 of the square root.
#[inline]
pub fn root(x: u64) -> u64 {
    ffi::probe_root(x)
}

/// The power by repeated squaring; an exponent above 5 counts as 5.
#[inline]
pub fn powi(x: u64, n: u64) -> u64 {
    ffi::probe_powi(x, n)
}

/// The product modulo 2^64.
#[inline]
pub fn wrapping_mul(a: u64, b: u64) -> u64 {
    ffi::probe_wrapping_mul(a, b)
}

/// What a probe leaves in a lent buffer before it is called, so that a byte that it must not write is seen.
pub const UNTOUCHED: u8 = 0xa5;

/// The coefficients of a fit over the arguments' bytes, or the refusal's number. A refusal writes nothing, and an
/// answer nothing beyond its coefficients.
pub fn fit(method: u64, arguments: &[u8], width: u64, height: u64) -> Result<Vec<f64>, u64> {
    let mut out = [UNTOUCHED; 2064];
    // SAFETY: the pointer and the length are one slice's, and `out` is an array of that size.
    let answer = unsafe {
        let (bytes, length) = (arguments.as_ptr(), arguments.len());
        ffi::probe_fit(method, bytes, length, width, height, &mut out)
    };
    let (words, _) = out.as_chunks::<8>();
    let count = if answer == 0 {
        u64::from_le_bytes(words[0]) as usize
    } else {
        0
    };
    let written = if answer == 0 { 8 + 8 * count } else { 0 };
    assert!(
        out[written..].iter().all(|&byte| byte == UNTOUCHED),
        "a byte beyond the answer is changed"
    );
    if answer != 0 {
        return Err(answer);
    }
    Ok(words[1..=count]
        .iter()
        .map(|&word| f64::from_le_bytes(word))
        .collect())
}

/// Four f32 out of 16 bytes, or none where the probe answers that its input is outside the domain, and then writes
/// nothing.
fn colour(answer: u64, out: [u8; 16]) -> Option<[f32; 4]> {
    if answer != 0 {
        assert!(out == [UNTOUCHED; 16], "a refused call changed a byte");
        return None;
    }
    let (words, _) = out.as_chunks::<4>();
    Some(std::array::from_fn(|k| f32::from_le_bytes(words[k])))
}

/// A colour as 16 bytes.
fn lent(colour: [f32; 4]) -> [u8; 16] {
    let mut lent = [0; 16];
    for (k, component) in colour.iter().enumerate() {
        lent[4 * k..4 * k + 4].copy_from_slice(&component.to_le_bytes());
    }
    lent
}

/// A picture for `interpolate`: samples as bytes.
pub struct Picture<'a> {
    pub bytes: &'a [u8],
    pub width: u64,
    pub height: u64,
    pub channels: u64,
}

/// The colour at a point in index space.
pub fn interpolate(
    picture: &Picture,
    policy: u64,
    interpolation: u64,
    background: [f32; 4],
    x: f64,
    y: f64,
) -> Option<[f32; 4]> {
    let mut out = [UNTOUCHED; 16];
    let lent = lent(background);
    // SAFETY: each pointer is to a slice or an array of the length that the callee is told or knows.
    let answer = unsafe {
        ffi::probe_interpolate(
            picture.bytes.as_ptr(),
            picture.bytes.len(),
            picture.width,
            picture.height,
            picture.channels,
            policy,
            interpolation,
            &lent,
            x.to_bits(),
            y.to_bits(),
            &mut out,
        )
    };
    colour(answer, out)
}

/// The colours at many points in index space, in one call: x and y of each as f64, little-endian, and its colour in as
/// many bytes of `out`. False outside the domain, where nothing is written; a point outside it is passed over.
pub fn samples(
    picture: &Picture,
    policy: u64,
    interpolation: u64,
    background: [f32; 4],
    points: &[u8],
    out: &mut [u8],
) -> bool {
    let lent = lent(background);
    // SAFETY: each pointer is to a slice or an array of the length that the callee is told or knows.
    let answer = unsafe {
        ffi::probe_samples(
            picture.bytes.as_ptr(),
            picture.bytes.len(),
            picture.width,
            picture.height,
            picture.channels,
            policy,
            interpolation,
            &lent,
            points.as_ptr(),
            points.len(),
            out.as_mut_ptr(),
            out.len(),
        )
    };
    answer == 0
}

/// The four weights of Catrom (6) or Spline (7) at a fraction.
pub fn cubic(interpolation: u64, t: f32) -> Option<[f32; 4]> {
    let mut out = [UNTOUCHED; 16];
    // SAFETY: `out` is an array of the size that the callee knows.
    let answer = unsafe { ffi::probe_cubic(interpolation, t.to_bits(), &mut out) };
    colour(answer, out)
}

/// A source point, and whether it is usable. Where there is none, u and v are NaNs.
#[derive(Clone, Copy, Debug)]
pub struct Point {
    pub u: f64,
    pub v: f64,
    pub usable: bool,
}

/// The source point of the output point x, y by a fit over the arguments' bytes, or the refusal's number. A refusal
/// writes nothing.
pub fn inverse(
    method: u64,
    arguments: &[u8],
    width: u64,
    height: u64,
    (x, y): (f64, f64),
) -> Result<Point, u64> {
    let mut out = [UNTOUCHED; 24];
    // SAFETY: the pointer and the length are one slice's, and `out` is an array of that size.
    let answer = unsafe {
        let (bytes, length) = (arguments.as_ptr(), arguments.len());
        let (x, y) = (x.to_bits(), y.to_bits());
        ffi::probe_inverse(method, bytes, length, width, height, x, y, &mut out)
    };
    if answer != 0 {
        assert_eq!(out, [UNTOUCHED; 24], "a refusal writes");
        return Err(answer);
    }
    let (words, _) = out.as_chunks::<8>();
    let usable = u64::from_le_bytes(words[2]);
    assert!(usable <= 1, "usable is {usable}");
    Ok(Point {
        u: f64::from_le_bytes(words[0]),
        v: f64::from_le_bytes(words[1]),
        usable: usable == 1,
    })
}

/// Many source points by one fit: `points` holds x and y, 16 bytes each, and `out` gets u, v and usable as 0 or 1, 24
/// bytes each. The answer is 0, the refusal's number, or 12 for lengths that do not fit.
pub fn points(
    method: u64,
    arguments: &[u8],
    width: u64,
    height: u64,
    points: &[u8],
    out: &mut [u8],
) -> u64 {
    // SAFETY: each pointer and the length after it are one slice's.
    unsafe {
        ffi::probe_points(
            method,
            arguments.as_ptr(),
            arguments.len(),
            width,
            height,
            points.as_ptr(),
            points.len(),
            out.as_mut_ptr(),
            out.len(),
        )
    }
}

/// Rows of a window of the picture's width, at an offset.
#[derive(Clone, Copy, Debug)]
pub struct Rows {
    pub x: i64,
    pub y: i64,
    pub first: u64,
    pub rows: u64,
}

/// The source points of whole rows by one fit, worked as the call works them: 24 bytes each, as `points` writes them,
/// but one that cannot be used as 24 zeros. The answer is the refusal's number, 12 where the rows are beyond a window's
/// limits or the bytes are not 24 for each point; a refusal writes nothing.
pub fn rows(
    method: u64,
    arguments: &[u8],
    width: u64,
    height: u64,
    rows: Rows,
    out: &mut [u8],
) -> u64 {
    // SAFETY: each pointer and the length after it are one slice's.
    unsafe {
        ffi::probe_rows(
            method,
            arguments.as_ptr(),
            arguments.len(),
            width,
            height,
            rows.x,
            rows.y,
            rows.first,
            rows.rows,
            out.as_mut_ptr(),
            out.len(),
        )
    }
}

/// A window of the output: width, height, x and y.
pub type Window = (u64, u64, i64, i64);

/// The window of the output by a fit over the arguments' bytes, or the refusal's number. A refusal writes nothing.
pub fn window(
    method: u64,
    arguments: &[u8],
    width: u64,
    height: u64,
    bestfit: u64,
    viewport: Option<Window>,
) -> Result<Window, u64> {
    let mut out = [UNTOUCHED; 32];
    let given = u64::from(viewport.is_some());
    let (view_width, view_height, view_x, view_y) = viewport.unwrap_or_default();
    // SAFETY: the pointer and the length are one slice's, and `out` is an array of that size.
    let answer = unsafe {
        let (bytes, length) = (arguments.as_ptr(), arguments.len());
        ffi::probe_window(
            method,
            bytes,
            length,
            width,
            height,
            bestfit,
            given,
            view_width,
            view_height,
            view_x,
            view_y,
            &mut out,
        )
    };
    if answer != 0 {
        assert_eq!(out, [UNTOUCHED; 32], "a refusal writes");
        return Err(answer);
    }
    let (words, _) = out.as_chunks::<8>();
    let number = |k: usize| u64::from_le_bytes(words[k]);
    let offset = |k: usize| i64::from_le_bytes(words[k]);
    Ok((number(0), number(1), offset(2), offset(3)))
}
