//! The answer that the specification asks for, from the reference: `DistortImage::distort`, cut to the band, with the
//! matte in every pixel whose source point is unusable, which is outside the domain of the comparison.

use crate::generate::LIGHT;
use crate::refusal::refusal;
use crate::{Answer, Job, Verdict, Window};
use reference::{Call, Mapping, Output, Picture, Reference};

/// The largest source coordinate that is usable.
pub const USABLE: f64 = (1u64 << 30) as f64;

/// The answer to any job.
pub fn expected(r: Reference, job: &Job) -> Answer {
    match refusal(r, job) {
        0 => accepted(r, job),
        number => Answer::refused(job, number),
    }
}

/// The fit of a job that passed refusals 1 to 7; none where it is degenerate.
pub fn fit(r: Reference, job: &Job) -> Option<Mapping> {
    let (w, h) = (job.width as f64, job.height as f64);
    r.build(job.method as u8, &job.args, w, h).ok()
}

/// The output's window. A bestfit edge that is not finite ends as a side or an offset beyond every limit.
pub fn window(job: &Job, mapping: &Mapping) -> Window {
    let asked = job.bestfit && job.viewport.is_none();
    let found = asked.then(|| mapping.bestfit(job.width as f64, job.height as f64));
    match found.flatten() {
        None => job.own_window(),
        Some((width, height, x, y)) => Window {
            width: width as u64,
            height: height as u64,
            x,
            y,
        },
    }
}

/// The window of a job that passed refusals 1 to 8; none for others.
pub fn window_of(r: Reference, job: &Job) -> Option<Window> {
    let passed = crate::refusal::before_the_fit(job) == 0;
    let mapping = passed.then(|| fit(r, job)).flatten()?;
    Some(window(job, &mapping))
}

/// The source point of output pixel i, j: none, or its coordinates.
pub fn source_point(mapping: &Mapping, w: Window, i: u64, j: u64) -> Option<(f64, f64)> {
    let x = i as f64 + w.x as f64 + 0.5;
    let y = j as f64 + w.y as f64 + 0.5;
    mapping.inverse(x, y)
}

pub fn usable(point: (f64, f64)) -> bool {
    point.0.abs() <= USABLE && point.1.abs() <= USABLE
}

/// A colour in the output's channels: grey is luma in f32.
pub fn narrowed(colour: [f32; 4], channels: u64) -> Vec<f32> {
    match channels {
        1 => vec![0.299 * colour[0] + 0.587 * colour[1] + 0.114 * colour[2]],
        n => colour[..n as usize].to_vec(),
    }
}

pub fn picture(job: &Job) -> Picture<'_> {
    Picture {
        width: job.width as u32,
        height: job.height as u32,
        channels: job.channels as usize,
        samples: &job.samples,
    }
}

/// The reference's rows from `first` on of a window.
fn distorted(r: Reference, job: &Job, w: Window, first: u64, rows: u64) -> Vec<f32> {
    let whole = (first, rows) == (0, w.height);
    let part = Window {
        height: rows,
        y: w.y + first as i64,
        ..w
    };
    let viewport = if whole { job.viewport } else { Some(part) };
    let output = r.distort(&Call {
        method: job.method as u8,
        args: &job.args,
        bestfit: job.bestfit,
        viewport: viewport.map(|v| (v.width as u32, v.height as u32, v.x, v.y)),
        policy: job.policy as u8,
        interpolation: job.interpolation as u8,
        background: job.background,
        undefined: job.matte,
        picture: picture(job),
    });
    let output: Output = output.expect("an accepted job is distorted");
    let size = (output.width as u64, output.height as u64);
    assert_eq!(size, (part.width, part.height));
    assert_eq!((output.x, output.y), (part.x, part.y));
    assert_eq!(output.channels as u64, job.out_channels());
    output.samples
}

/// The rows of an accepted job: cut out of the whole, or, of a window that is too large for a quick run, asked for by a
/// viewport that is those rows. A pixel is asked at the same point there: small whole numbers are added exactly.
fn rows(r: Reference, job: &Job, w: Window) -> Vec<f32> {
    if job.rows == 0 {
        return Vec::new();
    }
    if w.width * w.height > LIGHT {
        return distorted(r, job, w, job.first_row, job.rows);
    }
    let row = (w.width * job.out_channels()) as usize;
    let whole = distorted(r, job, w, 0, w.height);
    whole[job.first_row as usize * row..][..job.rows as usize * row].to_vec()
}

fn accepted(r: Reference, job: &Job) -> Answer {
    let mapping = fit(r, job).expect("an accepted job has a fit");
    let w = window(job, &mapping);
    let channels = job.out_channels();
    let matte = narrowed(job.matte, channels);
    let mut matte_pixels = 0;
    let mut samples = rows(r, job, w);
    for (k, pixel) in samples.chunks_exact_mut(channels as usize).enumerate() {
        let (i, j) = (k as u64 % w.width, k as u64 / w.width);
        let point = source_point(&mapping, w, i, job.first_row + j);
        let good = point.is_some_and(usable);
        matte_pixels += u64::from(!good);
        if point.is_some() && !good {
            pixel.copy_from_slice(&matte);
        }
    }
    let verdict = Verdict::Accepted {
        width: w.width,
        height: w.height,
        x: w.x,
        y: w.y,
        channels,
        matte_pixels,
    };
    let band = samples.iter().flat_map(|x| x.to_le_bytes()).collect();
    Answer { verdict, band }
}
