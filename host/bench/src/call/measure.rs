//! One row of the table: the product whole and in bands, and the original's `distort`, in turns; the best of many
//! rounds.

use super::clock;
use super::rows::{EDGE, Row, Shape};
use dihyravo::{Job, distort_into};
use reference::{Call, Picture, Prepared, Reference};
use std::hint::black_box;
use std::time::Instant;

/// Rows of a band.
pub const BAND: u64 = 16;

const BLACK: [f32; 4] = [0.0, 0.0, 0.0, 1.0];

/// A picture as both sides take it, and room for what they make of it, all of it touched.
pub struct Source {
    pub shape: Shape,
    pub samples: Vec<f32>,
    pub bytes: Vec<u8>,
    whole: Vec<u8>,
    bands: Vec<u8>,
}

impl Source {
    pub fn new(shape: Shape) -> Self {
        let samples = shape.samples();
        let bytes: Vec<u8> = samples.iter().flat_map(|x| x.to_le_bytes()).collect();
        let room = vec![1; bytes.len()];
        Self {
            shape,
            samples,
            whole: room.clone(),
            bands: room,
            bytes,
        }
    }
}

/// How long a row may take: rounds go on until the time is up, but there are at least so many.
#[derive(Clone, Copy, Debug)]
pub struct Effort {
    pub least: u32,
    pub seconds: f64,
}

/// Nanoseconds a pixel, the best of all rounds.
#[derive(Clone, Copy, Debug)]
pub struct Times {
    pub whole: f64,
    pub banded: f64,
    /// As many tests of all samples as there are bands, in turns with them.
    pub tests: f64,
    pub reference: f64,
    pub rounds: u32,
}

impl Times {
    /// How many times as fast as the original the product is.
    pub fn ratio(&self) -> f64 {
        self.reference / self.whole
    }

    /// The bands' time over their share of the whole and one test of all samples for each.
    pub fn more(&self) -> f64 {
        self.banded / (self.whole + self.tests)
    }
}

/// A colour as the call takes it.
fn colour(components: [f32; 4]) -> [u8; 16] {
    let mut bytes = [0; 16];
    for (part, x) in bytes.chunks_exact_mut(4).zip(components) {
        part.copy_from_slice(&x.to_le_bytes());
    }
    bytes
}

/// The product's call for all rows of a row of the table.
pub fn product<'a>(row: &Row, picture: &'a [u8], arguments: &'a [u8]) -> Job<'a> {
    let (width, height, x, y) = row.view();
    Job {
        picture,
        width: row.shape.width,
        height: row.shape.height,
        channels: row.shape.channels,
        method: row.method,
        arguments,
        policy: row.policy,
        interpolation: row.interpolation,
        background: colour(BLACK),
        matte: colour(BLACK),
        bestfit: 0,
        viewport: u64::from(row.policy != EDGE),
        view_width: width,
        view_height: height,
        view_x: x,
        view_y: y,
        first_row: 0,
        rows: height,
    }
}

/// The same for the original.
fn original(r: Reference, row: &Row, samples: &[f32], args: &[f64]) -> Prepared {
    let (width, height, x, y) = row.view();
    let view = (width as u32, height as u32, x, y);
    let call = Call {
        method: row.method as u8,
        args,
        bestfit: false,
        viewport: (row.policy != EDGE).then_some(view),
        policy: row.policy as u8,
        interpolation: row.interpolation as u8,
        background: BLACK,
        undefined: BLACK,
        picture: Picture {
            width: row.shape.width as u32,
            height: row.shape.height as u32,
            channels: row.shape.channels as usize,
            samples,
        },
    };
    r.prepare(&call).expect("the job is fit")
}

/// Measures a row. The pictures that are made have to be the same, bit for bit.
pub fn row(r: Reference, row: &Row, source: &mut Source, effort: Effort) -> Times {
    let args = row.arguments();
    let arguments: Vec<u8> = args.iter().flat_map(|x| x.to_le_bytes()).collect();
    let job = product(row, &source.bytes, &arguments);
    let prepared = original(r, row, &source.samples, &args);
    let (mut whole, mut banded) = (f64::INFINITY, f64::INFINITY);
    let (mut tests, mut rust) = (f64::INFINITY, f64::INFINITY);
    let mut output = Vec::new();
    let mut rounds = 0;
    let start = Instant::now();
    while rounds < effort.least || start.elapsed().as_secs_f64() < effort.seconds {
        whole = whole.min(time(|| own(&job, &mut source.whole)));
        let (bands, alone) = in_bands(job, &mut source.bands);
        if bands < banded {
            (banded, tests) = (bands, alone);
        }
        drop(output);
        let original = || black_box(&prepared).distort().expect("the job is fit");
        let (nanoseconds, made) = timed(original);
        rust = rust.min(nanoseconds);
        output = made.samples;
        rounds += 1;
    }
    let originals: Vec<u8> = output.iter().flat_map(|x| x.to_le_bytes()).collect();
    let same = source.whole == originals && source.bands == originals;
    assert!(same, "{}: the pictures differ", row.words().join(" "));
    let pixels = row.shape.pixels() as f64;
    Times {
        whole: whole / pixels,
        banded: banded / pixels,
        tests: tests / pixels,
        reference: rust / pixels,
        rounds,
    }
}

pub fn own(job: &Job, band: &mut [u8]) {
    let mut answer = [0; 48];
    let number = distort_into(black_box(job), band, &mut answer);
    assert_eq!(number, 0, "the job is fit");
    black_box(band);
}

/// Nanoseconds of all bands, and of as many tests of all samples alone, which are calls for no rows. They take turns,
/// so that a machine that grows slower does so for both.
fn in_bands(mut job: Job, picture: &mut [u8]) -> (f64, f64) {
    let row = (job.view_width * job.channels * 4) as usize;
    let (mut bands, mut tests) = (0.0, 0.0);
    for (k, band) in picture.chunks_mut(row * BAND as usize).enumerate() {
        job.first_row = k as u64 * BAND;
        job.rows = (band.len() / row) as u64;
        bands += time(|| own(&job, band));
        job.rows = 0;
        tests += time(|| own(&job, &mut []));
    }
    (bands, tests)
}

fn timed<T>(round: impl FnOnce() -> T) -> (f64, T) {
    let start = clock::now();
    let made = round();
    (clock::now() - start, made)
}

/// Nanoseconds of one round.
pub fn time(round: impl FnOnce()) -> f64 {
    timed(round).0
}
