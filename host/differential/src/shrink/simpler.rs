//! The simplifications of a job, the large ones first.

use crate::text::Float;
use crate::{Job, Window, codes};

/// The simplifications of a job, the large ones first.
pub(super) fn simpler(job: &Job) -> Vec<Job> {
    let mut all = Vec::new();
    let mut put = |change: &dyn Fn(&mut Job)| {
        let mut next = job.clone();
        change(&mut next);
        all.push(next);
    };
    frame(job, &mut put);
    picture(job, &mut put);
    arguments(job, &mut put);
    kinds(job, &mut put);
    numbers(job, &mut put);
    all
}

type Put<'a> = &'a mut dyn FnMut(&dyn Fn(&mut Job));

/// Window, rows and broken floats.
fn frame(job: &Job, put: Put) {
    put(&|j| (j.bestfit, j.viewport) = (false, None));
    put(&|j| j.bestfit = false);
    put(&|j| j.viewport = None);
    put(&|j| (j.args_rest, j.samples_rest) = (0, 0));
    rows(job, put);
    if let Some(w) = job.viewport {
        viewport(w, put);
    }
    for n in [
        0,
        4,
        job.band / 2,
        job.band.saturating_sub(4),
        job.band.saturating_sub(1),
    ] {
        put(&|j| j.band = n);
    }
}

/// Fewer rows, from the first on or up to the last.
fn rows(job: &Job, put: Put) {
    for n in [1, job.rows / 2, job.rows.saturating_sub(1)] {
        for first in [
            0,
            job.first_row,
            job.first_row.saturating_add(job.rows - job.rows.min(n)),
        ] {
            put(&|j| {
                let row = j.band as u64 / j.rows.max(1);
                (j.first_row, j.rows, j.band) = (first, n, (row * n) as usize);
            });
        }
    }
}

/// A smaller viewport, cut on either side, and one nearer to 0, 0.
fn viewport(w: Window, put: Put) {
    let mut window = |w: Window| put(&|j| j.viewport = Some(w));
    for width in [1, 2, w.width / 2, w.width.saturating_sub(1)] {
        let x = w.x.saturating_add(w.width.saturating_sub(width) as i64);
        window(Window { width, ..w });
        window(Window { width, x, ..w });
    }
    for height in [1, 2, w.height / 2, w.height.saturating_sub(1)] {
        let y = w.y.saturating_add(w.height.saturating_sub(height) as i64);
        window(Window { height, ..w });
        window(Window { height, y, ..w });
    }
    for x in [0, 1, -1, w.x / 2, w.x / 10] {
        window(Window { x, ..w });
    }
    for y in [0, 1, -1, w.y / 2, w.y / 10] {
        window(Window { y, ..w });
    }
}

/// Fewer columns, rows, channels and samples.
fn picture(job: &Job, put: Put) {
    for width in [1, 2, job.width / 2, job.width.saturating_sub(1)] {
        put(&|j| crop(j, width, j.height, j.channels));
    }
    for height in [1, 2, job.height / 2, job.height.saturating_sub(1)] {
        put(&|j| crop(j, j.width, height, j.channels));
    }
    for channels in [1, 3] {
        put(&|j| crop(j, j.width, j.height, channels));
    }
    for length in [
        0,
        job.samples.len() / 2,
        job.samples.len().saturating_sub(1),
    ] {
        put(&|j| j.samples.truncate(length));
    }
    for value in [0.0, 1.0] {
        put(&|j| j.samples.fill(value));
    }
}

/// Cuts a whole picture down, or sets the three numbers where it is not whole.
fn crop(job: &mut Job, width: u64, height: u64, channels: u64) {
    let old = (job.width, job.height, job.channels);
    let size = old.0.saturating_mul(old.1).saturating_mul(old.2);
    let smaller = width <= old.0 && height <= old.1 && channels <= old.2;
    if size == job.samples.len() as u64 && smaller {
        let mut samples = Vec::new();
        for y in 0..height {
            for x in 0..width {
                let start = ((y * old.0 + x) * old.2) as usize;
                samples.extend(&job.samples[start..start + channels as usize]);
            }
        }
        job.samples = samples;
    }
    (job.width, job.height, job.channels) = (width, height, channels);
}

/// Fewer arguments: half of the pairs, each pair, each argument from the end.
fn arguments(job: &Job, put: Put) {
    let order = usize::from(job.method == codes::POLYNOMIAL);
    let pairs = job.args.len().saturating_sub(order) / 4;
    put(&|j| j.args.truncate(order + 4 * (pairs / 2)));
    for k in 0..pairs {
        let start = order + 4 * k;
        put(&|j| drop(j.args.drain(start..start + 4)));
    }
    for length in [
        0,
        3,
        4,
        job.args.len() / 2,
        job.args.len().saturating_sub(1),
    ] {
        put(&|j| j.args.truncate(length));
    }
}

/// A shift in the method's place, and every kind with a smaller code.
fn kinds(job: &Job, put: Put) {
    let shifts = [(0.0, 0.0), (1.0, 0.0), (0.0, 1.0), (-1.0, 0.0), (0.0, -1.0)];
    let halves = [(0.5, 0.0), (0.0, 0.5), (-0.5, 0.0), (0.0, -0.5)];
    for (u, v) in shifts.into_iter().chain(halves) {
        let shift = vec![u, v, 0.0, 0.0];
        put(&|j| (j.method, j.args) = (codes::AFFINE, shift.clone()));
    }
    for code in 0..job.method.min(16) {
        put(&|j| j.method = code);
    }
    for code in 0..job.policy.min(16) {
        put(&|j| j.policy = code);
    }
    for code in 0..job.interpolation.min(16) {
        put(&|j| j.interpolation = code);
    }
    for n in [job.width.min(4097), 4097, 1 << 32] {
        put(&|j| j.width = n);
        put(&|j| j.height = n);
        put(&|j| j.rows = n);
        put(&|j| j.first_row = n);
    }
}

/// Rounder numbers, one at a time.
fn numbers(job: &Job, put: Put) {
    for x in [0.0, 1.0] {
        put(&|j| j.background = [x; 4]);
        put(&|j| j.matte = [x; 4]);
        put(&|j| j.args.fill(x as f64));
    }
    for k in 0..4 {
        for x in rounder(job.background[k]) {
            put(&|j| j.background[k] = x);
        }
        for x in rounder(job.matte[k]) {
            put(&|j| j.matte[k] = x);
        }
    }
    for k in 0..job.args.len() {
        for x in rounder(job.args[k]) {
            put(&|j| j.args[k] = x);
        }
    }
    // A large picture is cut down before its samples are rounded one by one.
    for k in 0..job.samples.len().min(256) {
        for x in rounder(job.samples[k]) {
            put(&|j| j.samples[k] = x);
        }
    }
}

/// Numbers whose text is no longer: 0, 1, the whole part, and fewer and fewer digits.
fn rounder<F: Float + std::fmt::LowerExp>(x: F) -> Vec<F> {
    let text = x.write();
    let mut texts = vec![
        "0".to_string(),
        "1".into(),
        "-1".into(),
        "0.5".into(),
        "2".into(),
    ];
    texts.extend((0..4).map(|digits| format!("{x:.digits$e}")));
    let numbers = texts.iter().filter_map(|t| F::read(t));
    numbers.filter(|y| y.write().len() <= text.len()).collect()
}
