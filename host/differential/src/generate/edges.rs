//! Jobs at the edges of the whole call that `job` meets seldom or never: arguments that a method never reads, huge
//! numbers in every field, one pixel, the largest windows with tiny bands, rows at and beyond the height, an alpha
//! about 1, a bestfit that is given up or that is as large as it may be.

use super::{Finder, with_method};
use crate::codes::{self, *};
use crate::random::Random;
use crate::refusal::{ARGUMENT, ARGUMENTS, OFFSET, SIDE};
use crate::{Job, Window};

type Edge = fn(&mut Random, Job) -> Job;

const EDGES: [Edge; 8] = [
    unread,
    one_pixel,
    large_window,
    far_window,
    wide_picture,
    alpha,
    given_up,
    large_box,
];

pub fn job(r: &mut Random, window: Finder) -> Job {
    let k = r.below(EDGES.len() as u64 + 1) as usize;
    let wild = r.once_in(2);
    let method = r.pick(&codes::PRESENT);
    let job = with_method(r, wild, method, window);
    match EDGES.get(k) {
        Some(edge) => {
            let job = edge(r, job);
            rows(r, job, window)
        }
        None => huge(r, job),
    }
}

/// Tiny bands for a large window; all rows or some for a small one; first rows at and beyond the height.
fn rows(r: &mut Random, job: Job, window: Finder) -> Job {
    let mut w = window(&job).unwrap_or(job.own_window());
    let height = w.height.min(SIDE);
    w.width = w.width.min(SIDE);
    let (first, rows) = match r.below(6) {
        0 => (height, 0),
        1 => (height - height.min(1), 1),
        2 => r.pick(&[
            (height, 1),
            (height + 1, 0),
            (u64::MAX, 1),
            (u64::MAX - height + 1, height.min(2)),
            (u64::MAX, 0),
        ]),
        3 => (r.below(height + 1), 0),
        _ if w.width * height <= super::LIGHT => (0, height),
        _ => (r.below(height + 1), 1),
    };
    job.with_rows(w, first, rows)
}

/// Barrels with more arguments than they read; one of the others at or beyond the limit, or not finite.
fn unread(r: &mut Random, mut job: Job) -> Job {
    job.method = r.pick(&[BARREL, BARREL_INVERSE]);
    let count = 7 + r.below((ARGUMENTS - 6) as u64) as usize;
    job.args = vec![0.0, 0.0, 0.0, 1.0, 1.5, 1.5];
    job.args.resize_with(count, || r.real(-9.0, 9.0));
    let k = 6 + r.below((count - 6) as u64) as usize;
    job.args[k] = r.pick(&[
        ARGUMENT,
        -ARGUMENT,
        ARGUMENT.next_up(),
        -ARGUMENT.next_up(),
        f64::NAN,
        f64::INFINITY,
        f64::NEG_INFINITY,
    ]);
    job
}

/// A huge number in one field of a job that has none.
fn huge(r: &mut Random, mut job: Job) -> Job {
    let n = r.pick(&[
        u64::MAX,
        1 << 63,
        (1 << 63) - 1,
        1 << 32,
        (1 << 32) + 1,
        1 << 62,
    ]);
    let mut view = job.viewport.unwrap_or(job.own_window());
    let numbers = [
        &mut job.width,
        &mut job.height,
        &mut job.channels,
        &mut job.method,
        &mut job.policy,
        &mut job.interpolation,
        &mut job.first_row,
        &mut job.rows,
        &mut view.width,
        &mut view.height,
    ];
    let k = r.below(numbers.len() as u64 + 2) as usize;
    match k {
        10 => view.x = n as i64,
        11 => view.y = n as i64,
        _ => *numbers.into_iter().nth(k).expect("k is below their count") = n,
    }
    if k >= 8 {
        job.viewport = Some(view);
    }
    job
}

fn one_pixel(r: &mut Random, mut job: Job) -> Job {
    (job.width, job.height) = (1, 1);
    job.samples.truncate(job.channels as usize);
    if r.once_in(2) {
        job.bestfit = false;
        job.viewport = Some(Window {
            width: 1 + r.below(3),
            height: 1 + r.below(3),
            x: r.between(-3, 3),
            y: r.between(-3, 3),
        });
    }
    job
}

fn large_window(r: &mut Random, mut job: Job) -> Job {
    let mut side = || r.pick(&[SIDE, SIDE, SIDE - 1, SIDE + 1, 1]);
    let (width, height) = (side(), side());
    job.viewport = Some(Window {
        width,
        height,
        x: r.between(-4, 4),
        y: r.between(-4096, 4),
    });
    job
}

fn far_window(r: &mut Random, mut job: Job) -> Job {
    let mut offset = || r.pick(&[OFFSET, -OFFSET, OFFSET + 1, -OFFSET - 1, 0, OFFSET - 1]);
    let (x, y) = (offset(), offset());
    job.viewport = Some(Window {
        width: 1 + r.below(6),
        height: 1 + r.below(6),
        x,
        y,
    });
    if r.once_in(2) {
        // A shift that brings the window back to the picture.
        job.method = AFFINE;
        let back = |at: i64| (at as f64).clamp(-ARGUMENT, ARGUMENT);
        job.args = vec![0.0, 0.0, back(x), back(y)];
    }
    job
}

fn wide_picture(r: &mut Random, mut job: Job) -> Job {
    let side = r.pick(&[SIDE, SIDE, SIDE - 1, SIDE + 1]);
    (job.width, job.height) = r.pick(&[(side, 1), (1, side)]);
    job.samples.resize((side * job.channels) as usize, 0.25);
    job
}

fn alpha(r: &mut Random, mut job: Job) -> Job {
    let one = 1.0f32;
    job.background[3] = r.pick(&[one.next_down(), one, one.next_up(), 0.0, -0.0, -1.0]);
    job
}

/// A fit whose inversion fails, so that bestfit's window is the picture's own; and fits beside it.
fn given_up(r: &mut Random, mut job: Job) -> Job {
    (job.bestfit, job.viewport) = (true, None);
    let large = r.pick(&[ARGUMENT, ARGUMENT.next_down(), 1e6, 999_999.0, 1_000_001.0]);
    if r.once_in(2) {
        job.method = AFFINE_PROJECTION;
        job.args = vec![large, 0.0, 0.0, large, 0.0, 0.0];
    } else {
        // The picture's left edge, or its corner, at the horizon of the inverted mapping.
        job.method = PERSPECTIVE_PROJECTION;
        let edge = r.pick(&[job.width, job.height]) as f64;
        let near = r.pick(&[0.0, 1e-13, 1e-9]);
        job.args = vec![1.0, 0.0, 0.0, 0.0, 1.0, 0.0, -1.0 / edge + near, 0.0];
    }
    job
}

/// A bestfit box about the largest side, or of the largest area.
fn large_box(r: &mut Random, mut job: Job) -> Job {
    (job.bestfit, job.viewport) = (true, None);
    job.method = AFFINE_PROJECTION;
    let mut factor = |side: u64| {
        let wanted = (SIDE - 2) as f64 + r.pick(&[0.0, -1.0, 1.0, 2.0, -0.5]);
        r.pick(&[1.0, wanted / side as f64])
    };
    let (sx, sy) = (factor(job.width), factor(job.height));
    let mut away = || r.pick(&[0.0, 0.25, OFFSET as f64, -OFFSET as f64]);
    job.args = vec![sx, 0.0, 0.0, sy, away(), away()];
    job
}
