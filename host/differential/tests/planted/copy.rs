//! A copy of the reference made of its pieces, with room for one fault.

use differential::codes::*;
use differential::expected::{self, fit, narrowed, source_point, usable, window};
use differential::refusal;
use differential::{Answer, Job, Verdict};
use reference::{Reference, Sampler};

#[derive(Clone, Copy, Debug, PartialEq)]
pub enum Fault {
    None,
    MirrorIsTile,
    Truncation,
    Unweighted,
    DividedFirst,
    ClampedFirst,
    FirstPivot,
    NoCount,
    MatteBelow,
    SideLimit,
    PairLimit,
    OrderLimit,
    OrderRounded,
    OrderAllowed,
    RowsWrap,
    Writes,
}

pub fn copy(r: Reference, job: &Job, fault: Fault) -> Answer {
    match refused(r, job, fault) {
        0 => accepted(r, job, fault),
        number => {
            let mut answer = Answer::refused(job, number);
            if fault == Fault::Writes && number == refusal::TRAY {
                answer.band.fill(0);
            }
            answer
        }
    }
}

fn refused(r: Reference, job: &Job, fault: Fault) -> u8 {
    let right = refusal::refusal(r, job);
    let one_pair_more = job.args.len() == 4 * (refusal::PAIRS + 1);
    let wraps_to_0 = job.first_row.wrapping_add(job.rows) == 0;
    match fault {
        Fault::SideLimit if job.width == refusal::SIDE => refusal::SIZE,
        Fault::PairLimit if right == refusal::COUNT && one_pair_more => refusal::NUMBER,
        Fault::OrderLimit if right == 0 || right > refusal::ORDER => match job.method {
            POLYNOMIAL if job.args[0] >= 5.0 => refusal::ORDER,
            _ => right,
        },
        Fault::OrderRounded if right == refusal::ORDER && (1.6..=5.0).contains(&job.args[0]) => {
            let mut rounded = job.clone();
            rounded.args[0] = (job.args[0] + 0.5).floor();
            refusal::refusal(r, &rounded)
        }
        Fault::OrderAllowed if right == refusal::ORDER && (job.args[0] - 1.5).abs() < 1e-9 => {
            let mut allowed = job.clone();
            allowed.args[0] = 1.5;
            refusal::refusal(r, &allowed)
        }
        Fault::RowsWrap if right == refusal::ROWS && wraps_to_0 => refusal::TRAY,
        _ => right,
    }
}

fn accepted(r: Reference, job: &Job, fault: Fault) -> Answer {
    let mapping = fit(r, job).unwrap();
    let w = window(job, &mapping);
    let policy = match job.policy {
        policy::MIRROR if fault == Fault::MirrorIsTile => policy::TILE,
        policy::BACKGROUND if fault == Fault::ClampedFirst => policy::EDGE,
        right => right,
    };
    let picture = expected::picture(job);
    let sampler = r.sampler(picture, policy as u8, job.background).unwrap();
    let other = (fault == Fault::FirstPivot)
        .then(|| first_pivot(job))
        .flatten();
    let mut matte_pixels = 0;
    let mut band = Vec::new();
    for j in job.first_row..job.first_row + job.rows {
        for i in 0..w.width {
            let point = match &other {
                None => source_point(&mapping, w, i, j),
                Some(m) => {
                    let (x, y) = (i as f64 + w.x as f64 + 0.5, j as f64 + w.y as f64 + 0.5);
                    Some((m[0] * x + m[1] * y + m[2], m[3] * x + m[4] * y + m[5]))
                }
            };
            let colour = match point.filter(|p| usable(*p)) {
                Some((u, v)) => read(r, &sampler, job, fault, u - 0.5, v - 0.5),
                None => {
                    matte_pixels += 1;
                    job.matte
                }
            };
            let below = fault == Fault::MatteBelow && j > job.first_row;
            let colour = if below { job.matte } else { colour };
            let pixel = narrowed(colour, job.out_channels());
            band.extend(pixel.iter().flat_map(|x| x.to_le_bytes()));
        }
    }
    if fault == Fault::NoCount {
        matte_pixels = 0;
    }
    let verdict = Verdict::Accepted {
        width: w.width,
        height: w.height,
        x: w.x,
        y: w.y,
        channels: job.out_channels(),
        matte_pixels,
    };
    Answer { verdict, band }
}

fn read(r: Reference, s: &Sampler, job: &Job, fault: Fault, x: f64, y: f64) -> [f32; 4] {
    if fault == Fault::Truncation && job.interpolation == interpolation::INTEGER {
        return s.at(x as i64, y as i64);
    }
    let (ix, iy) = (x.floor() as i64, y.floor() as i64);
    let (tx, ty) = ((x - x.floor()) as f32, (y - y.floor()) as f32);
    if fault == Fault::DividedFirst && job.interpolation == interpolation::CATROM {
        let (wx, wy) = (divided_first(tx), divided_first(ty));
        let tap = |k: i64| s.at(ix - 1 + k % 4, iy - 1 + k / 4);
        let taps = (0..16).map(|k| (tap(k), wx[k as usize % 4] * wy[k as usize / 4]));
        return r.weighted(&taps.collect::<Vec<_>>());
    }
    let right = s.interpolate(x, y, job.interpolation as u8).unwrap();
    if fault != Fault::Unweighted || job.interpolation != interpolation::BILINEAR {
        return right;
    }
    let opaque = |x, y| {
        let p = s.at(x, y);
        [p[0], p[1], p[2], 1.0]
    };
    let plain = r.weighted(&[
        (opaque(ix, iy), (1.0 - tx) * (1.0 - ty)),
        (opaque(ix + 1, iy), tx * (1.0 - ty)),
        (opaque(ix, iy + 1), (1.0 - tx) * ty),
        (opaque(ix + 1, iy + 1), tx * ty),
    ]);
    [plain[0], plain[1], plain[2], right[3]]
}

/// Catrom's weights, but with each number divided by 6 instead of the sum.
fn divided_first(t: f32) -> [f32; 4] {
    let near = |x: f32| 9.0 / 6.0 * x * x * x - 15.0 / 6.0 * x * x + 6.0 / 6.0;
    let far = |x: f32| -3.0 / 6.0 * x * x * x + 15.0 / 6.0 * x * x - 24.0 / 6.0 * x + 12.0 / 6.0;
    [far(t + 1.0), near(t), near(1.0 - t), far(2.0 - t)]
}

/// The affine fit of three or more pairs, but with the first pivot among equals.
fn first_pivot(job: &Job) -> Option<Vec<f64>> {
    if job.method != AFFINE || job.args.len() < 12 {
        return None;
    }
    let mut a = [[0.0; 3]; 3];
    let mut b = [[0.0; 3]; 2];
    for p in job.args.chunks_exact(4) {
        let row = [p[2], p[3], 1.0];
        for i in 0..3 {
            b[0][i] += row[i] * p[0];
            b[1][i] += row[i] * p[1];
            for k in 0..3 {
                a[i][k] += row[i] * row[k];
            }
        }
    }
    Some([solve(a, b[0]), solve(a, b[1])].concat())
}

fn solve(mut a: [[f64; 3]; 3], mut b: [f64; 3]) -> Vec<f64> {
    for col in 0..3 {
        let mut pivot = col;
        for row in col + 1..3 {
            if a[row][col].abs() > a[pivot][col].abs() {
                pivot = row;
            }
        }
        a.swap(col, pivot);
        b.swap(col, pivot);
        for row in col + 1..3 {
            let pivot_row = a[col];
            let f = a[row][col] / pivot_row[col];
            for (dst, src) in a[row][col..].iter_mut().zip(&pivot_row[col..]) {
                *dst -= f * src;
            }
            b[row] -= f * b[col];
        }
    }
    let mut x = vec![0.0; 3];
    for i in (0..3).rev() {
        let s: f64 = (i + 1..3).map(|k| a[i][k] * x[k]).sum();
        x[i] = (b[i] - s) / a[i][i];
    }
    x
}
