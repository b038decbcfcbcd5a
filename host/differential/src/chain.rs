//! A list of distort calls by the rule of specification 11.1: which calls are warps, whole or in bands, the chain's
//! picture after each call, and the exact chain beside it.

use crate::exact::{Mapping, Picture};
use crate::runner::Answering;
use crate::{Answer, Job, Verdict, Window, codes};

/// The coefficients of a job's fit.
pub type Fitting<'a> = &'a dyn Fn(&Job) -> Option<Vec<f64>>;

/// The chain's picture as it is lent.
#[derive(Clone, Debug, PartialEq)]
pub struct Lent {
    pub width: u64,
    pub height: u64,
    pub channels: u64,
    pub samples: Vec<f32>,
}

impl Lent {
    /// The same by its bits, and not by what they are worth.
    fn same(&self, job: &Job) -> bool {
        let size =
            (job.width, job.height, job.channels) == (self.width, self.height, self.channels);
        let alike = |(x, y): (&f32, &f32)| x.to_bits() == y.to_bits();
        size && job.samples_rest == 0
            && job.samples.len() == self.samples.len()
            && job.samples.iter().zip(&self.samples).all(alike)
    }

    /// A job that is lent this picture.
    pub fn lend(&self, mut job: Job) -> Job {
        (job.width, job.height, job.channels) = (self.width, self.height, self.channels);
        job.samples = self.samples.clone();
        job.samples_rest = 0;
        job
    }
}

/// A list as far as it has come.
pub struct Chain<'a> {
    call: Answering<'a>,
    fit: Fitting<'a>,
    pub picture: Lent,
    exact: Picture,
    /// Accepted calls for fewer rows that were lent the chain's picture since the last warp or the start.
    waiting: Vec<(Job, Answer)>,
    /// The warps so far.
    pub warps: u64,
    /// Those of them that were put together out of bands.
    pub joined: u64,
    /// The largest error so far, in units of n/524,288.
    pub worst: f64,
}

/// What a call does in the list.
#[derive(Clone, Copy, Debug, PartialEq, Eq)]
pub enum Place {
    Refused,
    /// For fewer rows, and not the last that a warp waits for.
    Alone,
    Warp,
}

impl<'a> Chain<'a> {
    /// The first picture: 3 channels, or 4 with alpha 1, and samples from 0 to 1.
    pub fn new(call: Answering<'a>, fit: Fitting<'a>, first: Lent) -> Self {
        assert!([3, 4].contains(&first.channels));
        assert!(opaque(&first), "the first picture's alpha is 1");
        let exact = Picture::new(first.width, first.height, first.channels, &first.samples);
        Self {
            call,
            fit,
            picture: first,
            exact,
            waiting: Vec::new(),
            warps: 0,
            joined: 0,
            worst: 0.0,
        }
    }

    /// The window that a job would have, asked for with no rows; none where it is refused.
    pub fn window(&self, job: &Job) -> Option<Window> {
        let none = Job {
            first_row: 0,
            rows: 0,
            band: 0,
            ..job.clone()
        };
        window(&(self.call)(&none))
    }

    /// What a call would do in the list here.
    pub fn place(&self, job: &Job) -> Place {
        match window(&(self.call)(job)) {
            None => Place::Refused,
            Some(w) if whole(job, w) || self.completes(job, w) => Place::Warp,
            Some(_) => Place::Alone,
        }
    }

    /// Whether a job may be a warp here: it is lent the chain's picture, and meets the chain conditions by its kind and
    /// by the sums at every pixel.
    pub fn fits(&self, job: &Job) -> bool {
        let near = |w: Window| self.mapping(job).is_some_and(|mapping| mapping.holds(w));
        self.picture.same(job) && meets(job) && self.window(job).is_some_and(near)
    }

    fn mapping(&self, job: &Job) -> Option<Mapping> {
        Mapping::new(job, &(self.fit)(job)?)
    }

    /// The calls that a job stands with: alike in all but rows and band, and lent the chain's picture.
    fn group(&self, job: &Job) -> Vec<&(Job, Answer)> {
        let waiting = self.waiting.iter();
        waiting.filter(|(other, _)| alike(job, other)).collect()
    }

    fn completes(&self, job: &Job, w: Window) -> bool {
        let group = self.group(job);
        let held = |row: u64| holds(job, row) || group.iter().any(|(other, _)| holds(other, row));
        self.picture.same(job) && (0..w.height).all(held)
    }

    /// Makes a call. A refused one has to leave its band as it is; a warp has to be lent the chain's picture, and the
    /// new picture has to be near the exact one.
    pub fn push(&mut self, job: &Job) -> Result<Place, String> {
        let answer = (self.call)(job);
        let w = match answer.verdict {
            Verdict::Accepted { .. } => window(&answer).expect("an accepted call has a window"),
            Verdict::Refused(number) if answer == Answer::refused(job, number) => {
                return Ok(Place::Refused);
            }
            other => return Err(format!("{other}, and the band is changed: {job}")),
        };
        if !whole(job, w) && !self.completes(job, w) {
            if self.picture.same(job) {
                self.waiting.push((job.clone(), answer));
            }
            return Ok(Place::Alone);
        }
        if !self.picture.same(job) {
            return Err(format!("a warp that is lent another picture: {job}"));
        }
        let band = match whole(job, w) {
            true => answer.band.clone(),
            false => self.join(job, &answer, w)?,
        };
        self.joined += u64::from(!whole(job, w));
        self.warp(job, &answer, band)?;
        Ok(Place::Warp)
    }

    /// The rows of a warp in bands, in order, each once. Rows that were written twice have to be the same.
    fn join(&self, job: &Job, answer: &Answer, w: Window) -> Result<Vec<u8>, String> {
        let mut calls = self.group(job);
        let last = (job.clone(), answer.clone());
        calls.push(&last);
        let row = (w.width * job.out_channels() * 4) as usize;
        let mut band = Vec::new();
        for r in 0..w.height {
            let holders = calls.iter().filter(|(other, _)| holds(other, r));
            let rows: Vec<&[u8]> = holders
                .map(|(other, left)| &left.band[(r - other.first_row) as usize * row..][..row])
                .collect();
            if rows.iter().any(|other| *other != rows[0]) {
                return Err(format!("row {r} of two bands differs: {job}"));
            }
            band.extend_from_slice(rows[0]);
        }
        Ok(band)
    }

    fn warp(&mut self, job: &Job, answer: &Answer, band: Vec<u8>) -> Result<(), String> {
        let Verdict::Accepted { channels, .. } = answer.verdict else {
            return Err("a warp is accepted".into());
        };
        let w = window(answer).expect("a warp has a window");
        let mapping = self.mapping(job).filter(|_| meets(job));
        let exact = mapping.and_then(|mapping| self.exact.warp(job, &mapping, w));
        self.exact = exact.ok_or_else(|| format!("outside the chain conditions: {job}"))?;
        let (samples, rest) = band.as_chunks::<4>();
        assert!(rest.is_empty());
        self.picture = Lent {
            width: w.width,
            height: w.height,
            channels,
            samples: samples
                .iter()
                .map(|four| f32::from_le_bytes(*four))
                .collect(),
        };
        self.waiting.clear();
        self.warps += 1;
        self.compare().map_err(|said| format!("{said}: {job}"))
    }

    /// The third demand, after the list so far.
    fn compare(&mut self) -> Result<(), String> {
        let (float, exact) = (&self.picture, &self.exact);
        let size = |w: u64, h: u64, c: u64| (w, h, c);
        let sizes = [
            size(float.width, float.height, float.channels),
            size(exact.width, exact.height, exact.channels),
        ];
        if sizes[0] != sizes[1] {
            return Err(format!("{:?} against {:?}", sizes[0], sizes[1]));
        }
        if let Some(x) = float.samples.iter().find(|x| !(0.0..=1.0).contains(*x)) {
            return Err(format!("the sample {x:?} is outside 0 to 1"));
        }
        if !opaque(float) {
            return Err("an alpha is not 1".into());
        }
        let (near, error) = exact.error(&float.samples, self.warps);
        self.worst = self.worst.max(error);
        match near {
            true => Ok(()),
            false => Err(format!("{error} units off after {} warps", self.warps)),
        }
    }
}

fn opaque(picture: &Lent) -> bool {
    let mut pixels = picture.samples.chunks_exact(picture.channels as usize);
    pixels.all(|pixel| pixel.get(3).is_none_or(|&alpha| alpha == 1.0))
}

/// The chain conditions on a warp's kind: one of six methods, `Bilinear`, any policy but `Transparent`, a background
/// from 0 to 1 with alpha 1.
fn meets(job: &Job) -> bool {
    use codes::*;
    let methods = [
        AFFINE,
        AFFINE_PROJECTION,
        PERSPECTIVE,
        PERSPECTIVE_PROJECTION,
        BILINEAR_REVERSE,
        POLYNOMIAL,
    ];
    methods.contains(&job.method)
        && job.interpolation == interpolation::BILINEAR
        && job.policy != policy::TRANSPARENT
        && job.background.iter().all(|x| (0.0..=1.0).contains(x))
        && job.background[3] == 1.0
}

fn window(answer: &Answer) -> Option<Window> {
    match answer.verdict {
        Verdict::Accepted {
            width,
            height,
            x,
            y,
            ..
        } => Some(Window {
            width,
            height,
            x,
            y,
        }),
        _ => None,
    }
}

fn whole(job: &Job, w: Window) -> bool {
    (job.first_row, job.rows) == (0, w.height)
}

fn holds(job: &Job, row: u64) -> bool {
    job.first_row <= row && row - job.first_row < job.rows
}

/// Alike in all but rows and band, by every bit.
fn alike(a: &Job, b: &Job) -> bool {
    let without_rows = |job: &Job| Job {
        first_row: 0,
        rows: 0,
        band: 0,
        ..job.clone()
    };
    without_rows(a) == without_rows(b)
}
