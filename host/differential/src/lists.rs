//! Lists of distort calls from a seed: warps, whole and in bands, with refused calls and calls that stay alone between
//! them, run through a call and through the exact chain.

use crate::chain::{Chain, Fitting, Place};
use crate::generate::{self, warps};
use crate::random::Random;
use crate::runner::Answering;
use crate::{Job, Window, codes};

/// The most warps that a list is made for; bands that were left over may join into more.
const WARPS: u64 = 6;

/// The most pixels of a warp's output.
const PIXELS: u64 = 64;

/// What became of a list.
#[derive(Clone, Copy, Debug, Default)]
pub struct Summary {
    pub warps: u64,
    pub joined: u64,
    pub refused: u64,
    pub alone: u64,
    pub methods: [u64; 14],
    pub policies: [u64; 14],
    pub worst: f64,
}

impl Summary {
    pub fn add(&mut self, other: &Summary) {
        self.warps += other.warps;
        self.joined += other.joined;
        self.refused += other.refused;
        self.alone += other.alone;
        self.worst = self.worst.max(other.worst);
        for k in 0..14 {
            self.methods[k] += other.methods[k];
            self.policies[k] += other.policies[k];
        }
    }
}

struct Run<'a> {
    random: Random,
    chain: Chain<'a>,
    summary: Summary,
    /// The calls so far, one a line, for a list that fails.
    said: Vec<String>,
}

/// Runs the `index`th list of `seed`. One that fails is told call by call.
pub fn run(seed: u64, index: u64, call: Answering, fit: Fitting) -> Result<Summary, String> {
    let mut random = Random::nth(seed, index);
    let first = warps::first(&mut random);
    let said = vec![format!(
        "list {index} of seed {seed}; first picture {}x{}x{}: {:?}",
        first.width, first.height, first.channels, first.samples
    )];
    let wanted = 1 + random.below(WARPS);
    let mut run = Run {
        random,
        chain: Chain::new(call, fit, first),
        summary: Summary::default(),
        said,
    };
    while run.chain.warps < wanted {
        if let Err(words) = run.one_more() {
            run.said.push(words);
            return Err(run.said.join("\n  "));
        }
    }
    run.summary.worst = run.chain.worst;
    run.summary.joined = run.chain.joined;
    Ok(run.summary)
}

impl Run<'_> {
    /// One more warp, with others between its calls.
    fn one_more(&mut self) -> Result<(), String> {
        let (job, w) = self.candidate();
        let mut calls = self.calls(&job, w);
        if self.random.once_in(4) {
            // Two warps at once: the first to be whole is the next picture, and the other's calls stay alone.
            let (other, w) = self.candidate();
            if w.height > 1 {
                calls.extend(self.bands(&other, w));
                shuffle(&mut self.random, &mut calls);
            }
        }
        for call in calls {
            while self.random.once_in(3) {
                self.another(&job, w)?;
            }
            // After the other's warp a whole call would be lent the picture before last.
            if self.chain.place(&call) != Place::Warp || self.chain.fits(&call) {
                self.push(&call)?;
            }
        }
        Ok(())
    }

    fn push(&mut self, job: &Job) -> Result<(), String> {
        self.said.push(job.to_string());
        match self.chain.push(job)? {
            Place::Refused => self.summary.refused += 1,
            Place::Alone => self.summary.alone += 1,
            Place::Warp => {
                self.summary.warps += 1;
                self.summary.methods[job.method as usize] += 1;
                self.summary.policies[job.policy as usize] += 1;
            }
        }
        Ok(())
    }

    /// A job within the chain conditions, and its window.
    fn candidate(&mut self) -> (Job, Window) {
        loop {
            let job = warps::warp(&mut self.random, &self.chain.picture);
            let Some(w) = self.chain.window(&job) else {
                continue;
            };
            if w.width * w.height <= PIXELS && self.chain.fits(&job) {
                return (job, w);
            }
        }
    }

    /// The calls of a warp: one, or bands.
    fn calls(&mut self, job: &Job, w: Window) -> Vec<Job> {
        if w.height == 1 || self.random.once_in(3) {
            return vec![job.clone().with_rows(w, 0, w.height)];
        }
        self.bands(job, w)
    }

    /// Bands that hold every row, some of them twice, in an order of chance; none of them is all rows.
    fn bands(&mut self, job: &Job, w: Window) -> Vec<Job> {
        let r = &mut self.random;
        let mut rows = Vec::new();
        let mut next = 0;
        while next < w.height {
            let count = 1 + r.below((w.height - next).min(w.height - 1));
            let before = if r.once_in(3) { r.below(next + 1) } else { 0 };
            let count = (count + before).min(w.height - 1);
            let first = next.saturating_sub(before);
            rows.push((first, count));
            next = next.max(first + count);
        }
        if r.once_in(3) {
            rows.push(r.pick(&rows.clone()));
        }
        if r.once_in(4) {
            rows.push((r.below(w.height + 1), 0));
        }
        let with = |(first, count)| job.clone().with_rows(w, first, count);
        let mut bands: Vec<Job> = rows.into_iter().map(with).collect();
        shuffle(r, &mut bands);
        bands
    }

    /// A call that is no warp: refused, for no rows, or for rows that stay alone. One that would be a warp is left out.
    fn another(&mut self, job: &Job, w: Window) -> Result<(), String> {
        let r = &mut self.random;
        let some = |r: &mut Random, job: Job, w: Window| {
            let first = r.below(w.height);
            let rows = r.below(w.height - first + 1).min(w.height - 1);
            job.with_rows(w, first, rows)
        };
        let call = match r.below(6) {
            0 => {
                let (seed, index) = (r.bits(), r.below(1 << 20));
                let window = |job: &Job| self.chain.window(job);
                generate::call(seed, index, &window)
            }
            1 => {
                let first = r.below(w.height + 1);
                job.clone().with_rows(w, first, 0)
            }
            2 => self.spoiled(job, w),
            // Lent another picture, alike in size.
            3 => {
                let mut other = some(r, job.clone(), w);
                let k = r.below(other.samples.len() as u64) as usize;
                other.samples[k] = r.pick(&[0.5, 2.0, -1.0, 0.25]);
                other
            }
            // Another matte, which no pixel shows.
            4 => {
                let mut other = some(r, job.clone(), w);
                other.matte[0] = r.unit() as f32;
                other
            }
            // Another warp of the same picture, for some rows.
            _ => {
                let other = warps::warp(r, &self.chain.picture);
                match self.chain.window(&other) {
                    Some(w) => some(&mut self.random, other, w),
                    None => other,
                }
            }
        };
        match self.chain.place(&call) {
            Place::Warp => Ok(()),
            _ => self.push(&call),
        }
    }

    /// A warp's call that is refused for one thing.
    fn spoiled(&mut self, job: &Job, w: Window) -> Job {
        let r = &mut self.random;
        let mut call = job.clone().with_rows(w, 0, w.height);
        match r.below(6) {
            0 => call.first_row = 1,
            1 => call.band += r.pick(&[1, 4]),
            2 => call.args.push(f64::NAN),
            3 => call.samples[0] = f32::INFINITY,
            4 => call.policy = codes::POLICIES.len() as u64,
            _ => call.height += 1,
        }
        call
    }
}

fn shuffle(r: &mut Random, calls: &mut [Job]) {
    for k in (1..calls.len()).rev() {
        calls.swap(k, r.below(k as u64 + 1) as usize);
    }
}
