//! A call as bytes and numbers: all that can be lent, fit or not; and the job that it is, for the model.

use differential::random::Random;
use differential::{CallNumbers, Job, Window};

/// All that a call is given.
#[derive(Clone, Debug, PartialEq, Eq)]
pub struct Lent {
    pub numbers: CallNumbers,
    pub picture: Vec<u8>,
    pub arguments: Vec<u8>,
    pub background: [u8; 16],
    pub matte: [u8; 16],
    /// The band's length in bytes.
    pub band: usize,
}

impl Lent {
    /// A job as it is lent. Yes is any number but 0, and a viewport that is not given may be anything.
    pub fn of(job: &Job, r: &mut Random) -> Self {
        let mut yes = || r.pick(&[1, 2, 1 << 32, 1 << 63, u64::MAX]);
        let (bestfit, viewport) = (yes(), yes());
        let view = job.viewport.unwrap_or_else(|| Window {
            width: r.bits(),
            height: r.bits(),
            x: r.bits() as i64,
            y: r.bits() as i64,
        });
        Self {
            numbers: CallNumbers::of(job, bestfit, viewport, view),
            picture: job.samples_bytes(),
            arguments: job.args_bytes(),
            background: colour(job.background),
            matte: colour(job.matte),
            band: job.band,
        }
    }

    /// The job that this is.
    pub fn job(&self) -> Job {
        let n = &self.numbers;
        let (samples, samples_rest) = self.picture.as_chunks::<4>();
        let (args, args_rest) = self.arguments.as_chunks::<8>();
        Job {
            method: n.method,
            policy: n.policy,
            interpolation: n.interpolation,
            args: args.iter().map(|x| f64::from_le_bytes(*x)).collect(),
            args_rest: args_rest.len(),
            bestfit: n.bestfit != 0,
            viewport: n.given_view(),
            background: components(&self.background),
            matte: components(&self.matte),
            width: n.width,
            height: n.height,
            channels: n.channels,
            samples: samples.iter().map(|x| f32::from_le_bytes(*x)).collect(),
            samples_rest: samples_rest.len(),
            first_row: n.first_row,
            rows: n.rows,
            band: self.band,
        }
    }
}

/// The four components as bytes.
pub fn colour(components: [f32; 4]) -> [u8; 16] {
    let mut bytes = [0; 16];
    for (part, x) in bytes.chunks_exact_mut(4).zip(components) {
        part.copy_from_slice(&x.to_le_bytes());
    }
    bytes
}

fn components(bytes: &[u8; 16]) -> [f32; 4] {
    let (parts, _) = bytes.as_chunks::<4>();
    [0, 1, 2, 3].map(|k: usize| f32::from_le_bytes(parts[k]))
}

#[cfg(test)]
mod tests {
    use super::*;

    #[test]
    fn a_job_comes_back() {
        for index in 0..2_000 {
            let own = |job: &Job| Some(job.own_window());
            let job = differential::generate::call(1, index, &own);
            let lent = Lent::of(&job, &mut Random::nth(1, index));
            assert_eq!(lent.job(), job);
        }
    }
}
