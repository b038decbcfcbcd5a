//! The compiled call, asked with a job of the generators: what it leaves, in one call or put together out of bands.
//! Every buffer that it is lent lies between guards.

use differential::random::Random;
use differential::{Answer, Job, Verdict, Window};
use dihyravo::{Answer as Given, distort_into};

/// Bytes on either side of a lent buffer that no call may write.
const GUARD: usize = 64;

/// What the answer's bytes are before the call.
const FRESH: u8 = 0xa5;

/// The four components as bytes.
pub fn colour(components: [f32; 4]) -> [u8; 16] {
    let mut bytes = [0; 16];
    for (four, x) in bytes.chunks_exact_mut(4).zip(components) {
        four.copy_from_slice(&x.to_le_bytes());
    }
    bytes
}

/// A stream of its own for each job.
pub fn stream(job: &Job) -> Random {
    let floats = job.args.iter().map(|x| x.to_bits());
    let floats = floats.chain(job.samples.iter().take(16).map(|x| x.to_bits() as u64));
    let mixed = floats.fold(job.first_row ^ job.rows << 20, |a, b| {
        a.rotate_left(7).wrapping_add(b)
    });
    Random::nth(mixed, job.band as u64)
}

/// All that the call is given, with `yes` for yes and the window `any` for a viewport that is not given.
fn raw<'a>(
    job: &Job,
    picture: &'a [u8],
    arguments: &'a [u8],
    (yes, any): (u64, Window),
) -> dihyravo::Job<'a> {
    let view = job.viewport.unwrap_or(any);
    dihyravo::Job {
        picture,
        width: job.width,
        height: job.height,
        channels: job.channels,
        method: job.method,
        arguments,
        policy: job.policy,
        interpolation: job.interpolation,
        background: colour(job.background),
        matte: colour(job.matte),
        bestfit: if job.bestfit { yes } else { 0 },
        viewport: if job.viewport.is_some() { yes } else { 0 },
        view_width: view.width,
        view_height: view.height,
        view_x: view.x,
        view_y: view.y,
        first_row: job.first_row,
        rows: job.rows,
    }
}

/// A buffer between two guards.
struct Guarded(Vec<u8>);

impl Guarded {
    fn new(inside: &[u8]) -> Self {
        let mut all = vec![!FRESH; inside.len() + 2 * GUARD];
        all[GUARD..GUARD + inside.len()].copy_from_slice(inside);
        Self(all)
    }

    fn inside(&mut self) -> &mut [u8] {
        let end = self.0.len() - GUARD;
        &mut self.0[GUARD..end]
    }

    fn broken(&self) -> bool {
        let end = self.0.len() - GUARD;
        let mut guards = self.0[..GUARD].iter().chain(&self.0[end..]);
        guards.any(|&byte| byte != !FRESH)
    }
}

/// The answer of one call, and the band as it leaves it. Yes is any number but 0, and a viewport that is not given may
/// be anything.
pub fn answer(job: &Job) -> Answer {
    let mut r = stream(job);
    let yes = r.pick(&[1, 2, 1 << 32, 1 << 63, u64::MAX]);
    let any = Window {
        width: r.bits(),
        height: r.bits(),
        x: r.bits() as i64,
        y: r.bits() as i64,
    };
    call(job, (yes, any))
}

/// The same with the same numbers for the same job, whatever its rows: yes is 1, a viewport that is not given is the
/// picture's own window.
pub fn plain(job: &Job) -> Answer {
    let own = Window {
        width: job.width,
        height: job.height,
        x: 0,
        y: 0,
    };
    call(job, (1, own))
}

fn call(job: &Job, marks: (u64, Window)) -> Answer {
    let (picture, arguments) = (job.samples_bytes(), job.args_bytes());
    let (mut lent, mut read) = (Guarded::new(&picture), Guarded::new(&arguments));
    let mut band = Guarded::new(&job.fresh_band());
    let mut said = Guarded::new(&[FRESH; 48]);
    let call = raw(job, lent.inside(), read.inside(), marks);
    let out: &mut [u8; 48] = said.inside().try_into().expect("48 bytes are lent");
    let number = distort_into(&call, band.inside(), out);
    let verdict = match number {
        0 => accepted(Given::read(out)),
        _ if *out != [FRESH; 48] => Verdict::Stray("a refused call's answer"),
        _ => Verdict::Refused(u8::try_from(number).unwrap_or(u8::MAX)),
    };
    let strays = [
        (band.broken(), "the surroundings of the band"),
        (said.broken(), "the surroundings of the answer"),
        (lent.broken() || lent.inside() != picture, "the picture"),
        (read.broken() || read.inside() != arguments, "the arguments"),
    ];
    let stray = strays.iter().find(|(changed, _)| *changed);
    Answer {
        verdict: stray.map_or(verdict, |(_, place)| Verdict::Stray(place)),
        band: band.inside().to_vec(),
    }
}

fn accepted(said: Given) -> Verdict {
    Verdict::Accepted {
        width: said.width,
        height: said.height,
        x: said.x,
        y: said.y,
        channels: said.channels,
        matte_pixels: said.matte_pixels,
    }
}

/// The answer to a job for all rows, put together out of bands that are cut and asked for in an order of chance. The
/// size is asked for with no rows; where that is refused, so is this.
pub fn in_bands(job: &Job) -> Answer {
    let mut random = stream(job);
    let none = Job {
        first_row: 0,
        rows: 0,
        band: 0,
        ..job.clone()
    };
    let sized = answer(&none).verdict;
    let Verdict::Accepted { width, height, .. } = sized else {
        return Answer {
            verdict: sized,
            band: job.fresh_band(),
        };
    };
    let row = (width * job.out_channels() * 4) as usize;
    let mut whole = vec![0; row * height as usize];
    let mut total = 0;
    for (first, rows) in cut(&mut random, height) {
        let part = Job {
            first_row: first,
            rows,
            band: row * rows as usize,
            ..job.clone()
        };
        let Answer { verdict, band } = answer(&part);
        if with_count(verdict, 0) != with_count(sized, 0) {
            return Answer { verdict, band };
        }
        whole[row * first as usize..][..band.len()].copy_from_slice(&band);
        total += count(verdict);
    }
    Answer {
        verdict: with_count(sized, total),
        band: whole,
    }
}

/// The bands of an output of so many rows, each row once, in an order of chance; some are of no rows.
fn cut(r: &mut Random, height: u64) -> Vec<(u64, u64)> {
    let most = r.pick(&[1, 2, 3, height.div_ceil(2), height]);
    let mut bands = Vec::new();
    let mut first = 0;
    while first < height {
        let rows = if height > 64 {
            height.div_ceil(16)
        } else {
            r.below(most + 1)
        };
        let rows = rows.min(height - first);
        bands.push((first, rows));
        first += rows;
    }
    for k in (1..bands.len()).rev() {
        bands.swap(k, r.below(k as u64 + 1) as usize);
    }
    bands
}

fn count(verdict: Verdict) -> u64 {
    match verdict {
        Verdict::Accepted { matte_pixels, .. } => matte_pixels,
        _ => 0,
    }
}

fn with_count(verdict: Verdict, total: u64) -> Verdict {
    match verdict {
        Verdict::Accepted {
            width,
            height,
            x,
            y,
            channels,
            ..
        } => Verdict::Accepted {
            width,
            height,
            x,
            y,
            channels,
            matte_pixels: total,
        },
        other => other,
    }
}
