//! Jobs with their answers in one file, to be replayed where the reference is not there. It is read in one pass, with
//! buffers of fixed size.
//!
//! A number is 8 bytes, little-endian; one with a sign is its two's complement. The file begins with the length of a
//! text and the text, which says how the file was made, and then the number of jobs. Each job is
//!
//! - 18 numbers: width, height, channels, method, policy, interpolation, bestfit, viewport, view width, view height,
//!   view x, view y, first row, rows, then the lengths in bytes of picture, arguments and band, and the refusal's
//!   number, 0 for an accepted job;
//! - 16 bytes of background and 16 of matte;
//! - the picture's bytes, then the arguments';
//! - for an accepted job the answer's 48 bytes as the call writes them, then the band's; for a refused one nothing,
//!   since band and answer stay as they are.
//!
//! The text, the picture, the arguments and the band are at most 4,096 bytes long. Of an accepted job every pixel has a
//! source point within 2^30 or none by the reference, so the whole band is to be compared.

use crate::call_numbers::{self, CallNumbers};
use crate::random::Random;
use crate::{Answer, Job, Verdict, Window};

/// The most bytes of each part.
pub const MOST: usize = 4_096;

/// A job as the file has it.
#[derive(Clone, Debug, PartialEq, Eq)]
pub struct Stored {
    /// Without lengths and refusal.
    pub numbers: CallNumbers,
    pub background: [u8; 16],
    pub matte: [u8; 16],
    pub picture: Vec<u8>,
    pub arguments: Vec<u8>,
    pub band_length: usize,
    /// The answer's bytes and the band's, or the refusal's number.
    pub answer: Result<([u8; 48], Vec<u8>), u64>,
}

fn four(components: [f32; 4]) -> [u8; 16] {
    let mut bytes = [0; 16];
    for (part, x) in bytes.chunks_exact_mut(4).zip(components) {
        part.copy_from_slice(&x.to_le_bytes());
    }
    bytes
}

fn components(bytes: [u8; 16]) -> [f32; 4] {
    let (parts, _) = bytes.as_chunks::<4>();
    std::array::from_fn(|k| f32::from_le_bytes(parts[k]))
}

/// The 48 bytes that an accepted call answers with.
pub fn answer_bytes(verdict: Verdict) -> Option<[u8; 48]> {
    let Verdict::Accepted {
        width,
        height,
        x,
        y,
        channels,
        matte_pixels,
    } = verdict
    else {
        return None;
    };
    let words = [width, height, x as u64, y as u64, channels, matte_pixels];
    let mut bytes = [0; 48];
    for (part, word) in bytes.chunks_exact_mut(8).zip(words) {
        part.copy_from_slice(&word.to_le_bytes());
    }
    Some(bytes)
}

impl Stored {
    /// A job and its answer. Yes is any number but 0, and a viewport that is not given is anything.
    pub fn new(r: &mut Random, job: &Job, answer: &Answer) -> Self {
        let yes = r.pick(&[1, 1, 2, 1 << 32, 1 << 63, u64::MAX]);
        let any = Window {
            width: r.below(9),
            height: r.bits(),
            x: r.between(-9, 9),
            y: r.bits() as i64,
        };
        let answer = match (answer.verdict, answer_bytes(answer.verdict)) {
            (_, Some(bytes)) => Ok((bytes, answer.band.clone())),
            (Verdict::Refused(number), _) => Err(u64::from(number)),
            (other, _) => panic!("{other}"),
        };
        Self {
            numbers: CallNumbers::of(job, yes, yes, any),
            background: four(job.background),
            matte: four(job.matte),
            picture: job.samples_bytes(),
            arguments: job.args_bytes(),
            band_length: job.band,
            answer,
        }
    }

    /// The job again. Bytes of a broken float are not kept, only their number.
    pub fn job(&self) -> Job {
        let n = self.numbers;
        let (args, args_rest) = self.arguments.as_chunks::<8>();
        let (samples, samples_rest) = self.picture.as_chunks::<4>();
        Job {
            method: n.method,
            policy: n.policy,
            interpolation: n.interpolation,
            args: args.iter().map(|b| f64::from_le_bytes(*b)).collect(),
            args_rest: args_rest.len(),
            bestfit: n.bestfit != 0,
            viewport: n.given_view(),
            background: components(self.background),
            matte: components(self.matte),
            width: n.width,
            height: n.height,
            channels: n.channels,
            samples: samples.iter().map(|b| f32::from_le_bytes(*b)).collect(),
            samples_rest: samples_rest.len(),
            first_row: n.first_row,
            rows: n.rows,
            band: self.band_length,
        }
    }

    /// Whether each part is short enough.
    pub fn fits(&self) -> bool {
        let lengths = [self.picture.len(), self.arguments.len(), self.band_length];
        lengths.iter().all(|&length| length <= MOST)
    }

    pub fn write(&self, file: &mut Vec<u8>) {
        let lengths = [
            self.picture.len() as u64,
            self.arguments.len() as u64,
            self.band_length as u64,
            self.answer.as_ref().err().copied().unwrap_or(0),
        ];
        for number in self.numbers.in_order().iter().chain(&lengths) {
            file.extend(number.to_le_bytes());
        }
        file.extend(self.background);
        file.extend(self.matte);
        file.extend(&self.picture);
        file.extend(&self.arguments);
        if let Ok((answer, band)) = &self.answer {
            file.extend(answer);
            file.extend(band);
        }
    }
}

/// A whole file.
pub fn write(text: &str, jobs: &[Stored]) -> Vec<u8> {
    assert!(text.len() <= MOST);
    let mut file = Vec::new();
    file.extend((text.len() as u64).to_le_bytes());
    file.extend(text.as_bytes());
    file.extend((jobs.len() as u64).to_le_bytes());
    for job in jobs {
        assert!(job.fits());
        job.write(&mut file);
    }
    file
}

/// What is left of a file.
struct Rest<'a>(&'a [u8]);

impl<'a> Rest<'a> {
    fn bytes(&mut self, length: usize) -> Option<&'a [u8]> {
        let (taken, rest) = self.0.split_at_checked(length)?;
        self.0 = rest;
        Some(taken)
    }

    fn array<const N: usize>(&mut self) -> Option<[u8; N]> {
        self.bytes(N)?.try_into().ok()
    }

    fn number(&mut self) -> Option<u64> {
        self.array().map(u64::from_le_bytes)
    }

    /// A length that a reader has room for.
    fn length(&mut self) -> Option<usize> {
        let length = usize::try_from(self.number()?).ok()?;
        (length <= MOST).then_some(length)
    }

    fn job(&mut self) -> Option<Stored> {
        let mut numbers = [0; call_numbers::COUNT];
        for number in &mut numbers {
            *number = self.number()?;
        }
        let (picture, arguments) = (self.length()?, self.length()?);
        let (band_length, refusal) = (self.length()?, self.number()?);
        Some(Stored {
            numbers: numbers.into(),
            background: self.array()?,
            matte: self.array()?,
            picture: self.bytes(picture)?.to_vec(),
            arguments: self.bytes(arguments)?.to_vec(),
            band_length,
            answer: match refusal {
                0 => Ok((self.array()?, self.bytes(band_length)?.to_vec())),
                number => Err(number),
            },
        })
    }
}

/// The text and the jobs of a file; none where it is no such file from end to end.
pub fn read(file: &[u8]) -> Option<(String, Vec<Stored>)> {
    let mut rest = Rest(file);
    let length = rest.length()?;
    let text = String::from_utf8(rest.bytes(length)?.to_vec()).ok()?;
    let count = rest.number()?;
    let mut jobs = Vec::new();
    for _ in 0..count {
        jobs.push(rest.job()?);
    }
    rest.0.is_empty().then_some((text, jobs))
}

#[cfg(test)]
mod tests {
    use super::*;

    #[test]
    fn a_file_is_read_back() {
        let mut r = Random::new(59);
        let accepted = Verdict::Accepted {
            width: 1,
            height: 1,
            x: -1,
            y: i64::MIN,
            channels: 1,
            matte_pixels: u64::MAX,
        };
        let job: Job = "args=-0,5e-324,1,2 viewport=1x1@-1,2 rows=0+1 samples=0.5~3"
            .parse()
            .unwrap();
        let answer = Answer {
            verdict: accepted,
            band: vec![1, 2, 3, 4],
        };
        let jobs = [
            Stored::new(&mut r, &job, &answer),
            Stored::new(&mut r, &job, &Answer::refused(&job, 2)),
        ];
        let file = write("made by hand", &jobs);
        let head = 8 + 12 + 8;
        let fixed = 18 * 8 + 32 + 7 + 32;
        assert_eq!(file.len(), head + 2 * fixed + 48 + 4);
        let (text, back) = read(&file).unwrap();
        assert_eq!(text, "made by hand");
        assert_eq!(back, jobs);
        assert_eq!(back[0].job(), job);
        assert!(back[0].numbers.viewport != 0 && back[0].numbers.bestfit == 0);
        assert!(read(&file[..file.len() - 1]).is_none());
        let longer = [&file[..], &[0]].concat();
        assert!(read(&longer).is_none());
    }
}
