//! What a call leaves: its verdict and every byte of the band.

use crate::Job;
use std::fmt;

#[derive(Clone, Copy, Debug, PartialEq, Eq)]
pub enum Verdict {
    /// A byte that the call must not write is changed; where it is.
    Stray(&'static str),
    Refused(u8),
    Accepted {
        width: u64,
        height: u64,
        x: i64,
        y: i64,
        channels: u64,
        /// Pixels of the band without a usable source point.
        matte_pixels: u64,
    },
}

#[derive(Clone, Debug, PartialEq, Eq)]
pub struct Answer {
    pub verdict: Verdict,
    /// The band afterwards, refused or not.
    pub band: Vec<u8>,
}

impl Answer {
    /// A refusal that changes nothing.
    pub fn refused(job: &Job, number: u8) -> Self {
        Self {
            verdict: Verdict::Refused(number),
            band: job.fresh_band(),
        }
    }
}

impl fmt::Display for Verdict {
    fn fmt(&self, f: &mut fmt::Formatter) -> fmt::Result {
        match self {
            Verdict::Stray(place) => write!(f, "a byte of {place} is changed"),
            Verdict::Refused(number) => write!(f, "refused {number}"),
            Verdict::Accepted {
                width,
                height,
                x,
                y,
                channels,
                matte_pixels,
            } => write!(
                f,
                "accepted {width}x{height}@{x},{y}, {channels} channels, {matte_pixels} matte pixels"
            ),
        }
    }
}

/// Where two answers to one job part first, in words; none where they are the same.
pub fn parting(left: &Answer, right: &Answer) -> Option<String> {
    if left.verdict != right.verdict {
        return Some(format!(
            "the verdict: {} against {}",
            left.verdict, right.verdict
        ));
    }
    if left.band.len() != right.band.len() {
        let (l, r) = (left.band.len(), right.band.len());
        return Some(format!("the band's length: {l} against {r} bytes"));
    }
    let first = (0..left.band.len()).find(|&k| left.band[k] != right.band[k])?;
    Some(place(left, right, first))
}

fn place(left: &Answer, right: &Answer, byte: usize) -> String {
    let Verdict::Accepted {
        width, channels, ..
    } = left.verdict
    else {
        return format!("byte {byte} of the band of a refused job");
    };
    let (width, channels) = (width.max(1), channels.max(1));
    let sample = byte / 4;
    let read = |band: &[u8]| {
        let bytes = band[sample * 4..].first_chunk().copied();
        bytes.map_or("part of a float".into(), |b| {
            let x = f32::from_le_bytes(b);
            format!("{x:?} (0x{:08x})", x.to_bits())
        })
    };
    let (pixel, channel) = (sample as u64 / channels, sample as u64 % channels);
    format!(
        "row {} of the band, column {}, channel {channel}: {} against {}",
        pixel / width,
        pixel % width,
        read(&left.band),
        read(&right.band)
    )
}
