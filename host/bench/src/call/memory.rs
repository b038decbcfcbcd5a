//! What the test of all samples costs alone: a call for no rows, beside a copy and a plain read of the same bytes.

use super::measure::{Source, own, product, time};
use super::rows::{EDGE, Row};
use differential::codes;
use std::hint::black_box;
use std::time::Instant;

/// Nanoseconds for the whole picture, the best of many rounds in turns.
#[derive(Clone, Copy, Debug)]
pub struct Memory {
    pub bytes: f64,
    pub test: f64,
    pub copy: f64,
    pub read: f64,
}

impl Memory {
    /// Bytes of the picture for each nanosecond, which is GB/s; a copied byte counts once.
    pub fn speed(&self, nanoseconds: f64) -> f64 {
        self.bytes / nanoseconds
    }
}

pub fn measure(source: &Source, seconds: f64) -> Memory {
    let row = Row {
        shape: source.shape,
        method: codes::AFFINE,
        interpolation: codes::interpolation::BILINEAR,
        policy: EDGE,
    };
    // One pair: a shift, whose fit takes no time.
    let mut none = product(&row, &source.bytes, &[0; 32]);
    none.rows = 0;
    let mut copied = vec![1u8; source.bytes.len()];
    let (mut test, mut copy, mut read) = (f64::INFINITY, f64::INFINITY, f64::INFINITY);
    let start = Instant::now();
    let mut rounds = 0;
    while rounds < 8 || start.elapsed().as_secs_f64() < seconds {
        test = test.min(time(|| own(&none, &mut [])));
        copy = copy.min(time(|| {
            copied.copy_from_slice(black_box(&source.bytes));
            black_box(&mut copied);
        }));
        read = read.min(time(|| {
            black_box(sum(black_box(&source.bytes)));
        }));
        rounds += 1;
    }
    Memory {
        bytes: source.bytes.len() as f64,
        test,
        copy,
        read,
    }
}

/// Reads every byte once: the sum of the words, in eight parts so that none waits for the other.
fn sum(bytes: &[u8]) -> u64 {
    let (lines, rest) = bytes.as_chunks::<64>();
    let mut parts = [0u64; 8];
    for line in lines {
        for (part, word) in parts.iter_mut().zip(line.as_chunks::<8>().0) {
            *part = part.wrapping_add(u64::from_le_bytes(*word));
        }
    }
    let tail = rest.iter().map(|&byte| u64::from(byte)).sum();
    parts.into_iter().fold(tail, u64::wrapping_add)
}
