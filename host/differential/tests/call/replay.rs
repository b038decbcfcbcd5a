//! The stored answers, replayed by the compiled call. The reference is not asked.

use differential::stored::{self, Stored};
use dihyravo::distort_into;

/// What the buffers hold before a call.
const FRESH: u8 = 0xa5;

/// Where a call parts from the stored answer, in words.
fn parts(stored: &Stored) -> Option<String> {
    let n = stored.numbers;
    let job = dihyravo::Job {
        picture: &stored.picture,
        width: n.width,
        height: n.height,
        channels: n.channels,
        method: n.method,
        arguments: &stored.arguments,
        policy: n.policy,
        interpolation: n.interpolation,
        background: stored.background,
        matte: stored.matte,
        bestfit: n.bestfit,
        viewport: n.viewport,
        view_width: n.view.width,
        view_height: n.view.height,
        view_x: n.view.x,
        view_y: n.view.y,
        first_row: n.first_row,
        rows: n.rows,
    };
    let mut band = vec![FRESH; stored.band_length];
    let mut answer = [FRESH; 48];
    let number = distort_into(&job, &mut band, &mut answer);
    let untouched = ([FRESH; 48], vec![FRESH; stored.band_length]);
    let (asked, (words, bytes)) = match &stored.answer {
        Ok(left) => (0, left),
        Err(number) => (*number, &untouched),
    };
    if number != asked {
        return Some(format!("answered with {number} and not {asked}"));
    }
    if answer != *words {
        return Some(format!("the answer is {answer:?} and not {words:?}"));
    }
    let byte = band.iter().zip(bytes).position(|(a, b)| a != b)?;
    Some(format!("byte {byte} of the band differs"))
}

#[test]
fn stored_answers() {
    let path = concat!(env!("CARGO_MANIFEST_DIR"), "/../../tests/replay-cases/jobs");
    let file = std::fs::read(path).expect("the stored answers are there");
    let (_, jobs) = stored::read(&file).expect("the stored answers can be read");
    for (k, stored) in jobs.iter().enumerate() {
        if let Some(words) = parts(stored) {
            panic!("job {k}: {}: {words}", stored.job());
        }
    }
    println!("{} jobs replayed", jobs.len());
}
