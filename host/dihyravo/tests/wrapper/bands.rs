//! Whole pictures over threads and bands, bit for bit; bands asked for one by one; the progress.

use crate::jobs::{all, bits, picture};
use dihyravo::{Distort, Distorted, Method, Refusal, raw::Answer};
use std::collections::HashSet;
use std::thread;

fn same(distorted: &Distorted, answer: &Answer, samples: &[u32]) -> bool {
    let picture = &distorted.picture;
    let size = (picture.width(), picture.height(), picture.channels());
    let offset = (distorted.x, distorted.y);
    size == (answer.width, answer.height, answer.channels)
        && offset == (answer.x, answer.y)
        && distorted.matte_pixels == answer.matte_pixels
        && bits(picture.samples()) == samples
}

#[test]
fn every_method_over_threads_and_bands() {
    let mut with_matte = 0;
    for (k, given) in all().into_iter().enumerate() {
        let picture = picture(19, 13, [1, 3, 4][k % 3]);
        let (answer, samples) = given.raw(&picture);
        with_matte += u64::from(answer.matte_pixels > 0);
        for threads in 0..=8 {
            for rows in 0..=answer.height + 1 {
                let distort = given.distort().with_threads(threads).with_rows(rows);
                let distorted = distort.distort(&picture).expect("an accepted job");
                let method = given.method;
                assert!(
                    same(&distorted, &answer, &samples),
                    "{method}, {threads} threads, {rows} rows"
                );
            }
        }
    }
    assert!(with_matte > 0, "no job has matte pixels to be added up");
}

/// Numbers beyond any picture are no numbers beyond the machine.
#[test]
fn huge_numbers_of_rows_and_threads() {
    let given = all().swap_remove(0);
    let picture = picture(19, 13, 3);
    let (answer, samples) = given.raw(&picture);
    for (threads, rows) in [(usize::MAX, 0), (2, u64::MAX), (usize::MAX, u64::MAX)] {
        let distort = given.distort().with_threads(threads).with_rows(rows);
        let distorted = distort.distort(&picture).expect("an accepted job");
        assert!(same(&distorted, &answer, &samples));
    }
}

#[test]
fn rows_one_by_one() {
    for given in all() {
        let picture = picture(19, 13, 3);
        let (answer, samples) = given.raw(&picture);
        let distort = given.distort();
        let size = distort.size(&picture).expect("the size");
        let mut matte_pixels = 0;
        for (first, rows) in (0..size.height).zip([3, 1, 2].into_iter().cycle()) {
            let end = size.height.min(first + rows);
            let mut band = vec![f32::NAN; size.band_length(end - first)];
            let told = distort
                .distort_rows(&picture, first..end, &mut band)
                .expect("a band");
            let from = size.band_length(first);
            assert_eq!(bits(&band), samples[from..from + band.len()]);
            if rows == 1 {
                assert!(told.matte_pixels <= size.width);
            }
            let one = &mut band[..size.band_length(1)];
            matte_pixels += distort
                .distort_rows(&picture, first..first + 1, one)
                .expect("a row")
                .matte_pixels;
        }
        assert_eq!(matte_pixels, answer.matte_pixels);
    }
}

#[test]
fn a_refused_band_is_kept() {
    let picture = picture(19, 13, 3);
    let distort = Distort::new(Method::Affine, [0.0; 4]);
    let mut band = vec![7.0; 19 * 3];
    assert_eq!(
        distort.distort_rows(&picture, 13..14, &mut band),
        Err(Refusal::Rows)
    );
    assert_eq!(
        distort.distort_rows(&picture, 0..2, &mut band),
        Err(Refusal::Tray)
    );
    assert_eq!(
        distort.distort_rows(&picture, u64::MAX - 1..u64::MAX, &mut band),
        Err(Refusal::Rows)
    );
    assert_eq!(band, vec![7.0; 19 * 3]);
    assert!(distort.distort_rows(&picture, 12..13, &mut band).is_ok());
    assert_eq!(bits(&band), bits(picture.row(12).expect("a row")));
}

/// A range that ends before it starts has no rows.
#[test]
#[allow(clippy::reversed_empty_ranges)]
fn no_rows() {
    let picture = picture(19, 13, 1);
    let distort = Distort::new(Method::Affine, [0.0; 4]);
    assert!(distort.distort_rows(&picture, 9..3, &mut []).is_ok());
    assert!(distort.distort_rows(&picture, 13..13, &mut []).is_ok());
    assert_eq!(
        distort.distort_rows(&picture, 14..14, &mut []),
        Err(Refusal::Rows)
    );
    assert_eq!(
        distort.distort_rows(&picture, 9..3, &mut [0.0]),
        Err(Refusal::Tray)
    );
}

#[test]
fn progress_grows_to_the_height() {
    let picture = picture(64, 64, 3);
    for threads in 1..=8 {
        let mut told = Vec::new();
        let distort = Distort::new(Method::Affine, [0.0; 4])
            .with_threads(threads)
            .with_rows(5);
        let progress = |done, rows| told.push((done, rows));
        distort
            .distort_with(&picture, progress)
            .expect("an accepted job");
        assert_eq!(told.len(), 13);
        assert!(told.is_sorted_by(|a, b| a.0 < b.0));
        assert!(told.iter().all(|&(_, rows)| rows == 64));
        assert_eq!(told.last(), Some(&(64, 64)));
    }
}

/// How many threads work at 64 bands of a row each, a millisecond a band.
fn workers(threads: usize) -> usize {
    let picture = picture(64, 64, 3);
    let mut workers = HashSet::new();
    let distort = Distort::new(Method::Affine, [0.0; 4])
        .with_threads(threads)
        .with_rows(1);
    let slowly = |_, _| {
        workers.insert(thread::current().id());
        thread::sleep(std::time::Duration::from_millis(1));
    };
    distort
        .distort_with(&picture, slowly)
        .expect("an accepted job");
    workers.len()
}

/// The system may let one thread do all of it, but not time after time.
#[test]
fn several_threads_work() {
    let most = (0..20)
        .map(|_| workers(4))
        .inspect(|&n| assert!((1..=4).contains(&n), "{n} threads"))
        .find(|&n| n > 1);
    assert!(most.is_some(), "one thread did all the work, 20 times");
}

#[test]
#[should_panic(expected = "by the caller")]
fn a_panic_of_the_progress_is_passed_on() {
    let picture = picture(64, 64, 3);
    let distort = Distort::new(Method::Affine, [0.0; 4])
        .with_threads(2)
        .with_rows(1);
    let _ = distort.distort_with(&picture, |_, _| panic!("by the caller"));
}
