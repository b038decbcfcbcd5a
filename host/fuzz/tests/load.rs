//! A day's work of a shop: 10,000 squarings in one process, each card with corner picks of its own, its size asked for,
//! then its rows in bands. The memory that the process holds stays as it is after the first hundred.

use differential::codes::{PERSPECTIVE, interpolation, policy};
use differential::random::Random;
use dihyravo::{Answer, Job, distort_into};
use std::fs;

const CARDS: u64 = 10_000;
const WARM: u64 = 100;
const WIDTH: u64 = 64;
const HEIGHT: u64 = 48;
const CHANNELS: u64 = 3;
const BAND: u64 = 16;

/// An alpha of 1 keeps the picture's three channels.
const BLACK: [f32; 4] = [0.0, 0.0, 0.0, 1.0];

/// What the process may hold more at the end, in KiB: the heap grows in steps of 132. A call that loses 32 bytes loses
/// more.
const SLACK: u64 = 264;

/// KiB of memory that the process has asked for. What is resident is no measure: the system takes pages away and gives
/// them back, and tells their number a few dozen pages late.
fn held() -> u64 {
    let status = fs::read_to_string("/proc/self/status").expect("the process can be looked at");
    let line = status.lines().find_map(|line| line.strip_prefix("VmData:"));
    let words = line.and_then(|line| line.split_whitespace().next()?.parse().ok());
    words.expect("the process holds memory")
}

/// The four corners, each picked a few pixels off.
fn picks(r: &mut Random) -> Vec<u8> {
    let (w, h) = (WIDTH as f64, HEIGHT as f64);
    let corners = [(0.0, 0.0), (w, 0.0), (w, h), (0.0, h)];
    let mut pairs = Vec::new();
    for (x, y) in corners {
        pairs.extend([x + r.real(-4.0, 4.0), y + r.real(-4.0, 4.0), x, y]);
    }
    pairs.iter().flat_map(|x: &f64| x.to_le_bytes()).collect()
}

/// Squares a card in bands; the sum of its bytes, so that none is left unread.
fn square(mut job: Job, band: &mut [u8]) -> u64 {
    let mut answer = [0; 48];
    assert_eq!(
        distort_into(&job, &mut [], &mut answer),
        0,
        "the size is known"
    );
    let size = Answer::read(&answer);
    let row = (size.width * size.channels * 4) as usize;
    let mut sum = 0u64;
    while job.first_row < size.height {
        job.rows = BAND.min(size.height - job.first_row);
        let band = &mut band[..row * job.rows as usize];
        assert_eq!(distort_into(&job, band, &mut answer), 0, "rows are given");
        sum += band.iter().map(|&byte| u64::from(byte)).sum::<u64>();
        job.first_row += job.rows;
    }
    sum
}

#[test]
fn ten_thousand_squarings_hold_no_more_memory() {
    let count = WIDTH * HEIGHT * CHANNELS;
    let sample = |k: u64| (k * 7_919 % 10_007) as f32 / 10_006.0;
    let picture: Vec<u8> = (0..count).flat_map(|k| sample(k).to_le_bytes()).collect();
    let mut band = vec![0; (BAND * WIDTH * CHANNELS * 4) as usize];
    let (mut before, mut sums) = (0, 0u64);
    for card in 0..CARDS {
        let arguments = picks(&mut Random::nth(1, card));
        let job = Job {
            picture: &picture,
            width: WIDTH,
            height: HEIGHT,
            channels: CHANNELS,
            method: PERSPECTIVE,
            arguments: &arguments,
            policy: policy::EDGE,
            interpolation: interpolation::BILINEAR,
            background: fuzz::lent::colour(BLACK),
            matte: fuzz::lent::colour(BLACK),
            bestfit: 0,
            viewport: 0,
            view_width: 0,
            view_height: 0,
            view_x: 0,
            view_y: 0,
            first_row: 0,
            rows: 0,
        };
        sums = sums.wrapping_add(square(job, &mut band));
        if card == WARM {
            before = held();
        }
    }
    let after = held();
    println!(
        "{CARDS} squarings: {before} KiB held after the first {WARM}, {after} KiB at the end; sum {sums}"
    );
    assert!(after <= before + SLACK, "{before} KiB and then {after} KiB");
}
