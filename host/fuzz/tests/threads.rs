//! Eight threads at once on one picture: every method, interpolation and policy, the same bits as one thread alone.

use differential::codes::{INTERPOLATIONS, POLICIES, PRESENT};
use dihyravo::{Job, distort_into};
use fuzz::sweep;
use std::sync::Barrier;
use std::thread;

const THREADS: usize = 8;
const ROUNDS: usize = 3;
const WIDTH: u64 = 61;
const HEIGHT: u64 = 47;
const CHANNELS: u64 = 4;

/// A job of a picture: every method with every interpolation, the policies in turn.
fn jobs<'a>(picture: &'a [u8], arguments: &'a [Vec<u8>]) -> Vec<Job<'a>> {
    let mut jobs = Vec::new();
    for (method, arguments) in PRESENT.into_iter().zip(arguments) {
        for interpolation in 0..INTERPOLATIONS.len() as u64 {
            jobs.push(Job {
                picture,
                width: WIDTH,
                height: HEIGHT,
                channels: CHANNELS,
                method,
                arguments,
                policy: jobs.len() as u64 % POLICIES.len() as u64,
                interpolation,
                background: [0; 16],
                matte: [0; 16],
                bestfit: 0,
                viewport: 1,
                view_width: WIDTH + 8,
                view_height: HEIGHT + 6,
                view_x: -4,
                view_y: -3,
                first_row: 0,
                rows: HEIGHT + 6,
            });
        }
    }
    jobs
}

/// What a job leaves.
fn left(job: &Job) -> ([u8; 48], Vec<u8>) {
    let mut band = vec![0x5a; (job.rows * job.view_width * CHANNELS * 4) as usize];
    let mut answer = [0; 48];
    assert_eq!(distort_into(job, &mut band, &mut answer), 0, "{job:?}");
    (answer, band)
}

#[test]
fn eight_threads_give_the_same_bits() {
    let count = WIDTH * HEIGHT * CHANNELS;
    let sample = |k: u64| (k * 7_919 % 10_007) as f32 / 10_006.0;
    let picture: Vec<u8> = (0..count).flat_map(|k| sample(k).to_le_bytes()).collect();
    let bytes = |method| {
        sweep::arguments(method)
            .into_iter()
            .flat_map(f64::to_le_bytes)
    };
    let arguments: Vec<Vec<u8>> = PRESENT.into_iter().map(|m| bytes(m).collect()).collect();
    let jobs = jobs(&picture, &arguments);
    let alone: Vec<_> = jobs.iter().map(left).collect();
    assert!(alone.windows(2).all(|two| two[0] != two[1]));
    let start = Barrier::new(THREADS);
    thread::scope(|scope| {
        for thread in 0..THREADS {
            let (jobs, alone, start) = (&jobs, &alone, &start);
            scope.spawn(move || {
                start.wait();
                // Half of the threads go through the jobs together, half from elsewhere on.
                let first = if thread < THREADS / 2 { 0 } else { thread * 11 };
                for k in first..first + ROUNDS * jobs.len() {
                    let k = k % jobs.len();
                    assert!(left(&jobs[k]) == alone[k], "thread {thread}, job {k}");
                }
            });
        }
    });
    let calls = THREADS * ROUNDS * jobs.len();
    println!(
        "{THREADS} threads, {calls} calls of {} jobs: the same bits",
        jobs.len()
    );
}
