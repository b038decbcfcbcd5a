//! The file of stored answers: what it holds, and that the original and the model of the refusal table still say so.

use differential::stored::{self, Stored};
use differential::{Answer, Verdict, codes, expected};
use reference::reference_or_skip;

fn jobs() -> Vec<Stored> {
    let path = concat!(env!("CARGO_MANIFEST_DIR"), "/../../tests/replay-cases/jobs");
    let file = std::fs::read(path).expect("the stored answers are there");
    let (text, jobs) = stored::read(&file).expect("the stored answers can be read");
    assert!(text.contains("cargo run --release --bin store_jobs"));
    jobs
}

#[test]
fn every_kind_is_stored() {
    let jobs = jobs();
    assert!(jobs.len() > 1_900);
    let accepted = jobs.iter().filter(|job| job.answer.is_ok());
    let mut seen = [[0; 9]; 14];
    let (mut methods, mut channels) = ([0; 14], [0; 5]);
    for job in accepted {
        let n = job.numbers;
        seen[n.policy as usize][n.interpolation as usize] += 1;
        methods[n.method as usize] += 1;
        channels[n.channels as usize] += 1;
    }
    assert!(seen.iter().flatten().all(|&n| n > 10), "{seen:?}");
    assert!(codes::PRESENT.iter().all(|&m| methods[m as usize] > 50));
    assert!([1, 3, 4].iter().all(|&c| channels[c] > 100));
    for number in 1..=11 {
        let count = jobs.iter().filter(|job| job.answer == Err(number)).count();
        assert!(count > 40, "{count} are refused by {number}");
    }
}

#[test]
fn the_original_answers_so() {
    let r = reference_or_skip!();
    for (k, stored) in jobs().iter().enumerate() {
        let job = stored.job();
        let Answer { verdict, band } = expected::expected(r, &job);
        let same = match (&stored.answer, verdict) {
            (Err(number), Verdict::Refused(said)) => *number == u64::from(said),
            (Ok((answer, stored)), Verdict::Accepted { .. }) => {
                *stored == band && *answer == stored::answer_bytes(verdict).expect("accepted")
            }
            _ => false,
        };
        assert!(same, "job {k}: {job}: {verdict}");
    }
}
