//! The compiled library between unmapped pages: 100,000 calls, ten million with DIHYRAVO_FULL=1; and every planted
//! fault is found. A run is a child process, so that a fault ends it and not the tests.

use fuzz::plants::PLANTS;
use fuzz::run::{self, Met};
use fuzz::{SEED, cases, sweep};
use std::path::Path;
use std::thread;

fn program() -> &'static Path {
    Path::new(env!("CARGO_BIN_EXE_fuzz"))
}

fn pieces() -> u64 {
    if differential::full() { 100 } else { 1 }
}

#[test]
fn nothing_is_touched_that_is_not_lent() {
    let children = thread::available_parallelism().map_or(1, |n| n.get() as u64);
    let mut met = Met::default();
    for piece in 0..pieces() {
        match run::piece(program(), piece, children) {
            Ok(part) => met.add(&part),
            Err(words) => panic!("{words}"),
        }
    }
    println!("seeds {SEED}..{}: {met}", SEED + pieces());
    if !reference::PRESENT {
        println!("without the reference refusals 8 to 11 are not told from acceptance");
    }
    assert!(met.calls() >= pieces() * fuzz::CALLS);
    assert!(met.answers.iter().all(|&n| n > 100), "an answer is missing");
    assert!(met.kinds.iter().all(|&n| n > 1_000), "a kind is missing");
    assert!(met.accepted[..5].iter().all(|&n| n > 100));
    assert!(met.readers > 10_000);
}

/// Of one good job for each method: every length one short and one long, every huge number in every field.
#[test]
fn every_length_and_every_field() {
    let met = match run::child(program(), sweep::SEED, 0..sweep::CASES, "") {
        Ok(met) => met,
        Err(words) => panic!("{words}"),
    };
    println!("{met}");
    assert_eq!(met.cases(), sweep::CASES);
    // The good jobs, their lengths by 2, 4 and 11, and what is huge by the row of its field.
    assert!(met.accepted[0] == 10 && met.accepted[2] == 0 && met.kinds[2] == 60);
    assert!([1, 3, 9, 10].iter().all(|&n| met.answers[n] > 100));
    assert_eq!([2, 4, 11].map(|n| met.answers[n]), [20; 3]);
}

#[test]
fn planted_faults_are_found() {
    for (name, _, words) in PLANTS {
        match run::child(program(), SEED, 0..4_000, name) {
            Ok(_) => panic!("a callee that {name} is not found"),
            Err(found) => {
                let line = found.lines().next().unwrap_or_default();
                println!("{name}: {line}");
                let told = words.iter().any(|words| line.contains(words));
                assert!(told, "{name}: {found}");
                assert!(
                    line.starts_with("case "),
                    "{name}: the case is told: {line}"
                );
            }
        }
    }
}

#[test]
fn the_product_passes_where_the_planted_faults_are_found() {
    let met = run::child(program(), SEED, 0..4_000, "");
    assert_eq!(met.map(|met| met.cases()), Ok(4_000));
}

#[test]
fn a_seed_gives_its_cases_again() {
    let reference = reference::open();
    for index in 0..500 {
        let case = |seed| cases::case(reference, seed, index).lent;
        assert_eq!(case(SEED), case(SEED));
        assert_ne!(case(SEED), case(SEED + 1));
    }
}
