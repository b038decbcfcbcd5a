//! The stack that a call needs, measured over every method and interpolation and a few thousand cases: below the 32 KiB
//! that dihyravo.h promises.

use differential::codes::{INTERPOLATIONS, METHODS, PRESENT};
use differential::{Job, expected, generate};
use dihyravo_sys::stand_in;
use fuzz::SEED;
use fuzz::callee::{Distort, dihyravo_distort};
use fuzz::cases;
use fuzz::lent::Lent;
use fuzz::stack::Stack;
use std::hint::black_box;

const LIMIT: usize = 32 * 1024;
const CASES: u64 = 3_000;

/// Good jobs, one at least for every method with every interpolation, and any cases.
fn calls() -> Vec<Lent> {
    let r = reference::open();
    let window = |job: &Job| r.and_then(|r| expected::window_of(r, job));
    let mut calls = Vec::new();
    for index in 0..CASES {
        let case = cases::case(r, SEED, index);
        calls.push(case.lent);
        let mut job = generate::call(SEED + 1, index, &window);
        job.interpolation = index % INTERPOLATIONS.len() as u64;
        calls.push(Lent::of(&job, &mut case.random.clone()));
    }
    calls
}

#[test]
fn a_call_needs_less_than_32_kib() {
    let mut stack = Stack::default();
    let mut deepest = [[0; INTERPOLATIONS.len()]; METHODS.len()];
    let (mut refused, mut accepted) = (0, 0);
    for lent in calls() {
        let (bytes, number) = stack.of_call(dihyravo_distort, &lent);
        if number == 0 {
            let n = lent.numbers;
            let place = &mut deepest[n.method as usize][n.interpolation as usize];
            *place = bytes.max(*place);
            accepted = bytes.max(accepted);
        } else {
            refused = bytes.max(refused);
        }
    }
    for method in PRESENT {
        let row = deepest[method as usize];
        println!("{:>22}: {row:?}", METHODS[method as usize]);
        assert!(row.iter().all(|&bytes| bytes > 0), "a pair is missing");
    }
    println!(
        "bytes of stack that a call needs: {accepted} at most where it is accepted, {refused} where it is refused"
    );
    assert!(accepted < LIMIT && refused < LIMIT);
}

stand_in! {
    /// A callee that needs 32 KiB.
    fn deep(_lent) {
        let bytes = black_box([1u8; LIMIT]);
        u64::from(bytes[0])
    }
}

#[test]
fn a_callee_that_needs_more_is_found() {
    let callee: Distort = deep;
    let lent = cases::case(reference::open(), SEED, 0).lent;
    let (bytes, number) = Stack::default().of_call(callee, &lent);
    assert_eq!(number, 1);
    assert!((LIMIT..LIMIT + 4_096).contains(&bytes), "{bytes}");
}
