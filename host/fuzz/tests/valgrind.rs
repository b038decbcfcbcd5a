//! A few hundred cases under valgrind's memcheck, each buffer a block of the heap of just its length, the band not
//! initialised; and planted faults are found there too.

use fuzz::SEED;
use std::process::{Command, Output};

/// What memcheck ends with where it has found something.
const FOUND: i32 = 9;

const CASES: u64 = 300;

fn memcheck(cases: u64, plant: &str) -> Option<Output> {
    let mut run = Command::new("valgrind");
    run.args(["--quiet", "--leak-check=no", "--trace-children=no"]);
    run.arg(format!("--error-exitcode={FOUND}"));
    run.arg(env!("CARGO_BIN_EXE_fuzz"));
    run.args(["--heap", &SEED.to_string(), "0", &cases.to_string(), plant]);
    match run.output() {
        Ok(output) => Some(output),
        Err(e) if e.kind() == std::io::ErrorKind::NotFound => None,
        Err(e) => panic!("valgrind: {e}"),
    }
}

#[test]
fn memcheck_finds_nothing() {
    let Some(run) = memcheck(CASES, "") else {
        println!("skipped: memcheck_finds_nothing: valgrind is not there");
        return;
    };
    let (out, err) = (
        String::from_utf8_lossy(&run.stdout),
        String::from_utf8_lossy(&run.stderr),
    );
    assert_eq!(run.status.code(), Some(0), "{out}{err}");
    assert!(err.is_empty(), "{err}");
    println!("under memcheck: {}", out.trim());
}

#[test]
fn memcheck_finds_planted_faults() {
    // A callee does nothing wrong in its first 200 calls.
    let plants = [
        ("reads the band", "uninitialised"),
        ("reads beyond the picture", "Invalid read of size 1"),
        ("reads before the arguments", "Invalid read of size 1"),
        ("writes beyond the band", "Invalid write of size 1"),
    ];
    for (plant, words) in plants {
        let Some(run) = memcheck(150, plant) else {
            println!("skipped: memcheck_finds_planted_faults: valgrind is not there");
            return;
        };
        let err = String::from_utf8_lossy(&run.stderr);
        assert_eq!(run.status.code(), Some(FOUND), "{plant}: {err}");
        assert!(err.contains(words), "{plant}: {err}");
    }
}
