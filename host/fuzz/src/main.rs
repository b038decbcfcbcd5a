//! Beats on the compiled library. In the folder `host`:
//!
//!     cargo run --release --bin fuzz                  one piece: 100,000 calls
//!     cargo run --release --bin fuzz -- 0..100        ten million calls, a hundred pieces
//!     cargo run --release --bin fuzz -- --show SEED CASE    a case, told and run
//!
//! A piece has a seed of its own. `--one` makes one child at a time instead of one for each core. The others are for
//! the tests: `--here SEED FIRST END PLANT` runs cases in this process, `--heap SEED FIRST END` over blocks of the
//! heap.

use fuzz::callee::dihyravo_distort;
use fuzz::run::{self, Met, PATIENCE};
use fuzz::{heap, plants};
use std::ops::Range;
use std::process::ExitCode;
use std::thread;

fn main() -> ExitCode {
    let words: Vec<String> = std::env::args().skip(1).collect();
    let words: Vec<&str> = words.iter().map(String::as_str).collect();
    let done = match words[..] {
        ["--here", seed, first, end, plant] => here(seed, first, end, plant),
        ["--heap", seed, first, end, plant] => on_heap(seed, first, end, plant),
        ["--show", seed, case] => show(seed, case),
        ["--one", range] => pieces(range, 1),
        [range] => pieces(range, children()),
        [] => pieces("0..1", children()),
        _ => Err("the words are not understood; see the head of its source".into()),
    };
    match done {
        Ok(words) => {
            println!("{words}");
            ExitCode::SUCCESS
        }
        Err(words) => {
            eprintln!("fuzz: {words}");
            ExitCode::FAILURE
        }
    }
}

fn children() -> u64 {
    thread::available_parallelism().map_or(1, |n| n.get() as u64)
}

fn number(word: &str) -> Result<u64, String> {
    word.parse().map_err(|_| format!("{word} is no number"))
}

fn range(first: &str, end: &str) -> Result<Range<u64>, String> {
    Ok(number(first)?..number(end)?)
}

fn here(seed: &str, first: &str, end: &str, plant: &str) -> Result<String, String> {
    let callee = match plant {
        "" => dihyravo_distort,
        name => plants::named(name).ok_or_else(|| format!("no plant {name}"))?,
    };
    // A planted callee that does not end is waited for a few seconds only.
    let seconds = if plant.is_empty() { PATIENCE } else { 4 };
    let met = run::here(callee, number(seed)?, range(first, end)?, seconds)?;
    Ok(met.numbers())
}

fn on_heap(seed: &str, first: &str, end: &str, plant: &str) -> Result<String, String> {
    let callee = match plant {
        "" => dihyravo_distort,
        "reads the band" => plants::READS_THE_BAND,
        name => plants::named(name).ok_or_else(|| format!("no plant {name}"))?,
    };
    let indices = range(first, end)?;
    let cases = indices.end - indices.start;
    let accepted = heap::run(callee, number(seed)?, indices)?;
    Ok(format!(
        "{cases} cases on the heap, each called twice, {accepted} of them accepted"
    ))
}

fn show(seed: &str, case: &str) -> Result<String, String> {
    let (seed, case) = (number(seed)?, number(case)?);
    println!("{}", run::told(seed, case, "as it is"));
    let met = run::here(dihyravo_distort, seed, case..case + 1, PATIENCE)?;
    Ok(met.to_string())
}

fn pieces(words: &str, children: u64) -> Result<String, String> {
    let (first, end) = words.split_once("..").ok_or("pieces are FIRST..END")?;
    let program = std::env::current_exe().map_err(|e| e.to_string())?;
    let mut all = Met::default();
    for piece in range(first, end)? {
        let met = run::piece(&program, piece, children)?;
        println!(
            "piece {piece}, seed {}: {} calls, nothing found",
            fuzz::SEED + piece,
            met.calls()
        );
        all.add(&met);
    }
    Ok(all.to_string())
}
