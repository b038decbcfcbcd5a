//! Nanoseconds an output pixel of the whole distort call: the product's through its archive, whole and in bands of 16
//! rows, and the original's `distort`; the time of one thread, of each the best of many rounds, in turns. The pictures
//! must be the same, bit for bit. And what the test of all samples costs alone, beside a copy of the picture.
//!
//! Words choose rows: `bench_call Perspective Bilinear 3` measures the rows that have all three in their names.
//! `--quick` makes few rounds, and without words measures the large picture of 3 channels under `Edge` alone: a minute.
//! `opencv=NS` is what OpenCV takes a pixel here.

mod call;

use call::goals;
use call::measure::{self, Effort, Source, Times};
use call::memory::{self, Memory};
use call::rows::{self, Row, Shape};
use reference::Reference;
use std::process::ExitCode;

/// What the command line asks for.
struct Asked {
    rows: Vec<Row>,
    quick: bool,
    opencv: f64,
}

fn main() -> ExitCode {
    let Some(reference) = reference::open() else {
        println!("left out: the reference is not there");
        return ExitCode::SUCCESS;
    };
    let asked = match asked() {
        Ok(asked) => asked,
        Err(words) => {
            eprintln!("bench_call: {words}");
            return ExitCode::from(2);
        }
    };
    keep_memory();
    run(reference, &asked);
    ExitCode::SUCCESS
}

fn asked() -> Result<Asked, String> {
    let (mut words, mut quick, mut opencv) = (Vec::new(), false, goals::OPENCV);
    for word in std::env::args().skip(1) {
        match word.strip_prefix("opencv=") {
            Some(text) => opencv = text.parse().map_err(|_| format!("{text} is no number"))?,
            None if word == "--quick" => quick = true,
            None => words.push(word),
        }
    }
    let rows = rows::chosen(&words, quick);
    if rows.is_empty() {
        return Err(format!("no row has the words {}", words.join(" ")));
    }
    Ok(Asked {
        rows,
        quick,
        opencv,
    })
}

fn run(r: Reference, asked: &Asked) {
    println!("Nanoseconds of one thread an output pixel, best of the rounds:\n");
    println!(
        "| picture | channels | method | interpolation | policy | whole | in bands | of share and test \
         | reference | times as fast | rounds |"
    );
    println!("|---|---|---|---|---|---:|---:|---:|---:|---:|---:|");
    let mut measured: Vec<(Row, Times)> = Vec::new();
    let mut memories: Vec<(Shape, Memory)> = Vec::new();
    let mut held: Option<Source> = None;
    for row in &asked.rows {
        let source = match held.take_if(|source| source.shape == row.shape) {
            Some(source) => source,
            None => {
                let source = Source::new(row.shape);
                let seconds = if asked.quick { 0.5 } else { 1.0 };
                memories.push((row.shape, memory::measure(&source, seconds)));
                source
            }
        };
        let source = held.insert(source);
        let times = measure::row(r, row, source, effort(row, asked.quick));
        print_row(row, &times);
        measured.push((*row, times));
    }
    print_memories(&memories);
    goals::print(&measured, &memories, asked.opencv);
}

fn effort(row: &Row, quick: bool) -> Effort {
    let (least, seconds) = match (row.shape.large(), quick) {
        (true, true) => (2, 0.6),
        (true, false) if row.policy == rows::EDGE => (3, 3.0),
        (true, false) => (2, 1.2),
        (false, _) => (15, 0.2),
    };
    Effort { least, seconds }
}

fn print_row(row: &Row, t: &Times) {
    println!(
        "| {} | {:.1} | {:.1} | {:.2} | {:.1} | {:.2} | {} |",
        row.words().join(" | "),
        t.whole,
        t.banded,
        t.more(),
        t.reference,
        t.ratio(),
        t.rounds
    );
}

fn print_memories(memories: &[(Shape, Memory)]) {
    println!(
        "\nThe test of all samples alone, GB of the picture a second (a copied byte counts once):\n"
    );
    println!("| picture | channels | MB | test | memcpy | plain read | test / memcpy |");
    println!("|---|---|---:|---:|---:|---:|---:|");
    for (shape, m) in memories {
        println!(
            "| {} | {} | {:.1} | {:.2} | {:.2} | {:.2} | {:.2} |",
            shape.size(),
            shape.kind(),
            m.bytes / 1e6,
            m.speed(m.test),
            m.speed(m.copy),
            m.speed(m.read),
            m.copy / m.test
        );
    }
}

/// Memory that is given back is kept and taken again, so that the original's output is touched before, as ours is.
fn keep_memory() {
    #[cfg(target_env = "gnu")]
    // SAFETY: two settings of the allocator, which are numbers.
    unsafe {
        libc::mallopt(libc::M_TRIM_THRESHOLD, i32::MAX);
        libc::mallopt(libc::M_MMAP_MAX, 0);
    }
}
