//! Runs of many cases: in this process, and in children that a fault may end.

use crate::callee::Distort;
use crate::cases::{KINDS, case};
use crate::check::Rooms;
use crate::model::asked;
use crate::names::Names;
use crate::{CALLS, SEED, fault, names};
use std::fmt;
use std::ops::Range;
use std::path::Path;
use std::process::Command;
use std::thread;

/// Calls that a case makes.
const TWICE: u64 = 2;

/// Seconds that a case may run, by the process's own time.
pub const PATIENCE: u32 = 60;

/// One case of so many asks the name readers too.
const NAMES: u64 = 16;

/// What was met.
#[derive(Clone, Debug, Default, PartialEq, Eq)]
pub struct Met {
    /// Cases by what was answered: accepted, then by refusal.
    pub answers: [u64; 12],
    /// Cases by kind, and how many of them were accepted.
    pub kinds: [u64; 6],
    pub accepted: [u64; 6],
    /// Calls of a name reader.
    pub readers: u64,
}

impl Met {
    pub fn cases(&self) -> u64 {
        self.answers.iter().sum()
    }

    /// Calls of the distort call.
    pub fn calls(&self) -> u64 {
        TWICE * self.cases()
    }

    pub fn add(&mut self, other: &Met) {
        let sums = [
            (&mut self.answers[..], &other.answers[..]),
            (&mut self.kinds[..], &other.kinds[..]),
            (&mut self.accepted[..], &other.accepted[..]),
        ];
        for (mine, theirs) in sums {
            mine.iter_mut().zip(theirs).for_each(|(a, b)| *a += b);
        }
        self.readers += other.readers;
    }

    /// The numbers in one line, as a child hands them to its parent.
    pub fn numbers(&self) -> String {
        let all = [
            &self.answers[..],
            &self.kinds,
            &self.accepted,
            &[self.readers],
        ]
        .concat();
        let words: Vec<String> = all.iter().map(u64::to_string).collect();
        format!("met: {}", words.join(" "))
    }

    /// Reads such a line.
    pub fn read(line: &str) -> Option<Self> {
        let words = line.strip_prefix("met: ")?.split_whitespace();
        let numbers: Vec<u64> = words.map(str::parse).collect::<Result<_, _>>().ok()?;
        let (answers, rest) = numbers.split_first_chunk::<12>()?;
        let (kinds, rest) = rest.split_first_chunk::<6>()?;
        let (accepted, rest) = rest.split_first_chunk::<6>()?;
        let [readers] = *rest else { return None };
        Some(Self {
            answers: *answers,
            kinds: *kinds,
            accepted: *accepted,
            readers,
        })
    }
}

impl fmt::Display for Met {
    fn fmt(&self, f: &mut fmt::Formatter) -> fmt::Result {
        write!(
            f,
            "{} calls of {} cases; accepted and by refusal: {:?}; by kind, and accepted of them:",
            self.calls(),
            self.cases(),
            self.answers
        )?;
        for (k, kind) in KINDS.iter().enumerate() {
            write!(f, " {kind:?} {} {}", self.kinds[k], self.accepted[k])?;
        }
        write!(f, "; {} calls of the name readers", self.readers)
    }
}

/// Runs the cases of a seed here. A fault, or a case that runs for more than so many seconds, ends the process: see
/// `fault`.
pub fn here(callee: Distort, seed: u64, indices: Range<u64>, seconds: u32) -> Result<Met, String> {
    let reference = reference::open();
    let (mut rooms, mut readers) = (Rooms::default(), Names::default());
    let mut met = Met::default();
    fault::install();
    for index in indices {
        fault::case(seed, index, seconds);
        let mut case = case(reference, seed, index);
        let asked = asked(reference, &case.lent.job());
        let checked = rooms.check(callee, &case.lent, asked, &mut case.random);
        let number = checked.map_err(|words| told(seed, index, &words))?;
        let kind = case.kind as usize;
        met.kinds[kind] += 1;
        met.accepted[kind] += u64::from(number == 0);
        let answer = met.answers.get_mut(number as usize);
        *answer.ok_or_else(|| told(seed, index, "the refusal has no row in the table"))? += 1;
        if index % NAMES == 0 {
            let checked = readers.check(reference, seed, index);
            checked.map_err(|words| told(seed, index, &words))?;
            met.readers += names::CALLS;
        }
    }
    fault::done();
    Ok(met)
}

/// What is wrong with a case, and the case.
pub fn told(seed: u64, index: u64, words: &str) -> String {
    let case = case(reference::open(), seed, index);
    let (kind, job) = (case.kind, case.lent.job());
    format!(
        "case {index} of seed {seed}, {kind:?}: {words}\n  {job}\n  numbers {:?}",
        case.lent.numbers.in_order()
    )
}

/// Runs the cases of a seed in a child, `program` being this crate's. `plant` is the name of a planted fault, or empty.
pub fn child(program: &Path, seed: u64, indices: Range<u64>, plant: &str) -> Result<Met, String> {
    let words = [seed, indices.start, indices.end].map(|n| n.to_string());
    let run = Command::new(program)
        .arg("--here")
        .args(words)
        .arg(plant)
        .output();
    let run = run.map_err(|e| format!("{}: {e}", program.display()))?;
    let (out, err) = (
        String::from_utf8_lossy(&run.stdout),
        String::from_utf8_lossy(&run.stderr),
    );
    if let Some(at) = err.lines().find_map(fault::read) {
        let what = if at.late { "no end" } else { "fault" };
        let words = format!("{what}: in call {}", at.call);
        return Err(told(at.seed, at.case, &words));
    }
    match (out.lines().find_map(Met::read), err.strip_prefix("fuzz: ")) {
        (Some(met), _) if run.status.success() => Ok(met),
        (_, Some(words)) => Err(words.into()),
        _ => Err(format!("{}: {err}", run.status)),
    }
}

/// A piece, 100,000 calls under a seed of its own, in as many children at once as are asked for.
pub fn piece(program: &Path, piece: u64, children: u64) -> Result<Met, String> {
    let cases = CALLS / TWICE;
    let part = |k: u64| cases * k / children..cases * (k + 1) / children;
    let met = thread::scope(|scope| {
        let start = |k| scope.spawn(move || child(program, SEED + piece, part(k), ""));
        let started: Vec<_> = (0..children).map(start).collect();
        let ended = started
            .into_iter()
            .map(|part| part.join().expect("a child is waited for"));
        ended.collect::<Result<Vec<Met>, String>>()
    })?;
    let mut all = Met::default();
    met.iter().for_each(|part| all.add(part));
    Ok(all)
}
