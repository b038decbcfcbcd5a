//! The lines of host/README.md and of the project's README.md that show the use from Rust and from C stand in programs
//! that are run.

const READMES: [&str; 2] = [
    include_str!("../../../README.md"),
    include_str!("../../../../README.md"),
];
const RUST: &str = include_str!("../../src/distort.rs");
const C: &str = include_str!("../../../c/square.c");

/// The indented lines under a heading, commands aside.
fn shown<'a>(readme: &'a str, heading: &str) -> Vec<&'a str> {
    let (_, after) = readme
        .split_once(&format!("\n## {heading}\n"))
        .expect("the heading");
    let section = after.split("\n## ").next().unwrap_or(after);
    let indented = section.lines().filter_map(|line| line.strip_prefix("    "));
    indented
        .map(str::trim)
        .filter(|line| !line.starts_with('$'))
        .collect()
}

/// Each shown line is one of the program's, comment marks aside.
fn stand_in(lines: &[&str], program: &str) {
    assert!(lines.len() >= 3, "{} lines are shown", lines.len());
    for line in lines {
        let found = program
            .lines()
            .any(|own| own.trim_start_matches("///").trim() == *line);
        assert!(found, "{line}");
    }
}

#[test]
fn from_rust() {
    for readme in READMES {
        stand_in(&shown(readme, "From Rust"), RUST);
    }
}

#[test]
fn from_c() {
    for readme in READMES {
        stand_in(&shown(readme, "From C"), C);
    }
}
