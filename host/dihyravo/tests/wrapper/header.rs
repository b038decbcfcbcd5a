//! The C header's constants are this crate's: codes of all names, the refusals, the limits.

use dihyravo::{Interpolate, LARGEST_SIDE, Method, Refusal, VirtualPixel};

const HEADER: &str = include_str!("../../../include/dihyravo.h");

/// `HorizontalTileEdge` as `HORIZONTAL_TILE_EDGE`.
fn capitals(name: &str) -> String {
    let parts = name
        .char_indices()
        .map(|(k, c)| match c.is_ascii_uppercase() && k > 0 {
            true => format!("_{c}"),
            false => c.to_ascii_uppercase().to_string(),
        });
    parts.collect()
}

/// The constants that begin with a word, and their numbers, in the header's order.
fn constants(prefix: &str) -> Vec<(&str, u64)> {
    let lines = HEADER
        .lines()
        .filter_map(|line| line.trim().strip_prefix(prefix));
    lines
        .filter_map(|line| {
            let (name, rest) = line.split_once(" = ")?;
            let digits = rest
                .find(|c: char| !c.is_ascii_digit())
                .unwrap_or(rest.len());
            Some((name, rest[..digits].parse().ok()?))
        })
        .collect()
}

fn same(prefix: &str, ours: impl Iterator<Item = (&'static str, u64)>) {
    let ours: Vec<(String, u64)> = ours.map(|(name, code)| (capitals(name), code)).collect();
    let theirs: Vec<(String, u64)> = constants(prefix)
        .into_iter()
        .map(|(name, code)| (name.to_owned(), code))
        .collect();
    assert_eq!(theirs, ours);
}

#[test]
fn codes() {
    same(
        "DIHYRAVO_METHOD_",
        Method::ALL.iter().map(|m| (m.name(), m.code())),
    );
    same(
        "DIHYRAVO_POLICY_",
        VirtualPixel::ALL.iter().map(|p| (p.name(), p.code())),
    );
    same(
        "DIHYRAVO_INTERPOLATION_",
        Interpolate::ALL.iter().map(|i| (i.name(), i.code())),
    );
}

#[test]
fn refusals() {
    same(
        "DIHYRAVO_REFUSAL_",
        Refusal::ALL.iter().map(|r| (r.word(), r.number())),
    );
    let words = Refusal::ALL.map(|r| format!("\"{}\"", r.word())).join(", ");
    let header: Vec<&str> = HEADER.split_whitespace().collect();
    assert!(
        header
            .join(" ")
            .contains(&format!("{{\"accepted\", {words}}}"))
    );
}

#[test]
fn limits() {
    let side = format!("#define DIHYRAVO_LARGEST_SIDE {LARGEST_SIDE} ");
    assert!(HEADER.contains(&side));
}
