//! Nanoseconds a source point, for each method: the product's through its archive, rows at a time as its call works
//! them, and the original's `inverse`. Both go over the same points and leave the same bytes, in turns; of each, the
//! best of many rounds. A product's round has its fit in it, an original's has not.

use differential::{codes, expected};
use probes::Rows;
use reference::{Mapping, Reference};
use std::hint::black_box;
use std::time::Instant;

const WIDTH: u64 = 1_024;
const HEIGHT: u64 = 768;
/// Some rows in the middle of the picture.
const ROWS: Rows = Rows {
    x: 0,
    y: 0,
    first: HEIGHT / 2,
    rows: 16,
};
const ROUNDS: usize = 600;

fn main() {
    let Some(reference) = reference::open() else {
        println!("left out: the reference is not there");
        return;
    };
    let points = points();
    println!("ns a source point                product      Rust     ratio");
    for (name, method, args) in jobs() {
        report(reference, name, method, &args, &points);
    }
}

/// The centres of the rows' pixels, as bits of x and y.
fn points() -> Vec<u8> {
    let rows = ROWS.first..ROWS.first + ROWS.rows;
    let all = rows.flat_map(|j| (0..WIDTH).map(move |i| [i as f64 + 0.5, j as f64 + 0.5]));
    all.flatten().flat_map(f64::to_le_bytes).collect()
}

/// Pairs in a grid over the picture, each picked a few pixels off.
fn pairs(across: u64, down: u64) -> Vec<f64> {
    let off = |a: u64, b: u64| ((a * 7 + b * 13) % 11) as f64 - 5.0;
    let place = |k: u64, n: u64, side: u64| (k * side) as f64 / (n - 1) as f64;
    let grid = (0..down).flat_map(|j| (0..across).map(move |i| (i, j)));
    grid.flat_map(|(i, j)| {
        let (x, y) = (place(i, across, WIDTH), place(j, down, HEIGHT));
        [x + off(i, j), y + off(j, i), x, y]
    })
    .collect()
}

fn polynomial(order: f64) -> Vec<f64> {
    [vec![order], pairs(6, 6)].concat()
}

fn jobs() -> Vec<(&'static str, u64, Vec<f64>)> {
    let projection = vec![1.1, 0.1, -0.1, 0.9, 12.0, -7.0];
    let perspective = vec![1.1, 0.1, 3.0, -0.1, 0.9, 12.0, 1e-5, -2e-5];
    let barrel = vec![0.01, -0.02, 0.03];
    vec![
        ("Affine", codes::AFFINE, pairs(2, 2)),
        ("AffineProjection", codes::AFFINE_PROJECTION, projection),
        ("Perspective", codes::PERSPECTIVE, pairs(2, 2)),
        (
            "PerspectiveProjection",
            codes::PERSPECTIVE_PROJECTION,
            perspective,
        ),
        ("BilinearReverse", codes::BILINEAR_REVERSE, pairs(2, 2)),
        ("BilinearForward", codes::BILINEAR_FORWARD, pairs(2, 2)),
        ("Polynomial 1", codes::POLYNOMIAL, polynomial(1.0)),
        ("Polynomial 1.5", codes::POLYNOMIAL, polynomial(1.5)),
        ("Polynomial 2", codes::POLYNOMIAL, polynomial(2.0)),
        ("Polynomial 5", codes::POLYNOMIAL, polynomial(5.0)),
        ("Barrel", codes::BARREL, barrel.clone()),
        ("BarrelInverse", codes::BARREL_INVERSE, barrel),
        ("Shepards, 4 pairs", codes::SHEPARDS, pairs(2, 2)),
        ("Shepards, 64 pairs", codes::SHEPARDS, pairs(8, 8)),
    ]
}

fn report(r: Reference, name: &str, method: u64, args: &[f64], points: &[u8]) {
    let bytes: Vec<u8> = args.iter().flat_map(|x| x.to_le_bytes()).collect();
    let mapping = r
        .build(method as u8, args, WIDTH as f64, HEIGHT as f64)
        .expect("the job is fit");
    let count = points.len() / 16;
    let (mut ours, mut originals) = (vec![0; 24 * count], vec![0; 24 * count]);
    let (mut product, mut rust) = (f64::INFINITY, f64::INFINITY);
    // A slow method needs fewer rounds than a fast one.
    let start = Instant::now();
    for _ in 0..ROUNDS {
        product = product.min(time(|| own(method, &bytes, &mut ours)));
        rust = rust.min(time(|| original(&mapping, points, &mut originals)));
        if start.elapsed().as_secs() >= 3 {
            break;
        }
    }
    assert!(ours == originals, "{name}: the answers differ");
    let (product, rust) = (product / count as f64, rust / count as f64);
    println!("{name:28}{product:12.2}{rust:10.2}{:10.2}", product / rust);
}

fn own(method: u64, args: &[u8], out: &mut [u8]) {
    let answer = probes::rows(method, args, WIDTH, HEIGHT, black_box(ROWS), out);
    assert_eq!(answer, 0, "the job is fit");
    black_box(out);
}

fn original(mapping: &Mapping, points: &[u8], out: &mut [u8]) {
    mapping.inverses(black_box(points), out, expected::USABLE);
    black_box(out);
}

/// Nanoseconds of one round.
fn time(round: impl FnOnce()) -> f64 {
    let start = Instant::now();
    round();
    start.elapsed().as_nanos() as f64
}
