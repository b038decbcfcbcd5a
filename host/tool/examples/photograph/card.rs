//! The card as it was printed: a white sheet of 800 by 600 with a label, a ramp of greys, and six tints in four
//! strengths.

use crate::letters::ink;

pub const WIDTH: f64 = 800.0;
pub const HEIGHT: f64 = 600.0;

pub type Colour = [f64; 3];

const PAPER: Colour = [0.95, 0.945, 0.925];
const INK: Colour = [0.13, 0.13, 0.15];
const TINTS: [Colour; 6] = [
    [0.74, 0.16, 0.17],
    [0.87, 0.47, 0.10],
    [0.90, 0.76, 0.13],
    [0.18, 0.52, 0.27],
    [0.13, 0.37, 0.66],
    [0.45, 0.22, 0.52],
];
const STRENGTHS: [f64; 4] = [1.0, 0.6, 0.32, 0.14];

/// Where the patches begin, how large one is, and from one to the next.
const FIRST: (f64, f64) = (48.0, 134.0);
const PATCH: (f64, f64) = (104.0, 84.0);
const STEP: (f64, f64) = (120.0, 110.0);

/// The colour at a point of the card.
pub fn colour(x: f64, y: f64) -> Colour {
    if frame(x, y) || label(x, y) {
        return INK;
    }
    patch(x, y).or_else(|| ramp(x, y)).unwrap_or(PAPER)
}

pub fn mix(a: Colour, b: Colour, share: f64) -> Colour {
    [0, 1, 2].map(|k| a[k] + (b[k] - a[k]) * share)
}

/// A thin line near the edge.
fn frame(x: f64, y: f64) -> bool {
    let inside =
        |margin: f64| x > margin && y > margin && x < WIDTH - margin && y < HEIGHT - margin;
    inside(18.0) && !inside(21.0)
}

fn label(x: f64, y: f64) -> bool {
    let rule = (48.0..752.0).contains(&x) && (112.0..115.0).contains(&y);
    rule || ink("TINT CARD 24", 5.0, x - 48.0, y - 50.0)
}

/// Eight greys at the right of the label.
fn ramp(x: f64, y: f64) -> Option<Colour> {
    let place = (x - 472.0) / 35.0;
    if !(0.0..8.0).contains(&place) || !(50.0..85.0).contains(&y) {
        return None;
    }
    Some([0.08 + 0.115 * place.floor(); 3])
}

/// A patch of tint, or the ink of the code below it, such as B3.
fn patch(x: f64, y: f64) -> Option<Colour> {
    let (column, row) = ((x - FIRST.0) / STEP.0, (y - FIRST.1) / STEP.1);
    if !(0.0..6.0).contains(&column) || !(0.0..4.0).contains(&row) {
        return None;
    }
    let (column, row) = (column as usize, row as usize);
    let (dx, dy) = (
        x - FIRST.0 - column as f64 * STEP.0,
        y - FIRST.1 - row as f64 * STEP.1,
    );
    if dx < PATCH.0 && dy < PATCH.1 {
        return Some(mix(PAPER, TINTS[column], STRENGTHS[row]));
    }
    let code: String = [b"ABCDEF"[column], b"1234"[row]]
        .map(char::from)
        .iter()
        .collect();
    ink(&code, 2.0, dx, dy - PATCH.1 - 5.0).then_some(INK)
}
