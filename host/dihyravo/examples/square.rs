//! Squares a card that was photographed askew: four corners picked, `Perspective`, `Bilinear`, worked in bands of four
//! rows as a tablet would. Prints the photograph, the squared card, and a call that is refused.

use dihyravo::{Distort, Method, Picture, Refusal, Viewport, VirtualPixel};

const WIDTH: u64 = 56;
const HEIGHT: u64 = 22;

/// The corners as picked on the photograph, from the upper left one on, clockwise, and the size to square it to.
const CORNERS: [(f64, f64); 4] = [(9.0, 3.0), (49.0, 1.0), (52.0, 20.0), (4.0, 17.0)];
const CARD: (u64, u64) = (48, 16);

/// How far (x, y) lies between two opposite edges of the photographed card, from 0 to 1 on the card.
fn across(x: f64, y: f64, from: ((f64, f64), (f64, f64)), to: ((f64, f64), (f64, f64))) -> f64 {
    let side = |((ax, ay), (bx, by)): ((f64, f64), (f64, f64))| {
        ((bx - ax) * (y - ay) - (by - ay) * (x - ax)) / (bx - ax).hypot(by - ay)
    };
    let (a, b) = (side(from), side(to));
    a / (a - b)
}

/// Three tints side by side on a card, on a dark table.
fn photograph() -> Result<Picture, Refusal> {
    let [a, b, c, d] = CORNERS;
    let shade = |i: u64, j: u64| {
        let (x, y) = (i as f64 + 0.5, j as f64 + 0.5);
        let (s, t) = (across(x, y, (a, d), (b, c)), across(x, y, (a, b), (d, c)));
        let inside = (0.0..1.0).contains(&s) && (0.0..1.0).contains(&t);
        let edge = !(0.05..0.95).contains(&s) || !(0.12..0.88).contains(&t);
        match (inside, edge) {
            (false, _) => 0.0,
            (true, true) => 1.0,
            (true, false) => [0.75, 0.5, 0.25][(s * 3.0) as usize % 3],
        }
    };
    let samples = (0..HEIGHT).flat_map(|j| (0..WIDTH).map(move |i| shade(i, j)));
    Picture::new(WIDTH, HEIGHT, 1, samples.collect())
}

fn show(samples: &[f32], width: u64) {
    for row in samples.chunks(width as usize) {
        let shades = row.iter().map(|s| {
            let level = (s * 9.0).round().clamp(0.0, 9.0);
            " .:-=+*#%@".as_bytes()[level as usize] as char
        });
        println!("    {}", shades.collect::<String>());
    }
}

fn main() -> Result<(), Refusal> {
    let picture = photograph()?;
    println!("A card of three tints, photographed askew ({WIDTH} by {HEIGHT}):");
    show(picture.samples(), WIDTH);

    let (width, height) = CARD;
    let (w, h) = (width as f64, height as f64);
    let places = [(0.0, 0.0), (w, 0.0), (w, h), (0.0, h)];
    let pairs = CORNERS.iter().zip(places);
    let corners: Vec<f64> = pairs.flat_map(|(&(u, v), (x, y))| [u, v, x, y]).collect();
    let viewport = Viewport {
        width,
        height,
        x: 0,
        y: 0,
    };
    let square = Distort::new(Method::Perspective, corners)
        .with_viewport(viewport)
        .with_virtual_pixel(VirtualPixel::Background)
        .with_background([0.0, 0.0, 0.0, 1.0]);

    let size = square.size(&picture)?;
    println!(
        "Squared to {} by {}, four rows at a time:",
        size.width, size.height
    );
    let mut band = vec![0.0; size.band_length(4)];
    let mut matte_pixels = 0;
    for first in (0..size.height).step_by(4) {
        matte_pixels += square
            .distort_rows(&picture, first..first + 4, &mut band)?
            .matte_pixels;
        show(&band, size.width);
    }
    println!("Pixels without a source: {matte_pixels}.");

    let line = [
        0.0, 0.0, 0.0, 0.0, 1.0, 1.0, 1.0, 1.0, 2.0, 2.0, 2.0, 2.0, 3.0, 3.0, 3.0, 3.0,
    ];
    match Distort::new(Method::Perspective, line)
        .with_viewport(viewport)
        .distort(&picture)
    {
        Err(refusal) => println!("Four corners on one line: {refusal}."),
        Ok(_) => println!("Four corners on one line: accepted."),
    }
    Ok(())
}
