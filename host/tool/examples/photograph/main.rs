//! Makes the demo's photograph of a tint card: `photograph OUT.png [SEED]`. Prints the card's corners as
//! `dihyravo square` takes them. The same seed gives the same picture everywhere.

mod card;
mod letters;
mod scene;

use image::{ColorType, ImageFormat};
use std::process::ExitCode;

fn main() -> ExitCode {
    let words: Vec<String> = std::env::args().skip(1).collect();
    let (path, seed) = match &words[..] {
        [path] => (path, Some(7)),
        [path, seed] => (path, seed.parse().ok()),
        _ => return failed("usage: photograph OUT.png [SEED]"),
    };
    let Some(seed) = seed else {
        return failed("the seed is not a whole number");
    };
    let pixels = scene::photograph(seed);
    let (width, height) = (scene::WIDTH as u32, scene::HEIGHT as u32);
    if let Err(why) = image::save_buffer_with_format(
        path,
        &pixels,
        width,
        height,
        ColorType::Rgb8,
        ImageFormat::Png,
    ) {
        return failed(&format!("{path}: {why}"));
    }
    println!("{}", scene::corners());
    ExitCode::SUCCESS
}

fn failed(why: &str) -> ExitCode {
    eprintln!("photograph: {why}");
    ExitCode::from(2)
}
