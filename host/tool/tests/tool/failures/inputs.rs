//! Inputs that are no pictures, are cut off, or are not there.

use super::Trial;
use crate::folder::small_png;

#[test]
fn files_that_are_no_pictures() {
    let trial = Trial::new("no-pictures")
        .with("empty.png", b"")
        .with("text.png", b"not a picture, a text")
        .with("a.gif", b"GIF89a");
    trial.fails(
        trial.shift("empty.png", &[]),
        2,
        &["'empty.png' can't be read: it is empty"],
    );
    trial.fails(
        trial.shift("text.png", &[]),
        2,
        &["'text.png' can't be read: it is no PNG, JPEG, TIFF, PNM or PFM file"],
    );
    trial.fails(
        trial.shift("a.gif", &[]),
        2,
        &["it is no PNG, JPEG, TIFF, PNM or PFM file"],
    );
    trial.fails(
        trial.shift(".", &[]),
        2,
        &["'.' can't be read: it is a folder"],
    );
    trial.fails(
        trial.shift("missing.png", &[]),
        2,
        &["'missing.png' can't be read: No such file"],
    );
}

#[test]
fn files_that_are_cut_off() {
    let mut bytes = std::io::Cursor::new(Vec::new());
    let pixels: Vec<u8> = (0..64 * 48 * 3).map(|k| (k * 7 % 251) as u8).collect();
    let jpeg = image::ImageOutputFormat::Jpeg(90);
    image::write_buffer_with_format(&mut bytes, &pixels, 64, 48, image::ColorType::Rgb8, jpeg)
        .expect("a JPEG");
    let whole = bytes.into_inner();
    let mut trial = Trial::new("cut-off");
    for length in [
        3,
        100,
        400,
        700,
        whole.len() / 2,
        whole.len() - 100,
        whole.len() - 2,
    ] {
        trial = trial.with("cut.jpg", &whole[..length]);
        trial.fails(
            trial.shift("cut.jpg", &[]),
            2,
            &["'cut.jpg' can't be read: "],
        );
    }
    let png = small_png();
    trial = trial.with("cut.png", &png[..png.len() / 2]);
    trial.fails(
        trial.shift("cut.png", &[]),
        2,
        &["'cut.png' can't be read: "],
    );
    // With its end it is read.
    trial.folder.write("cut.jpg", &whole);
    trial
        .folder
        .run([
            "distort", "cut.jpg", "new.png", "--method", "Affine", "--args", "0,0,0,0",
        ])
        .good();
}

#[test]
fn names_with_blanks_and_control_characters() {
    let trial = Trial::new("odd-names");
    trial.fails(
        trial.shift("no\nsuch\t  file\u{1b}.png", &[]),
        2,
        &["'no such   file .png' can't be read: No such file"],
    );
}
