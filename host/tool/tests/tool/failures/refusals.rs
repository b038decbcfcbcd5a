//! Refusals of the call, with number, word, mend and what of the run met them, status 1.

use super::{CORNERS, Trial};

/// `distort` by a method is refused, with these words.
fn refused(trial: &Trial, method: &str, args: &str, more: &[&str], words: &[&str]) {
    trial.fails(trial.distort("in.png", method, args, more), 1, words)
}

/// A shift with these options is refused, with these words.
fn shift_refused(trial: &Trial, more: &[&str], words: &[&str]) {
    refused(trial, "Affine", "0,0,1,1", more, words)
}

#[test]
fn names_that_are_none() {
    let trial = Trial::new("refused-names");
    refused(
        &trial,
        "Perspectiv",
        "0",
        &[],
        &[
            "refusal 3 (code): ",
            "did you mean Perspective?",
            "Shepards",
        ],
    );
    refused(
        &trial,
        "Arc",
        "60",
        &[],
        &["refusal 3 (code): ", "is absent"],
    );
    shift_refused(
        &trial,
        &["--virtual-pixel", "mirorr"],
        &["refusal 3 (code): ", "did you mean Mirror?"],
    );
    shift_refused(
        &trial,
        &["--interpolate", "sinc"],
        &["refusal 3 (code): ", "Catrom"],
    );
}

#[test]
fn arguments_by_count_and_order() {
    let trial = Trial::new("refused-counts");
    for (method, args, words) in [
        (
            "Affine",
            "0,0,1",
            "refusal 4 (count): Affine was given 3 numbers; ",
        ),
        (
            "Affine",
            "",
            "refusal 4 (count): Affine was given 0 numbers; ",
        ),
        ("Polynomial", "6,0,0,0,0", "refusal 6 (order): "),
        (
            "Polynomial",
            "2.5 0,0,0,0 8,0,8,0 8,6,8,6 0,6,0,6 4,1,4,1 2,3,2,3",
            "refusal 6 (order): the order is 2.5; the order of Polynomial is not 1, 1.5, 2, 3, 4 or 5; give \
             exactly one of them as the first argument",
        ),
        (
            "Perspective",
            "0,0,0,0,1,1,1,1,2,2,2,2",
            "refusal 7 (few): Perspective was given 12 numbers; ",
        ),
    ] {
        refused(&trial, method, args, &[], &[words]);
    }
}

#[test]
fn arguments_and_colours_above_the_limits() {
    let trial = Trial::new("refused-numbers");
    let words = "refusal 5 (number): argument 3 is inf; ";
    refused(&trial, "Affine", "0,0,1e400,1", &[], &[words]);
    shift_refused(
        &trial,
        &["--background", "70000,1,1,1"],
        &["refusal 5 (number): the background colour"],
    );
    shift_refused(
        &trial,
        &["--matte", "1e39,1,1,1"],
        &["refusal 5 (number): the matte colour"],
    );
}

#[test]
fn arguments_that_no_mapping_fits() {
    let trial = Trial::new("refused-fits");
    let words = "refusal 8 (degenerate): ";
    refused(&trial, "AffineProjection", "1,2,2,4,0,0", &[], &[words]);
    let line = "0,0,0,0 1,1,1,1 2,2,2,2 3,3,3,3";
    refused(&trial, "Perspective", line, &[], &[words]);
    trial.fails(
        trial.square("in.png", CORNERS, "0x0"),
        1,
        &["refusal 8 (degenerate): the output was to be 0x0; "],
    );
}

#[test]
fn windows_beyond_the_limits() {
    let trial = Trial::new("refused-windows");
    for (viewport, words) in [
        ("0x0", "refusal 9 (window): the output was to be 0x0+0+0; "),
        ("4097x1", "refusal 9 (window): "),
        ("1x1+1048577+0", "refusal 9 (window): "),
    ] {
        shift_refused(&trial, &["--viewport", viewport], &[words]);
    }
    refused(
        &trial,
        "AffineProjection",
        "9999,0,0,1,0,0",
        &["--best-fit"],
        &["refusal 9 (window): the best fit is too large"],
    );
}

#[test]
fn numbers_that_are_too_large_are_told_as_they_were_given() {
    let trial = Trial::new("too-large");
    let nines = "99999999999999999999";
    trial.fails(
        trial.distort("in.png", "Affine", "0,0,1,-1e300", &[]),
        1,
        &["refusal 5 (number): argument 4 is -1e300; "],
    );
    trial.fails(
        trial.square("in.png", "0,0 1e300,0 8,6 0,6", "8x6"),
        1,
        &["refusal 5 (number): corner 2 has 1e300; "],
    );
    trial.fails(
        trial.square("in.png", "0,0 8,0 8,6 0,1048576.5", "8x6"),
        1,
        &["refusal 5 (number): corner 4 has 1048576.5; "],
    );
    trial.fails(
        trial.square("in.png", CORNERS, "8x2000000"),
        1,
        &["refusal 5 (number): the output was to be 8x2000000; "],
    );
    trial.fails(
        trial.square("in.png", CORNERS, "8x4097"),
        1,
        &["refusal 9 (window): the output was to be 8x4097; "],
    );
    for viewport in [
        format!("{nines}x1"),
        format!("1x{nines}"),
        format!("1x1+{nines}+0"),
        format!("1x1+0-{nines}"),
    ] {
        trial.fails(
            trial.shift("in.png", &["--viewport", &viewport]),
            1,
            &["refusal 9 (window): the output was to be "],
        );
    }
}

#[test]
fn pictures_above_the_limits() {
    let wide = |width: u32| {
        let mut bytes = std::io::Cursor::new(Vec::new());
        let pixels = vec![0; width as usize];
        let format = image::ImageOutputFormat::Png;
        image::write_buffer_with_format(
            &mut bytes,
            &pixels,
            width,
            1,
            image::ColorType::L8,
            format,
        )
        .expect("a PNG");
        bytes.into_inner()
    };
    let trial = Trial::new("limits").with("4097.png", &wide(4097));
    trial.fails(
        trial.shift("4097.png", &[]),
        1,
        &["refusal 1 (size): the picture is 4097 by 1; "],
    );
    // The head alone says how large it is: nothing is unpacked.
    let trial = trial.with("huge.pfm", b"PF\n100000 100000\n-1\n");
    trial.fails(
        trial.shift("huge.pfm", &[]),
        1,
        &["refusal 1 (size): the picture is 100000 by 100000; "],
    );
    trial.folder.write("4096.png", &wide(4096));
    trial
        .folder
        .run([
            "distort",
            "4096.png",
            "4096-out.png",
            "--method",
            "Affine",
            "--args",
            "0,0,0,0",
        ])
        .good();
}

#[test]
fn samples_that_are_no_numbers_or_too_large() {
    let pfm = |sample: f32| {
        let mut bytes = b"PF\n2 2\n-1.0\n".to_vec();
        bytes.extend((0..12).flat_map(|k| if k == 4 { sample } else { 0.5 }.to_le_bytes()));
        bytes
    };
    let trial = Trial::new("samples").with("in.pfm", &pfm(f32::NAN));
    let place = "the picture's sample at column 1, row 1, channel 1 is";
    trial.fails(
        trial.shift("in.pfm", &[]),
        1,
        &["refusal 5 (number): ", place, "NaN"],
    );
    let trial = trial.with("in.pfm", &pfm(65537.0));
    trial.fails(
        trial.shift("in.pfm", &[]),
        1,
        &["refusal 5 (number): ", place, "65537"],
    );
    let trial = trial.with("in.pfm", &pfm(f32::NEG_INFINITY));
    trial.fails(
        trial.shift("in.pfm", &[]),
        1,
        &["refusal 5 (number): ", place, "-inf"],
    );
}
