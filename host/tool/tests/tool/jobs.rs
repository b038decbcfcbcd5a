//! The commands: the library's answer, whatever bands and threads; what is printed.

use crate::folder::{Folder, Run, small_png};
use dihyravo::{Distort, Interpolate, Method, Picture, Viewport, VirtualPixel};

/// The small picture as the library takes it.
fn picture() -> Picture {
    let bytes = (0..8u8 * 6).flat_map(|k| [k * 5, 255 - k * 3, k]);
    Picture::new(8, 6, 3, bytes.map(|s| f32::from(s) / 255.0).collect()).expect("a picture")
}

/// The samples of a PFM file of three channels, from the top.
fn pfm(bytes: &[u8], width: usize) -> Vec<f32> {
    let line_ends = bytes.iter().enumerate().filter(|(_, b)| **b == b'\n');
    let start = line_ends.map(|(k, _)| k).nth(2).expect("a header") + 1;
    let (floats, _) = bytes[start..].as_chunks::<4>();
    let rows = floats.chunks(3 * width).rev();
    rows.flatten().map(|f| f32::from_le_bytes(*f)).collect()
}

/// The small picture as the library distorts it by four pairs.
fn distorted() -> Vec<f32> {
    let args = [
        1.0, 1.0, 0.0, 0.0, 7.0, 0.5, 9.0, 0.0, 6.5, 5.0, 9.0, 7.0, 0.25, 4.5, 0.0, 7.0,
    ];
    let distorted = Distort::new(Method::Perspective, args)
        .with_viewport(Viewport {
            width: 11,
            height: 9,
            x: -1,
            y: 2,
        })
        .with_virtual_pixel(VirtualPixel::Mirror)
        .with_interpolate(Interpolate::Catrom)
        .distort(&picture())
        .expect("accepted");
    distorted.picture.samples().to_vec()
}

#[test]
fn distort_is_the_librarys_answer_bit_for_bit() {
    let folder = Folder::new("answer");
    folder.write("in.png", &small_png());
    let expected = distorted();
    for (rows, threads) in [("1", "1"), ("2", "3"), ("100", "2"), ("4", "16")] {
        let run = folder.run([
            "distort",
            "in.png",
            "out.pfm",
            "--method",
            "PERSPECTIVE",
            "--args",
            "1,1 0,0, 7,.5 9,0  6.5 5 9 7 .25,4.5,0,7",
            "--viewport",
            "11x9-1+2",
            "--virtual-pixel",
            "mirror",
            "--interpolate",
            "bicubic",
            "--rows",
            rows,
            "--threads",
            threads,
        ]);
        assert!(
            run.good()
                .out
                .starts_with("out.pfm: PFM, 11x9-1+2, 3 channels of 32 bits, 0 matte pixels, "),
            "{run:?}"
        );
        let samples = pfm(&folder.read("out.pfm"), 11);
        assert_eq!(samples.len(), expected.len());
        let mut pairs = samples.iter().zip(&expected);
        assert!(pairs.all(|(a, b)| a.to_bits() == b.to_bits()));
    }
}

#[test]
fn square_sends_the_four_corners_to_the_outputs_corners() {
    let folder = Folder::new("square");
    folder.write("in.png", &small_png());
    let run = folder.run([
        "square",
        "in.png",
        "out.png",
        "--corners",
        "2,1 6,1 6,5 2,5",
        "--size",
        "4x4",
    ]);
    assert!(
        run.good()
            .out
            .starts_with("out.png: PNG, 4x4+0+0, 3 channels of 8 bits, 0 matte pixels, "),
        "{run:?}"
    );
    let cut = image::open(folder.path("in.png"))
        .expect("read")
        .crop_imm(2, 1, 4, 4);
    assert_eq!(image::open(folder.path("out.png")).expect("read"), cut);
}

#[test]
fn corners_the_wrong_way_round_are_noted_and_mirror() {
    let folder = Folder::new("mirrored");
    folder.write("in.png", &small_png());
    let run = folder.run([
        "square",
        "in.png",
        "out.png",
        "--corners",
        "8,0 0,0 0,6 8,6",
        "--size",
        "8x6",
    ]);
    assert_eq!(run.status, 0);
    assert_eq!(
        run.err,
        "dihyravo: note: the corners run counter-clockwise, so the picture is mirrored\n"
    );
    let mirrored = image::open(folder.path("in.png")).expect("read").fliph();
    assert_eq!(image::open(folder.path("out.png")).expect("read"), mirrored);
}

/// What a run that is done as it was asked for says beside its line.
fn noted(folder: &Folder, words: &[&str], note: &str) {
    let run = |more: &[&str]| -> Run {
        let tool = folder.tool().args(words).args(more).output();
        tool.expect("the tool runs").into()
    };
    let plain = run(&[]);
    let expected = format!("dihyravo: note: {note}\n");
    assert_eq!((plain.status, plain.err), (0, expected), "{words:?}");
    let json = run(&["--json"]);
    assert_eq!((json.status, json.err.as_str()), (0, ""), "{words:?}");
    let expected = format!(",\"note\":\"{note}\"}}\n");
    assert!(json.out.ends_with(&expected), "{}", json.out);
}

#[test]
fn corners_outside_the_picture_are_noted() {
    let folder = Folder::new("noted-corners");
    folder.write("in.png", &small_png());
    let corners = [
        "square",
        "in.png",
        "out.png",
        "--corners",
        "20,0 28,0 28,6 20,6",
        "--size",
        "8x6",
    ];
    noted(
        &folder,
        &corners,
        "the corners lie outside the picture, which is 8 by 6",
    );
}

#[test]
fn what_may_be_meant_otherwise_is_noted() {
    let folder = Folder::new("noted");
    folder.write("in.png", &small_png());
    let barrel = [
        "distort",
        "in.png",
        "out.png",
        "--method",
        "Barrel",
        "--args",
        "0,0,0",
        "--best-fit",
    ];
    noted(
        &folder,
        &barrel,
        "Barrel has no best fit: the output is as large as the input",
    );
    let shift = [
        "distort", "in.png", "out.png", "--method", "Affine", "--args", "0,0 5,5",
    ];
    let beyond = [&shift[..], &["--matte", "2,0,0,1"]].concat();
    noted(
        &folder,
        &beyond,
        "the matte colour has a number beyond 0 to 1, where 1 is full",
    );
}

/// A camera's JPEG that viewers turn: a part with the orientation 6 is put before the others.
#[test]
fn an_orientation_that_is_not_applied_is_noted() {
    let folder = Folder::new("orientation");
    folder.write("in.png", &small_png());
    let picture = image::open(folder.path("in.png")).expect("read");
    picture.save(folder.path("plain.jpg")).expect("written");
    let plain = folder.read("plain.jpg");
    let part = b"\xff\xe1\x00\x22Exif\0\0MM\0\x2a\0\0\0\x08\0\x01\x01\x12\0\x03\0\0\0\x01\0\x06\0\0\0\0\0\0";
    folder.write("turned.jpg", &[&plain[..2], part, &plain[2..]].concat());
    let words = |input| {
        [
            "distort", input, "out.png", "--method", "Affine", "--args", "0,0 0,0",
        ]
    };
    folder.run(words("plain.jpg")).good();
    let kept = folder.read("out.png");
    let note = "the file's orientation is 6, which viewers apply and this program does not: \
        numbers count on the picture as it is stored";
    noted(&folder, &words("turned.jpg"), note);
    assert_eq!(folder.read("out.png"), kept);
}

#[test]
fn names_may_have_marks_between_their_words() {
    let folder = Folder::new("marks");
    folder.write("in.png", &small_png());
    let run = |method, policy, interpolation| {
        let args = "1,0,0,0,1,0,0,0";
        let words = [
            "distort",
            "in.png",
            "out.png",
            "--method",
            method,
            "--args",
            args,
            "--virtual-pixel",
            policy,
            "--interpolate",
            interpolation,
        ];
        folder.run(words).good();
        folder.read("out.png")
    };
    let plain = run("PerspectiveProjection", "HorizontalTile", "NearestNeighbor");
    assert_eq!(
        run(
            "perspective-projection",
            "horizontal_tile",
            "Nearest-Neighbor"
        ),
        plain
    );
}

#[test]
fn best_fit_and_a_viewport_that_wins_over_it() {
    let folder = Folder::new("best-fit");
    folder.write("in.png", &small_png());
    let shift = [
        "distort",
        "in.png",
        "out.png",
        "--method",
        "AffineProjection",
        "--args",
        "1,0,0,1,0,0",
        "--best-fit",
    ];
    assert!(folder.run(shift).good().out.contains(" 10x8-1-1, "));
    let run = folder
        .tool()
        .args(shift)
        .args(["--viewport", "3x2"])
        .output()
        .expect("runs");
    assert!(
        String::from_utf8(run.stdout)
            .expect("text")
            .contains(" 3x2+0+0, ")
    );
}

#[test]
fn colours_and_policies_reach_the_call() {
    let folder = Folder::new("colours");
    folder.write("in.png", &small_png());
    let away = [
        "distort",
        "in.png",
        "out.png",
        "--method",
        "affine",
        "--args",
        "0,0 100,100",
    ];
    let pixel = |more: &[&str]| {
        let run = folder.tool().args(away).args(more).output().expect("runs");
        assert!(run.status.success(), "{run:?}");
        image::open(folder.path("out.png"))
            .expect("read")
            .into_rgba8()
            .get_pixel(0, 0)
            .0
    };
    assert_eq!(pixel(&[]), [0, 255, 0, 255]);
    assert_eq!(pixel(&["--virtual-pixel", "background"]), [255; 4]);
    assert_eq!(
        pixel(&["--virtual-pixel", "background", "--background", "#f90"]),
        [255, 153, 0, 255]
    );
    assert_eq!(
        pixel(&["--virtual-pixel", "background", "--background", "none"]),
        [0; 4]
    );
    assert_eq!(pixel(&["--virtual-pixel", "GREY"]), [128, 128, 128, 255]);
    assert_eq!(pixel(&["--virtual-pixel", "transparent"]), [0; 4]);
}

#[test]
fn matte_pixels_are_counted_and_coloured() {
    let folder = Folder::new("matte");
    folder.write("in.png", &small_png());
    // Beyond the line where the denominator is 0 there is no source.
    let horizon = [
        "distort",
        "in.png",
        "out.png",
        "--method",
        "PerspectiveProjection",
        "--args",
        "1,0,0,0,1,0,-.25,0",
    ];
    let run = folder
        .tool()
        .args(horizon)
        .args(["--matte", "red", "--viewport", "8x6-8+0", "--json"])
        .output();
    let text = String::from_utf8(run.expect("runs").stdout).expect("text");
    assert!(text.contains("\"matte_pixels\":24,"), "{text}");
    let made = image::open(folder.path("out.png"))
        .expect("read")
        .into_rgb8();
    assert_eq!(made.pixels().filter(|p| p.0 == [255, 0, 0]).count(), 24);
}

#[test]
fn json_is_one_object_with_every_field() {
    let folder = Folder::new("json");
    folder.write("in.png", &small_png());
    let run = folder.run([
        "square",
        "in.png",
        "o\"ut.png",
        "--corners",
        "0 0 8 0 8 6 0 6",
        "--size",
        "4x3",
        "--json",
    ]);
    let out = &run.good().out;
    let start = concat!(
        r#"{"ok":true,"output":"o\"ut.png","format":"PNG","bits":8,"width":4,"height":3,"x":0,"y":0,"channels":3,"#,
        r#""matte_pixels":0,"distort_seconds":"#
    );
    assert!(
        out.starts_with(start) && out.contains(",\"seconds\":") && out.ends_with("}\n"),
        "{out}"
    );
    let object: serde_json::Value = serde_json::from_str(out).expect("JSON");
    assert_eq!(object["output"], "o\"ut.png");
    assert!(object["distort_seconds"].as_f64() <= object["seconds"].as_f64());
}

#[test]
fn names_lists_all_and_help_says_what_a_corner_is() {
    let folder = Folder::new("names");
    let run = folder.run(["names"]);
    assert_eq!(run.status, 0);
    for name in ["Perspective", "Shepards", "HorizontalTileEdge", "Average16"] {
        assert!(run.out.contains(name), "{name}");
    }
    let run = folder.run(["names", "--json"]);
    assert!(
        run.good()
            .out
            .starts_with("{\"methods\":[{\"name\":\"Affine\",\"arguments\":\""),
        "{run:?}"
    );
    let help = folder.run(["square", "--help"]);
    assert_eq!(help.status, 0);
    for words in [
        "EXIF orientation is not applied",
        "0.5,0.5 that pixel's middle",
        "[default: Bilinear]",
        "[default: Edge]",
    ] {
        assert!(help.out.contains(words), "{words}: {}", help.out);
    }
}
