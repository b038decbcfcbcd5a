//! Formats, depths and channels: what goes in comes out, and a file is put in place whole.

use crate::folder::{Folder, small_png};
use image::{DynamicImage, ImageFormat};
use std::fs;
use std::os::unix::fs::{PermissionsExt, symlink};

/// Every pixel stays where it is.
const SAME: [&str; 6] = [
    "--method",
    "affine",
    "--args",
    "0,0 0,0",
    "--interpolate",
    "nearest",
];

fn same<const N: usize>(folder: &Folder, input: &str, output: &str, more: [&str; N]) {
    let run = folder
        .tool()
        .args(["distort", input, output])
        .args(SAME)
        .args(more)
        .output();
    crate::folder::Run::from(run.expect("the tool runs")).good();
}

/// A picture of each kind that the crate `image` writes.
fn kinds() -> Vec<(&'static str, DynamicImage)> {
    let wide = |k: u32| (k * 1237 % 65536) as u16;
    let narrow = |k: u32| (k * 37 % 256) as u8;
    let numbers = |count: u32| 0..7 * 5 * count;
    let buffer8 = |count| numbers(count).map(narrow).collect::<Vec<u8>>();
    let buffer16 = |count| numbers(count).map(wide).collect::<Vec<u16>>();
    let whole = "7 by 5";
    vec![
        (
            "grey8",
            image::GrayImage::from_raw(7, 5, buffer8(1))
                .expect(whole)
                .into(),
        ),
        (
            "rgb8",
            image::RgbImage::from_raw(7, 5, buffer8(3))
                .expect(whole)
                .into(),
        ),
        (
            "rgba8",
            image::RgbaImage::from_raw(7, 5, buffer8(4))
                .expect(whole)
                .into(),
        ),
        (
            "grey16",
            image::ImageBuffer::<image::Luma<u16>, _>::from_raw(7, 5, buffer16(1))
                .expect(whole)
                .into(),
        ),
        (
            "rgb16",
            image::ImageBuffer::<image::Rgb<u16>, _>::from_raw(7, 5, buffer16(3))
                .expect(whole)
                .into(),
        ),
        (
            "rgba16",
            image::ImageBuffer::<image::Rgba<u16>, _>::from_raw(7, 5, buffer16(4))
                .expect(whole)
                .into(),
        ),
    ]
}

#[test]
fn png_and_tiff_keep_every_sample_of_8_and_16_bits() {
    let folder = Folder::new("keep");
    for (name, picture) in kinds() {
        for (ending, format) in [("png", ImageFormat::Png), ("tif", ImageFormat::Tiff)] {
            let (from, to) = (format!("{name}.{ending}"), format!("{name}-out.{ending}"));
            picture
                .save_with_format(folder.path(&from), format)
                .expect("written");
            same(&folder, &from, &to, []);
            assert_eq!(
                image::open(folder.path(&to)).expect("read"),
                picture,
                "{to}"
            );
        }
    }
}

#[test]
fn pnm_keeps_every_sample_and_16_bits_are_big_endian() {
    let folder = Folder::new("pnm");
    for (name, picture) in kinds()
        .into_iter()
        .filter(|(name, _)| !name.contains("rgba"))
    {
        picture.save(folder.path("in.png")).expect("written");
        same(&folder, "in.png", "out.pnm", []);
        let pnm = image::load_from_memory(&folder.read("out.pnm")).expect("read");
        assert_eq!(pnm, picture, "{name}");
        same(&folder, "out.pnm", "back.png", []);
        assert_eq!(
            image::open(folder.path("back.png")).expect("read"),
            picture,
            "{name}"
        );
    }
    folder.write("in.pgm", b"P5\n2 1\n65535\n\x01\x02\xfe\xff");
    same(&folder, "in.pgm", "out.pgm", []);
    assert_eq!(folder.read("out.pgm"), folder.read("in.pgm"));
}

#[test]
fn floats_pass_through_pfm_and_tiff_bit_for_bit() {
    let folder = Folder::new("floats");
    let samples: Vec<f32> = (0..4 * 3 * 3)
        .map(|k| (k as f32 - 9.0) * 1.000_123e3 / 7.0)
        .collect();
    let mut pfm = b"PF\n4 3\n-1.0\n".to_vec();
    pfm.extend(samples.iter().flat_map(|s| s.to_le_bytes()));
    folder.write("in.pfm", &pfm);
    same(&folder, "in.pfm", "step.tif", []);
    same(&folder, "step.tif", "out.pfm", []);
    assert_eq!(folder.read("out.pfm"), pfm);
    let mut big = b"PF\n4 3\n1.0\n".to_vec();
    big.extend(samples.iter().flat_map(|s| s.to_be_bytes()));
    folder.write("big.pfm", &big);
    same(&folder, "big.pfm", "out.pfm", []);
    assert_eq!(folder.read("out.pfm"), pfm);
}

#[test]
fn depths_are_the_inputs_or_the_option() {
    let folder = Folder::new("depths");
    folder.write("in.png", &small_png());
    let bits = |words: &[&str]| {
        let run = folder
            .tool()
            .arg("distort")
            .args(words)
            .args(SAME)
            .arg("--json")
            .output()
            .expect("runs");
        let text = String::from_utf8(run.stdout).expect("text");
        let after = text.split("\"bits\":").nth(1).expect("bits").to_owned();
        after.split(',').next().expect("a number").to_owned()
    };
    assert_eq!(bits(&["in.png", "a.png"]), "8");
    assert_eq!(bits(&["in.png", "b.png", "--depth", "16"]), "16");
    assert_eq!(bits(&["b.png", "c.tif"]), "16");
    assert_eq!(bits(&["b.png", "c.jpg"]), "8");
    assert_eq!(bits(&["in.png", "d.pfm"]), "32");
    assert_eq!(bits(&["d.pfm", "e.png"]), "16");
    assert_eq!(bits(&["d.pfm", "e.png", "--depth", "8"]), "8");
    assert_eq!(bits(&["d.pfm", "e.tif"]), "32");
    assert_eq!(bits(&["in.png", "f.tiff", "--depth", "32"]), "32");
    assert_eq!(
        folder.read("a.png").len(),
        fs::metadata(folder.path("e.png")).expect("there").len() as usize
    );
}

#[test]
fn jpeg_is_written_at_a_high_quality_and_read_back() {
    let folder = Folder::new("jpeg");
    let smooth: Vec<u8> = (0..40 * 30u32)
        .flat_map(|k| [k % 40 * 6, k / 40 * 8, 128].map(|c| c as u8))
        .collect();
    let picture: DynamicImage = image::RgbImage::from_raw(40, 30, smooth)
        .expect("40 by 30")
        .into();
    picture.save(folder.path("in.png")).expect("written");
    same(&folder, "in.png", "fine.jpg", []);
    same(&folder, "in.png", "coarse.jpeg", ["--quality", "20"]);
    same(&folder, "fine.jpg", "back.png", []);
    let back = image::open(folder.path("back.png"))
        .expect("read")
        .into_rgb8();
    assert_eq!(back.len(), picture.as_bytes().len());
    let apart = |a: &u8, b: &u8| a.abs_diff(*b);
    let most = back
        .iter()
        .zip(picture.as_bytes())
        .map(|(a, b)| apart(a, b))
        .max();
    assert!(most <= Some(8), "{most:?}");
    assert!(folder.read("coarse.jpeg").len() < folder.read("fine.jpg").len());
}

#[test]
fn grey_with_alpha_and_palettes_are_widened() {
    let folder = Folder::new("widened");
    let grey = image::GrayAlphaImage::from_raw(2, 1, vec![10, 255, 200, 128]).expect("2 by 1");
    grey.save(folder.path("la.png")).expect("written");
    same(&folder, "la.png", "rgba.png", []);
    let wide = image::open(folder.path("rgba.png")).expect("read");
    assert_eq!(
        wide.as_rgba8().expect("rgba").as_raw(),
        &[10, 10, 10, 255, 200, 200, 200, 128]
    );

    let file = fs::File::create(folder.path("palette.png")).expect("a file");
    let mut encoder = png::Encoder::new(file, 4, 1);
    encoder.set_color(png::ColorType::Indexed);
    encoder.set_depth(png::BitDepth::Two);
    encoder.set_palette(vec![255, 0, 0, 0, 255, 0, 0, 0, 255]);
    let mut writer = encoder.write_header().expect("a header");
    writer.write_image_data(&[0b00_01_10_00]).expect("a row");
    writer.finish().expect("an end");
    same(&folder, "palette.png", "rgb.png", []);
    let colours = image::open(folder.path("rgb.png")).expect("read");
    assert_eq!(
        colours.as_rgb8().expect("rgb").as_raw(),
        &[255, 0, 0, 0, 255, 0, 0, 0, 255, 255, 0, 0]
    );
}

#[test]
fn the_first_bytes_say_what_a_file_is() {
    let folder = Folder::new("first-bytes");
    folder.write("in.jpg", &small_png());
    same(&folder, "in.jpg", "out.png", []);
    assert!(folder.read("out.png").starts_with(b"\x89PNG"));
}

#[test]
fn input_and_output_may_be_the_same_file() {
    let folder = Folder::new("in-place");
    folder.write("a.png", &small_png());
    let shifted = [
        "distort",
        "a.png",
        "a.png",
        "--method",
        "Affine",
        "--args",
        "1,0 0,0",
        "--interpolate",
        "nearest",
    ];
    folder.run(shifted).good();
    let now = image::open(folder.path("a.png")).expect("read").into_rgb8();
    assert_eq!(now.get_pixel(0, 0).0, [5, 252, 1]);
    let names: Vec<String> = folder
        .contents()
        .into_iter()
        .map(|(name, _)| name)
        .collect();
    assert_eq!(names, ["a.png"]);
}

#[test]
fn a_link_stays_a_link_and_permissions_stay() {
    let folder = Folder::new("link");
    folder.write("in.png", &small_png());
    folder.write("real.png", b"old");
    fs::set_permissions(folder.path("real.png"), fs::Permissions::from_mode(0o640))
        .expect("permissions");
    symlink("real.png", folder.path("out.png")).expect("a link");
    same(&folder, "in.png", "out.png", []);
    assert!(
        fs::symlink_metadata(folder.path("out.png"))
            .expect("there")
            .is_symlink()
    );
    assert!(folder.read("real.png").starts_with(b"\x89PNG"));
    let mode = fs::metadata(folder.path("real.png"))
        .expect("there")
        .permissions()
        .mode();
    assert_eq!(mode & 0o777, 0o640);
}

#[test]
fn a_link_to_a_file_that_is_not_there_yet_stays_a_link() {
    let folder = Folder::new("dangling");
    folder.write("in.png", &small_png());
    fs::create_dir(folder.path("inner")).expect("a folder");
    symlink("inner/next.png", folder.path("out.png")).expect("a link");
    symlink("new.png", folder.path("inner/next.png")).expect("a link");
    same(&folder, "in.png", "out.png", []);
    for link in ["out.png", "inner/next.png"] {
        assert!(folder.path(link).is_symlink(), "{link}");
    }
    let made = fs::symlink_metadata(folder.path("inner/new.png")).expect("there");
    assert!(made.is_file());
    assert!(folder.read("inner/new.png").starts_with(b"\x89PNG"));
}

#[test]
fn the_channels_told_are_the_files() {
    let folder = Folder::new("channels");
    let opaque = [[10, 20, 30, 255], [40, 50, 60, 255]].concat();
    let opaque = image::RgbaImage::from_raw(2, 1, opaque).expect("2 by 1");
    opaque.save(folder.path("rgba.png")).expect("written");
    let grey = image::GrayImage::from_raw(2, 1, vec![10, 200]).expect("2 by 1");
    grey.save(folder.path("grey.png")).expect("written");
    for (input, output, channels) in [
        ("rgba.png", "out.jpg", 3),
        ("rgba.png", "out.ppm", 3),
        ("rgba.png", "out.png", 4),
        ("grey.png", "out.ppm", 3),
        ("grey.png", "out.pgm", 1),
    ] {
        let run = |more: &[&str]| {
            let words = ["distort", input, output];
            let run = folder.tool().args(words).args(SAME).args(more).output();
            let run = crate::folder::Run::from(run.expect("the tool runs"));
            run.good().out.clone()
        };
        let line = run(&[]);
        let words = match channels {
            1 => "+0+0, 1 channel of 8 bits, ".to_owned(),
            more => format!("+0+0, {more} channels of 8 bits, "),
        };
        assert!(line.contains(&words), "{line}");
        let json = run(&["--json"]);
        let words = format!("\"channels\":{channels},");
        assert!(json.contains(&words), "{json}");
        let written = image::open(folder.path(output)).expect("read");
        assert_eq!(written.color().channel_count(), channels, "{output}");
    }
}

#[test]
fn names_with_blanks_and_control_characters_are_told_in_one_line() {
    let folder = Folder::new("odd-names-out");
    folder.write("in.png", &small_png());
    let words = ["distort", "in.png", "a\n b  c.png"];
    let run = folder.tool().args(words).args(SAME).output();
    let run = crate::folder::Run::from(run.expect("the tool runs"));
    assert!(run.good().out.starts_with("a  b  c.png: PNG, "), "{run:?}");
    assert!(folder.read("a\n b  c.png").starts_with(b"\x89PNG"));
}
