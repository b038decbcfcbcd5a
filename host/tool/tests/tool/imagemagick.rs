//! The demo's photograph, squared by the tool and by ImageMagick: at most one step of 16 bits apart.

use crate::folder::Folder;
use crate::scene;
use std::process::Command;

/// Whether ImageMagick's `convert` is there, and not another program of that name.
fn installed() -> bool {
    let version = Command::new("convert").arg("-version").output();
    version.is_ok_and(|v| v.stdout.starts_with(b"Version: ImageMagick"))
}

/// Pairs of a photograph's corner and a corner of 800 by 600.
fn pairs() -> String {
    let places = [(0, 0), (800, 0), (800, 600), (0, 600)];
    let pairs = scene::CORNERS
        .iter()
        .zip(places)
        .map(|((u, v), (x, y))| format!("{u},{v} {x},{y}"));
    pairs.collect::<Vec<_>>().join("  ")
}

/// Writes the demo's photograph.
fn photograph(folder: &Folder) {
    let (width, height) = (scene::WIDTH as u32, scene::HEIGHT as u32);
    let photograph =
        image::RgbImage::from_raw(width, height, scene::photograph(7)).expect("a photograph");
    photograph
        .save(folder.path("photograph.png"))
        .expect("written");
}

/// Squares the photograph by the tool.
fn ours(folder: &Folder) {
    let corners = scene::corners();
    let words = [
        "square",
        "photograph.png",
        "ours.png",
        "--size",
        "800x600",
        "--depth",
        "16",
        "--corners",
        &corners,
    ];
    folder.run(words).good();
}

/// Squares the photograph by ImageMagick.
fn theirs(folder: &Folder) {
    let words = "photograph.png -filter point -interpolate bilinear -virtual-pixel edge \
                 -define distort:viewport=800x600+0+0";
    let convert = Command::new("convert")
        .current_dir(folder.path("."))
        .args(words.split(' '))
        .args([
            "-distort",
            "Perspective",
            &pairs(),
            "-depth",
            "16",
            "PNG48:theirs.png",
        ])
        .status();
    assert!(convert.expect("convert runs").success());
}

#[test]
fn the_photograph_squared_is_imagemagicks() {
    if !installed() {
        println!("skipped: the_photograph_squared_is_imagemagicks: ImageMagick is not installed");
        return;
    }
    let folder = Folder::new("imagemagick");
    photograph(&folder);
    ours(&folder);
    theirs(&folder);
    let samples = |name: &str| {
        image::open(folder.path(name))
            .expect("a picture")
            .into_rgb16()
            .into_raw()
    };
    let (ours, theirs) = (samples("ours.png"), samples("theirs.png"));
    assert_eq!(ours.len(), theirs.len());
    let steps: Vec<u16> = ours
        .iter()
        .zip(&theirs)
        .map(|(a, b)| a.abs_diff(*b))
        .collect();
    let most = steps.iter().copied().max().unwrap_or(0);
    let apart = steps.iter().filter(|s| **s > 0).count();
    let count = steps.len();
    println!("{apart} of {count} samples are apart, by at most {most} of 65,535 steps");
    assert!(most <= 1);
}
