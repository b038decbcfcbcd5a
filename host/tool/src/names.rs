//! The lists of names, for people and for programs.

use crate::report;
use dihyravo::{Interpolate, Method, VirtualPixel};
use serde::Serialize;

/// Second names that the proved readers know.
const ALSO: [(&str, &str); 8] = [
    ("BilinearForward", "Bilinear"),
    ("Edge", "Undefined"),
    ("Gray", "Grey"),
    ("Transparent", "None"),
    ("Nearest", "NearestNeighbor"),
    ("Average", "Average4"),
    ("Catrom", "Bicubic"),
    ("ScaleRotateTranslate", "SRT"),
];

/// The original's methods that are not here.
const ABSENT: [&str; 4] = ["ScaleRotateTranslate", "Arc", "Polar", "DePolar"];

fn shown(name: &str) -> String {
    match ALSO.iter().find(|(of, _)| *of == name) {
        Some((_, also)) => format!("{name} (also {also})"),
        None => name.to_owned(),
    }
}

fn policy(policy: VirtualPixel) -> &'static str {
    match policy {
        VirtualPixel::Edge => "the nearest edge pixel",
        VirtualPixel::Background => "the background colour",
        VirtualPixel::Black => "black",
        VirtualPixel::White => "white",
        VirtualPixel::Gray => "grey, halfway",
        VirtualPixel::Transparent => "nothing; OUT has alpha",
        VirtualPixel::Tile => "the picture again and again",
        VirtualPixel::Mirror => "the picture again and again, every other one mirrored",
        VirtualPixel::HorizontalTile => "the picture again sideways, background above and below",
        VirtualPixel::VerticalTile => "the picture again up and down, background at the sides",
        VirtualPixel::HorizontalTileEdge => {
            "the picture again sideways, the nearest edge pixel above and below"
        }
        VirtualPixel::VerticalTileEdge => {
            "the picture again up and down, the nearest edge pixel at the sides"
        }
        VirtualPixel::CheckerTile => "the picture and background, as on a checkerboard",
        VirtualPixel::Random => "a pixel of the picture that depends on the place alone",
        _ => "",
    }
}

fn interpolation(interpolation: Interpolate) -> &'static str {
    match interpolation {
        Interpolate::Integer => "the pixel that holds the point",
        Interpolate::Nearest => "the pixel whose middle is nearest",
        Interpolate::Average => "the mean of 2 by 2 pixels",
        Interpolate::Average9 => "the mean of 3 by 3 pixels",
        Interpolate::Average16 => "the mean of 4 by 4 pixels",
        Interpolate::Bilinear => "2 by 2 pixels, weighted by nearness",
        Interpolate::Catrom => "Catmull and Rom's cubic over 4 by 4 pixels: sharp",
        Interpolate::Spline => "the cubic B-spline over 4 by 4 pixels: soft",
        Interpolate::Background => "the background colour",
        _ => "",
    }
}

/// A name and what is said of it.
fn line(name: &str, about: &str) -> String {
    format!("  {:<32} {about}", shown(name))
}

pub fn table() -> String {
    let mut lines = vec!["Methods, with the numbers of --args:".to_owned()];
    lines.extend(Method::ALL.iter().map(|m| line(m.name(), m.arguments())));
    lines.push(format!(
        "  Absent, and refused: {}",
        ABSENT.map(shown).join(", ")
    ));
    lines.push(
        "Virtual pixel policies, for --virtual-pixel, what is seen outside of IN:".to_owned(),
    );
    lines.extend(VirtualPixel::ALL.iter().map(|v| line(v.name(), policy(*v))));
    lines.push("Interpolations, for --interpolate, how IN is read between its pixels:".to_owned());
    lines.extend(
        Interpolate::ALL
            .iter()
            .map(|i| line(i.name(), interpolation(*i))),
    );
    lines.join("\n")
}

#[derive(Serialize)]
struct Names {
    methods: Vec<MethodObject>,
    virtual_pixels: &'static [&'static str],
    interpolations: &'static [&'static str],
}

#[derive(Serialize)]
struct MethodObject {
    name: &'static str,
    arguments: &'static str,
}

pub fn json() -> String {
    let method = |method: &Method| MethodObject {
        name: method.name(),
        arguments: method.arguments(),
    };
    report::json(&Names {
        methods: Method::ALL.iter().map(method).collect(),
        virtual_pixels: VirtualPixel::NAMES,
        interpolations: Interpolate::NAMES,
    })
}

#[cfg(test)]
mod tests {
    use super::*;
    use dihyravo::raw;

    #[test]
    fn second_names_are_the_readers() {
        for (name, also) in ALSO {
            let read = |reader: fn(&[u8]) -> Option<u8>| {
                let code = reader(name.as_bytes());
                code.is_some() && code == reader(also.as_bytes())
            };
            assert!(
                read(raw::method) || read(raw::policy) || read(raw::interpolation),
                "{also}"
            );
        }
        for name in ABSENT {
            assert!(name.parse::<Method>().unwrap_err().is_absent(), "{name}");
        }
    }

    #[test]
    fn the_table_has_every_name_once() {
        let table = table();
        let names = Method::NAMES
            .iter()
            .chain(VirtualPixel::NAMES)
            .chain(Interpolate::NAMES);
        for name in names {
            let lines = table
                .lines()
                .filter(|line| line.split_whitespace().next() == Some(name));
            let expected = if *name == "Background" { 2 } else { 1 };
            assert_eq!(lines.count(), expected, "{name}");
        }
        assert!(VirtualPixel::ALL.iter().all(|v| !policy(*v).is_empty()));
        assert!(
            Interpolate::ALL
                .iter()
                .all(|i| !interpolation(*i).is_empty())
        );
    }
}
