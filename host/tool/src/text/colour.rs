//! Colours: `#rgb`, `#rgba`, `#rrggbb`, `#rrggbbaa`, `rgb(r,g,b)`, `rgba(r,g,b,a)`, a few names, or four numbers.

use super::numbers::{number, numbers};

/// The values that CSS gives these names.
const NAMED: [(&str, [u8; 4]); 18] = [
    ("black", [0, 0, 0, 255]),
    ("white", [255, 255, 255, 255]),
    ("gray", [128, 128, 128, 255]),
    ("grey", [128, 128, 128, 255]),
    ("silver", [192, 192, 192, 255]),
    ("red", [255, 0, 0, 255]),
    ("lime", [0, 255, 0, 255]),
    ("green", [0, 128, 0, 255]),
    ("blue", [0, 0, 255, 255]),
    ("yellow", [255, 255, 0, 255]),
    ("cyan", [0, 255, 255, 255]),
    ("magenta", [255, 0, 255, 255]),
    ("orange", [255, 165, 0, 255]),
    ("brown", [165, 42, 42, 255]),
    ("purple", [128, 0, 128, 255]),
    ("navy", [0, 0, 128, 255]),
    ("transparent", [0, 0, 0, 0]),
    ("none", [0, 0, 0, 0]),
];

/// Red, green, blue and alpha; 1 is full and opaque.
pub fn colour(text: &str) -> Result<[f32; 4], String> {
    let text = text.trim();
    let lower = text.to_ascii_lowercase();
    if let Some((_, parts)) = NAMED.iter().find(|(name, _)| *name == lower) {
        return Ok(parts.map(eighth));
    }
    let read = match lower.strip_prefix('#') {
        Some(digits) => hex(digits),
        None if lower.starts_with("rgb") => function(&lower),
        None => four(&lower),
    };
    read.ok_or_else(|| {
        let names = NAMED.map(|(name, _)| name).join(", ");
        format!(
            "'{text}' is not a colour: give #rgb, #rgba, #rrggbb, #rrggbbaa, rgb(r,g,b), rgba(r,g,b,a), four \
             numbers of which 1 is full, or one of {names}"
        )
    })
}

fn eighth(part: u8) -> f32 {
    f32::from(part) / 255.0
}

/// The digits after `#`: one or two for each of three or four components.
fn hex(digits: &str) -> Option<[f32; 4]> {
    if !digits.bytes().all(|b| b.is_ascii_hexdigit()) {
        return None;
    }
    let width = match digits.len() {
        3 | 4 => 1,
        6 | 8 => 2,
        _ => return None,
    };
    let mut parts = [255; 4];
    for (part, digits) in parts.iter_mut().zip(digits.as_bytes().chunks(width)) {
        let value = u8::from_str_radix(std::str::from_utf8(digits).ok()?, 16).ok()?;
        *part = if width == 1 { value * 17 } else { value };
    }
    Some(parts.map(eighth))
}

/// `rgb(…)` and `rgba(…)`: components of 0 to 255 or in percent, alpha of 0 to 1 or in percent.
fn function(text: &str) -> Option<[f32; 4]> {
    let (name, rest) = text.split_once('(')?;
    let parts: Vec<&str> = rest.strip_suffix(')')?.split(',').map(str::trim).collect();
    let expected = match name.trim() {
        "rgb" => 3,
        "rgba" => 4,
        _ => return None,
    };
    if parts.len() != expected {
        return None;
    }
    let mut colour = [1.0; 4];
    for (k, (component, part)) in colour.iter_mut().zip(parts).enumerate() {
        *component = component_of(part, if k == 3 { 1.0 } else { 255.0 })?;
    }
    Some(colour)
}

fn component_of(part: &str, full: f64) -> Option<f32> {
    let (digits, full) = match part.strip_suffix('%') {
        Some(digits) => (digits, 100.0),
        None => (part, full),
    };
    let value = number(digits).ok()? / full;
    (0.0..=1.0).contains(&value).then_some(value as f32)
}

/// Four numbers as they are: a picture of floats may have colours beyond 1, and the call knows the limits. An alpha
/// beyond 1 is of another range.
fn four(text: &str) -> Option<[f32; 4]> {
    let values = numbers(text).ok()?;
    let four: [f64; 4] = values.try_into().ok()?;
    (0.0..=1.0)
        .contains(&four[3])
        .then(|| four.map(|value| value as f32))
}

#[cfg(test)]
mod tests {
    use super::*;

    #[test]
    fn every_form_is_read() {
        let orange = Ok([1.0, 0.6, 0.0, 1.0]);
        for text in [
            "#f90",
            "#F90F",
            "#ff9900",
            "#ff9900FF",
            "rgb(255,153,0)",
            "RGB( 100%, 60%, 0% )",
            "1,0.6,0,1",
        ] {
            assert_eq!(colour(text), orange, "{text}");
        }
        assert_eq!(colour("rgba(0,0,0,0.5)"), Ok([0.0, 0.0, 0.0, 0.5]));
        assert_eq!(colour(" None "), Ok([0.0; 4]));
        assert_eq!(colour("white"), Ok([1.0; 4]));
        assert_eq!(colour("2 -1 0 1"), Ok([2.0, -1.0, 0.0, 1.0]));
    }

    #[test]
    fn other_forms_are_told() {
        for text in [
            "",
            "#",
            "#12",
            "#12345",
            "#ggg",
            "#é",
            "rgb(1,2)",
            "rgb(1,2,3,4)",
            "rgba(1,2,3)",
            "rgb(256,0,0)",
            "rgb(1,2,3",
            "rgbx(1,2,3)",
            "pinkish",
            "1,2,3",
            "1,2,3,4,5",
            "nan,0,0,1",
            "255,0,0,255",
            "0,0,0,-1",
        ] {
            assert!(
                colour(text).unwrap_err().contains("is not a colour"),
                "{text}"
            );
        }
    }
}
