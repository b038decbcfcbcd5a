//! ImageMagick's geometries: `WxH` and `WxH+X+Y`, with signs before X and Y.

use dihyravo::Viewport;

/// A window as it is written.
pub fn shown(window: Viewport) -> String {
    let Viewport {
        width,
        height,
        x,
        y,
    } = window;
    format!("{width}x{height}{x:+}{y:+}")
}

/// `WxH`, `WxH+X+Y`, `WxH-X+Y` and so on.
pub fn geometry(text: &str) -> Result<Viewport, String> {
    let text = text.trim();
    let (size_part, offset) = text.split_at(text.find(['+', '-']).unwrap_or(text.len()));
    let parsed = side_by_side(size_part).and_then(|(width, height)| {
        let (x, y) = offsets(offset)?;
        Some(Viewport {
            width,
            height,
            x,
            y,
        })
    });
    parsed.ok_or_else(|| {
        format!("'{text}' is not a geometry WxH+X+Y of whole numbers, such as 800x600-10+20")
    })
}

/// `WxH`.
pub fn size(text: &str) -> Result<(u64, u64), String> {
    side_by_side(text.trim())
        .ok_or_else(|| format!("'{text}' is not a size WxH of whole numbers, such as 800x600"))
}

fn side_by_side(text: &str) -> Option<(u64, u64)> {
    let (width, height) = text.split_once(['x', 'X'])?;
    Some((whole(width)?, whole(height)?))
}

/// Digits alone: `parse` would take a sign. A number that is too large is the largest one, which the call refuses.
fn whole(text: &str) -> Option<u64> {
    let digits = !text.is_empty() && text.bytes().all(|b| b.is_ascii_digit());
    digits.then(|| text.parse().unwrap_or(u64::MAX))
}

/// A sign and digits, the farthest number where it is too far off.
fn offset(text: &str) -> Option<i64> {
    let (farthest, digits) = match text.strip_prefix('-') {
        Some(digits) => (i64::MIN, digits),
        None => (i64::MAX, text.strip_prefix('+')?),
    };
    whole(digits)?;
    Some(text.parse().unwrap_or(farthest))
}

/// `+X+Y` with any signs, or nothing, which is 0, 0.
fn offsets(text: &str) -> Option<(i64, i64)> {
    if text.is_empty() {
        return Some((0, 0));
    }
    let second = 1 + text[1..].find(['+', '-'])?;
    let (x, y) = text.split_at(second);
    Some((offset(x)?, offset(y)?))
}

#[cfg(test)]
mod tests {
    use super::*;

    #[test]
    fn offsets_have_signs() {
        let read = |text: &str| geometry(text).map(|g| (g.width, g.height, g.x, g.y));
        assert_eq!(read("800x600+10+20"), Ok((800, 600, 10, 20)));
        assert_eq!(read("800x600-10+20"), Ok((800, 600, -10, 20)));
        assert_eq!(read("1X2+0-7"), Ok((1, 2, 0, -7)));
        assert_eq!(read("0x0"), Ok((0, 0, 0, 0)));
        assert_eq!(
            read("4096x4096-1048576-1048576"),
            Ok((4096, 4096, -1048576, -1048576))
        );
    }

    #[test]
    fn what_is_too_large_is_left_to_the_call() {
        let read = |text: &str| geometry(text).map(|g| (g.width, g.height, g.x, g.y));
        let nines = "99999999999999999999";
        assert_eq!(
            read(&format!("{nines}x1-{nines}+{nines}")),
            Ok((u64::MAX, 1, i64::MIN, i64::MAX))
        );
        assert_eq!(
            read("1x18446744073709551615-9223372036854775808+9223372036854775807"),
            Ok((1, u64::MAX, i64::MIN, i64::MAX))
        );
        assert_eq!(size(&format!("1x{nines}")), Ok((1, u64::MAX)));
    }

    #[test]
    fn a_geometry_prints_as_it_is_read() {
        for text in ["800x600-10+20", "0x0+0+0", "1x2+0-7"] {
            assert_eq!(shown(geometry(text).unwrap()), text);
        }
    }

    #[test]
    fn other_forms_are_told() {
        for text in [
            "",
            "800",
            "800x",
            "x600",
            "800x600+1",
            "800x600+1+",
            "800x600++1+2",
            "800x600+1+2+3",
            "-8x6+0+0",
            "8.5x6",
            "8x6+0+a",
            "8 x 6",
            "8x6+é+1",
            "ex6",
        ] {
            assert!(
                geometry(text).unwrap_err().contains("is not a geometry"),
                "{text}"
            );
        }
        assert_eq!(size("800x600"), Ok((800, 600)));
        assert!(size("800x600+0+0").is_err());
    }
}
