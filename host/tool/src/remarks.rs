//! Remarks that stop nothing: the run can be done as it was asked for, and may not be what was meant.

use dihyravo::{Method, Picture};

/// Only four methods have a best fit.
pub fn best_fit(method: Method, asked: bool) -> Option<String> {
    let has = matches!(
        method,
        Method::Affine
            | Method::AffineProjection
            | Method::Perspective
            | Method::PerspectiveProjection
    );
    (asked && !has)
        .then(|| format!("{method} has no best fit: the output is as large as the input"))
}

/// A picture of floats may have colours beyond 1; written for another range, they would be wrong.
pub fn beyond(name: &str, colour: [f32; 4]) -> Option<String> {
    let inside = colour.iter().all(|part| (0.0..=1.0).contains(part));
    (!inside).then(|| format!("the {name} colour has a number beyond 0 to 1, where 1 is full"))
}

/// Corners of which none can be on the picture: u and v of each, with its place in the output after them.
pub fn outside(corners: &[f64], picture: &Picture) -> Option<String> {
    let (width, height) = (picture.width(), picture.height());
    let beside = |k: usize, side: u64| {
        let coordinates = || corners.chunks(4).map(|corner| corner[k]);
        coordinates().all(|x| x <= 0.0) || coordinates().all(|x| x >= side as f64)
    };
    (beside(0, width) || beside(1, height))
        .then(|| format!("the corners lie outside the picture, which is {width} by {height}"))
}

/// A viewer would have turned or mirrored the picture.
pub fn orientation(orientation: Option<u16>) -> Option<String> {
    let found = orientation.filter(|found| (2..=8).contains(found))?;
    Some(format!(
        "the file's orientation is {found}, which viewers apply and this program does not: numbers count on \
         the picture as it is stored"
    ))
}

#[cfg(test)]
mod tests {
    use super::*;

    #[test]
    fn corners_beside_the_picture_are_told() {
        let picture = Picture::new(4, 2, 1, vec![0.0; 8]).unwrap();
        let at = |x: f64, y: f64| {
            let pairs = [(x, y), (x + 1.0, y), (x + 1.0, y + 1.0), (x, y + 1.0)];
            outside(&pairs.map(|(u, v)| [u, v, 0.0, 0.0]).concat(), &picture)
        };
        assert_eq!(at(0.0, 0.0), None);
        assert_eq!(at(3.5, 1.5), None);
        for (x, y) in [(4.0, 0.0), (-1.0, 0.0), (0.0, 2.0), (0.0, -1.0)] {
            assert!(at(x, y).unwrap().ends_with("4 by 2"), "{x}, {y}");
        }
    }

    #[test]
    fn colours_and_orientations_that_are_plain_are_not_told() {
        assert_eq!(beyond("matte", [0.0, 1.0, 0.5, 1.0]), None);
        assert!(beyond("matte", [0.0, 1.5, 0.5, 1.0]).is_some());
        assert_eq!(orientation(None), None);
        assert_eq!(orientation(Some(1)), None);
        assert_eq!(orientation(Some(9)), None);
        assert!(orientation(Some(6)).unwrap().contains("is 6"));
    }
}
