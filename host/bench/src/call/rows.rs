//! The rows of the table: pictures, methods, interpolations and policies, and the words that choose among them.

use differential::codes::{self, INTERPOLATIONS, METHODS, POLICIES};

pub use differential::codes::policy::{EDGE, RANDOM, TILE};

/// A picture's size and what is in its fourth channel.
#[derive(Clone, Copy, Debug, PartialEq, Eq)]
pub struct Shape {
    pub width: u64,
    pub height: u64,
    pub channels: u64,
    /// Every alpha of a picture with four channels is 1.
    pub opaque: bool,
}

impl Shape {
    pub fn size(&self) -> String {
        format!("{}x{}", self.width, self.height)
    }

    pub fn kind(&self) -> String {
        let opaque = if self.channels == 4 && self.opaque {
            "-opaque"
        } else {
            ""
        };
        format!("{}{opaque}", self.channels)
    }

    pub fn pixels(&self) -> u64 {
        self.width * self.height
    }

    pub fn large(&self) -> bool {
        self.pixels() > 1_000_000
    }

    /// Samples from 0 to 1 without a pattern; alpha from 1/4 to 1, or 1.
    pub fn samples(&self) -> Vec<f32> {
        let mixed = |k: u64| ((k * 2_654_435_761) % 1_000_003) as f32 / 1_000_003.0;
        let sample = |k: u64| match self.channels == 4 && k % 4 == 3 {
            true if self.opaque => 1.0,
            true => 0.25 + 0.75 * mixed(k),
            false => mixed(k),
        };
        (0..self.pixels() * self.channels).map(sample).collect()
    }
}

/// What one row of the table measures.
#[derive(Clone, Copy, Debug, PartialEq, Eq)]
pub struct Row {
    pub shape: Shape,
    pub method: u64,
    pub interpolation: u64,
    pub policy: u64,
}

impl Row {
    pub fn method_name(&self) -> &'static str {
        METHODS[self.method as usize]
    }

    pub fn interpolation_name(&self) -> &'static str {
        INTERPOLATIONS[self.interpolation as usize]
    }

    pub fn policy_name(&self) -> &'static str {
        POLICIES[self.policy as usize]
    }

    /// What the words of the command line are compared with.
    pub fn words(&self) -> [String; 5] {
        [
            self.shape.size(),
            self.shape.kind(),
            self.method_name().to_string(),
            self.interpolation_name().to_string(),
            self.policy_name().to_string(),
        ]
    }

    /// A window of the picture's size; under `Tile` and `Random` a quarter of each side is outside.
    pub fn view(&self) -> (u64, u64, i64, i64) {
        let (w, h) = (self.shape.width, self.shape.height);
        match self.policy {
            EDGE => (w, h, 0, 0),
            _ => (w, h, -(w as i64) / 4, -(h as i64) / 4),
        }
    }

    pub fn arguments(&self) -> Vec<f64> {
        let (w, h) = (self.shape.width as f64, self.shape.height as f64);
        match self.method {
            codes::AFFINE_PROJECTION => vec![1.05, 0.02, -0.01, 1.06, -0.03 * w, -0.03 * h],
            codes::PERSPECTIVE_PROJECTION => {
                let (g, k) = (0.02 / w, -0.03 / h);
                vec![1.05, 0.02, -0.03 * w, -0.01, 1.06, -0.03 * h, g, k]
            }
            codes::POLYNOMIAL => [vec![2.0], pairs(self.shape, 4)].concat(),
            codes::BARREL | codes::BARREL_INVERSE => vec![0.01, -0.02, 0.03],
            _ => pairs(self.shape, 2),
        }
    }
}

/// Pairs in a grid over the picture, each picked a few pixels off, inwards.
fn pairs(shape: Shape, across: u64) -> Vec<f64> {
    let off = |a: u64, b: u64| ((a * 7 + b * 13) % 11) as f64 - 5.0;
    let place = |k: u64, side: u64| (k * side) as f64 / (across - 1) as f64;
    let inwards = |x: f64, side: u64| side as f64 * 0.04 + x * 0.92;
    let grid = (0..across).flat_map(|j| (0..across).map(move |i| (i, j)));
    let pair = |(i, j)| {
        let (x, y) = (place(i, shape.width), place(j, shape.height));
        let u = inwards(x, shape.width) + off(i, j);
        [u, inwards(y, shape.height) + off(j, i), x, y]
    };
    grid.flat_map(pair).collect()
}

/// Every row: each method with `Bilinear` and each interpolation with `Perspective`; of one small picture every pair.
pub fn all() -> Vec<Row> {
    let mut rows = Vec::new();
    for (width, height) in [(2_000, 1_500), (256, 256)] {
        for (channels, opaque) in [(3, true), (1, true), (4, false), (4, true)] {
            let shape = Shape {
                width,
                height,
                channels,
                opaque,
            };
            for policy in [EDGE, TILE, RANDOM] {
                let every = shape.kind() == "3" && policy == EDGE && !shape.large();
                let less = shape.kind() == "4-opaque" && policy != EDGE;
                if !less {
                    rows.extend(pairs_of(every).map(|(method, interpolation)| Row {
                        shape,
                        method,
                        interpolation,
                        policy,
                    }));
                }
            }
        }
    }
    rows
}

fn pairs_of(every: bool) -> impl Iterator<Item = (u64, u64)> {
    let (plain, named) = (codes::interpolation::BILINEAR, codes::PERSPECTIVE);
    let all = codes::PRESENT.into_iter();
    let all = all.flat_map(|m| (0..INTERPOLATIONS.len() as u64).map(move |i| (m, i)));
    all.filter(move |&(m, i)| every || i == plain || m == named)
}

/// The rows that have every word in their names, case ignored. A quick run without words is of one picture, mostly
/// `Edge`.
pub fn chosen(words: &[String], quick: bool) -> Vec<Row> {
    let has = |row: &Row, word: &String| row.words().iter().any(|w| w.eq_ignore_ascii_case(word));
    let asked = |row: &Row| words.iter().all(|word| has(row, word));
    let light = |row: &Row| row.shape.large() && row.shape.kind() == "3" && common(row);
    let few = quick && words.is_empty();
    let all = all().into_iter();
    all.filter(|row| asked(row) && (!few || light(row)))
        .collect()
}

fn common(row: &Row) -> bool {
    let plain =
        row.method == codes::PERSPECTIVE && row.interpolation == codes::interpolation::BILINEAR;
    row.policy == EDGE || plain
}

#[cfg(test)]
mod tests {
    use super::*;

    fn count(words: &str) -> usize {
        let words: Vec<String> = words.split_whitespace().map(String::from).collect();
        chosen(&words, false).len()
    }

    #[test]
    fn every_method_interpolation_and_policy_is_there() {
        for shape in [
            "2000x1500 1",
            "2000x1500 3",
            "2000x1500 4",
            "256x256 1",
            "256x256 4",
        ] {
            for policy in ["Edge", "Tile", "Random"] {
                let words = format!("{shape} {policy}");
                assert_eq!(count(&format!("{words} Bilinear")), codes::PRESENT.len());
                assert_eq!(count(&format!("{words} Perspective")), INTERPOLATIONS.len());
            }
        }
        let pairs = codes::PRESENT.len() * INTERPOLATIONS.len();
        assert_eq!(count("256x256 3 Edge"), pairs);
    }

    #[test]
    fn words_are_whole_and_case_is_ignored() {
        assert_eq!(count("perspective BILINEAR 3"), 6);
        assert_eq!(count("Persp"), 0);
        let few = chosen(&[], true);
        assert!(
            few.iter()
                .all(|row| row.shape.large() && row.shape.channels == 3)
        );
        assert_eq!(few.len(), 20);
    }
}
