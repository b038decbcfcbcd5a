//! What a policy names at an index: a pixel of the picture or a colour. Written from specification 8 and the Rust's
//! words, in i128, so that nothing wraps but the mix of `Random`.

/// A pixel by column and row, or a colour.
#[derive(Clone, Copy, Debug, PartialEq, Eq)]
pub enum Tap {
    Pixel(u64, u64),
    Background,
    Black,
    White,
    Gray,
    Clear,
}

/// The tap at x, y of a picture under a policy.
pub fn tap(policy: u64, width: u64, height: u64, x: i64, y: i64) -> Tap {
    let (column, row) = (Axis::new(x, width), Axis::new(y, height));
    if column.inside() && row.inside() {
        return Tap::Pixel(x as u64, y as u64);
    }
    match policy {
        0 => Tap::Pixel(column.edge(), row.edge()),
        1 => Tap::Background,
        2 => Tap::Black,
        3 => Tap::White,
        4 => Tap::Gray,
        5 => Tap::Clear,
        6 => Tap::Pixel(column.tile(), row.tile()),
        7 => Tap::Pixel(column.mirror(), row.mirror()),
        8 if row.inside() => Tap::Pixel(column.tile(), y as u64),
        9 if column.inside() => Tap::Pixel(x as u64, row.tile()),
        8 | 9 => Tap::Background,
        10 => Tap::Pixel(column.tile(), row.edge()),
        11 => Tap::Pixel(column.edge(), row.tile()),
        12 if (column.copy() + row.copy()).rem_euclid(2) == 0 => {
            Tap::Pixel(column.tile(), row.tile())
        }
        12 => Tap::Background,
        13 => {
            let mixed = mix(x as u64, y as u64);
            Tap::Pixel(mixed % width, (mixed >> 32) % height)
        }
        _ => panic!("policy {policy} is unknown"),
    }
}

/// An index along one side.
struct Axis {
    at: i128,
    side: i128,
}

impl Axis {
    fn new(at: i64, side: u64) -> Self {
        let (at, side) = (at as i128, side as i128);
        Self { at, side }
    }

    fn inside(&self) -> bool {
        (0..self.side).contains(&self.at)
    }

    fn edge(&self) -> u64 {
        self.at.clamp(0, self.side - 1) as u64
    }

    fn tile(&self) -> u64 {
        self.at.rem_euclid(self.side) as u64
    }

    /// There and back again, each end twice.
    fn mirror(&self) -> u64 {
        let at = self.at.rem_euclid(2 * self.side);
        at.min(2 * self.side - 1 - at) as u64
    }

    /// Which copy of the picture, counted from the picture.
    fn copy(&self) -> i128 {
        self.at.div_euclid(self.side)
    }
}

fn mix(x: u64, y: u64) -> u64 {
    let product = |a: u64, b: u64| (a as u128 * b as u128) as u64;
    let mut z = product(x, 0x9e37_79b9_7f4a_7c15) ^ product(y, 0xbf58_476d_1ce4_e5b9);
    z ^= z >> 31;
    z = product(z, 0x94d0_49bb_1331_11eb);
    z ^ z >> 29
}

#[cfg(test)]
mod tests {
    use super::*;

    /// The trial cards.
    #[test]
    fn cards() {
        let column = |policy, x| match tap(policy, 4, 1, x, 0) {
            Tap::Pixel(x, 0) => x,
            other => panic!("{other:?}"),
        };
        assert_eq!([-1, -5, 4, 8].map(|x| column(7, x)), [0, 3, 3, 0]);
        assert_eq!([-1, 4].map(|x| column(6, x)), [3, 0]);
        let checker = |x, y| tap(12, 2, 2, x, y);
        assert_eq!(checker(2, 0), Tap::Background);
        assert_eq!(checker(-1, 0), Tap::Background);
        assert_eq!(checker(2, 2), Tap::Pixel(0, 0));
    }
}
