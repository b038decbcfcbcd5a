//! The photograph: the card on a desk of wood, seen at an angle, lit from the left, with a shadow, fall-off and noise.

use crate::card::{self, Colour, mix};

pub const WIDTH: usize = 1200;
pub const HEIGHT: usize = 900;

/// Where the card's corners are on the photograph, from the top-left one clockwise.
pub const CORNERS: [(f64, f64); 4] = [
    (214.25, 131.5),
    (1021.75, 87.25),
    (1097.5, 741.0),
    (112.75, 823.5),
];

/// Points of a pixel that are averaged, along each side.
const FINE: usize = 3;

/// The corners in words.
pub fn corners() -> String {
    CORNERS.map(|(u, v)| format!("{u},{v}")).join(" ")
}

/// Three bytes a pixel, row for row.
pub fn photograph(seed: u64) -> Vec<u8> {
    let view = View::new();
    let mut noise = Noise(seed.wrapping_mul(2).wrapping_add(0x9e37_79b9_7f4a_7c15) | 1);
    let mut pixels = Vec::with_capacity(WIDTH * HEIGHT * 3);
    for j in 0..HEIGHT {
        for i in 0..WIDTH {
            let colour = light(i as f64, j as f64, pixel(&view, i, j));
            // A camera's three channels are noisy each by itself, and more so in the dark.
            let bytes = colour.map(|c| c + noise.next() * (0.011 + 0.007 * (1.0 - c)));
            pixels.extend(bytes.map(|c| (c.clamp(0.0, 1.0) * 255.0).round() as u8));
        }
    }
    pixels
}

/// The mean over a pixel.
fn pixel(view: &View, i: usize, j: usize) -> Colour {
    let at = |k: usize| (k as f64 + 0.5) / FINE as f64;
    let mut sum = [0.0; 3];
    for (b, a) in (0..FINE).flat_map(|b| (0..FINE).map(move |a| (b, a))) {
        let point = seen(view, i as f64 + at(a), j as f64 + at(b));
        sum = [0, 1, 2].map(|k| sum[k] + point[k]);
    }
    sum.map(|s| s / (FINE * FINE) as f64)
}

/// The colour of the thing at a point of the photograph, before the light.
fn seen(view: &View, u: f64, v: f64) -> Colour {
    let (x, y) = view.on_card(u, v);
    if (0.0..card::WIDTH).contains(&x) && (0.0..card::HEIGHT).contains(&y) {
        return card::colour(x, y);
    }
    let shade = 1.0 - 0.55 * shadow(x - 9.0, y - 13.0);
    wood(u, v).map(|c| c * shade)
}

/// 1 under the card, fading to 0 within thirty units around it.
fn shadow(x: f64, y: f64) -> f64 {
    let away = |at: f64, end: f64| (-at).max(at - end).max(0.0);
    let distance = away(x, card::WIDTH).hypot(away(y, card::HEIGHT));
    let near = (1.0 - distance / 30.0).max(0.0);
    near * near
}

/// Boards with a grain along them.
fn wood(u: f64, v: f64) -> Colour {
    let across = v + 0.06 * u;
    let board = (across / 235.0).floor();
    let grain = smooth(u / 210.0 + 37.0 * board, across / 9.0) * 0.6
        + smooth(u / 60.0, across / 3.0 + 11.0) * 0.4;
    let ring = 0.5 + 0.5 * (across / 13.0 + 5.0 * smooth(u / 330.0, across / 70.0 + board)).sin();
    let dark = 0.55 * grain + 0.25 * ring + 0.2 * hash(board as i64, 3);
    let gap = (across - board * 235.0) < 2.5;
    let plank = mix([0.62, 0.44, 0.29], [0.40, 0.25, 0.15], dark);
    if gap { plank.map(|c| c * 0.45) } else { plank }
}

/// Brighter at the upper left, darker in the corners, a little warm.
fn light(u: f64, v: f64, colour: Colour) -> Colour {
    let (x, y) = (u / WIDTH as f64, v / HEIGHT as f64);
    let lamp = 1.06 - 0.30 * (x - 0.30).hypot(y - 0.22);
    let lens = 1.0 - 0.22 * ((x - 0.5).powi(2) + (y - 0.5).powi(2));
    let warm = [1.015, 1.0, 0.965];
    [0, 1, 2].map(|k| colour[k] * lamp * lens * warm[k])
}

/// Which point of the card is seen where: a homography of the card's corners to [`CORNERS`], turned round.
struct View([[f64; 3]; 3]);

impl View {
    /// The map of the unit square to four points, after Heckbert 1989, scaled to the card and inverted by cofactors.
    fn new() -> Self {
        let [(x0, y0), (x1, y1), (x2, y2), (x3, y3)] = CORNERS;
        let (dx1, dx2, sx) = (x1 - x2, x3 - x2, x0 - x1 + x2 - x3);
        let (dy1, dy2, sy) = (y1 - y2, y3 - y2, y0 - y1 + y2 - y3);
        let whole = dx1 * dy2 - dx2 * dy1;
        let (g, h) = ((sx * dy2 - dx2 * sy) / whole, (dx1 * sy - sx * dy1) / whole);
        let (w, t) = (card::WIDTH, card::HEIGHT);
        let m = [
            [(x1 - x0 + g * x1) / w, (x3 - x0 + h * x3) / t, x0],
            [(y1 - y0 + g * y1) / w, (y3 - y0 + h * y3) / t, y0],
            [g / w, h / t, 1.0],
        ];
        let cofactor = |i: usize, j: usize| {
            let (a, b, c, d) = ((i + 1) % 3, (i + 2) % 3, (j + 1) % 3, (j + 2) % 3);
            m[a][c] * m[b][d] - m[a][d] * m[b][c]
        };
        Self([0, 1, 2].map(|i| [0, 1, 2].map(|j| cofactor(j, i))))
    }

    fn on_card(&self, u: f64, v: f64) -> (f64, f64) {
        let [x, y, w] = self.0.map(|row| row[0] * u + row[1] * v + row[2]);
        (x / w, y / w)
    }
}

/// A number from 0 to 1 that depends on two whole numbers.
fn hash(i: i64, j: i64) -> f64 {
    let mixed = (i as u64).wrapping_mul(0x9e37_79b9_7f4a_7c15)
        ^ (j as u64).wrapping_mul(0xc2b2_ae3d_27d4_eb4f);
    let mixed = (mixed ^ (mixed >> 29)).wrapping_mul(0xbf58_476d_1ce4_e5b9);
    ((mixed ^ (mixed >> 32)) >> 11) as f64 / (1u64 << 53) as f64
}

/// Hashes of whole points, blended smoothly between.
fn smooth(x: f64, y: f64) -> f64 {
    let (i, j) = (x.floor(), y.floor());
    let ease = |t: f64| t * t * (3.0 - 2.0 * t);
    let (s, t) = (ease(x - i), ease(y - j));
    let at = |a: i64, b: i64| hash(i as i64 + a, j as i64 + b);
    let blend = |p: f64, q: f64, share: f64| p + (q - p) * share;
    blend(
        blend(at(0, 0), at(1, 0), s),
        blend(at(0, 1), at(1, 1), s),
        t,
    )
}

/// Marsaglia's xorshift; four draws are near enough a normal one.
struct Noise(u64);

impl Noise {
    fn draw(&mut self) -> f64 {
        self.0 ^= self.0 << 13;
        self.0 ^= self.0 >> 7;
        self.0 ^= self.0 << 17;
        (self.0 >> 11) as f64 / (1u64 << 53) as f64 - 0.5
    }

    /// Mean 0, deviation 1.
    fn next(&mut self) -> f64 {
        (self.draw() + self.draw() + self.draw() + self.draw()) * 3f64.sqrt()
    }
}
