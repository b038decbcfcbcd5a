//! The source point of an output pixel in exact fractions, and the chain conditions on the sums that it is made of.

use super::number::parts;
use crate::codes::*;
use crate::{Job, Window};
use num_bigint::{BigInt, BigUint};

/// A coefficient times powers of x and y.
struct Term {
    coefficient: BigInt,
    x: u32,
    y: u32,
}

/// A sum of terms, each of them a whole number over the mapping's power of two.
type Sum = Vec<Term>;

/// The sums for u and v, and the one that both are divided by, if there is one.
pub struct Mapping {
    u: Sum,
    v: Sum,
    under: Option<Sum>,
    /// The coefficients' denominator is 2 to this.
    scale: usize,
    /// The highest power of x and y together.
    degree: u32,
}

/// u and v over one denominator, which is above 0 where the conditions hold.
#[derive(Clone, Debug, PartialEq, Eq)]
pub struct Point {
    pub u: BigInt,
    pub v: BigInt,
    pub under: BigInt,
}

/// The powers of a polynomial's terms.
fn powers(order: f64) -> Vec<(u32, u32)> {
    if order == 1.5 {
        return vec![(0, 0), (1, 0), (0, 1), (1, 1)];
    }
    let highest = order as u32;
    let of_total = |total: u32| (0..=total).map(move |y| (total - y, y));
    (0..=highest).flat_map(of_total).collect()
}

/// The powers of x, y and 1.
const LINE: [(u32, u32); 3] = [(1, 0), (0, 1), (0, 0)];

impl Mapping {
    /// The mapping of a job by one of the six methods, with its fit's coefficients; none where one of them is no
    /// number, or for another method.
    pub fn new(job: &Job, coefficients: &[f64]) -> Option<Self> {
        let powers = match job.method {
            AFFINE | AFFINE_PROJECTION | PERSPECTIVE | PERSPECTIVE_PROJECTION => LINE.to_vec(),
            BILINEAR_REVERSE => powers(1.5),
            POLYNOMIAL => powers(job.args[0]),
            _ => return None,
        };
        if coefficients.iter().any(|c| !c.is_finite()) {
            return None;
        }
        let least = coefficients.iter().map(|&c| parts(c).1).min()?;
        let scale = usize::try_from(-least).unwrap_or(0);
        let term = |(&c, &(x, y)): (&f64, &(u32, u32))| {
            let (digits, exponent) = parts(c);
            let shift = exponent + scale as i64;
            let coefficient = digits << shift as usize;
            Term { coefficient, x, y }
        };
        let count = powers.len();
        let mut sums = coefficients
            .chunks(count)
            .map(|part| part.iter().zip(&powers).map(term).collect::<Sum>());
        let (u, v, under) = (sums.next()?, sums.next()?, sums.next());
        let perspective = [PERSPECTIVE, PERSPECTIVE_PROJECTION].contains(&job.method);
        assert_eq!(coefficients.len(), count * (2 + usize::from(perspective)));
        Some(Self {
            u,
            v,
            under,
            scale,
            degree: powers.iter().map(|(x, y)| x + y).max()?,
        })
    }

    /// The terms of a sum at x = across/2, y = down/2, as whole numbers over `unit`.
    fn terms(&self, sum: &Sum, across: i64, down: i64) -> Vec<BigInt> {
        let (across, down) = (BigInt::from(across), BigInt::from(down));
        let value = |term: &Term| {
            let powers = across.pow(term.x) * down.pow(term.y);
            (&term.coefficient * powers) << (self.degree - term.x - term.y)
        };
        sum.iter().map(value).collect()
    }

    /// What a sum's terms are over.
    fn unit(&self) -> BigUint {
        BigUint::from(1u8) << (self.scale + self.degree as usize)
    }

    /// Whether the chain conditions hold at every pixel of a window.
    pub fn holds(&self, w: Window) -> bool {
        let column = |i: u64| (0..w.height).all(|j| self.point(i, j, (w.x, w.y)).is_some());
        (0..w.width).all(column)
    }

    /// The source point of output pixel i, j with this offset, asked at its middle; none where a chain condition fails
    /// there.
    pub fn point(&self, i: u64, j: u64, offset: (i64, i64)) -> Option<Point> {
        let across = 2 * (i as i64 + offset.0) + 1;
        let down = 2 * (j as i64 + offset.1) + 1;
        let unit = self.unit();
        let most = &unit << 14u8;
        let add = |terms: &[BigInt], most: &BigUint| {
            let fit = terms.iter().all(|term| term.magnitude() <= most);
            fit.then(|| terms.iter().sum::<BigInt>())
        };
        let u = add(&self.terms(&self.u, across, down), &most)?;
        let v = add(&self.terms(&self.v, across, down), &most)?;
        let under = match &self.under {
            None => unit.into(),
            Some(sum) => {
                let sum = add(&self.terms(sum, across, down), &(&unit << 2u8))?;
                (&sum << 10u8 >= BigInt::from(unit)).then_some(sum)?
            }
        };
        let most = under.magnitude() << 14u8;
        let near = *u.magnitude() <= most && *v.magnitude() <= most;
        near.then_some(Point { u, v, under })
    }
}

#[cfg(test)]
mod tests {
    use super::*;
    use crate::exact::number::quotient;
    use num_bigint::Sign;

    fn job(method: u64) -> Job {
        Job {
            method,
            ..Job::plain()
        }
    }

    fn at(method: u64, coefficients: &[f64], i: u64, j: u64) -> Option<(f64, f64)> {
        let mapping = Mapping::new(&job(method), coefficients)?;
        let point = mapping.point(i, j, (0, 0))?;
        let show = |x: &BigInt| {
            let size = quotient(x.magnitude(), point.under.magnitude());
            if x.sign() == Sign::Minus { -size } else { size }
        };
        Some((show(&point.u), show(&point.v)))
    }

    #[test]
    fn lines_and_quotients() {
        let affine = [2.0, 0.0, 0.25, -1.0, 3.0, 0.0];
        assert_eq!(at(AFFINE, &affine, 1, 2), Some((3.25, 6.0)));
        let perspective = [1.0, 0.0, 0.0, 0.0, 1.0, 0.0, 0.5, 0.0, 1.0];
        let third = 1.5 / 1.75;
        let (u, v) = at(PERSPECTIVE, &perspective, 1, 1).unwrap();
        assert!((u - third).abs() < 1e-15 && (v - third).abs() < 1e-15);
        let saddle = [1.0, 0.0, 0.0, 2.0, 0.0, 1.0, 1.0, 0.0];
        assert_eq!(at(BILINEAR_REVERSE, &saddle, 1, 2), Some((8.5, 4.0)));
    }

    #[test]
    fn powers_rise_in_y() {
        let mut order = job(POLYNOMIAL);
        order.args = vec![2.0];
        let mapping = |k: usize| {
            let mut coefficients = [0.0; 12];
            coefficients[k] = 1.0;
            Mapping::new(&order, &coefficients).unwrap()
        };
        // x is 3/2 and y is 5/2.
        for (k, expected) in [1.0, 1.5, 2.5, 2.25, 3.75, 6.25].into_iter().enumerate() {
            let point = mapping(k).point(1, 2, (0, 0)).unwrap();
            let found = quotient(point.u.magnitude(), point.under.magnitude());
            assert_eq!(found, expected);
            assert_eq!(point.v, BigInt::from(0));
        }
        assert_eq!(powers(1.5).len(), 4);
        assert_eq!(powers(3.0).len(), 10);
        assert_eq!(powers(5.0).len(), 21);
    }

    /// A term, a coordinate and a denominator at their limits and just beyond.
    #[test]
    fn conditions() {
        let line = |c: f64| at(AFFINE, &[0.0, 0.0, c, 0.0, 0.0, 0.0], 0, 0);
        assert!(line(16_384.0).is_some() && line(-16_384.0).is_some());
        assert!(line(16_384.0f64.next_up()).is_none());
        assert!(line(-(16_384.0f64.next_up())).is_none());
        // Terms that cancel out are too large all the same.
        assert!(at(AFFINE, &[40_000.0, -40_000.0, 0.0, 0.0, 0.0, 0.0], 0, 0).is_none());
        // Terms that are small, and a sum that is not.
        assert!(at(AFFINE, &[32_000.0, 2_000.0, 0.0, 0.0, 0.0, 0.0], 0, 0).is_none());
        let under = |c: [f64; 3]| {
            let [a, b, c] = c;
            at(PERSPECTIVE, &[0.0, 0.0, 1.0, 0.0, 0.0, 0.0, a, b, c], 0, 0)
        };
        let least = 1.0 / 1_024.0;
        assert!(under([0.0, 0.0, least]).is_some());
        assert!(under([0.0, 0.0, least.next_down()]).is_none());
        assert!(under([0.0, 0.0, -1.0]).is_none());
        assert!(under([8.0, -6.0, 4.0]).is_some());
        assert!(under([8.0f64.next_up(), -6.0, 4.0]).is_none());
        assert!(under([0.0, 0.0, 4.0f64.next_up()]).is_none());
        // u is 16 over 1/1024.
        let u = |c: f64| {
            at(
                PERSPECTIVE,
                &[0.0, 0.0, c, 0.0, 0.0, 0.0, 0.0, 0.0, least],
                0,
                0,
            )
        };
        assert!(u(16.0).is_some() && u(16.0f64.next_up()).is_none());
        assert!(at(AFFINE, &[f64::NAN, 0.0, 0.0, 0.0, 0.0, 0.0], 0, 0).is_none());
    }
}
