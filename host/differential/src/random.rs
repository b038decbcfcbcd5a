//! Pseudo-random numbers from a seed alone: xoshiro256** started by splitmix64.

/// A stream of numbers, the same for the same seed everywhere.
#[derive(Clone, Debug)]
pub struct Random([u64; 4]);

impl Random {
    pub fn new(seed: u64) -> Self {
        let mut state = seed;
        Self([(); 4].map(|()| splitmix(&mut state)))
    }

    /// The stream of the `index`th item under `seed`.
    pub fn nth(seed: u64, index: u64) -> Self {
        let mut state = index;
        Self::new(seed ^ splitmix(&mut state))
    }

    pub fn bits(&mut self) -> u64 {
        let s = &mut self.0;
        let answer = s[1].wrapping_mul(5).rotate_left(7).wrapping_mul(9);
        let t = s[1] << 17;
        s[2] ^= s[0];
        s[3] ^= s[1];
        s[1] ^= s[2];
        s[0] ^= s[3];
        s[2] ^= t;
        s[3] = s[3].rotate_left(45);
        answer
    }

    /// A number below `n`, which is above 0.
    pub fn below(&mut self, n: u64) -> u64 {
        ((self.bits() as u128 * n as u128) >> 64) as u64
    }

    /// A number from `low` to `high`, both included.
    pub fn between(&mut self, low: i64, high: i64) -> i64 {
        low + self.below((high - low + 1) as u64) as i64
    }

    /// True once in `n` times.
    pub fn once_in(&mut self, n: u64) -> bool {
        self.below(n) == 0
    }

    /// From 0 up to 1, which is left out.
    pub fn unit(&mut self) -> f64 {
        (self.bits() >> 11) as f64 / (1u64 << 53) as f64
    }

    /// From `low` up to `high`.
    pub fn real(&mut self, low: f64, high: f64) -> f64 {
        low + self.unit() * (high - low)
    }

    pub fn pick<T: Copy>(&mut self, all: &[T]) -> T {
        all[self.below(all.len() as u64) as usize]
    }
}

fn splitmix(state: &mut u64) -> u64 {
    *state = state.wrapping_add(0x9e37_79b9_7f4a_7c15);
    let z = *state;
    let z = (z ^ (z >> 30)).wrapping_mul(0xbf58_476d_1ce4_e5b9);
    let z = (z ^ (z >> 27)).wrapping_mul(0x94d0_49bb_1331_11eb);
    z ^ (z >> 31)
}

#[cfg(test)]
mod tests {
    use super::*;

    /// The published first outputs of splitmix64 for the seed 1234567.
    #[test]
    fn splitmix_is_the_published_one() {
        let mut state = 1234567;
        assert_eq!(splitmix(&mut state), 6457827717110365317);
        assert_eq!(splitmix(&mut state), 3203168211198807973);
    }

    #[test]
    fn streams_are_fixed_and_apart() {
        assert_eq!(Random::nth(1, 2).bits(), Random::nth(1, 2).bits());
        assert_ne!(Random::nth(1, 2).bits(), Random::nth(1, 3).bits());
        assert_ne!(Random::nth(1, 2).bits(), Random::nth(2, 2).bits());
    }

    #[test]
    fn bounds_hold_and_are_met() {
        let mut r = Random::new(7);
        let drawn: Vec<i64> = (0..1000).map(|_| r.between(-2, 2)).collect();
        assert!((-2..=2).all(|k| drawn.contains(&k)));
        assert!(drawn.iter().all(|k| (-2..=2).contains(k)));
        assert!((0..1000).all(|_| (0.0..1.0).contains(&r.unit())));
    }
}
