//! The cases of a run, each from a seed and its index: good jobs and those at the edges, damaged copies, lengths that
//! are one off, huge numbers, empty slices, noise.

use crate::arena::{Place, Side};
use crate::damage;
use crate::lent::Lent;
use crate::sweep;
use differential::random::Random;
use differential::{Job, expected, generate};
use reference::Reference;

/// Apart from the generators' own streams.
const SALT: u64 = 0x7a11_0c8e_5eed;

#[derive(Clone, Copy, Debug, PartialEq, Eq)]
pub enum Kind {
    Plain,
    Damaged,
    Length,
    Huge,
    Empty,
    Noise,
}

pub const KINDS: [Kind; 6] = [
    Kind::Plain,
    Kind::Damaged,
    Kind::Length,
    Kind::Huge,
    Kind::Empty,
    Kind::Noise,
];

/// A case, and the stream that places its buffers.
pub struct Case {
    pub kind: Kind,
    pub lent: Lent,
    pub random: Random,
}

pub fn case(r: Option<Reference>, seed: u64, index: u64) -> Case {
    let mut random = Random::nth(seed ^ SALT, index);
    if seed == sweep::SEED {
        let (kind, lent) = sweep::case(index);
        return Case { kind, lent, random };
    }
    let kind = match random.below(16) {
        0..6 => Kind::Plain,
        6..11 => Kind::Damaged,
        11 | 12 => Kind::Length,
        13 => Kind::Huge,
        14 => Kind::Empty,
        _ => Kind::Noise,
    };
    if kind == Kind::Noise {
        let lent = damage::noise(&mut random);
        return Case { kind, lent, random };
    }
    let window = |job: &Job| r.and_then(|r| expected::window_of(r, job));
    let job = generate::call(seed, index, &window);
    let mut lent = Lent::of(&job, &mut random);
    match kind {
        Kind::Damaged => (0..=random.below(3)).for_each(|_| damage::any(&mut random, &mut lent)),
        Kind::Length => damage::length(&mut random, &mut lent),
        Kind::Huge => damage::huge(&mut random, &mut lent),
        Kind::Empty => damage::empty(&mut random, &mut lent),
        Kind::Plain | Kind::Noise => (),
    }
    Case { kind, lent, random }
}

/// Where one buffer lies: against an unmapped page, or a few bytes from it; now and then an empty one is nowhere.
pub fn place(r: &mut Random) -> Place {
    Place {
        side: r.pick(&[Side::Start, Side::End]),
        shift: if r.once_in(4) {
            1 + r.below(15) as usize
        } else {
            0
        },
        around: 0xff,
        nowhere: r.once_in(3).then(|| r.pick(&[0, 1, 2, 8, 16, usize::MAX])),
    }
}

/// The same at the other page, with other surroundings.
pub fn opposite(place: Place) -> Place {
    Place {
        side: place.side.other(),
        around: !place.around,
        ..place
    }
}
