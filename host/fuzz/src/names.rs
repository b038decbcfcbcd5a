//! The three name readers over the same memory: names of every list in random case, damaged ones, random bytes.

use crate::arena::Arenas;
use crate::callee::{Reader, dihyravo_interpolation, dihyravo_method, dihyravo_policy};
use crate::cases::{opposite, place};
use crate::fault;
use differential::codes::{INTERPOLATIONS, METHODS, POLICIES};
use differential::random::Random;
use reference::Reference;

const SALT: u64 = 0x4a3e_0f11;
const ALIASES: [&str; 8] = [
    "srt",
    "Bilinear",
    "Undefined",
    "Grey",
    "None",
    "NearestNeighbor",
    "Average4",
    "Bicubic",
];

/// Calls that a case makes.
pub const CALLS: u64 = 6;

pub struct Names {
    room: Arenas,
    all: Vec<&'static str>,
}

impl Default for Names {
    fn default() -> Self {
        let lists = [
            &METHODS[..],
            &POLICIES[..],
            &INTERPOLATIONS[..],
            &ALIASES[..],
        ];
        Self {
            room: Arenas::new(true),
            all: lists.concat(),
        }
    }
}

impl Names {
    fn name(&self, r: &mut Random) -> Vec<u8> {
        if r.once_in(4) {
            return (0..r.below(40)).map(|_| r.bits() as u8).collect();
        }
        let mut name: Vec<u8> = r.pick(&self.all).bytes().collect();
        for byte in &mut name {
            if r.once_in(2) && byte.is_ascii_alphabetic() {
                *byte ^= 0x20;
            }
        }
        let at = r.below(name.len() as u64) as usize;
        match r.below(6) {
            0 => name[at] = r.bits() as u8,
            1 => name.insert(at, r.bits() as u8),
            2 => name.truncate(at),
            _ => (),
        }
        name
    }

    /// Asks each reader twice.
    pub fn check(
        &mut self,
        reference: Option<Reference>,
        seed: u64,
        index: u64,
    ) -> Result<(), String> {
        let mut r = Random::nth(seed ^ SALT, index);
        let name = self.name(&mut r);
        let readers: [Reader; 3] = [dihyravo_method, dihyravo_policy, dihyravo_interpolation];
        for (k, reader) in readers.into_iter().enumerate() {
            let first = place(&mut r);
            let answers = [first, opposite(first)].map(|place| {
                let lent = self.room.lend(&name, place);
                fault::call(10 + k as u64);
                // SAFETY: the name is in an arena, of the length that is said.
                let answer = unsafe { reader(lent.pointer, lent.length) };
                fault::call(0);
                answer
            });
            let right = match reference {
                Some(reference) => [answer(reference, k, &name); 2] == answers,
                None => answers[0] == answers[1] && (-3..14).contains(&answers[0]),
            };
            if !right {
                return Err(format!("reader {k} of {name:?}: {answers:?}"));
            }
        }
        Ok(())
    }
}

/// The original takes text, so bytes that are none have no code there.
fn answer(r: Reference, which: usize, name: &[u8]) -> i64 {
    let code = std::str::from_utf8(name).ok().and_then(|name| match which {
        0 => r.method_from_name(name),
        1 => r.policy_from_name(name),
        _ => r.interpolation_from_name(name),
    });
    code.map_or(-3, i64::from)
}
