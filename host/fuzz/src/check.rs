//! One case: two calls, each buffer against an unmapped page at its start in one and at its end in the other, with
//! other surroundings and other bytes in band and answer before. What is left has to be the same, and only what may
//! change may have changed.

use crate::arena::{Arenas, Lending, Place};
use crate::callee::{self, Distort, Pointers};
use crate::cases::{opposite, place};
use crate::fault;
use crate::lent::Lent;
use crate::model::Asked;
use differential::random::Random;

/// What the bytes of band and answer are before the first and before the second call.
const FRESH: [u8; 2] = [0xa5, 0x5a];

/// Memory for every buffer that a call is lent.
pub struct Rooms {
    picture: Arenas,
    arguments: Arenas,
    background: Arenas,
    matte: Arenas,
    band: Arenas,
    answer: Arenas,
}

/// What a call leaves.
struct Left {
    number: u64,
    answer: [u8; 48],
    band: Vec<u8>,
}

impl Default for Rooms {
    fn default() -> Self {
        let (read, written) = (|| Arenas::new(true), || Arenas::new(false));
        Self {
            picture: read(),
            arguments: read(),
            background: read(),
            matte: read(),
            band: written(),
            answer: written(),
        }
    }
}

impl Rooms {
    /// Makes both calls. The number that was answered, or what is wrong.
    pub fn check(
        &mut self,
        callee: Distort,
        lent: &Lent,
        asked: Asked,
        r: &mut Random,
    ) -> Result<u64, String> {
        let places = [(); 6].map(|()| place(r));
        fault::call(1);
        let first = self.call(callee, lent, places, FRESH[0])?;
        fault::call(2);
        let second = self.call(callee, lent, places.map(opposite), FRESH[1])?;
        fault::call(0);
        if let Some(words) = asked.parting(first.number, &first.answer) {
            return Err(words);
        }
        if first.number != second.number {
            let (a, b) = (first.number, second.number);
            return Err(format!("the answer is {a} and then {b}"));
        }
        if first.number == 0 && first.answer != second.answer {
            return Err("the answer's bytes are not the same twice".into());
        }
        if first.number == 0 && first.band != second.band {
            return Err("the band is not the same twice".into());
        }
        Ok(first.number)
    }

    fn call(
        &mut self,
        callee: Distort,
        lent: &Lent,
        places: [Place; 6],
        fresh: u8,
    ) -> Result<Left, String> {
        let picture = self.picture.lend(&lent.picture, places[0]);
        let arguments = self.arguments.lend(&lent.arguments, places[1]);
        let background = self.background.lend(&lent.background, places[2]);
        let matte = self.matte.lend(&lent.matte, places[3]);
        let band = self.band.lend(&vec![fresh; lent.band], places[4]);
        let answer = self.answer.lend(&[fresh; 48], places[5]);
        let slice = |l: &Lending| (l.pointer.cast_const(), l.length);
        let pointers = Pointers {
            picture: slice(&picture),
            arguments: slice(&arguments),
            background: background.pointer,
            matte: matte.pointer,
            band: (band.pointer, band.length),
            answer: answer.pointer,
        };
        // SAFETY: each buffer is in an arena of its own, of the length that is said.
        let number = unsafe { callee::call(callee, &lent.numbers, &pointers) };
        self.left(number, &band, &answer, fresh)
    }

    /// What the call left, if it changed nothing else.
    fn left(
        &self,
        number: u64,
        band: &Lending,
        answer: &Lending,
        fresh: u8,
    ) -> Result<Left, String> {
        if !self.band.clean(band) {
            return Err("a byte beside the band is changed".into());
        }
        if !self.answer.clean(answer) {
            return Err("a byte beside the answer is changed".into());
        }
        let (band, answer) = (self.band.after(band), self.answer.after(answer));
        let changed = |bytes: &[u8]| bytes.iter().any(|&byte| byte != fresh);
        if number != 0 && changed(band) {
            return Err(format!("refused by {number}, and the band is changed"));
        }
        if number != 0 && changed(answer) {
            return Err(format!("refused by {number}, and the answer is changed"));
        }
        let mut bytes = [0; 48];
        bytes.copy_from_slice(answer);
        Ok(Left {
            number,
            answer: bytes,
            band: band.to_vec(),
        })
    }
}
