//! Where a run is, so that a fault in the callee, or a call that does not end, can be told: the handler says which case
//! it was and ends the process.

use crate::sys;
use std::ffi::c_int;
use std::sync::atomic::{AtomicU64, Ordering::Relaxed};

/// The status of a process that ends by a fault.
pub const STATUS: i32 = 70;

/// What the line of a fault starts with.
pub const WORDS: &str = "fault: signal, seed, case, call:";

static SEED: AtomicU64 = AtomicU64::new(0);
static CASE: AtomicU64 = AtomicU64::new(0);
static CALL: AtomicU64 = AtomicU64::new(0);

/// The case that is made now; it may run for so many seconds.
pub fn case(seed: u64, index: u64, seconds: u32) {
    SEED.store(seed, Relaxed);
    CASE.store(index, Relaxed);
    sys::limit(seconds);
}

/// No case is made any more.
pub fn done() {
    sys::limit(0);
}

/// Which of a case's calls is made now; 0 for none.
pub fn call(which: u64) {
    CALL.store(which, Relaxed);
}

/// From now on a fault is told in one line and ends the process with `STATUS`.
pub fn install() {
    for number in sys::SIGNALS {
        // SAFETY: the handler only reads atomics, writes to a file and ends the process.
        unsafe { sys::handle(number, told) };
    }
}

extern "C" fn told(number: c_int) {
    let mut line = Line::default();
    line.text(WORDS);
    let [seed, case, call] = [&SEED, &CASE, &CALL].map(|n| n.load(Relaxed));
    for n in [number as u64, seed, case, call] {
        line.text(" ");
        line.number(n);
    }
    line.text("\n");
    sys::tell(&line.bytes[..line.length]);
    sys::end(STATUS)
}

/// A line that is put together without memory of the heap's, which a handler may not ask for.
struct Line {
    bytes: [u8; 160],
    length: usize,
}

impl Default for Line {
    fn default() -> Self {
        Self {
            bytes: [0; 160],
            length: 0,
        }
    }
}

impl Line {
    fn text(&mut self, text: &str) {
        for byte in text.bytes() {
            if let Some(place) = self.bytes.get_mut(self.length) {
                *place = byte;
                self.length += 1;
            }
        }
    }

    fn number(&mut self, n: u64) {
        if n >= 10 {
            self.number(n / 10);
        }
        let digit = [b'0' + (n % 10) as u8];
        self.text(std::str::from_utf8(&digit).unwrap_or("?"));
    }
}

/// What a line of the handler tells.
#[derive(Clone, Copy, Debug, PartialEq, Eq)]
pub struct Told {
    /// Whether the time was up.
    pub late: bool,
    pub seed: u64,
    pub case: u64,
    pub call: u64,
}

/// Reads a line that the handler wrote.
pub fn read(line: &str) -> Option<Told> {
    let numbers = line.strip_prefix(WORDS)?;
    let mut numbers = numbers.split_whitespace().map(str::parse::<u64>);
    let mut next = || numbers.next()?.ok();
    Some(Told {
        late: next()? == sys::TIME_IS_UP as u64,
        seed: next()?,
        case: next()?,
        call: next()?,
    })
}

#[cfg(test)]
mod tests {
    use super::*;

    #[test]
    fn a_line_is_read_back() {
        let mut line = Line::default();
        line.text(WORDS);
        for n in [11, 9_000, 0, 18_446_744_073_709_551_615] {
            line.text(" ");
            line.number(n);
        }
        let text = std::str::from_utf8(&line.bytes[..line.length]).unwrap();
        let told = Told {
            late: false,
            seed: 9_000,
            case: 0,
            call: u64::MAX,
        };
        assert_eq!(read(text), Some(told));
        assert_eq!(read("another line"), None);
    }
}
