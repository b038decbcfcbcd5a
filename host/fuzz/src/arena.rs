//! Memory to lend: pages between two unmapped ones, seen twice. The call sees one view, which it may only read where it
//! is lent an input; we write the other.

use crate::sys;
use std::ptr;

/// Where a buffer lies in its arena, and how a pointer to no bytes is made.
#[derive(Clone, Copy, Debug, PartialEq, Eq)]
pub enum Side {
    /// The byte before its first is unmapped.
    Start,
    /// The byte after its last is unmapped.
    End,
}

impl Side {
    pub fn other(self) -> Self {
        match self {
            Side::Start => Side::End,
            Side::End => Side::Start,
        }
    }
}

/// How a buffer is lent.
#[derive(Clone, Copy, Debug)]
pub struct Place {
    pub side: Side,
    /// Bytes between it and the unmapped page: 0 to touch it, others for pointers that are not aligned.
    pub shift: usize,
    /// What surrounds it.
    pub around: u8,
    /// The pointer of an empty buffer, where it is to point at no memory at all.
    pub nowhere: Option<usize>,
}

/// Some pages between two unmapped ones.
struct Arena {
    /// The view that is lent.
    lent: *mut u8,
    /// The view that is written here.
    own: *mut u8,
    length: usize,
}

impl Arena {
    fn new(length: usize, read_only: bool) -> Self {
        let page = sys::page();
        let lent = sys::reserve(length + 2 * page).wrapping_add(page);
        let both = sys::PROT_READ | sys::PROT_WRITE;
        if !read_only {
            // SAFETY: the mapping is new, and a page at each end stays as it is.
            unsafe { sys::map_over(lent, length, both, None) };
            return Self {
                lent,
                own: lent,
                length,
            };
        }
        let file = sys::memory_file(length);
        let own = sys::reserve(length);
        // SAFETY: as above, and the second mapping is new too.
        unsafe {
            sys::map_over(lent, length, sys::PROT_READ, Some(&file));
            sys::map_over(own, length, both, Some(&file));
        }
        Self { lent, own, length }
    }

    /// All bytes, as they are now.
    fn bytes(&self) -> &[u8] {
        // SAFETY: the pages are mapped as long as the process lives; no call runs while the slice is held.
        unsafe { std::slice::from_raw_parts(self.own, self.length) }
    }

    fn bytes_mut(&mut self) -> &mut [u8] {
        // SAFETY: as above, and this is the one way to it.
        unsafe { std::slice::from_raw_parts_mut(self.own, self.length) }
    }
}

/// Arenas of one, two, four ... pages: a buffer is put into the smallest that holds it, so that little surrounds it.
pub struct Arenas {
    all: Vec<Arena>,
}

/// A buffer that is lent.
#[derive(Clone, Copy, Debug)]
pub struct Lending {
    /// What the call is given.
    pub pointer: *mut u8,
    pub length: usize,
    arena: usize,
    first: usize,
    around: u8,
}

/// The largest arena.
const LARGEST: usize = 4 << 20;

impl Arenas {
    pub fn new(read_only: bool) -> Self {
        let mut all = Vec::new();
        let mut length = sys::page();
        while length <= LARGEST {
            all.push(Arena::new(length, read_only));
            length *= 2;
        }
        Self { all }
    }

    /// One arena that holds `length` bytes, however many.
    pub fn of(length: usize, read_only: bool) -> Self {
        let length = length.next_multiple_of(sys::page());
        let all = vec![Arena::new(length, read_only)];
        Self { all }
    }

    /// Puts `bytes` into an arena. Everything else there is `place.around`.
    pub fn lend(&mut self, bytes: &[u8], place: Place) -> Lending {
        self.lend_filled(bytes.len(), place, |room| room.copy_from_slice(bytes))
    }

    /// The same with so many bytes that `fill` writes.
    pub fn lend_filled(
        &mut self,
        length: usize,
        place: Place,
        fill: impl FnOnce(&mut [u8]),
    ) -> Lending {
        let shift = place.shift;
        let arena = self.all.iter().position(|a| a.length >= length + shift);
        let arena = arena.expect("an arena is large enough");
        let room = &mut self.all[arena];
        let first = match place.side {
            Side::Start => shift,
            Side::End => room.length - length - shift,
        };
        let all = room.bytes_mut();
        all[..first].fill(place.around);
        fill(&mut all[first..first + length]);
        all[first + length..].fill(place.around);
        let inside = room.lent.wrapping_add(first);
        let pointer = match place.nowhere {
            Some(address) if length == 0 => ptr::without_provenance_mut(address),
            _ => inside,
        };
        Lending {
            pointer,
            length,
            arena,
            first,
            around: place.around,
        }
    }

    /// The bytes of a buffer after the call.
    pub fn after(&self, lending: &Lending) -> &[u8] {
        &self.all[lending.arena].bytes()[lending.first..][..lending.length]
    }

    /// Whether every byte about a buffer is what it was.
    pub fn clean(&self, lending: &Lending) -> bool {
        let all = self.all[lending.arena].bytes();
        let (before, rest) = all.split_at(lending.first);
        let same = |bytes: &[u8]| bytes.iter().fold(0, |a, b| a | (b ^ lending.around)) == 0;
        same(before) && same(&rest[lending.length..])
    }
}

#[cfg(test)]
mod tests {
    use super::*;

    fn place(side: Side, shift: usize) -> Place {
        Place {
            side,
            shift,
            around: 0x11,
            nowhere: None,
        }
    }

    #[test]
    fn a_buffer_touches_the_unmapped_page() {
        let mut arenas = Arenas::new(false);
        let page = sys::page();
        for length in [1, 7, 16, page - 1, page, page + 1, 3 * page] {
            let start = arenas.lend(&vec![5; length], place(Side::Start, 0));
            assert_eq!(start.pointer as usize % page, 0);
            let end = arenas.lend(&vec![5; length], place(Side::End, 0));
            assert_eq!((end.pointer as usize + length) % page, 0);
            assert_eq!(arenas.after(&end), vec![5; length]);
        }
    }

    #[test]
    fn a_changed_byte_outside_is_seen() {
        for side in [Side::Start, Side::End] {
            let mut arenas = Arenas::new(false);
            let lending = arenas.lend(&[5; 9], place(side, 3));
            assert!(arenas.clean(&lending));
            let beside = [
                lending.pointer.wrapping_sub(1),
                lending.pointer.wrapping_add(9),
            ];
            for byte in beside {
                // SAFETY: three bytes of the arena are on the side of the unmapped page, more on the other.
                unsafe { byte.write(0x12) };
                assert!(!arenas.clean(&lending));
                // SAFETY: the same byte.
                unsafe { byte.write(0x11) };
            }
            // SAFETY: inside the buffer.
            unsafe { lending.pointer.write(6) };
            assert!(arenas.clean(&lending));
        }
    }

    #[test]
    fn what_is_lent_to_be_read_is_seen_there() {
        let mut arenas = Arenas::new(true);
        let lending = arenas.lend(&[1, 2, 3], place(Side::End, 0));
        // SAFETY: three bytes are there.
        let seen = unsafe { std::slice::from_raw_parts(lending.pointer, 3) };
        assert_eq!(seen, [1, 2, 3]);
    }
}
