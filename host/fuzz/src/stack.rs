//! The stack that a call needs: it runs on a thread whose stack is ours and painted, and afterwards the lowest byte
//! that is not as it was painted is looked for. What such a thread takes without the call is taken off.

use crate::callee::{self, Distort, Pointers};
use crate::lent::Lent;
use crate::sys::{self, Start};
use differential::CallNumbers;
use std::ffi::c_void;
use std::mem::MaybeUninit;
use std::ptr;

/// Bytes of the painted stack.
const SIZE: usize = 1 << 20;
const PAINT: u64 = 0x5ca1_ab1e_0dd5_7ac4;

/// A stack with an unmapped page below it.
pub struct Stack {
    lowest: *mut u64,
    /// Bytes that a thread takes which calls nothing.
    idle: usize,
}

/// What the thread is given.
struct Task<'a> {
    callee: Distort,
    numbers: &'a CallNumbers,
    pointers: Pointers,
    number: u64,
}

extern "C" fn idle(_: *mut c_void) -> *mut c_void {
    ptr::null_mut()
}

extern "C" fn make(task: *mut c_void) -> *mut c_void {
    // SAFETY: the one who starts the thread lends it a task and waits for it.
    unsafe {
        let task = &mut *task.cast::<Task>();
        task.number = callee::call(task.callee, task.numbers, &task.pointers);
    }
    ptr::null_mut()
}

impl Default for Stack {
    fn default() -> Self {
        let page = sys::page();
        let lowest = sys::reserve(SIZE + page).wrapping_add(page);
        // SAFETY: the mapping is new, and its lowest page stays as it is.
        unsafe { sys::map_over(lowest, SIZE, sys::PROT_READ | sys::PROT_WRITE, None) };
        let lowest = lowest.cast();
        let mut stack = Self { lowest, idle: 0 };
        stack.idle = stack.deepest(idle, ptr::null_mut());
        stack
    }
}

impl Stack {
    fn words(&mut self) -> &mut [u64] {
        // SAFETY: the pages are mapped as long as the process lives, and no thread runs on them now.
        unsafe { std::slice::from_raw_parts_mut(self.lowest, SIZE / 8) }
    }

    /// Bytes of the stack, from its top, that a thread changes.
    fn deepest(&mut self, start: Start, argument: *mut c_void) -> usize {
        self.words().fill(PAINT);
        let mut attributes = MaybeUninit::uninit();
        let attributes = attributes.as_mut_ptr();
        let mut thread = 0;
        // SAFETY: the first call fills the attributes, the stack is ours, and the thread is waited for.
        let made = unsafe {
            let lowest = self.lowest.cast();
            [
                libc::pthread_attr_init(attributes),
                sys::pthread_attr_setstack(attributes, lowest, SIZE),
                libc::pthread_create(&mut thread, attributes, start, argument),
                libc::pthread_join(thread, ptr::null_mut()),
                libc::pthread_attr_destroy(attributes),
            ]
        };
        assert_eq!(made, [0; 5], "a thread runs on the painted stack");
        let lowest = self.words().iter().position(|word| *word != PAINT);
        SIZE - 8 * lowest.expect("a thread writes its stack")
    }

    /// Bytes of the stack that a call takes, and its number.
    pub fn of_call(&mut self, callee: Distort, lent: &Lent) -> (usize, u64) {
        let mut band = vec![0; lent.band];
        let mut answer = [0; 48];
        let mut task = Task {
            callee,
            numbers: &lent.numbers,
            pointers: Pointers {
                picture: (lent.picture.as_ptr(), lent.picture.len()),
                arguments: (lent.arguments.as_ptr(), lent.arguments.len()),
                background: lent.background.as_ptr(),
                matte: lent.matte.as_ptr(),
                band: (band.as_mut_ptr(), band.len()),
                answer: answer.as_mut_ptr(),
            },
            number: 0,
        };
        let depth = self.deepest(make, (&raw mut task).cast());
        (depth.saturating_sub(self.idle), task.number)
    }
}
