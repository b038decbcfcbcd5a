//! What is asked of the C library beside the standard library: mappings, signals, and a thread on a stack of ours.

use libc::{c_int, c_void, itimerval, timeval};
use std::fs::File;
use std::os::fd::{AsRawFd, FromRawFd};

pub use libc::{PROT_READ, PROT_WRITE};

/// Signals of a wrong access, instruction or number, of a trap and an abort, and of the timer.
pub const SIGNALS: [c_int; 7] = [
    libc::SIGSEGV,
    libc::SIGBUS,
    libc::SIGILL,
    libc::SIGFPE,
    libc::SIGTRAP,
    libc::SIGABRT,
    TIME_IS_UP,
];
pub const TIME_IS_UP: c_int = libc::SIGVTALRM;

pub type Start = extern "C" fn(*mut c_void) -> *mut c_void;

// Debian 12's crate `libc` lacks these two.
unsafe extern "C" {
    fn setitimer(which: c_int, new: *const itimerval, old: *mut itimerval) -> c_int;
    pub fn pthread_attr_setstack(
        attributes: *mut libc::pthread_attr_t,
        lowest: *mut c_void,
        size: usize,
    ) -> c_int;
}

/// Bytes of a page.
pub fn page() -> usize {
    // SAFETY: a number is read.
    let size = unsafe { libc::sysconf(libc::_SC_PAGESIZE) };
    usize::try_from(size).expect("a page has a size")
}

/// Sends `TIME_IS_UP` once the process has run for so many seconds more; for 0, never. The timer is that of the time
/// that the process itself has run: it waits while the process does.
pub fn limit(seconds: u32) {
    let time = |seconds| timeval {
        tv_sec: seconds,
        tv_usec: 0,
    };
    let new = itimerval {
        it_interval: time(0),
        it_value: time(seconds.into()),
    };
    // SAFETY: the times are read, and nothing is written.
    let set = unsafe { setitimer(libc::ITIMER_VIRTUAL, &new, std::ptr::null_mut()) };
    assert_eq!(set, 0, "a timer can be set");
}

/// From now on the handler is called at this signal.
///
/// # Safety
/// The handler does only what a signal handler may do.
pub unsafe fn handle(number: c_int, handler: extern "C" fn(c_int)) {
    // SAFETY: the caller's promise.
    unsafe { libc::signal(number, handler as *const () as usize) };
}

/// Writes bytes to standard error, as far as it takes them.
pub fn tell(bytes: &[u8]) {
    // SAFETY: the bytes are lent, and as many as are said.
    unsafe { libc::write(2, bytes.as_ptr().cast(), bytes.len()) };
}

/// Ends the process at once.
pub fn end(status: c_int) -> ! {
    // SAFETY: nothing runs after it.
    unsafe { libc::_exit(status) }
}

/// A new mapping that nothing may touch yet. It stays until the process ends.
pub fn reserve(length: usize) -> *mut u8 {
    let flags = libc::MAP_PRIVATE | libc::MAP_ANONYMOUS;
    // SAFETY: a new mapping at an address that the kernel chooses touches nothing that is there.
    let at = unsafe { libc::mmap(std::ptr::null_mut(), length, libc::PROT_NONE, flags, -1, 0) };
    assert!(at != libc::MAP_FAILED, "memory can be mapped");
    at.cast()
}

/// Puts `file`, or fresh memory where there is none, over pages of a mapping of ours.
///
/// # Safety
/// The pages are part of a mapping that `reserve` gave and that nobody holds a reference into.
pub unsafe fn map_over(at: *mut u8, length: usize, protection: c_int, file: Option<&File>) {
    let (kind, number) = match file {
        None => (libc::MAP_PRIVATE | libc::MAP_ANONYMOUS, -1),
        Some(file) => (libc::MAP_SHARED, file.as_raw_fd()),
    };
    let flags = libc::MAP_FIXED | kind;
    // SAFETY: the caller's promise.
    let got = unsafe { libc::mmap(at.cast(), length, protection, flags, number, 0) };
    assert!(got == at.cast(), "memory can be mapped");
}

/// A file in memory alone.
pub fn memory_file(length: usize) -> File {
    // SAFETY: the name is a C string.
    let number = unsafe { libc::memfd_create(c"fuzz".as_ptr(), 0) };
    assert!(number >= 0, "a file in memory can be made");
    // SAFETY: the file is new, and nobody else's.
    let file = unsafe { File::from_raw_fd(number) };
    file.set_len(length as u64)
        .expect("a file in memory has a size");
    file
}
