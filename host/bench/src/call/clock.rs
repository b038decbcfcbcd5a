//! The time that this thread has run, so that a machine with other work to do counts less.

use libc::timespec;

/// Nanoseconds on a processor, as of now.
pub fn now() -> f64 {
    let mut moment = timespec {
        tv_sec: 0,
        tv_nsec: 0,
    };
    // SAFETY: the moment is written and nothing else.
    let told = unsafe { libc::clock_gettime(libc::CLOCK_THREAD_CPUTIME_ID, &mut moment) };
    assert_eq!(told, 0, "a thread has a clock");
    moment.tv_sec as f64 * 1e9 + moment.tv_nsec as f64
}
