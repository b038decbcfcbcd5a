//! Rows in bands on several threads. Each band is a piece of the output that one thread alone holds.

use crate::Refusal;
use std::ops::Range;
use std::sync::{Mutex, MutexGuard, PoisonError};
use std::thread;

/// How the work is cut up: at most so many threads, so many rows to a band, and a row of so many samples.
pub struct Plan {
    pub threads: usize,
    pub rows: u64,
    pub height: u64,
    pub row: usize,
}

/// Fills `samples` by `call`, band for band, and adds up its counts. After each band `progress` is told.
pub fn work(
    plan: Plan,
    samples: &mut [f32],
    call: impl Fn(Range<u64>, &mut [f32]) -> Result<u64, Refusal> + Sync,
    progress: impl FnMut(u64, u64) + Send,
) -> Result<u64, Refusal> {
    let bands = samples.chunks_mut(plan.row * plan.rows as usize);
    let threads = plan.threads.min(bands.len());
    let firsts = (0..plan.height).step_by(plan.rows as usize);
    let waiting = Mutex::new(firsts.zip(bands));
    let done = Mutex::new((0, progress));
    // The lock is held to fetch a band, not to work it.
    let next = || held(&waiting).next();
    let worker = || -> Result<u64, Refusal> {
        let mut count = 0;
        while let Some((first, band)) = next() {
            let end = plan.height.min(first + plan.rows);
            count += call(first..end, band)?;
            let (rows, progress) = &mut *held(&done);
            *rows += end - first;
            progress(*rows, plan.height);
        }
        Ok(count)
    };
    thread::scope(|scope| {
        // A thread that can't be had leaves its bands to the others; this one works too.
        let spawn = |_| thread::Builder::new().spawn_scoped(scope, worker).ok();
        let others: Vec<_> = (1..threads).map_while(spawn).collect();
        let mut count = worker()?;
        for other in others {
            count += other
                .join()
                .unwrap_or_else(|panic| std::panic::resume_unwind(panic))?;
        }
        Ok(count)
    })
}

/// A lock whose holder panicked is taken all the same: the panic is passed on when the threads are joined.
fn held<T>(mutex: &Mutex<T>) -> MutexGuard<'_, T> {
    mutex.lock().unwrap_or_else(PoisonError::into_inner)
}
