//! The numbers of a call, by name and in the order in which they are lent and stored.

use crate::{Job, Window};

/// How many numbers a call has.
pub const COUNT: usize = 14;

/// The numbers of a call. Of `bestfit` and `viewport` 0 is no and anything else yes.
#[derive(Clone, Copy, Debug, PartialEq, Eq)]
pub struct CallNumbers {
    pub width: u64,
    pub height: u64,
    pub channels: u64,
    pub method: u64,
    pub policy: u64,
    pub interpolation: u64,
    pub bestfit: u64,
    pub viewport: u64,
    /// The viewport, which may be anything where none is given.
    pub view: Window,
    pub first_row: u64,
    pub rows: u64,
}

impl CallNumbers {
    /// A job's numbers, with these for yes and this window for a viewport that is not given.
    pub fn of(job: &Job, bestfit: u64, viewport: u64, any: Window) -> Self {
        Self {
            width: job.width,
            height: job.height,
            channels: job.channels,
            method: job.method,
            policy: job.policy,
            interpolation: job.interpolation,
            bestfit: if job.bestfit { bestfit } else { 0 },
            viewport: if job.viewport.is_some() { viewport } else { 0 },
            view: job.viewport.unwrap_or(any),
            first_row: job.first_row,
            rows: job.rows,
        }
    }

    /// The viewport, where one is given.
    pub fn given_view(&self) -> Option<Window> {
        (self.viewport != 0).then_some(self.view)
    }

    /// The numbers in order; one with a sign is its two's complement.
    pub fn in_order(&self) -> [u64; COUNT] {
        [
            self.width,
            self.height,
            self.channels,
            self.method,
            self.policy,
            self.interpolation,
            self.bestfit,
            self.viewport,
            self.view.width,
            self.view.height,
            self.view.x as u64,
            self.view.y as u64,
            self.first_row,
            self.rows,
        ]
    }

    /// Changes the numbers by their places.
    pub fn change(&mut self, change: impl FnOnce(&mut [u64; COUNT])) {
        let mut numbers = self.in_order();
        change(&mut numbers);
        *self = numbers.into();
    }
}

impl From<[u64; COUNT]> for CallNumbers {
    fn from(numbers: [u64; COUNT]) -> Self {
        let [width, height, channels, method, policy, interpolation, ..] = numbers;
        let [.., bestfit, viewport, w, h, x, y, first_row, rows] = numbers;
        Self {
            width,
            height,
            channels,
            method,
            policy,
            interpolation,
            bestfit,
            viewport,
            view: Window {
                width: w,
                height: h,
                x: x as i64,
                y: y as i64,
            },
            first_row,
            rows,
        }
    }
}
