//! What a call has to answer: its refusal by the model of specification 2, or its size, offset and channels.

use differential::refusal::{DEGENERATE, TRAY, after_the_fit, before_the_fit};
use differential::{Job, Window, expected};
use reference::Reference;
use std::ops::RangeInclusive;

/// The refusals from the fit on.
const LATE: RangeInclusive<u64> = DEGENERATE as u64..=TRAY as u64;

#[derive(Clone, Copy, Debug, PartialEq, Eq)]
pub enum Asked {
    Refused(u8),
    Accepted {
        window: Window,
        channels: u64,
        rows: u64,
    },
    /// The reference is not there to fit: accepted, or refused as degenerate or by a later row of the table.
    Late,
}

pub fn asked(r: Option<Reference>, job: &Job) -> Asked {
    let early = before_the_fit(job);
    if early != 0 {
        return Asked::Refused(early);
    }
    let Some(r) = r else {
        return Asked::Late;
    };
    let Some(mapping) = expected::fit(r, job) else {
        return Asked::Refused(DEGENERATE);
    };
    let window = expected::window(job, &mapping);
    match after_the_fit(job, window) {
        0 => Asked::Accepted {
            window,
            channels: job.out_channels(),
            rows: job.rows,
        },
        number => Asked::Refused(number),
    }
}

impl Asked {
    /// How an answer parts from this, in words.
    pub fn parting(&self, number: u64, answer: &[u8; 48]) -> Option<String> {
        let said = dihyravo::Answer::read(answer);
        match *self {
            Asked::Refused(asked) if number == u64::from(asked) => None,
            Asked::Refused(asked) => {
                Some(format!("the answer is {number} and not refusal {asked}"))
            }
            Asked::Late if number == 0 || LATE.contains(&number) => None,
            Asked::Late => Some(format!(
                "the answer is {number} and not 0 or from {DEGENERATE} to {TRAY}"
            )),
            Asked::Accepted { .. } if number != 0 => {
                Some(format!("the answer is {number} and not accepted"))
            }
            Asked::Accepted {
                window,
                channels,
                rows,
            } => {
                let size = (said.width, said.height, said.x, said.y)
                    != (window.width, window.height, window.x, window.y);
                let wrong =
                    size || said.channels != channels || said.matte_pixels > rows * window.width;
                wrong.then(|| {
                    format!("the answer is {said:?} and not {window:?}, {channels} channels")
                })
            }
        }
    }
}
