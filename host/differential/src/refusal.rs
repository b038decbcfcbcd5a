//! The refusal table (specification 2), read off its text: tests in its order, the first that applies is the answer.
//! Whether a fit is degenerate and which window bestfit finds are asked of the reference.

use crate::codes::*;
use crate::expected::{fit, window};
use crate::{Job, Window};
use reference::Reference;

/// The largest width or height, and the largest argument and offset.
pub const SIDE: u64 = 4_096;
pub const ARGUMENT: f64 = 1_048_576.0;
pub const OFFSET: i64 = 1_048_576;
pub const SAMPLE: f32 = 65_536.0;
pub const ARGUMENTS: usize = 257;
pub const PAIRS: usize = 64;

/// The refusals' numbers, by their words; an accepted job has 0.
pub const SIZE: u8 = 1;
pub const STOCK: u8 = 2;
pub const CODE: u8 = 3;
pub const COUNT: u8 = 4;
pub const NUMBER: u8 = 5;
pub const ORDER: u8 = 6;
pub const FEW: u8 = 7;
pub const DEGENERATE: u8 = 8;
pub const WINDOW: u8 = 9;
pub const ROWS: u8 = 10;
pub const TRAY: u8 = 11;

/// The number of the refusal, 0 for an accepted job.
pub fn refusal(r: Reference, job: &Job) -> u8 {
    let before = before_the_fit(job);
    if before != 0 {
        return before;
    }
    match fit(r, job) {
        None => DEGENERATE,
        Some(mapping) => after_the_fit(job, window(job, &mapping)),
    }
}

type Test = fn(&Job) -> bool;

/// Refusals 1 to 7, or 0.
pub fn before_the_fit(job: &Job) -> u8 {
    let tests: [(u8, Test); 7] = [
        (SIZE, size),
        (STOCK, length),
        (CODE, code),
        (COUNT, count),
        (NUMBER, number),
        (ORDER, order),
        (FEW, few),
    ];
    let first = tests.iter().find(|(_, applies)| applies(job));
    first.map_or(0, |(number, _)| *number)
}

/// The refusals of a fit alone: its picture's size, then those of the method and its arguments.
pub fn of_the_fit(job: &Job) -> u8 {
    if bad_side(job.width) || bad_side(job.height) {
        return SIZE;
    }
    before_the_fit(&Job {
        method: job.method,
        args: job.args.clone(),
        args_rest: job.args_rest,
        ..Job::plain()
    })
}

/// Refusals 9 to 11 with the output's window, or 0.
pub fn after_the_fit(job: &Job, w: Window) -> u8 {
    let far = |offset: i64| !(-OFFSET..=OFFSET).contains(&offset);
    if bad_side(w.width) || bad_side(w.height) || far(w.x) || far(w.y) {
        return WINDOW;
    }
    if job.first_row as u128 + job.rows as u128 > w.height as u128 {
        return ROWS;
    }
    let needed = job.rows * w.width * job.out_channels();
    if job.band as u64 != needed * 4 {
        return TRAY;
    }
    0
}

fn bad_side(side: u64) -> bool {
    side == 0 || side > SIDE
}

fn size(job: &Job) -> bool {
    bad_side(job.width) || bad_side(job.height) || ![1, 3, 4].contains(&job.channels)
}

/// Asked after `size`, so the product is small.
fn length(job: &Job) -> bool {
    let needed = job.width * job.height * job.channels;
    job.samples.len() as u64 != needed || job.samples_rest != 0
}

fn code(job: &Job) -> bool {
    !PRESENT.contains(&job.method)
        || job.policy >= POLICIES.len() as u64
        || job.interpolation >= INTERPOLATIONS.len() as u64
}

fn count(job: &Job) -> bool {
    let n = job.args.len();
    if n > ARGUMENTS || job.args_rest != 0 {
        return true;
    }
    match job.method {
        AFFINE_PROJECTION => n != 6,
        PERSPECTIVE_PROJECTION => n != 8,
        BARREL | BARREL_INVERSE => n < 3,
        POLYNOMIAL => n == 0 || not_pairs(n - 1),
        _ => not_pairs(n),
    }
}

fn not_pairs(values: usize) -> bool {
    values < 4 || !values.is_multiple_of(4) || values / 4 > PAIRS
}

fn number(job: &Job) -> bool {
    let bad_argument = |x: &f64| !(x.is_finite() && x.abs() <= ARGUMENT);
    let bad_sample = |x: &f32| !(x.is_finite() && x.abs() <= SAMPLE);
    job.args.iter().any(bad_argument)
        || job.samples.iter().any(bad_sample)
        || job.background.iter().any(bad_sample)
        || job.matte.iter().any(bad_sample)
}

/// Neither whole from 1 to 5 nor exactly 1.5.
fn order(job: &Job) -> bool {
    let whole = |n: f64| n.fract() == 0.0 && (1.0..=5.0).contains(&n);
    job.method == POLYNOMIAL && !whole(job.args[0]) && job.args[0] != 1.5
}

fn few(job: &Job) -> bool {
    match job.method {
        PERSPECTIVE | BILINEAR_FORWARD | BILINEAR_REVERSE => job.args.len() / 4 < 4,
        POLYNOMIAL => (job.args.len() - 1) / 4 < terms(job.args[0]),
        _ => false,
    }
}

/// The terms of a polynomial of one of the six orders; of 1.5 it is 4.375, cut to 4.
pub fn terms(order: f64) -> usize {
    ((order + 1.0) * (order + 2.0) / 2.0) as usize
}

#[cfg(test)]
mod tests {
    use super::*;

    #[test]
    fn terms_of_the_orders() {
        let orders = [1.0, 1.5, 2.0, 3.0, 4.0, 5.0];
        assert_eq!(orders.map(terms), [3, 4, 6, 10, 15, 21]);
    }

    #[test]
    fn six_orders_and_no_other() {
        let refused = |n: f64| {
            order(&Job {
                method: POLYNOMIAL,
                args: vec![n],
                ..Job::plain()
            })
        };
        for good in [1.0f64, 1.5, 2.0, 3.0, 4.0, 5.0] {
            assert!(!refused(good), "{good}");
            assert!(refused(good.next_up()), "a step above {good}");
            assert!(refused(good.next_down()), "a step below {good}");
        }
        for bad in [2.5, 0.5, 0.0, -0.0, -1.0, 5.5, 6.0] {
            assert!(refused(bad), "{bad}");
        }
    }

    /// The limits of the trial cards.
    #[test]
    fn limits() {
        let with = |words: &str| before_the_fit(&words.parse().unwrap());
        assert_eq!(with("size=4096x1x1 samples=0*4096"), 0);
        assert_eq!(with("size=4097x1x1 samples=0*4097"), 1);
        assert_eq!(with("args=1048576*4"), 0);
        assert_eq!(with("args=1048576.0000000002*4"), 5);
        assert_eq!(with("args=0*256"), 0);
        assert_eq!(with("args=0*260"), 4);
        assert_eq!(with("method=Polynomial args=2.5,0*36"), 6);
    }

    #[test]
    fn the_first_of_several_is_the_answer() {
        let with = |words: &str| before_the_fit(&words.parse().unwrap());
        let all = "size=0x1x1 samples=0~1 method=Arc args=#7ff0000000000000*3";
        assert_eq!(with(all), 1);
        assert_eq!(with(&format!("{all} size=1x1x1")), 2);
        assert_eq!(with(&format!("{all} size=1x1x1 samples=0")), 3);
        assert_eq!(with(&format!("{all} size=1x1x1 samples=0 method=0")), 4);
        let five = "method=Polynomial args=6,#7ff0000000000000,0*3";
        assert_eq!(with(five), 5);
        assert_eq!(with("method=Polynomial args=6,0*4"), 6);
        assert_eq!(with("method=Polynomial args=1,0*4"), 7);
    }

    #[test]
    fn windows_rows_and_bands() {
        let with = |words: &str| {
            let job: Job = words.parse().unwrap();
            after_the_fit(&job, job.own_window())
        };
        assert_eq!(with(""), 0);
        assert_eq!(with("viewport=0x1@0,0"), 9);
        assert_eq!(with("viewport=1x4097@0,0"), 9);
        assert_eq!(with("viewport=1x1@1048576,-1048576"), 0);
        assert_eq!(with("viewport=1x1@1048577,0"), 9);
        assert_eq!(with("rows=0+2"), 10);
        assert_eq!(with("rows=18446744073709551615+1"), 10);
        assert_eq!(with("rows=1+0 band=0"), 0);
        assert_eq!(with("band=5"), 11);
        assert_eq!(with("background=1*3,0.5 band=4"), 11);
        assert_eq!(with("background=1*3,0.5 band=16"), 0);
    }
}
