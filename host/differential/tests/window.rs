//! The output's window against specification 6, with the original's `Mapping::bestfit`: viewports, bestfit and the
//! picture's own, inside and outside the limits of refusal 9. 20,000 windows, a million with DIHYRAVO_FULL=1.

use differential::random::Random;
use differential::refusal::{OFFSET, SIDE};
use differential::{Job, Window, codes, expected, generate, refusal};
use reference::{Reference, reference_or_skip};

const SEED: u64 = 13;

fn count() -> u64 {
    if differential::full() {
        1_000_000
    } else {
        20_000
    }
}

/// A job's window chosen anew: bestfit more often than a job asks for it, and now and then a viewport at any limit.
fn with_window(r: &mut Random, mut job: Job) -> Job {
    job.bestfit |= r.once_in(2);
    match r.below(8) {
        0 => job.viewport = Some(at_a_limit(r)),
        1..=4 => job.viewport = None,
        _ => {}
    }
    job
}

/// Sides and offsets on either side of their limits, and anything at all.
fn at_a_limit(r: &mut Random) -> Window {
    let side = |r: &mut Random| match r.below(8) {
        0 => r.bits(),
        1 => r.below(SIDE + 2),
        k => [0, 1, 2, SIDE - 1, SIDE, SIDE + 1][k as usize - 2],
    };
    let offset = |r: &mut Random| match r.below(8) {
        0 => r.bits() as i64,
        1 => r.between(-OFFSET - 2, OFFSET + 2),
        k => [i64::MIN, -OFFSET - 1, -OFFSET, 0, OFFSET, OFFSET + 1][k as usize - 2],
    };
    Window {
        width: side(r),
        height: side(r),
        x: offset(r),
        y: offset(r),
    }
}

/// No rows, and no band for them, so that refusal 9 alone is left of those after the fit.
fn expected(r: Reference, job: &Job) -> Result<Window, u64> {
    let number = refusal::of_the_fit(job);
    if number != 0 {
        return Err(u64::from(number));
    }
    let mapping = expected::fit(r, job).ok_or(8u64)?;
    let window = expected::window(job, &mapping);
    match refusal::after_the_fit(&job.clone().with_rows(window, 0, 0), window) {
        0 => Ok(window),
        number => Err(u64::from(number)),
    }
}

fn ours(r: &mut Random, job: &Job) -> Result<Window, u64> {
    let bestfit = if job.bestfit {
        r.pick(&[1, 2, 1 << 32, u64::MAX])
    } else {
        0
    };
    let viewport = job.viewport.map(|w| (w.width, w.height, w.x, w.y));
    let bytes = job.args_bytes();
    let found = probes::window(job.method, &bytes, job.width, job.height, bestfit, viewport);
    found.map(|(width, height, x, y)| Window {
        width,
        height,
        x,
        y,
    })
}

#[test]
fn windows_and_refusals() {
    let r = reference_or_skip!();
    let mut answers = [0u64; 10];
    // By viewport, by bestfit's box, the picture's own.
    let mut sorts = [0u64; 3];
    let mut refused_boxes = 0u64;
    for index in 0..count() {
        let mut random = Random::nth(SEED + 1, index);
        let job = with_window(&mut random, generate::job(SEED, index, &|_| None));
        let (ours, asked) = (ours(&mut random, &job), expected(r, &job));
        assert_eq!(ours, asked, "job {index}: {job}");
        let own = job.viewport.is_none();
        match ours {
            Ok(w) => {
                answers[0] += 1;
                let boxed = own && w != job.own_window();
                sorts[if !own {
                    0
                } else if boxed {
                    1
                } else {
                    2
                }] += 1;
            }
            Err(number) => {
                answers[number as usize] += 1;
                refused_boxes += u64::from(number == u64::from(refusal::WINDOW) && own);
            }
        }
    }
    println!(
        "{} windows; accepted and by refusal: {answers:?}; by viewport, by bestfit, the picture's own: {sorts:?}; \
         boxes refused: {refused_boxes}",
        count()
    );
    for number in [0, 1, 3, 4, 5, 6, 7, 8, 9] {
        assert!(answers[number] > 0, "no window was answered with {number}");
    }
    assert!(
        sorts.iter().all(|&n| n > 0) && refused_boxes > 0,
        "{sorts:?}, {refused_boxes}"
    );
}

/// Windows of specification 6: the identity by four corners on 4 by 3, and the limits.
#[test]
fn trial_windows() {
    let corners = [
        0.0, 0.0, 0.0, 0.0, 4.0, 0.0, 4.0, 0.0, 4.0, 3.0, 4.0, 3.0, 0.0, 3.0, 0.0, 3.0,
    ];
    let bytes: Vec<u8> = corners.iter().flat_map(|x: &f64| x.to_le_bytes()).collect();
    let window =
        |bestfit, viewport| probes::window(codes::PERSPECTIVE, &bytes, 4, 3, bestfit, viewport);
    assert_eq!(window(1, None), Ok((6, 5, -1, -1)));
    assert_eq!(window(0, None), Ok((4, 3, 0, 0)));
    assert_eq!(
        window(1, Some((1, 4096, OFFSET, -OFFSET))),
        Ok((1, 4096, OFFSET, -OFFSET))
    );
    assert_eq!(window(0, Some((1, 4097, 0, 0))), Err(9));
    assert_eq!(window(0, Some((0, 1, 0, 0))), Err(9));
    assert_eq!(window(0, Some((1, 1, OFFSET + 1, 0))), Err(9));
    assert_eq!(window(0, Some((1, 1, 0, -OFFSET - 1))), Err(9));
}
