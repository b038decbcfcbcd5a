//! Faults planted in a copy of the reference, one at a time: the runner finds each and shrinks its job.

mod copy;

use copy::{Fault, copy};
use differential::codes::policy;
use differential::expected::{expected, window_of};
use differential::runner::{Difference, first_difference};
use differential::{Answer, Job, Verdict};
use reference::{Reference, reference_or_skip};

const SEED: u64 = 2;

/// 10,000 jobs, 200,000 with DIHYRAVO_FULL=1.
fn jobs() -> u64 {
    if differential::full() {
        200_000
    } else {
        10_000
    }
}

fn find(r: Reference, fault: Fault) -> Option<Difference> {
    first_difference(
        SEED,
        0..jobs(),
        &|job| expected(r, job),
        &|job| copy(r, job, fault),
        &|job| window_of(r, job),
    )
}

/// Finds the fault, checks that its line of text still shows it, and that its size is at most `numbers` and
/// `length`.
fn finds(r: Reference, fault: Fault, numbers: usize, length: usize) {
    let found = find(r, fault).unwrap_or_else(|| panic!("{fault:?} was not found"));
    println!("{fault:?}: {found}");
    let text = found.smallest.to_string();
    let pasted: Job = text.parse().unwrap();
    assert_ne!(expected(r, &pasted), copy(r, &pasted, fault));
    let counted = pasted.samples.len() + pasted.args.len();
    assert!(counted <= numbers, "{counted} numbers are left: {text}");
    assert!(text.len() <= length, "{} letters: {text}", text.len());
}

#[test]
fn without_a_fault_there_is_no_difference() {
    let r = reference_or_skip!();
    if let Some(found) = find(r, Fault::None) {
        panic!("{found}");
    }
}

#[test]
fn shrinking_is_the_same_each_time() {
    let r = reference_or_skip!();
    let once = find(r, Fault::MirrorIsTile).unwrap();
    let again = find(r, Fault::MirrorIsTile).unwrap();
    assert_eq!(once.to_string(), again.to_string());
    assert_eq!(once.found, again.found);
}

#[test]
fn mirror_is_tile() {
    let r = reference_or_skip!();
    finds(r, Fault::MirrorIsTile, 8, 200);
}

#[test]
fn truncation_for_floor() {
    let r = reference_or_skip!();
    finds(r, Fault::Truncation, 6, 200);
}

#[test]
fn colour_not_weighted_by_alpha() {
    let r = reference_or_skip!();
    finds(r, Fault::Unweighted, 16, 220);
}

#[test]
fn weights_divided_before_the_sum() {
    let r = reference_or_skip!();
    finds(r, Fault::DividedFirst, 22, 240);
}

#[test]
fn clamping_before_the_inside_test() {
    let r = reference_or_skip!();
    finds(r, Fault::ClampedFirst, 6, 200);
}

#[test]
fn first_pivot_among_equals() {
    let r = reference_or_skip!();
    finds(r, Fault::FirstPivot, 40, 400);
}

#[test]
fn count_invented() {
    let r = reference_or_skip!();
    finds(r, Fault::NoCount, 17, 220);
}

#[test]
fn matte_below_the_first_row() {
    let r = reference_or_skip!();
    finds(r, Fault::MatteBelow, 8, 200);
}

#[test]
fn a_side_of_4096_refused() {
    let r = reference_or_skip!();
    finds(r, Fault::SideLimit, 4_101, 200);
}

#[test]
fn sixty_five_pairs_accepted() {
    let r = reference_or_skip!();
    finds(r, Fault::PairLimit, 262, 200);
}

#[test]
fn order_five_refused() {
    let r = reference_or_skip!();
    finds(r, Fault::OrderLimit, 90, 400);
}

#[test]
fn orders_rounded() {
    let r = reference_or_skip!();
    finds(r, Fault::OrderRounded, 8, 200);
}

#[test]
fn orders_allowed_near_1_5() {
    let r = reference_or_skip!();
    finds(r, Fault::OrderAllowed, 8, 200);
}

#[test]
fn rows_added_with_overflow() {
    let r = reference_or_skip!();
    finds(r, Fault::RowsWrap, 6, 240);
}

#[test]
fn a_refusal_that_writes() {
    let r = reference_or_skip!();
    finds(r, Fault::Writes, 6, 200);
}

/// The runner and the shrinker alone, without the reference.
#[test]
fn a_made_up_fault_is_shrunk_to_its_cause() {
    let right = |job: &Job| Answer {
        verdict: Verdict::Refused(0),
        band: vec![0; job.band],
    };
    let wrong = |job: &Job| {
        let bright = job.samples.iter().any(|x| *x > 0.75);
        let hit = bright && job.args.len() > 8 && job.policy >= policy::GRAY;
        Answer {
            verdict: Verdict::Refused(u8::from(hit)),
            band: vec![0; job.band],
        }
    };
    let own = |job: &Job| Some(job.own_window());
    let found = first_difference(SEED, 0..jobs(), &right, &wrong, &own).unwrap();
    assert_eq!(
        found.smallest.to_string(),
        "method=Affine args=0*9 policy=Gray interpolation=Integer bestfit=no viewport=none \
         background=0*4 matte=0*4 size=1x1x1 samples=1 rows=0+0 band=0"
    );
    assert_eq!(found.parting, "the verdict: refused 0 against refused 1");
    assert!(first_difference(SEED, 0..100, &right, &right, &own).is_none());
}
