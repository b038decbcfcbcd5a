//! What the generators reach: every method, policy, interpolation, channel count and refusal, and enough pixels that
//! are no matte.

use differential::generate::{self, Kind};
use differential::refusal::before_the_fit;
use differential::{Job, Verdict, Window, codes, expected, refusal};
use reference::reference_or_skip;
use std::collections::BTreeMap;

const SEED: u64 = 1;

fn own(job: &Job) -> Option<differential::Window> {
    Some(job.own_window())
}

#[test]
fn tame_and_wild_jobs_reach_the_fit() {
    for index in 0..5_000 {
        if generate::kind(index) != Kind::Refused {
            let job = generate::job(SEED, index, &own);
            assert_eq!(before_the_fit(&job), 0, "{job}");
        }
    }
}

#[test]
fn jobs_are_read_back_as_they_are_written() {
    for index in 0..1_000 {
        let job = generate::job(SEED, index, &own);
        let text = job.to_string();
        let back: Job = text.parse().unwrap();
        assert_eq!(back.to_string(), text);
        assert_eq!(back.args_bytes(), job.args_bytes());
        assert_eq!(back.samples_bytes(), job.samples_bytes());
    }
}

#[test]
fn a_seed_gives_its_jobs_again() {
    for index in 0..100 {
        let job = generate::job(SEED, index, &own);
        assert_eq!(job, generate::job(SEED, index, &own));
        assert_ne!(job, generate::job(SEED + 1, index, &own));
    }
}

/// Every kind of thing that a job can be, by how often it is accepted.
#[test]
fn accepted_jobs_cover_the_domain() {
    let r = reference_or_skip!();
    let window = |job: &Job| expected::window_of(r, job);
    let mut seen: BTreeMap<String, u64> = BTreeMap::new();
    let (mut pixels, mut matte_pixels) = (0, 0);
    for index in 0..6_000 {
        let job = generate::job(SEED, index, &window);
        match expected::expected(r, &job).verdict {
            Verdict::Stray(place) => panic!("{place}"),
            Verdict::Refused(number) => {
                *seen.entry(format!("refused {number:2}")).or_default() += 1;
            }
            Verdict::Accepted {
                width,
                matte_pixels: m,
                ..
            } => {
                pixels += width * job.rows;
                matte_pixels += m;
                for thing in things(&job) {
                    *seen.entry(thing).or_default() += 1;
                }
            }
        }
    }
    for (thing, count) in &seen {
        println!("{count:6} {thing}");
    }
    println!("{pixels} pixels, {matte_pixels} of them matte");
    for thing in needed() {
        assert!(
            seen.get(&thing).is_some_and(|n| *n >= 5),
            "too few: {thing}"
        );
    }
    for pairs in 1..=refusal::PAIRS {
        assert!(
            seen.contains_key(&format!("pairs {pairs:2}")),
            "no {pairs} pairs"
        );
    }
    assert!(pixels > 4 * matte_pixels, "too many pixels are matte");
}

/// The things that are met often enough.
fn needed() -> Vec<String> {
    let refusals = refusal::SIZE..=refusal::TRAY;
    let mut needed: Vec<String> = refusals.map(|n| format!("refused {n:2}")).collect();
    needed.extend(codes::PRESENT.map(|m| format!("method {}", codes::METHODS[m as usize])));
    needed.extend(codes::POLICIES.map(|p| format!("policy {p}")));
    needed.extend(codes::INTERPOLATIONS.map(|i| format!("interpolation {i}")));
    needed.extend([1, 3, 4].map(|c| format!("channels {c}")));
    needed.extend([1.0, 1.5, 2.0, 3.0, 4.0, 5.0].map(|n| format!("order {n}")));
    let more = ["viewport", "bestfit", "band", "no rows", "clear background"];
    needed.extend(more.map(String::from));
    needed
}

/// The orders beside the six that a fault would let in: a step from each, and others.
#[test]
fn jobs_cover_the_orders_that_are_refused() {
    let mut wanted: BTreeMap<u64, u64> = BTreeMap::new();
    for good in [1.0f64, 1.5, 2.0, 3.0, 4.0, 5.0] {
        wanted.insert(good.next_down().to_bits(), 0);
        wanted.insert(good.next_up().to_bits(), 0);
    }
    for bad in [2.5, 0.5, 0.0, -0.0, 5.5, 6.0, 1.5 - 1e-10, 1.5 + 1e-10] {
        wanted.insert(f64::to_bits(bad), 0);
    }
    // What another row refuses before.
    let (mut numbers, mut too_large, mut counts) = (0, 0, 0);
    for index in 0..60_000 {
        let job = generate::job(SEED, index, &own);
        if job.method != codes::POLYNOMIAL || job.args.is_empty() {
            continue;
        }
        let number = before_the_fit(&job);
        let (order, no_order) = (job.args[0], wanted.get_mut(&job.args[0].to_bits()));
        match (number, no_order) {
            (refusal::ORDER, Some(count)) => *count += 1,
            (refusal::COUNT, Some(_)) => counts += 1,
            (refusal::NUMBER, _) if !order.is_finite() => numbers += 1,
            (refusal::NUMBER, _) if order.abs() > refusal::ARGUMENT => too_large += 1,
            _ => {}
        }
    }
    for (order, count) in wanted {
        assert!(count >= 5, "too few of order {:?}", f64::from_bits(order));
    }
    assert!(numbers >= 5, "too few orders that are not finite");
    assert!(too_large >= 5, "too few orders that are too large");
    assert!(counts >= 5, "too few of a wrong order and a wrong count");
}

/// What the whole call's edges are, and how a job there has to be answered by the specification.
#[test]
fn calls_cover_the_edges() {
    let r = reference_or_skip!();
    let window = |job: &Job| expected::window_of(r, job);
    let mut seen: BTreeMap<&str, u64> = BTreeMap::new();
    for index in 0..20_000 {
        let job = generate::call(SEED, index, &window);
        let number = refusal::refusal(r, &job);
        for (name, holds) in edges(&job, window(&job), number) {
            *seen.entry(name).or_default() += u64::from(holds);
        }
    }
    for (name, count) in &seen {
        println!("{count:6} {name}");
    }
    let few: Vec<_> = seen.iter().filter(|(_, n)| **n < 5).collect();
    assert!(few.is_empty(), "too few: {few:?}");
}

/// Edges, by name, and whether a job is at each.
type Edges = Vec<(&'static str, bool)>;

/// Numbers that are no small ones when they are cut to 32 bits.
const HUGE: u64 = 1 << 32;

fn edges(job: &Job, w: Option<Window>, number: u8) -> Edges {
    let w = w.unwrap_or(job.own_window());
    [
        argument_edges(job, number),
        picture_edges(job, number),
        window_edges(job, w, number),
        row_edges(job, w, number),
        bestfit_edges(job, w, number),
    ]
    .concat()
}

/// What a barrel is given after its six arguments, which it does not read.
fn argument_edges(job: &Job, number: u8) -> Edges {
    let barrel = [codes::BARREL, codes::BARREL_INVERSE].contains(&job.method);
    let more = barrel && job.args.len() > 6;
    let unread = more && number == refusal::NUMBER;
    let finite = |x: &f64| x.is_finite();
    let codes = [job.method, job.policy, job.interpolation];
    vec![
        (
            "an unread argument is not finite",
            unread && !job.args[6..].iter().all(finite),
        ),
        (
            "an unread argument is too large",
            unread && job.args[6..].iter().all(finite),
        ),
        ("more than six arguments", more && number == 0),
        (
            "a huge code",
            number == refusal::CODE && codes.iter().any(|n| *n >= HUGE),
        ),
    ]
}

fn picture_edges(job: &Job, number: u8) -> Edges {
    let accepted = number == 0;
    let refused = number == refusal::SIZE;
    let size = [job.width, job.height, job.channels];
    let alpha = |x: f32| accepted && job.background[3] == x;
    let one = 1.0f32;
    vec![
        ("one pixel", accepted && job.width * job.height == 1),
        (
            "a picture 4,096 wide",
            accepted && job.width == refusal::SIDE,
        ),
        (
            "a picture 4,096 high",
            accepted && job.height == refusal::SIDE,
        ),
        (
            "a picture 4,097 wide or high",
            refused && job.width.max(job.height) == refusal::SIDE + 1,
        ),
        ("a huge size", refused && size.iter().any(|n| *n >= HUGE)),
        ("an alpha just below 1", alpha(one.next_down())),
        ("an alpha just above 1", alpha(one.next_up())),
    ]
}

fn window_edges(job: &Job, w: Window, number: u8) -> Edges {
    let accepted = number == 0;
    let refused = number == refusal::WINDOW;
    let far = [-refusal::OFFSET, refusal::OFFSET];
    let largest = (w.width, w.height) == (refusal::SIDE, refusal::SIDE);
    vec![
        (
            "an offset at a limit",
            accepted && far.contains(&w.x) && far.contains(&w.y),
        ),
        (
            "a window of 4,096 by 4,096",
            accepted && largest && job.rows > 0,
        ),
        (
            "a side of 4,097",
            refused && [w.width, w.height].contains(&(refusal::SIDE + 1)),
        ),
        ("a huge window", refused && w.width.max(w.height) >= HUGE),
        (
            "a huge offset",
            refused && [i64::MIN, i64::MAX].contains(&w.x),
        ),
    ]
}

fn row_edges(job: &Job, w: Window, number: u8) -> Edges {
    let accepted = number == 0;
    let refused = number == refusal::ROWS;
    let wraps = job.first_row.checked_add(job.rows).is_none();
    vec![
        ("no rows", accepted && job.rows == 0),
        (
            "no rows at the height",
            accepted && job.first_row == w.height,
        ),
        ("no rows beyond the height", refused && job.rows == 0),
        ("rows that wrap", refused && wraps),
        ("huge rows", refused && job.first_row.max(job.rows) >= HUGE),
    ]
}

fn bestfit_edges(job: &Job, w: Window, number: u8) -> Edges {
    let asked = number == 0 && job.bestfit && job.viewport.is_none();
    let area = w.width.saturating_mul(w.height);
    let own = w == job.own_window();
    vec![
        ("a large bestfit window", asked && area > generate::LIGHT),
        (
            "a bestfit that is given up",
            asked && own && job.method == codes::AFFINE_PROJECTION,
        ),
    ]
}

fn things(job: &Job) -> Vec<String> {
    let mut things = vec![
        format!("method {}", codes::METHODS[job.method as usize]),
        format!("policy {}", codes::POLICIES[job.policy as usize]),
        format!(
            "interpolation {}",
            codes::INTERPOLATIONS[job.interpolation as usize]
        ),
        format!("channels {}", job.channels),
    ];
    let single = [
        codes::AFFINE_PROJECTION,
        codes::PERSPECTIVE_PROJECTION,
        codes::BARREL,
        codes::BARREL_INVERSE,
    ];
    if !single.contains(&job.method) {
        things.push(format!("pairs {:2}", job.args.len() / 4));
    }
    if job.method == codes::POLYNOMIAL {
        things.push(format!("order {}", job.args[0]));
    }
    let marks = [
        ("viewport", job.viewport.is_some()),
        ("bestfit", job.bestfit && job.viewport.is_none()),
        ("band", job.first_row > 0 && job.rows > 0),
        ("no rows", job.rows == 0),
        ("clear background", job.background[3] < 1.0),
    ];
    let marked = marks.iter().filter(|(_, holds)| *holds);
    things.extend(marked.map(|(name, _)| name.to_string()));
    things
}
