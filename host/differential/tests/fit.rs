//! The fit against the original's `Mapping::build`: every method, tame and wild, with refusals 1 and 3 to 8 by the
//! model of the table. 20,000 jobs, a million with DIHYRAVO_FULL=1.

use differential::{Job, codes, generate, refusal};
use reference::{Reference, reference_or_skip};

const SEED: u64 = 7;

fn count() -> u64 {
    if differential::full() {
        1_000_000
    } else {
        20_000
    }
}

fn expected(r: Reference, job: &Job) -> Result<Vec<f64>, u64> {
    match refusal::of_the_fit(job) {
        0 => {
            let (w, h) = (job.width as f64, job.height as f64);
            let mapping = r
                .build(job.method as u8, &job.args, w, h)
                .map_err(|_| 8u64)?;
            Ok(mapping.coefficients())
        }
        number => Err(u64::from(number)),
    }
}

/// Zeros of either sign count as equal, and so do NaNs.
fn same(ours: &Result<Vec<f64>, u64>, originals: &Result<Vec<f64>, u64>) -> bool {
    match (ours, originals) {
        (Ok(a), Ok(b)) => {
            let like = |(x, y): (&f64, &f64)| x == y || (x.is_nan() && y.is_nan());
            a.len() == b.len() && a.iter().zip(b).all(like)
        }
        (Err(a), Err(b)) => a == b,
        _ => false,
    }
}

#[test]
fn coefficients_and_refusals() {
    let r = reference_or_skip!();
    let mut answers = [0u64; 9];
    let mut methods = [0u64; 14];
    for index in 0..count() {
        let job = generate::job(SEED, index, &|_| None);
        let ours = probes::fit(job.method, &job.args_bytes(), job.width, job.height);
        let originals = expected(r, &job);
        assert!(
            same(&ours, &originals),
            "job {index}: {job}: {ours:x?} against {originals:x?}"
        );
        match ours {
            Ok(_) => {
                answers[0] += 1;
                methods[job.method as usize] += 1;
            }
            Err(number) => answers[number as usize] += 1,
        }
    }
    println!(
        "{} jobs; accepted and by refusal: {answers:?}; by method: {methods:?}",
        count()
    );
    for number in [0, 1, 3, 4, 5, 6, 7, 8] {
        assert!(answers[number] > 0, "no job was answered with {number}");
    }
    for method in differential::codes::PRESENT {
        assert!(methods[method as usize] > 0, "no fit by method {method}");
    }
}

/// Trial cards that concern the fit (specification 5).
#[test]
fn trial_cards() {
    let fit = |method, args: &[f64]| {
        let bytes: Vec<u8> = args.iter().flat_map(|x| x.to_le_bytes()).collect();
        probes::fit(method, &bytes, 4, 4)
    };
    assert_eq!(fit(1, &[1.0, 2.0, 2.0, 4.0, 0.0, 0.0]), Err(8));
    let mut order = vec![2.5];
    order.extend([0.0; 36]);
    assert_eq!(fit(7, &order), Err(6));
    order[0] = 3.0;
    assert_eq!(fit(7, &order), Err(7));
    assert_eq!(
        fit(0, &[1.0, 2.0, 0.0, 0.0]),
        Ok(vec![1.0, 0.0, 1.0, 0.0, 1.0, 2.0])
    );
    assert_eq!(
        fit(0, &[1_048_576.0; 4]),
        Ok(vec![1.0, 0.0, 0.0, 0.0, 1.0, 0.0])
    );
    assert_eq!(fit(0, &[1_048_576.000_000_000_2; 4]), Err(5));
    assert!(fit(13, &[0.0; 256]).is_ok());
    assert_eq!(fit(13, &[0.0; 260]), Err(4));
}

/// The original rounds an order, here it is refused (docs/DIFFERENCES).
#[test]
fn orders_that_the_original_rounds_are_refused() {
    let r = reference_or_skip!();
    const PLACES: [(u8, u8); 10] = [
        (0, 0),
        (1, 0),
        (0, 1),
        (1, 1),
        (2, 0),
        (0, 2),
        (3, 0),
        (2, 1),
        (1, 2),
        (0, 3),
    ];
    for (order, pairs) in [(1.0f64.next_up(), 3), (1.5 + 1e-10, 4), (1.7, 6), (2.5, 10)] {
        let pair = |(x, y): &(u8, u8)| [*x, *y, *x, *y].map(f64::from);
        let mut job = Job::plain();
        job.method = codes::POLYNOMIAL;
        job.args = vec![order];
        job.args.extend(PLACES[..pairs].iter().flat_map(pair));
        let original = r.build(job.method as u8, &job.args, 1.0, 1.0);
        assert!(original.is_ok(), "order {order:?}");
        let ours = probes::fit(job.method, &job.args_bytes(), 1, 1);
        assert_eq!(ours, Err(u64::from(refusal::ORDER)), "order {order:?}");
    }
}
