//! The model of the refusal table against the original's own errors, where it has any.

use differential::{Job, expected, generate, refusal};
use reference::reference_or_skip;

const SEED: u64 = 5;

#[test]
fn the_original_fails_where_the_model_refuses() {
    let r = reference_or_skip!();
    let window = |job: &Job| expected::window_of(r, job);
    let mut checked = [0; 9];
    for index in 0..20_000 {
        let job = generate::job(SEED, index, &window);
        let number = refusal::before_the_fit(&job);
        // Limits and broken floats are the table's own, and so are orders that the original rounds; it has no such
        // refusal.
        let own = match number {
            refusal::COUNT => job.args_rest != 0 || job.args.len() > 4 * refusal::PAIRS,
            refusal::ORDER => (1.0..=5.0).contains(&job.args[0]),
            refusal::SIZE | refusal::STOCK | refusal::CODE | refusal::NUMBER => true,
            _ => false,
        };
        if own {
            continue;
        }
        let (w, h) = (job.width as f64, job.height as f64);
        let said = r.build(job.method as u8, &job.args, w, h).err();
        match (number, said) {
            (0, None) => checked[0] += 1,
            (0, Some(said)) => {
                let degenerate = ["degenerate points", "singular"];
                assert!(degenerate.iter().any(|d| said.contains(d)), "{said}: {job}");
                checked[8] += 1;
            }
            (number, Some(_)) => checked[number as usize] += 1,
            (number, None) => panic!("{number} is refused, the original takes it: {job}"),
        }
    }
    println!("{checked:?}");
    assert!([0, 4, 6, 7, 8].iter().all(|n| checked[*n] > 20));
}
