//! At least a million calls. `QUIET_CALLS` sets another number, and `QUIET_SEED` another seed.

use differential::{arguments, same_minimise, same_verify, Tally};
use problems::Rng;

fn setting(name: &str, default: u64) -> u64 {
    std::env::var(name).map_or(default, |text| text.parse().expect("a number"))
}

#[test]
fn both_agree() {
    let calls = setting("QUIET_CALLS", 1_000_000);
    let seed = setting("QUIET_SEED", 1);
    let mut rng = Rng::new(seed);
    let mut tally = Tally::default();
    while tally.calls() < calls {
        let problem = arguments::problem(&mut rng);
        let mut made = None;
        for _ in 0..2 {
            let length = arguments::buffer_length(&mut rng, &problem);
            made = same_minimise(&mut rng, &mut tally, &problem, length).or(made);
        }
        if let Some(network) = &made {
            let length = arguments::wires_needed(problem.n, network);
            let verdict = same_verify(&mut rng, &mut tally, &problem, network, length);
            assert_eq!(verdict, 1, "{network:?}, {problem:?}");
        }
        for _ in 0..3 {
            let network = arguments::network(&mut rng, &problem, made.as_deref());
            let length = arguments::wires_length(&mut rng, &problem, &network);
            same_verify(&mut rng, &mut tally, &problem, &network, length);
        }
    }
    println!("seed {seed}\n{tally}");
    assert_eq!(tally.never_met(), Vec::<String>::new());
}
