//! Times of both implementations.

use crate::cases::Cases;
use std::hint::black_box;
use std::time::Instant;

#[derive(Clone, Copy, Debug)]
pub enum Call {
    Minimise,
    Verify,
}

#[derive(Clone, Copy, Debug)]
pub enum Implementation {
    Proved,
    Independent,
    /// the independent minimiser that joins required cubes as the proved one does; the verifier is the same
    Joining,
}

/// One call on each case.
pub fn run(implementation: Implementation, call: Call, cases: &mut Cases) {
    for case in &mut cases.cases {
        let p = black_box(&case.problem);
        let (n, table, transitions) = (p.n, &p.table[..], &p.transitions[..]);
        let (cover, network, wires) = (&mut case.buffer, &case.network, &mut case.wires);
        match (call, implementation) {
            (Call::Minimise, Implementation::Proved) => {
                black_box(quiet::packed::minimise(n, table, transitions, cover));
            }
            (Call::Minimise, Implementation::Independent) => {
                let _ = black_box(fast::minimise(n, table, transitions, cover));
            }
            (Call::Minimise, Implementation::Joining) => {
                let _ = black_box(fast::minimise_joining(n, table, transitions, cover));
            }
            (Call::Verify, Implementation::Proved) => {
                let answer = quiet::packed::verify(n, table, transitions, network, wires);
                black_box(answer);
            }
            (Call::Verify, _) => {
                let _ = black_box(fast::verify(n, table, transitions, network, wires));
            }
        }
    }
}

/// Seconds that some passes over the cases take.
fn seconds(implementation: Implementation, call: Call, cases: &mut Cases, passes: usize) -> f64 {
    let start = Instant::now();
    for _ in 0..passes {
        run(implementation, call, cases);
    }
    start.elapsed().as_secs_f64()
}

/// Repetitions, of which the best counts.
const REPETITIONS: usize = 15;

/// Seconds that a repetition takes at least.
const SHORTEST: f64 = 0.02;

/// Microseconds a call: proved, independent, joining. The repetitions take turns, so that what else the machine does falls on all.
pub fn best(call: Call, cases: &mut Cases) -> [f64; 3] {
    let all = [
        Implementation::Proved,
        Implementation::Independent,
        Implementation::Joining,
    ];
    let passes = all.map(|implementation| {
        let mut passes = 1;
        while seconds(implementation, call, cases, passes) < SHORTEST {
            passes *= 2;
        }
        passes
    });
    let mut best = [f64::INFINITY; 3];
    for _ in 0..REPETITIONS {
        for ((implementation, passes), best) in all.into_iter().zip(passes).zip(&mut best) {
            let calls = (passes * cases.cases.len()) as f64;
            *best = best.min(seconds(implementation, call, cases, passes) * 1e6 / calls);
        }
    }
    best
}
