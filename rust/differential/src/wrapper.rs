//! The safe wrapper against the independent implementation.

use crate::arguments::wires_needed;
use crate::shown::Shown;
use problems::Problem;

/// The wrapper has a wire buffer of its own, so check 15 never finds anything. The verdict has to name the same, with the same run, and to
/// have one exactly where a run shows the fault.
pub fn same_verdict(problem: &Problem, pairs: &[[u16; 2]], network: &[u8]) {
    let (n, table) = (problem.n, &problem.table);
    let mut wires = vec![0; wires_needed(n, network)];
    let expected = fast::verify(n, table, &problem.transitions, network, &mut wires);
    let context = || format!("wrapper, {network:?}, {problem:?}");
    match (quiet::verify(n, table, pairs, network), expected) {
        (Ok(verdict), Ok(found)) => {
            let (named, run) = parts(verdict);
            assert_eq!(named, found.verdict, "{}", context());
            let shown = Shown::of(problem, named);
            let runs = matches!(shown, Shown::Run { .. });
            assert_eq!(run.is_some(), runs, "{}", context());
            let run = run.unwrap_or_default();
            let numbers: Vec<u16> = run.iter().flat_map(|w| [w.product, w.input]).collect();
            assert_eq!(numbers, wires[..2 * found.wires], "{}", context());
            let checked = shown.check(problem, network, &numbers);
            assert_eq!(checked, Ok(()), "{}", context());
        }
        (Err(refusal), Err(expected)) => same_refusal(refusal, expected),
        _ => panic!("{}", context()),
    }
}

/// What a verdict names, and its run.
fn parts(verdict: quiet::Verdict) -> (fast::Verdict, Option<Vec<quiet::Wire>>) {
    use quiet::Verdict::*;
    match verdict {
        Passed => (fast::Verdict::Passed, None),
        HoldsZero { product, point } => (fast::Verdict::HoldsZero { product, point }, None),
        Intersects {
            product,
            transition,
            run,
        } => {
            let named = fast::Verdict::Intersects {
                product,
                transition,
            };
            (named, Some(run))
        }
        Uncovered {
            transition,
            label,
            run,
        } => (fast::Verdict::Uncovered { transition, label }, run),
    }
}

/// The wrapper's refusal has to be the same in every field.
pub fn same_refusal(refusal: quiet::Refusal, expected: fast::Refusal) {
    use quiet::Refusal::*;
    let mut named = fast::Refusal {
        number: refusal.number(),
        ..Default::default()
    };
    match refusal {
        TableByte { point } => named.point = point,
        EndPoint { transition } | Burst { transition } => named.transition = transition,
        DontCare { transition, point } | Rule { transition, point } => {
            (named.transition, named.point) = (transition, point);
        }
        Blocked {
            transition,
            label,
            steps,
            lowest_zero,
        } => {
            (named.transition, named.point) = (transition, label);
            (named.steps, named.lowest) = (steps, lowest_zero);
        }
        NetworkByte { product } => named.product = product,
        _ => {}
    }
    assert_eq!(named, expected);
}
