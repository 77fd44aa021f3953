//! One call of each kind, compared.

use crate::shown::Shown;
use crate::wrapper::{same_refusal, same_verdict};
use crate::Tally;
use fast::promise;
use problems::{Problem, Rng};

/// The minimiser's refusal, packed by the stated definition.
fn packed_refusal(r: &fast::Refusal) -> u64 {
    u64::from(r.number)
        + (u64::from(r.transition) << 8)
        + (u64::from(r.point) << 24)
        + (u64::from(r.steps) << 40)
        + (u64::from(r.lowest) << 48)
}

/// The verifier's answer, packed by the stated definition.
fn packed_verdict(answer: &Result<fast::Finding, fast::Refusal>) -> u64 {
    use fast::Verdict::*;
    let (verdict, refusal, product, transition, point) = match answer.map(|found| found.verdict) {
        Err(r) => (0, r.number, r.product, r.transition, r.point),
        Ok(Passed) => (1, 0, 0, 0, 0),
        Ok(HoldsZero { product, point }) => (2, 0, product, 0, point),
        Ok(Intersects {
            product,
            transition,
        }) => (3, 0, product, transition, 0),
        Ok(Uncovered { transition, label }) => (4, 0, 0, transition, label),
    };
    let wires = answer.map_or(0, |found| found.wires as u64);
    verdict
        + (u64::from(refusal) << 8)
        + (u64::from(product) << 16)
        + (u64::from(transition) << 32)
        + (u64::from(point) << 39)
        + (wires << 49)
}

/// Both minimisers on one problem and a buffer of some length. Returns the proved one's network, if there is one.
///
/// A refusal has to be the same in every field, and to leave the buffer as it was. Products have to keep the promises, and to leave the
/// bytes after them as they were.
pub fn same_minimise(
    rng: &mut Rng,
    tally: &mut Tally,
    problem: &Problem,
    length: usize,
) -> Option<Vec<u8>> {
    let Problem {
        n,
        table,
        transitions,
    } = problem;
    let n = *n;
    let before: Vec<u8> = (0..length).map(|_| rng.next() as u8).collect();
    let mut cover = before.clone();
    let mut own = before.clone();
    let answer = quiet::packed::minimise(n, table, transitions, &mut cover);
    let expected = fast::minimise(n, table, transitions, &mut own);
    tally.minimise += 1;
    let context = || format!("minimise, {length} bytes, {problem:?}");
    let mut joined = before.clone();
    let joining = fast::minimise_joining(n, table, transitions, &mut joined);
    assert_eq!(joining.err(), expected.err(), "{}", context());
    if let (pairs, []) = transitions.as_chunks::<2>() {
        let mut again = before.clone();
        let unpacked = quiet::minimise(n, table, pairs, &mut again);
        assert_eq!(again, cover, "{}", context());
        match (unpacked, expected) {
            (Ok(count), Ok(_)) => assert_eq!(count as u64, answer >> 8, "{}", context()),
            (Err(refusal), Err(expected)) => same_refusal(refusal, expected),
            _ => panic!("{}", context()),
        }
    }
    match expected {
        Err(refusal) => {
            assert_eq!(answer, packed_refusal(&refusal), "{}", context());
            assert_eq!(cover, before, "{}", context());
            assert_eq!(own, before, "{}", context());
            assert_eq!(joined, before, "{}", context());
            tally.minimise_refusals[usize::from(refusal.number)] += 1;
            if refusal.number == 10 {
                tally.steps[usize::from(refusal.steps)] += 1;
            }
            None
        }
        Ok(count) => {
            assert_eq!(answer & 255, 0, "{}", context());
            let written = n * (answer >> 8) as usize;
            assert_eq!(cover[written..], before[written..], "{}", context());
            assert_eq!(own[n * count..], before[n * count..], "{}", context());
            let joins = joining.unwrap_or_default();
            assert_eq!(joined[n * joins..], before[n * joins..], "{}", context());
            cover.truncate(written);
            own.truncate(n * count);
            joined.truncate(n * joins);
            // trying every larger product is dear for many inputs
            let every = n <= 5 || rng.below(64) == 0;
            for network in [&cover, &own, &joined] {
                let kept = promise::check(n, table, transitions, network, every);
                assert_eq!(kept, Ok(()), "{network:?}, {}", context());
            }
            tally.networks += 1;
            tally.networks_alone += u64::from(transitions.is_empty());
            tally.products += answer >> 8;
            tally.independent_products += count as u64;
            tally.joining_products += joins as u64;
            Some(cover)
        }
    }
}

/// Numbers that no wire has, and each other than its neighbours, so that every write is seen.
fn marks(rng: &mut Rng, length: usize) -> Vec<u16> {
    let first = rng.next() as usize;
    (0..length)
        .map(|place| first.wrapping_add(place) as u16 | 0x8000)
        .collect()
}

/// Both verifiers on one problem, a network and a wire buffer of some length. Returns the verdict's number.
///
/// The answer has to be the same in every field, and the buffer in every number: a caller may be given any run that is not allowed, but both
/// implementations choose the same. It is replayed all the same. The numbers after it, all where there is none, have to be as they were.
pub fn same_verify(
    rng: &mut Rng,
    tally: &mut Tally,
    problem: &Problem,
    network: &[u8],
    length: usize,
) -> u8 {
    let Problem {
        n,
        table,
        transitions,
    } = problem;
    let before = marks(rng, length);
    let (mut wires, mut own) = (before.clone(), before.clone());
    let answer = quiet::packed::verify(*n, table, transitions, network, &mut wires);
    let expected = fast::verify(*n, table, transitions, network, &mut own);
    let context = || format!("verify {network:?}, {length} numbers, {problem:?}");
    assert_eq!(answer, packed_verdict(&expected), "{}", context());
    assert_eq!(wires, own, "{}", context());
    let shown = expected.map_or(Shown::Nothing, |found| Shown::of(problem, found.verdict));
    let (run, rest) = wires.split_at(2 * (answer >> 49) as usize);
    assert_eq!(rest, &before[run.len()..], "{}", context());
    let checked = shown.check(problem, network, run);
    assert_eq!(checked, Ok(()), "{}", context());
    if let Err(refusal) = expected {
        let unpacked = quiet::packed::verify_refusal(answer);
        same_refusal(unpacked.expect("verdict 0"), refusal);
    }
    if let (pairs, []) = transitions.as_chunks::<2>() {
        same_verdict(problem, pairs, network);
    }
    tally.count_verify(answer, transitions.is_empty());
    tally.count_shown(shown, run.is_empty());
    (answer & 255) as u8
}
