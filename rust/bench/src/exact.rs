//! The least number of products of a hazard-free cover, by branch and bound. Only for few inputs.

use problems::Problem;

/// A set of required cubes, by their places.
type Set = u128;

/// The least number of dhf-primes that hold all required cubes, given that `enough` do.
pub fn fewest(problem: &Problem, enough: usize) -> usize {
    let primes = primes_of(problem);
    let all = primes.iter().fold(0, |all, p| all | p);
    let mut best = enough;
    search(&primes, all, 0, &mut best);
    best
}

/// For each dhf-prime the required cubes inside it. There are at most 128 of them.
fn primes_of(problem: &Problem) -> Vec<Set> {
    let primes = fast::primes_over(problem.n, &problem.table, &problem.transitions);
    let bit = |k: usize| {
        (1 as Set)
            .checked_shl(k as u32)
            .expect("few required cubes")
    };
    primes
        .expect("an accepted problem")
        .iter()
        .map(|inside| inside.iter().fold(0, |set, &k| set | bit(k)))
        .collect()
}

fn places(set: Set) -> impl Iterator<Item = usize> {
    (0..Set::BITS as usize).filter(move |k| set >> k & 1 == 1)
}

/// Tries every way to hold what is left with fewer products than the best, `taken` of them already chosen.
fn search(primes: &[Set], left: Set, taken: usize, best: &mut usize) {
    if left == 0 {
        *best = taken.min(*best);
        return;
    }
    if taken + apart(primes, left) >= *best {
        return;
    }
    let hardest = places(left)
        .min_by_key(|k| primes.iter().filter(|&p| p >> k & 1 == 1).count())
        .expect("something left");
    let mut ways: Vec<Set> = primes
        .iter()
        .filter(|&p| p >> hardest & 1 == 1)
        .map(|p| p & left)
        .collect();
    ways.sort_unstable_by_key(|p| (u32::MAX - p.count_ones(), *p));
    ways.dedup();
    for (i, &way) in ways.iter().enumerate() {
        // a way inside an earlier one is no better
        if !ways[..i].iter().any(|w| w & way == way) {
            search(primes, left & !way, taken + 1, best);
        }
    }
}

/// So many of what is left lie in no common product, two by two: each takes a product of its own.
fn apart(primes: &[Set], left: Set) -> usize {
    let mut free = left;
    let mut count = 0;
    while free != 0 {
        let around = |k: usize| {
            let held = primes.iter().filter(|&p| p >> k & 1 == 1);
            held.fold(0, |all, p| all | p)
        };
        let k = places(free)
            .min_by_key(|&k| (around(k) & free).count_ones())
            .expect("something free");
        free &= !around(k);
        count += 1;
    }
    count
}

#[cfg(test)]
mod tests {
    use super::*;
    use problems::{accepted, Rng, Shape};

    /// By trying every set of primes.
    fn fewest_of_all(primes: &[Set], all: Set) -> usize {
        let sets = 0u32..1 << primes.len();
        let held = |set: u32| {
            let chosen = (0..primes.len()).filter(|k| set >> k & 1 == 1);
            chosen.fold(0, |held, k| held | primes[k])
        };
        let covers = sets.filter(|&set| held(set) == all);
        covers.map(u32::count_ones).min().expect("a cover") as usize
    }

    #[test]
    fn every_set_agrees() {
        let mut rng = Rng::new(1);
        let shape = Shape {
            n: 4,
            transitions: 3,
            widest: 3,
            corners: 3,
            dont_cares: 20,
            zeros: 40,
        };
        let mut tried = 0;
        while tried < 100 {
            let problem = accepted(&mut rng, &shape);
            let (n, table, transitions) = (problem.n, &problem.table, &problem.transitions);
            let mut cover = vec![0; n * quiet::MOST_REQUIRED];
            let Ok(enough) = fast::minimise(n, table, transitions, &mut cover) else {
                continue;
            };
            let primes = primes_of(&problem);
            if primes.len() <= 14 {
                let all = primes.iter().fold(0, |all, p| all | p);
                assert_eq!(fewest(&problem, enough), fewest_of_all(&primes, all));
                tried += 1;
            }
        }
    }
}
