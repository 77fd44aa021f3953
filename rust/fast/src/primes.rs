//! All dhf-primes of a problem.

use crate::cube::Cube;
use crate::legal::{Grown, Legal};
use crate::problem::Problem;
use crate::refusal::Refusal;

/// For each dhf-prime that holds one: the required cubes inside it, by their places.
pub fn primes_over(
    n: usize,
    table: &[u8],
    transitions: &[u16],
) -> Result<Vec<Vec<usize>>, Refusal> {
    let problem = Problem::read(n, table, transitions)?;
    let legal = Legal::new(&problem);
    let full = (1u16 << n) - 1;
    let mut primes = Vec::new();
    for care in 0..=full {
        for value in 0..=full {
            let product = Cube { care, value };
            if value & !care == 0 && is_prime(&legal, product) {
                let held = problem.required.iter().enumerate();
                let inside: Vec<usize> = held
                    .filter(|(_, r)| product.holds(r.cube))
                    .map(|(k, _)| k)
                    .collect();
                if !inside.is_empty() {
                    primes.push(inside);
                }
            }
        }
    }
    Ok(primes)
}

/// Legal, and with any literal raised it grows into no legal product.
fn is_prime(legal: &Legal, product: Cube) -> bool {
    let literals = (0..10).map(|i| 1 << i & product.care);
    legal.grow(product) == Grown::Legal(product)
        && literals
            .filter(|&literal| literal != 0)
            .all(|literal| !matches!(legal.grow(product.without(literal)), Grown::Legal(_)))
}
