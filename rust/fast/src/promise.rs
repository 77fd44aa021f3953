//! What holds of a minimal network, checked product by product.

use crate::cube::Cube;
use crate::legal::{Grown, Legal};
use crate::problem::Problem;
use crate::verify::products_of;

/// How a network falls short of a minimal one. Products and required cubes are named by their places.
#[derive(Clone, Copy, Debug, PartialEq, Eq)]
pub enum Broken {
    Input,
    Network,
    MoreThanRequired,
    HoldsZero(usize),
    Intersects(usize),
    Widens(usize),
    Uncovered(usize),
    Droppable(usize),
    OutOfSequence(usize),
}

/// Whether the network is a minimal one for an accepted problem: legal products, none inside a larger legal one, every required cube
/// inside one, none droppable, no more products than required cubes, and each before the next by their bytes.
///
/// `every` also tries each larger product, and not only the growth of each raised literal.
pub fn check(
    n: usize,
    table: &[u8],
    transitions: &[u16],
    network: &[u8],
    every: bool,
) -> Result<(), Broken> {
    let problem = Problem::read(n, table, transitions).map_err(|_| Broken::Input)?;
    let products = products_of(n, network).map_err(|_| Broken::Network)?;
    let legal = Legal::new(&problem);
    if products.len() > problem.required.len() {
        return Err(Broken::MoreThanRequired);
    }
    for (j, &product) in products.iter().enumerate() {
        if legal.lowest_zero(product).is_some() {
            return Err(Broken::HoldsZero(j));
        }
        if legal.illegal(product) != 0 {
            return Err(Broken::Intersects(j));
        }
        if widens(&legal, n, product) || (every && any_larger(&legal, product)) {
            return Err(Broken::Widens(j));
        }
    }
    // a product is needed if it alone holds some required cube
    let mut needed = vec![false; products.len()];
    for (k, r) in problem.required.iter().enumerate() {
        let mut holders = products
            .iter()
            .enumerate()
            .filter(|(_, p)| p.holds(r.cube))
            .map(|(j, _)| j);
        match (holders.next(), holders.next()) {
            (None, _) => return Err(Broken::Uncovered(k)),
            (Some(j), None) => needed[j] = true,
            _ => {}
        }
    }
    if let Some(j) = needed.iter().position(|n| !n) {
        return Err(Broken::Droppable(j));
    }
    let bytes: Vec<&[u8]> = network.chunks_exact(n).collect();
    match bytes.windows(2).position(|pair| pair[0] >= pair[1]) {
        Some(j) => Err(Broken::OutOfSequence(j)),
        None => Ok(()),
    }
}

/// Whether some raised literal grows to a legal product.
fn widens(legal: &Legal, n: usize, product: Cube) -> bool {
    (0..n)
        .map(|i| 1 << i & product.care)
        .filter(|&literal| literal != 0)
        .any(|literal| matches!(legal.grow(product.without(literal)), Grown::Legal(_)))
}

/// Whether some product with fewer of the literals is legal.
fn any_larger(legal: &Legal, product: Cube) -> bool {
    let mut raised = product.care;
    while raised != 0 {
        let larger = product.without(raised);
        if legal.lowest_zero(larger).is_none() && legal.illegal(larger) == 0 {
            return true;
        }
        raised = (raised - 1) & product.care;
    }
    false
}
