//! The verifier.

use crate::columns::{columns, lowest_bits};
use crate::cube::Cube;
use crate::legal::Legal;
use crate::planes::planes;
use crate::problem::{Problem, Required};
use crate::refusal::Refusal;
use crate::run::show;

pub const MOST_PRODUCTS: usize = 3072;

/// What a network is found to be.
#[derive(Clone, Copy, Debug, PartialEq, Eq)]
pub enum Verdict {
    Passed,
    HoldsZero { product: u16, point: u16 },
    Intersects { product: u16, transition: u16 },
    Uncovered { transition: u16, label: u16 },
}

/// The verdict, and how many wires of the run that shows it were written.
#[derive(Clone, Copy, Debug, PartialEq, Eq)]
pub struct Finding {
    pub verdict: Verdict,
    pub wires: usize,
}

/// The products of a network, or the refusal of check 11 or 12.
pub(crate) fn products_of(n: usize, network: &[u8]) -> Result<Vec<Cube>, Refusal> {
    if !network.len().is_multiple_of(n) || network.len() / n > MOST_PRODUCTS {
        return Err(Refusal::new(11));
    }
    // a word more, so that a product's bits can be read from two words
    let words = network.len() / 64 + 2;
    let (mut plain, mut absent) = (vec![0; words], vec![0; words]);
    if let Err(place) = planes(network, &mut plain, &mut absent) {
        return Err(Refusal {
            product: (place / n) as u16,
            ..Refusal::new(12)
        });
    }
    let full = lowest_bits(n);
    let bits = |plane: &[u64], at: usize| {
        let pair = u128::from(plane[at / 64]) | u128::from(plane[at / 64 + 1]) << 64;
        (pair >> (at % 64)) as u64 & full
    };
    let starts = (0..network.len()).step_by(n);
    Ok(starts
        .map(|at| Cube {
            care: (!bits(&absent, at) & full) as u16,
            value: bits(&plain, at) as u16,
        })
        .collect())
}

/// 64 products as columns: by input, those that can hold a cube in which the input is 0, is 1, or is free.
struct Block {
    fits: [[u64; 3]; 10],
    all: u64,
}

impl Block {
    fn new(products: &[Cube]) -> Self {
        let rows = columns(
            products
                .iter()
                .map(|p| u64::from(p.value) | u64::from(p.care) << 16),
        );
        let all = lowest_bits(products.len());
        let mut fits = [[0; 3]; 10];
        for (i, fits) in fits.iter_mut().enumerate() {
            let (plain, care) = (rows[i], rows[16 + i]);
            *fits = [!plain, !care | plain, !care];
        }
        Block { fits, all }
    }

    /// Whether one of the products holds the required cube, given for each input as 0, 1 or 2.
    fn covers(&self, cells: &[usize]) -> bool {
        let mut fits = self.all;
        for (input, &cell) in self.fits.iter().zip(cells) {
            fits &= input[cell];
        }
        fits != 0
    }
}

/// Not inlined: where its loop lies in memory would depend on the code around it, and its time by half on where it lies.
#[inline(never)]
fn covered(n: usize, blocks: &[Block], r: &Required) -> bool {
    let mut cells = [2; 10];
    for (i, cell) in cells[..n].iter_mut().enumerate() {
        if r.cube.care >> i & 1 == 1 {
            *cell = usize::from(r.cube.value >> i & 1);
        }
    }
    blocks.iter().any(|b| b.covers(&cells[..n]))
}

/// Whether the network is hazard-free: a refusal, or passed, or the first fault, with the run that shows it. Check 15 asks for a buffer of
/// two numbers for each input of each product.
pub fn verify(
    n: usize,
    table: &[u8],
    transitions: &[u16],
    network: &[u8],
    wires: &mut [u16],
) -> Result<Finding, Refusal> {
    let problem = Problem::read(n, table, transitions)?;
    let products = products_of(n, network)?;
    if wires.len() < 2 * n * products.len() {
        return Err(Refusal::new(15));
    }
    let verdict = fault(n, &problem, &products);
    let wires = show(verdict, &products, table, transitions, wires);
    Ok(Finding { verdict, wires })
}

/// Passed, or the first fault.
fn fault(n: usize, problem: &Problem, products: &[Cube]) -> Verdict {
    let legal = Legal::new(problem);
    for (j, &product) in products.iter().enumerate() {
        if let Some(point) = legal.lowest_zero(product) {
            return Verdict::HoldsZero {
                product: j as u16,
                point,
            };
        }
    }
    for (j, &product) in products.iter().enumerate() {
        let illegal = legal.illegal(product);
        if illegal != 0 {
            return Verdict::Intersects {
                product: j as u16,
                transition: problem.privileged[illegal.trailing_zeros() as usize].transition,
            };
        }
    }
    let blocks: Vec<Block> = products.chunks(64).map(Block::new).collect();
    let unmet = problem.required.iter().find(|r| !covered(n, &blocks, r));
    match unmet {
        Some(r) => Verdict::Uncovered {
            transition: r.transition,
            label: r.label,
        },
        None => Verdict::Passed,
    }
}
