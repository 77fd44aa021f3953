//! The minimiser.

use crate::columns::{columns, lowest_bits};
use crate::cube::{write_ranked, Cube};
use crate::legal::{Grown, Legal};
use crate::problem::{Problem, Required};
use crate::refusal::Refusal;

/// 64 required cubes as columns: bit k of word i is set if cube k has the literal of input i, plain in words 0 to 9, inverted in 16 to 25.
struct Block {
    literals: [u64; 64],
    all: u64,
}

impl Block {
    fn new(required: &[Required]) -> Self {
        Block {
            literals: columns(required.iter().map(|r| {
                let Cube { care, value } = r.cube;
                u64::from(value) | u64::from(care & !value) << 16
            })),
            all: lowest_bits(required.len()),
        }
    }

    /// The cubes, as bits, that lie inside a product: those that have all its literals.
    fn inside(&self, product: Cube) -> u64 {
        let mut inside = self.all;
        let mut left = u32::from(product.value) | u32::from(product.care & !product.value) << 16;
        while left != 0 {
            inside &= self.literals[left.trailing_zeros() as usize];
            left &= left - 1;
        }
        inside
    }
}

/// Writes a minimal network and returns the number of its products.
///
/// In one pass over the required cubes, the first that lies in no product yet is grown and widened. A cube that lies in a legal product
/// does not block, so the first that blocks here is the first of all. Backwards, a product is kept if it has a required cube that is in
/// no earlier product and in no kept one. The kept ones are written in ascending order of their bytes.
pub fn minimise(
    n: usize,
    table: &[u8],
    transitions: &[u16],
    cover: &mut [u8],
) -> Result<usize, Refusal> {
    solve::<false>(n, table, transitions, cover)
}

/// The same, but before it is widened a product is grown over each later required cube that lies in no product yet, where that ends
/// legal. It takes longer, and mostly gives fewer products.
pub fn minimise_joining(
    n: usize,
    table: &[u8],
    transitions: &[u16],
    cover: &mut [u8],
) -> Result<usize, Refusal> {
    solve::<true>(n, table, transitions, cover)
}

fn solve<const JOINS: bool>(
    n: usize,
    table: &[u8],
    transitions: &[u16],
    cover: &mut [u8],
) -> Result<usize, Refusal> {
    let problem = Problem::read(n, table, transitions)?;
    let required = &problem.required;
    if cover.len() < n * required.len() {
        return Err(Refusal::new(9));
    }
    let legal = Legal::new(&problem);
    let blocks: Vec<Block> = required.chunks(64).map(Block::new).collect();
    let mut products: Vec<Cube> = Vec::with_capacity(64);
    // of each product: the required cubes inside it, and those that are in no earlier one
    let mut inside: Vec<[u64; 2]> = Vec::with_capacity(64 * blocks.len());
    let mut left: Vec<u64> = blocks.iter().map(|b| b.all).collect();
    for at in 0..blocks.len() {
        while left[at] != 0 {
            let first = 64 * at + left[at].trailing_zeros() as usize;
            let r = &required[first];
            let product = match legal.grow(r.cube) {
                Grown::Legal(cube) if JOINS => {
                    legal.widen(joined(&legal, cube, required, &left, first + 1))
                }
                Grown::Legal(cube) => legal.widen(cube),
                Grown::Blocked { steps, lowest } => {
                    return Err(Refusal {
                        steps,
                        lowest,
                        ..Refusal::at(10, r.transition.into(), r.label)
                    })
                }
            };
            products.push(product);
            for (block, left) in blocks.iter().zip(&mut left) {
                let all = block.inside(product);
                inside.push([all, all & *left]);
                *left &= !all;
            }
        }
    }
    let mut kept = left;
    let mut keeps = vec![false; products.len()];
    for (keep, inside) in keeps
        .iter_mut()
        .zip(inside.chunks_exact(blocks.len().max(1)))
        .rev()
    {
        *keep = inside.iter().zip(&kept).any(|(i, k)| i[1] & !k != 0);
        if *keep {
            for (i, k) in inside.iter().zip(&mut kept) {
                *k |= i[0];
            }
        }
    }
    let chosen = products.iter().zip(&keeps).filter(|(_, &keep)| keep);
    let mut ranks: Vec<u32> = chosen.map(|(product, _)| product.rank()).collect();
    ranks.sort_unstable();
    for (&rank, bytes) in ranks.iter().zip(cover.chunks_exact_mut(n)) {
        write_ranked(rank, bytes);
    }
    Ok(ranks.len())
}

/// The cube grown over the required cubes from a place on that are left, where that ends legal.
fn joined(legal: &Legal, mut cube: Cube, required: &[Required], left: &[u64], from: usize) -> Cube {
    for (k, r) in required.iter().enumerate().skip(from) {
        if left[k / 64] >> (k % 64) & 1 == 1 && !cube.holds(r.cube) {
            if let Grown::Legal(wider) = legal.grow(cube.around(r.cube)) {
                cube = wider;
            }
        }
    }
    cube
}
