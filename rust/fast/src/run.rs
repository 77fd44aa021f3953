//! The run that shows a fault.

use crate::cube::Cube;
use crate::verify::Verdict;

/// Writes the run that shows the verdict, if one does: a product and an input for each wire. Returns the number of wires.
pub fn show(
    verdict: Verdict,
    products: &[Cube],
    table: &[u8],
    transitions: &[u16],
    wires: &mut [u16],
) -> usize {
    let (Verdict::Intersects { transition, .. } | Verdict::Uncovered { transition, .. }) = verdict
    else {
        return 0;
    };
    // a 1 that no transition visits has none
    let Some(ends) = transitions.chunks_exact(2).nth(transition.into()) else {
        return 0;
    };
    let (a, b) = (ends[0], ends[1]);
    let [first, last] = [a, b].map(|end| table[usize::from(end)] == 1);
    let moving = Moving { products, a, b };
    match verdict {
        Verdict::Intersects { product, .. } => moving.pulse(product.into(), first, wires),
        _ if first && last => moving.gap(wires),
        _ => 0,
    }
}

/// The wires that move from A to B: those of the inputs in which the two differ.
struct Moving<'a> {
    products: &'a [Cube],
    a: u16,
    b: u16,
}

impl Moving<'_> {
    /// From 1 to 1, where no product holds both ends: first the wires whose literals have A's value, then the others. In between every
    /// product is off.
    fn gap(&self, wires: &mut [u16]) -> usize {
        let all = 0..self.products.len();
        let off = all.clone().map(|j| (j, self.inputs(j, self.a)));
        let on = all.map(|j| (j, self.inputs(j, self.b)));
        write(off.chain(on), wires)
    }

    /// Of a fall or a rise, where the product is off at both ends and on at a point between them: it comes on and goes off again while the
    /// others stand at the end where the network is 0, which is B of a fall and A of a rise.
    fn pulse(&self, product: usize, falls: bool, wires: &mut [u16]) -> usize {
        let others = (0..self.products.len())
            .filter(|&j| j != product)
            .map(|j| (j, self.inputs(j, self.a) | self.inputs(j, self.b)));
        let pulse = [self.b, self.a].map(|end| (product, self.inputs(product, end)));
        if falls {
            write(others.chain(pulse), wires)
        } else {
            write(pulse.into_iter().chain(others), wires)
        }
    }

    /// The moving inputs, as bits, on which a product's literal has this end's value.
    fn inputs(&self, product: usize, end: u16) -> u16 {
        let Cube { care, value } = self.products[product];
        care & (self.a ^ self.b) & !(value ^ end)
    }
}

/// Writes the wires of products and their inputs, as bits, one after another. Returns how many.
fn write(moves: impl Iterator<Item = (usize, u16)>, wires: &mut [u16]) -> usize {
    let mut count = 0;
    for (product, mut inputs) in moves {
        while inputs != 0 {
            wires[2 * count] = product as u16;
            wires[2 * count + 1] = inputs.trailing_zeros() as u16;
            inputs &= inputs - 1;
            count += 1;
        }
    }
    count
}
