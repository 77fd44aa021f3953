//! Runs replayed, by the words alone: nothing is taken from either implementation.
//!
//! Each literal has a wire. Where an input differs between A and B its wires move: each sees A's value first, and then, once, B's. A
//! product is on while every literal of it is satisfied by what its wire sees, and the output is 1 while some product is on.

/// A network, and what its wires see.
struct Circuit<'a> {
    n: usize,
    network: &'a [u8],
    /// by the literal's place in the network; an absent one's is never looked at
    seen: Vec<u8>,
    on: Vec<bool>,
    on_count: usize,
}

fn bit(point: u16, input: usize) -> u8 {
    (point >> input & 1) as u8
}

impl<'a> Circuit<'a> {
    /// Every wire sees the point's value.
    fn at_rest(n: usize, network: &'a [u8], point: u16) -> Self {
        let places = 0..network.len();
        let mut circuit = Circuit {
            n,
            network,
            seen: places.map(|place| bit(point, place % n)).collect(),
            on: vec![false; network.len() / n],
            on_count: 0,
        };
        for product in 0..circuit.on.len() {
            circuit.settle(product);
        }
        circuit
    }

    /// The product follows what its wires see.
    fn settle(&mut self, product: usize) {
        let places = self.n * product..self.n * (product + 1);
        let mut literals = self.network[places.clone()].iter().zip(&self.seen[places]);
        let on = literals.all(|(literal, seen)| *literal == 2 || literal == seen);
        self.on_count -= usize::from(self.on[product]);
        self.on_count += usize::from(on);
        self.on[product] = on;
    }

    fn output(&self) -> u8 {
        u8::from(self.on_count > 0)
    }
}

/// What a network gives at a point when nothing moves.
pub fn at_rest(n: usize, network: &[u8], point: u16) -> u8 {
    Circuit::at_rest(n, network, point).output()
}

/// The outputs of a run, before the first wire and after each. The wires, two numbers each, have to be every moving wire once.
pub fn outputs(
    n: usize,
    network: &[u8],
    [a, b]: [u16; 2],
    wires: &[u16],
) -> Result<Vec<u8>, String> {
    let moves = |place: usize| network[place] != 2 && bit(a, place % n) != bit(b, place % n);
    let mut waiting: Vec<bool> = (0..network.len()).map(moves).collect();
    let mut circuit = Circuit::at_rest(n, network, a);
    let mut outputs = vec![circuit.output()];
    for wire in wires.chunks(2) {
        let &[product, input] = wire else {
            return Err("half a wire".into());
        };
        let (product, input) = (usize::from(product), usize::from(input));
        let place = n * product + input;
        if input >= n || !waiting.get(place).is_some_and(|&waits| waits) {
            return Err(format!("no moving wire, or again: {product}, {input}"));
        }
        waiting[place] = false;
        circuit.seen[place] = bit(b, input);
        circuit.settle(product);
        outputs.push(circuit.output());
    }
    match waiting.iter().position(|&waits| waits) {
        Some(place) => Err(format!("left out: {}, {}", place / n, place % n)),
        None => Ok(outputs),
    }
}

/// Whether a transition from one value to another may have these outputs: only that value if it is the same, else one or more of the
/// first and then one or more of the last.
pub fn allowed(from: u8, to: u8, outputs: &[u8]) -> bool {
    let before = outputs.iter().take_while(|&&output| output == from).count();
    if from == to {
        return before == outputs.len();
    }
    let after = outputs.len() - before;
    before > 0 && after > 0 && outputs[before..].iter().all(|&output| output == to)
}

#[cfg(test)]
mod tests {
    use super::*;

    #[test]
    fn allowed_outputs() {
        let words = |text: &str| text.bytes().map(|b| b - b'0').collect::<Vec<u8>>();
        for good in ["0", "00"] {
            assert!(allowed(0, 0, &words(good)));
        }
        for good in ["1", "111"] {
            assert!(allowed(1, 1, &words(good)));
        }
        for good in ["10", "1100"] {
            assert!(allowed(1, 0, &words(good)));
        }
        for good in ["01", "0001"] {
            assert!(allowed(0, 1, &words(good)));
        }
        for bad in ["0", "101", "011", "110"] {
            assert!(!allowed(1, 1, &words(bad)));
        }
        for bad in ["1", "0", "11", "00", "010", "1010", "01"] {
            assert!(!allowed(1, 0, &words(bad)));
        }
        for bad in ["1", "0", "11", "00", "101", "0101", "10"] {
            assert!(!allowed(0, 1, &words(bad)));
        }
    }

    #[test]
    fn every_moving_wire_once() {
        // inputs 1 and 2 move: three wires
        let network = [2, 1, 0, 0, 1, 2];
        let run = |wires: &[u16]| outputs(3, &network, [6, 0], wires);
        assert_eq!(run(&[1, 1, 0, 2, 0, 1]), Ok(vec![1, 0, 1, 0]));
        assert_eq!(run(&[0, 1, 0, 2, 1, 1]), Ok(vec![1, 1, 1, 0]));
        let wrong: [&[u16]; 7] = [
            &[],
            &[1, 1, 0, 2],
            &[1, 1, 0, 2, 0],
            &[1, 1, 0, 2, 1, 1],
            &[1, 1, 0, 2, 0, 1, 1, 0],
            &[1, 1, 0, 2, 0, 1, 1, 2],
            &[1, 1, 0, 2, 0, 1, 0, 4],
        ];
        for wires in wrong {
            assert!(run(wires).is_err(), "{wires:?}");
        }
        assert_eq!(
            [7, 6, 2, 0].map(|point| at_rest(3, &network, point)),
            [0, 1, 1, 0]
        );
    }
}
