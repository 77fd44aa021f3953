//! Verdicts.

use crate::packed::{field, verify_refusal};
use crate::{Refusal, Transition, Wire};
use std::fmt;

/// What the verifier finds. Conditions are tried in the order (a), (c), (b), and the first fault is given.
///
/// A fault comes with what shows it: a run, or a point where table and network differ at rest. A run is an order of every wire that moves,
/// each once: those of the inputs in which the transition's ends differ. Its outputs, before the first wire moves and after each, are not
/// what the transition's kind allows: from 1 to 1 only 1s, else one or more of the first value and then one or more of the last. Which of
/// the runs that are not allowed it is, is free.
#[derive(Clone, Debug, PartialEq, Eq, Hash)]
pub enum Verdict {
    /// 1: the network is hazard-free.
    Passed,
    /// 2: (a) fails: the product contains a point of the OFF-set. At rest there the table is 0, and the network 1.
    HoldsZero { product: u16, point: u16 },
    /// 3: (c) fails: the product intersects the transition's privileged cube without its start point. The run is never empty.
    Intersects {
        product: u16,
        transition: u16,
        run: Vec<Wire>,
    },
    /// 4: (b) fails: the required cube of the transition with this label lies in no single product. The number of transitions stands for
    /// none of them: the label is then a 1 that no transition visits. With an empty list that number is 0.
    ///
    /// The run is `Some` exactly if it is a transition of the list, and from 1 to 1. It is empty where no wire moves: its one output is 0, and
    /// has to be 1. `None` says that the label shows the fault: at rest there the table is 1, and the network 0.
    Uncovered {
        transition: u16,
        label: u16,
        run: Option<Vec<Wire>>,
    },
}

impl Verdict {
    /// Its number, 1 to 4. A refusal would be 0.
    pub fn number(&self) -> u8 {
        match self {
            Verdict::Passed => 1,
            Verdict::HoldsZero { .. } => 2,
            Verdict::Intersects { .. } => 3,
            Verdict::Uncovered { .. } => 4,
        }
    }

    /// The verifier's answer for a table and transitions, unpacked, with the run from the buffer that it wrote into.
    pub(crate) fn unpacked(
        answer: u64,
        table: &[u8],
        transitions: &[Transition],
        wires: &[u16],
    ) -> Result<Verdict, Refusal> {
        if let Some(refusal) = verify_refusal(answer) {
            return Err(refusal);
        }
        let product = field(answer, 16, 16);
        let transition = field(answer, 32, 7);
        let point = field(answer, 39, 10);
        let run = || Wire::from_numbers(&wires[..2 * usize::from(field(answer, 49, 15))]);
        Ok(match field(answer, 0, 8) {
            1 => Verdict::Passed,
            2 => Verdict::HoldsZero { product, point },
            3 => Verdict::Intersects {
                product,
                transition,
                run: run(),
            },
            4 => Verdict::Uncovered {
                transition,
                label: point,
                run: stays_one(table, transitions, transition).then(run),
            },
            _ => unreachable!("the call gives no other verdict"),
        })
    }
}

/// Whether it is a transition of the list, and goes from 1 to 1.
fn stays_one(table: &[u8], transitions: &[Transition], transition: u16) -> bool {
    transitions
        .get(usize::from(transition))
        .is_some_and(|ends| ends.iter().all(|&end| table[usize::from(end)] == 1))
}

impl fmt::Display for Verdict {
    fn fmt(&self, f: &mut fmt::Formatter<'_>) -> fmt::Result {
        match self {
            Verdict::Passed => f.write_str("passed"),
            Verdict::HoldsZero { product, point } => {
                write!(f, "(a): product {product} contains the 0 at point {point}")
            }
            Verdict::Intersects {
                product,
                transition,
                ..
            } => write!(
                f,
                "(c): product {product} intersects the privileged cube of transition {transition} illegally"
            ),
            Verdict::Uncovered {
                transition, label, ..
            } => write!(
                f,
                "(b): the required cube of transition {transition} with label {label} lies in no product"
            ),
        }
    }
}
